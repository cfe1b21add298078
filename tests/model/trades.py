"""Checks the laws on trades against days of a program, by what the two firms of each trade wrote and were sent.

`replay` draws days of steps, half of which leave no duty; `live` takes them line by line, so that none is left; `threads` runs
`PROGRAM day`. No rule of the market stands here. For each investor and each dealer, only their own messages are looked at:

- what the venue showed the dealer in a QuoteRequest (35=R) is what the investor wrote;
- each Quote (35=S) that it showed the investor is one that the dealer wrote and the venue accepted, with its price,
  bond and end; each is shown once at most, and in the dealer's order; side and quantity are the request's;
- the k-th hit that it answered with 297=0 and the k-th notice 694=1 are of one request, and have one QuoteID, bond,
  side, quantity and price; the dealer's list is a prefix of the investor's, and the whole of it where no duty is left.
"""

import subprocess
from collections.abc import Callable, Iterator, Sequence
from dataclasses import dataclass, field
from fractions import Fraction
from itertools import pairwise, zip_longest

from .actions import Inboxes, Message
from .compare import joined
from .configuration import Configuration, read_configuration
from .days import Day, Draw
from .frames import read_frame
from .lawful import day_of, inboxes_of, sent_in
from .replay import CLOCK, Actor

Texts = dict[int, bytes]

BUYS = b"1"  # Side (54) of an investor that buys: it is shown offers (133)
ROUNDS = 8  # of turns of all actors: so many leave no duty
MOST_TURNS = 1000  # of one line
HITS = 8000  # of an investor on a day on threads, so that it reads them as long as the dealers read theirs
QUOTES = 200  # of a dealer on one, each behind other messages


# ---------------------------------------------------------------- what two firms know


@dataclass(frozen=True)
class Terms:
    """What a request is about, as whoever reads it understands it."""

    bond: bytes
    side: bytes
    quantity: Fraction


@dataclass(frozen=True)
class Shown:
    """A quote as the investor was shown it, and a quote as the dealer wrote it."""

    terms: Terms
    price: Fraction
    until: str  # ValidUntilTime (62) to the millisecond; empty without one


@dataclass
class Auction:
    """A request of the investor that named the dealer, as both know it."""

    terms: Terms
    deadline: str  # 126, to the millisecond
    request: bytes  # 131 of the investor's
    told: bytes = b""  # 131 of the dealer's, empty until it is shown
    quotes: list[tuple[bytes, list[Shown]]] = field(
        default_factory=list
    )  # the QuoteID of each that was accepted, and
    # how it may have been written, where the dealer sent more than one message with it at that moment
    shown: list[tuple[bytes, Shown]] = field(
        default_factory=list
    )  # the investor's 117, and the quote


@dataclass(frozen=True)
class Won:
    """A trade as one of its sides was told it."""

    request: bytes  # the side's own 131
    quote: bytes  # the side's own 117
    terms: Terms
    price: Fraction | None  # none where the message has no price of its side


def number(text: bytes) -> Fraction:
    return Fraction(text.decode())


def to_the_millisecond(moment: bytes) -> str:
    text = moment.decode()
    return text if not text or "." in text else text + ".000"


def texts_of(body: Sequence[tuple[int, bytes]]) -> Texts:
    """The first value of each tag."""
    found: Texts = {}
    for tag, value in body:
        found.setdefault(tag, value)
    return found


def terms_of(fields: Texts) -> Terms:
    return Terms(fields[48], fields[54], number(fields[38]))


# ---------------------------------------------------------------- a day


@dataclass
class Played:
    """A day: what each firm wrote, and what it was sent."""

    configuration: Configuration
    written: Inboxes
    sent: list[list[Message]]
    is_done: bool  # no duty is left
    read: dict[int, list[tuple[int, list[tuple[int, bytes]]]]] = field(
        default_factory=dict
    )  # the frames of each firm

    def name(self, firm: int) -> bytes:
        name: bytes = self.configuration.firms[firm].name
        return name

    def wrote(self, firm: int, kind: bytes) -> Iterator[tuple[int, list[tuple[int, bytes]]]]:
        """The frames of this type that the firm sent, with their moments."""
        if firm not in self.read:
            came = [
                (moment, read_frame(data))
                for word, _, moment, data in self.written[firm]
                if word == "came"
            ]
            self.read[firm] = [(moment, fields) for moment, fields in came if fields]
        return ((moment, fields) for moment, fields in self.read[firm] if fields[0] == (35, kind))

    def was_sent(self, firm: int, kind: bytes) -> Iterator[Texts]:
        for message in self.sent[firm]:
            if message.kind == kind:
                yield {52: message.sending, **texts_of(message.body)}

    def pairs(self) -> Iterator["Pair"]:
        dealers = len(self.configuration.dealers)
        for investor in range(dealers, len(self.configuration.firms)):
            for dealer in range(dealers):
                yield Pair(self, investor, dealer)


def dealers_of(fields: list[tuple[int, bytes]]) -> Iterator[bytes]:
    """The dealers (452=35) that a request names by their codes here (447=D); other parties are nobody's business."""
    starts = [place for place, (tag, _) in enumerate(fields) if tag == 448] + [len(fields)]
    for start, end in pairwise(starts):
        if {(447, b"D"), (452, b"35")} <= set(fields[start + 1 : end]):
            yield fields[start][1]


class Ambiguous(Exception):
    """An investor wrote two requests with one id in one millisecond: the answer does not say which one is meant."""


class Pair:
    """An investor and a dealer on one day."""

    def __init__(self, day: Played, investor: int, dealer: int) -> None:
        self.day, self.investor, self.dealer = day, investor, dealer
        self.faults: list[str] = []
        self.auctions = list(self.asked())

    def fault(self, text: str) -> None:
        names = (self.day.name(self.investor).decode(), self.day.name(self.dealer).decode())
        self.faults.append("%s and %s: %s" % (*names, text))

    def asked(self) -> Iterator[Auction]:
        """The requests of the investor that the venue accepted and that name the dealer, in their order."""
        written: dict[bytes, list[tuple[str, list[tuple[int, bytes]]]]] = {}
        for moment, fields in self.day.wrote(self.investor, b"R"):
            written.setdefault(texts_of(fields).get(131, b""), []).append((time_of(moment), fields))
        for answer in self.day.was_sent(self.investor, b"AI"):
            if answer[297] != b"0" or 693 in answer:
                continue
            at = to_the_millisecond(answer[52])[9:]
            ways = [
                fields
                for moment, fields in written[answer[131]]
                if moment == at and is_whole(fields)
            ]
            if len(ways) != 1:
                raise Ambiguous
            (fields,) = ways
            if self.day.name(self.dealer) in dealers_of(fields):
                said = texts_of(fields)
                yield Auction(terms_of(said), to_the_millisecond(said[126]), answer[131])

    def of_told(self, told: bytes) -> Auction | None:
        return next((auction for auction in self.auctions if auction.told == told), None)

    def of_request(self, request: bytes) -> Auction | None:
        return next((auction for auction in self.auctions if auction.request == request), None)

    # ------------------------------------------------------------ requests and quotes

    def look_at_requests(self) -> None:
        """What the dealer was shown is what the investor wrote."""
        waiting = iter(self.auctions)
        for fields in self.day.was_sent(self.dealer, b"R"):
            if fields[448] != self.day.name(self.investor):
                continue
            auction = next(waiting, None)
            if auction is None:
                self.fault("%s was shown, and nobody asked" % fields[131].decode())
                return
            auction.told = fields[131]
            if (terms_of(fields), fields[126].decode()) != (auction.terms, auction.deadline):
                self.fault(
                    "%s is not %s as it was written"
                    % (fields[131].decode(), auction.request.decode())
                )

    def look_at_quotes(self) -> None:
        """The quotes that were accepted, and those that were shown: these are among those, in their order."""
        for answer in self.day.was_sent(self.dealer, b"AI"):
            auction = self.of_told(answer[131]) if 131 in answer else None
            if auction and answer[297] == b"0":
                ways = list(self.ways_written(auction, answer))
                auction.quotes.append((answer[117], ways))
        for fields in self.day.was_sent(self.investor, b"S"):
            if fields[448] == self.day.name(self.dealer):
                self.take_shown(fields)
        for auction in self.auctions:
            rest = iter(auction.quotes)
            for name, shown in auction.shown:
                if not any(shown in ways for _, ways in rest):
                    self.fault(
                        "%s of %s is no quote that was accepted, or stands in another order"
                        % (name.decode(), auction.request.decode())
                    )

    def ways_written(self, auction: Auction, answer: Texts) -> Iterator[Shown]:
        """How the quote that this answer accepts was written. A quantity that it names has to be the request's."""
        at = to_the_millisecond(answer[52])[9:]
        for moment, fields in self.day.wrote(self.dealer, b"S"):
            said = texts_of(fields)
            names = [said.get(117), said.get(131)]
            if time_of(moment) != at or names != [answer[117], answer[131]] or 48 not in said:
                continue
            price = said.get(133 if auction.terms.side == BUYS else 132)
            sizes = {number(said[tag]) for tag in (134, 135) if is_number(said.get(tag))}
            if is_number(price) and price is not None and sizes <= {auction.terms.quantity}:
                terms = Terms(said[48], auction.terms.side, auction.terms.quantity)
                yield Shown(terms, number(price), to_the_millisecond(said.get(62, b"")))

    def take_shown(self, fields: Texts) -> None:
        auction = self.of_request(fields[131])
        if auction is None:
            self.fault("%s is on no request that names the dealer" % fields[117].decode())
            return
        buys = fields[54] == BUYS
        if ((132 if buys else 133) in fields) or ((134 if buys else 135) in fields):
            self.fault("%s has a price or a size of the other side" % fields[117].decode())
        terms = Terms(fields[48], fields[54], number(fields[135 if buys else 134]))
        shown = Shown(
            terms, number(fields[133 if buys else 132]), to_the_millisecond(fields.get(62, b""))
        )
        if terms != auction.terms:
            self.fault(
                "%s is not on the terms of %s" % (fields[117].decode(), auction.request.decode())
            )
        auction.shown.append((fields[117], shown))

    # ------------------------------------------------------------ trades

    def bought(self) -> Iterator[Won]:
        """The hits of this dealer's quotes that the investor was answered with 297=0."""
        shown = {
            name: (auction, quote) for auction in self.auctions for name, quote in auction.shown
        }
        for answer in self.day.was_sent(self.investor, b"AI"):
            if 693 in answer and answer[297] == b"0" and answer.get(117) in shown:
                auction, quote = shown[answer[117]]
                if auction.shown[-1][0] != answer[117]:
                    self.fault(
                        "%s was hit, and is not the last quote on its request"
                        % answer[117].decode()
                    )
                yield Won(auction.request, answer[117], quote.terms, quote.price)

    def sold(self) -> Iterator[Won]:
        """The notices 694=1 of the dealer for requests of this investor."""
        for fields in self.day.was_sent(self.dealer, b"AJ"):
            if fields[694] == b"1" and self.of_told(fields[131]):
                price = fields.get(133 if fields[54] == BUYS else 132)
                yield Won(
                    fields[131],
                    fields[117],
                    terms_of(fields),
                    None if price is None else number(price),
                )

    def look_at_trades(self) -> int:
        bought, sold = list(self.bought()), list(self.sold())
        if len(sold) > len(bought) or self.day.is_done and len(sold) != len(bought):
            self.fault("%d trades of the investor and %d of the dealer" % (len(bought), len(sold)))
        for one, other in zip_longest(bought, sold):
            if one and other:
                self.look_at_trade(one, other)
        return len(sold)

    def look_at_trade(self, bought: Won, sold: Won) -> None:
        auction = self.of_request(bought.request)
        if auction is None or auction.told != sold.request:
            self.fault(
                "%s and %s are told of two requests"
                % (bought.request.decode(), sold.request.decode())
            )
            return
        if (bought.terms, bought.price) != (sold.terms, sold.price):
            self.fault("%s is told to both and not on the same terms" % bought.request.decode())
        # The quote that was hit is the last one that the dealer had on the request: each one before was replaced.
        if not auction.quotes or auction.quotes[-1][0] != sold.quote:
            self.fault("the notice on %s names %s" % (sold.request.decode(), sold.quote.decode()))


def time_of(moment: int) -> str:
    seconds, thousandths = divmod(moment, 1000)
    return "%02d:%02d:%02d.%03d" % (seconds // 3600, seconds // 60 % 60, seconds % 60, thousandths)


def is_number(text: bytes | None) -> bool:
    try:
        return (
            text is not None and number(text) >= 0 and b"/" not in text and b"e" not in text.lower()
        )
    except (ValueError, UnicodeDecodeError, ZeroDivisionError):
        return False


def is_whole(fields: list[tuple[int, bytes]]) -> bool:
    """Whether a request has what an accepted one has."""
    said = texts_of(fields)
    return all(tag in said for tag in (48, 54, 38, 126)) and is_number(said[38])


def winners_of(day: Played) -> Iterator[str]:
    """Requests that more than one dealer is told to have won."""
    for investor in range(len(day.configuration.dealers), len(day.configuration.firms)):
        awards = [
            answer[131]
            for answer in day.was_sent(investor, b"AI")
            if 693 in answer and answer[297] == b"0"
        ]
        if len(set(awards)) != len(awards):
            yield "%s was awarded a request twice" % day.name(investor).decode()


Kind = Callable[[list[str], int], "Played"]


def faults_of(day: Played) -> tuple[int, list[str]]:
    """How many trades a day had, and what is wrong with it."""
    trades, faults = 0, list(winners_of(day))
    for pair in day.pairs():
        pair.look_at_requests()
        pair.look_at_quotes()
        trades += pair.look_at_trades()
        faults += pair.faults
    return trades, faults


# ---------------------------------------------------------------- days of a program


def output_of(program: list[str], words: list[str], head: list[str], lines: list[bytes]) -> bytes:
    text = joined("\n".join(head).encode(), b"\n".join(lines))
    run = subprocess.run([*program, *words], input=text, capture_output=True, timeout=600)
    if run.returncode != 0:
        raise ValueError("status %d: %s" % (run.returncode, run.stderr.decode()))
    output: bytes = run.stdout
    return output


def replayed(program: list[str], seed: int) -> Played:
    """A day of steps; one of an even seed goes on until no duty is left."""
    day = Day(Draw(seed))
    if seed % 2 == 0:
        actors: list[Actor] = [*day.firms, CLOCK]
        for actor in actors * ROUNDS:
            day.turn(actor, MOST_TURNS)
    is_done = all(not queue for queue in day.venue.queues.values())
    configuration = read_configuration("\n".join(day.head).encode())
    lines = [line for line in day.lines if not line.startswith(b"turn ")]
    output = output_of(program, ["replay", "--frames"], day.head, day.lines)
    return Played(
        configuration, inboxes_of(configuration, lines), sent_in(configuration, output), is_done
    )


def raced(draw: Draw) -> tuple[list[str], list[bytes]]:
    """A day on which the inboxes are so long that quotes come between the hits."""
    dealers = ["DLR%d" % n for n in range(1, draw.randint(2, 4))]
    investors = ["INV%d" % n for n in range(1, draw.randint(2, 3))]
    head = ["version = 1", 'date = "20250314"', "[[bond]]", 'id = "BONDA0000001"']
    for name in dealers:
        head += [
            "[[dealer]]",
            'name = "%s"' % name,
            'traders = ["T1"]',
            "quotes = 4096",
            "exposure = 1000000000000",
        ]
    for name in investors:
        limits = ["requests = 8", "open = 8", "quantity = 5000000"]
        head += ["[[investor]]", 'name = "%s"' % name, 'traders = ["T1"]', *limits]
    lines = [line for name in investors for line in asks_and_hits(draw, name, dealers)]
    for name in dealers:
        lines += list(quotes_among_others(draw, name, 8 * len(investors)))
    return head, [line.encode() for line in lines]


def asks_and_hits(draw: Draw, name: str, dealers: list[str]) -> Iterator[str]:
    for n in range(1, 9):
        asked = draw.sample(dealers, draw.randint(1, len(dealers)))
        parties = "".join("|448=%s|447=D|452=35" % dealer for dealer in asked)
        terms = "131=a%d|146=1|48=BONDA0000001|22=4|54=%d|38=%d|126=20250314-09:00:30" % (
            n,
            draw.of(1, 2),
            1000 * n,
        )
        yield "say %s T1 09:00:00 R %s|453=%d%s" % (name, terms, len(asked), parties)
    for n in range(1, HITS + 1):
        yield "say %s T1 09:00:10 AJ 693=h%d|694=1|117=Q%d" % (name, n, draw.randint(1, 60))


def quotes_among_others(draw: Draw, name: str, requests: int) -> Iterator[str]:
    for n in range(1, QUOTES + 1):
        yield from ["say %s T1 09:00:05 Z 117=none|298=5" % name] * draw.randint(1, 30)
        price = "13%d=%s" % (draw.of(2, 3), draw.of("99.5", "99.4375", "99.53125", "99.50390625"))
        until = draw.of("", "", "|62=20250314-09:00:20")
        request = draw.randint(1, requests)
        yield "say %s T1 09:00:05 S 117=q%d|131=R%d|48=BONDA0000001|22=4|%s%s" % (
            name,
            n,
            request,
            price,
            until,
        )


def lived(program: list[str], seed: int) -> Played:
    """A day that is taken line by line: no duty is left behind a line, and so none at its end."""
    day = Day(Draw(seed))
    configuration = read_configuration("\n".join(day.head).encode())
    lines = [line for line in day.lines if not line.startswith(b"turn ")]
    output = output_of(program, ["replay", "--live", "--frames"], day.head, lines)
    return Played(
        configuration, inboxes_of(configuration, lines), sent_in(configuration, output), True
    )


def threaded(program: list[str], seed: int) -> Played:
    head, lines = raced(Draw(seed)) if seed % 2 else day_of(seed)
    configuration = read_configuration("\n".join(head).encode())
    output = output_of(program, ["day", "--frames"], head, lines)
    return Played(
        configuration, inboxes_of(configuration, lines), sent_in(configuration, output), True
    )
