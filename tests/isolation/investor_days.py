"""Draws days of a whole venue that tell what one investor lives through.

A *story* is what INV1 sees and lives through: its row, the bonds, the names of the dealers, and
chapters, each a word, a moment and a seed. A *day* tells a story as a day of a whole venue, along a
venue of the second implementation (tests/model). What the seed of a chapter decides follows from
what INV1 knows alone. The day draws everything else anew: all other investors and INV1's place among
them, the limits, traders and ids of the dealers, what the others ask, are quoted, hit and leave,
dealers that can quote nothing, messages that are refused or dropped, and turns of the others.
"""

import random
from functools import partial
from typing import NamedTuple

from tests.model.configuration import read_configuration
from tests.model.dealer import Request as DealerRequest
from tests.model.frames import time_text
from tests.model.investor import InvestorDesk, Request, Shown
from tests.model.lines import StepReader
from tests.model.prices import price_text
from tests.model.replay import CLOCK, Actor, Venue

BONDS = ("BONDA0000001", "BONDB0000002")
BAND = ('low = "99.96875"', 'high = "100.03125"')  # narrower than the prices of a story
OPENING, CLOSING = 32_400_000, 60_000_000  # 09:00:00, and 16:40:00, behind every story
MOST = 10**15  # of an exposure
WORDS = ["ask"] * 4 + ["quote"] * 9 + ["hit"] * 3 + ["race"] * 2 + ["cancel"] * 2
WORDS += ["cancel_all", "decline", "leave", "expire", "nonsense"]


def clock_time(moment: int) -> str:
    return time_text(moment).decode()


def word_of(quote: Shown) -> tuple[int, int]:
    """A quote's dealer and its number there."""
    assert isinstance(quote.word, tuple)
    return quote.word


class Chapter(NamedTuple):
    """What happens, when, and the seed of what INV1's knowledge decides."""

    word: str
    moment: int
    seed: int


class Story:
    """What INV1 sees of the venue, and its chapters."""

    def __init__(self, draw: random.Random) -> None:
        self.dealers = ["DLR%d" % n for n in range(1, draw.randint(2, 6) + 1)]
        self.silent = set(draw.sample(self.dealers, draw.randrange(len(self.dealers))))
        self.row = draw.choice((3, 20)), draw.choice((1, 3, 20))  # requests of the day, and open
        self.grids = [draw.choice((32, 64, 128, 256)) for _ in BONDS]
        self.bands = [draw.choice(((), BAND)) for _ in BONDS]
        self.chapters, moment = [Chapter("ask", OPENING, draw.getrandbits(60))], OPENING
        for _ in range(draw.randint(2, 24)):
            moment += draw.randrange(1, 9_000)
            self.chapters.append(Chapter(draw.choice(WORDS), moment, draw.getrandbits(60)))


class Day:
    """A story, told as a day of a whole venue; `draw` draws what INV1 does not see."""

    def __init__(self, story: Story, draw: random.Random) -> None:
        self.story, self.draw, self.traders = story, draw, {"INV1": "T1"}
        self.others = ["INV%d" % n for n in range(2, 2 + draw.randrange(1, 4))]
        self.head = "\n".join(self.rows())
        self.configuration = read_configuration(self.head.encode())
        self.venue, self.reader = Venue(self.configuration), StepReader(self.configuration)
        self.one = self.firm("INV1")
        self.lines: list[str] = []
        self.moment, self.asked, self.ids = OPENING, 0, draw.randrange(1000)
        for chapter in story.chapters:
            self.moment = max(self.moment, chapter.moment)
            self.aside()
            getattr(self, "tell_" + chapter.word)(random.Random(chapter.seed))
        self.aside()

    def text(self) -> str:
        return self.head + "\n%%\n" + "\n".join(self.lines) + "\n"

    def firm(self, name: str) -> int:
        firm = self.configuration.firm(name.encode())
        assert firm is not None
        return firm

    def name(self, firm: int) -> str:
        return self.configuration.firms[firm].name.decode()

    # ---------------------------------------------------------------- the configuration

    def rows(self) -> list[str]:
        draw, text = self.draw, ["version = 3", 'date = "20250314"']
        for bond, grid, band in zip(BONDS, self.story.grids, self.story.bands):
            text += ["[[bond]]", 'id = "%s"' % bond, "grid = %d" % grid, *band]
        for dealer in self.story.dealers:
            poor = dealer in self.story.silent and draw.random() < 0.5
            text += self.firm_row("dealer", dealer, "T%d" % draw.randrange(2, 99))
            text.append("exposure = %d" % (1 if poor else MOST - draw.randrange(10**9)))
            text.append("quotes = %d" % draw.randrange(300, 4000))
        investors = list(self.others)
        investors.insert(draw.randrange(len(investors) + 1), "INV1")
        for investor in investors:
            limits = 5_000_000, *self.story.row
            if investor != "INV1":
                limits = draw.randrange(5 * 10**6, 10**9), draw.randrange(100, 800), 500
            trader = "T1" if investor == "INV1" else "V%d" % draw.randrange(1, 99)
            text += self.firm_row("investor", investor, trader)
            text.append("quantity = %d\nrequests = %d\nopen = %d" % limits)
        return text

    def firm_row(self, kind: str, name: str, trader: str) -> list[str]:
        self.traders[name] = trader
        return ["[[%s]]" % kind, 'name = "%s"' % name, 'traders = ["%s"]' % trader]

    # ---------------------------------------------------------------- lines

    def put(self, line: str) -> None:
        """A line of steps, which the venue of the model does too."""
        self.lines.append(line)
        for kind, *step in self.reader.steps(line.encode()):
            if kind == "turn":
                for _ in range(step[1]):
                    self.venue.turn(step[0])
            else:
                getattr(self.venue, kind)(*step)

    def say(self, name: str, kind: str, body: str, trader: str | None = None) -> None:
        words = name, trader or self.traders[name], clock_time(self.moment), kind, body
        self.put("say %s %s %s %s %s" % words)

    def settle(self, *names: str) -> None:
        """Each of these actors does its duties until none is left."""
        for name in names:
            actor: Actor = CLOCK if name == "CLOCK" else self.firm(name)
            while self.venue.queues[actor]:
                self.put("turn %s %d" % (name, len(self.venue.queues[actor])))

    def ask(self, name: str, fields: tuple[str, str, int, int, str], dealers: list[str]) -> None:
        """A request: its id, bond, side, quantity and deadline, and whom it asks."""
        parties = "".join("|448=%s|447=D|452=35" % dealer for dealer in dealers)
        body = "131=%s|146=1|48=%s|22=4|54=%d|38=%d|126=20250314-%s" % fields
        self.say(name, "R", body + "|453=%d" % len(dealers) + parties)
        self.settle(name)

    def quote(self, dealer: int, room: tuple[int, int], ticks: int, more: str = "") -> None:
        """A dealer's quote on the request of a room, under an id of its own."""
        request = self.shown_in(dealer, room)
        self.ids += self.draw.randrange(1, 9)
        tag = 133 if request.ask.side == 1 else 132
        terms = self.ids, request.k, request.ask.bond.decode(), tag
        body = "117=b%d|131=R%d|48=%s|22=4|%d=" % terms
        self.say(self.name(dealer), "S", body + price_text(ticks).decode() + more)

    def shown_in(self, dealer: int, room: tuple[int, int]) -> DealerRequest:
        """The request of a room, as a dealer that was asked has it."""
        request = self.venue.dealer_desk(dealer).request_in(room)
        assert request is not None
        return request

    def cancel(self, quote: Shown) -> None:
        dealer, number = word_of(quote)
        name = self.venue.dealer_desk(dealer).quotes[number - 1].id.decode()
        self.say(self.name(dealer), "Z", "298=5|117=" + name)

    # ---------------------------------------------------------------- what INV1 knows

    @property
    def desk(self) -> InvestorDesk:
        return self.venue.investor_desk(self.one)

    def open_requests(self) -> list[Request]:
        return [request for request in self.desk.requests if request.is_open()]

    def standing(self) -> list[Shown]:
        """The quotes that stand on open requests."""
        return [quote for request in self.open_requests() for quote in self.desk.standing(request)]

    def speakers(self, request: Request) -> list[int]:
        """The dealers that were asked, are not silent, and did not decline."""
        room, silent = (self.one, request.n), self.story.silent
        able = [firm for firm in self.venue.rooms[room].dealers if self.name(firm) not in silent]
        return [firm for firm in able if not self.shown_in(firm, room).declined]

    def asked_one(self, own: random.Random) -> tuple[Request, int] | None:
        """An open request and a dealer that speaks on it, if there is one."""
        requests = self.open_requests()
        pairs = [(request, firm) for request in requests for firm in self.speakers(request)]
        return own.choice(pairs) if pairs else None

    # ---------------------------------------------------------------- chapters

    def tell_ask(self, own: random.Random) -> None:
        self.asked += 1
        name = "a%d" % (self.asked if own.random() < 0.95 else 1)
        deadline = own.choice((CLOSING, CLOSING, self.moment + own.randrange(10_000, 90_000)))
        quantity = own.choice((1, 500_000, 2_000_000, 5_000_000, 5_000_001))
        fields = name, own.choice(BONDS), own.choice((1, 2)), quantity, clock_time(deadline)
        count = own.randint(1, len(self.story.dealers))
        self.ask("INV1", fields, own.sample(self.story.dealers, count))

    def tell_quote(self, own: random.Random) -> None:
        found = self.asked_one(own)
        if found is None:
            return self.tell_ask(own)
        request, dealer = found
        end = clock_time(self.moment + own.randrange(1, 30_000))
        until = own.choice(("", "", "|62=20250314-" + end))
        ticks = 25_600 + own.randrange(-8, 9) * (256 // request.ask.grid)
        self.quote(dealer, (self.one, request.n), ticks, until)
        return self.settle(self.name(dealer))

    def tell_cancel(self, own: random.Random) -> None:
        if self.standing():
            quote = own.choice(self.standing())
            self.cancel(quote)
            self.settle(self.name(word_of(quote)[0]))

    def tell_cancel_all(self, own: random.Random) -> None:
        dealers = sorted({word_of(quote)[0] for quote in self.standing()})
        if dealers:
            name = self.name(own.choice(dealers))
            self.say(name, "Z", "298=4")
            self.settle(name)

    def tell_decline(self, own: random.Random) -> None:
        found = self.asked_one(own)
        if found:
            request, dealer = found
            shown = self.shown_in(dealer, (self.one, request.n))
            self.say(self.name(dealer), "AG", "131=R%d|658=10" % shown.k)
            self.settle(self.name(dealer))

    def hit(self, own: random.Random, quote: Shown) -> None:
        self.say("INV1", "AJ", "693=h%d|117=Q%d|694=1" % (own.randrange(99), quote.k))

    def tell_hit(self, own: random.Random) -> None:
        if not self.desk.shown:
            return self.tell_quote(own)
        standing = self.standing() if own.random() < 0.7 else []
        self.hit(own, own.choice(standing or self.desk.shown))
        return self.settle("INV1")

    def tell_race(self, own: random.Random) -> None:
        """A quote is hit and cancelled, and the duties of both come in any order."""
        if not self.standing():
            return self.tell_quote(own)
        quote = own.choice(self.standing())
        dealer = self.name(word_of(quote)[0])
        self.settle(dealer)
        self.hit(own, quote)
        turns = ["turn INV1 1", "turn %s 1" % dealer]
        acts = [partial(self.cancel, quote), *[partial(self.put, line) for line in turns]]
        own.shuffle(acts)
        for act in acts:
            act()
        return self.settle(*own.sample(["INV1", dealer], 2))

    def tell_leave(self, own: random.Random) -> None:
        if self.desk.requests:
            terms = own.randrange(99), own.choice(self.desk.requests[-3:]).id.decode()
            self.say("INV1", "AJ", "693=p%d|694=6|131=%s" % terms)
            self.settle("INV1")

    def tell_expire(self, own: random.Random) -> None:
        able = [request for request in self.open_requests() if request.ask.deadline < CLOSING]
        if able:
            request = own.choice(able)
            if own.random() < 0.9:
                self.moment = max(self.moment, request.ask.deadline)
            self.put("expire INV1 %d %s" % (request.n, clock_time(self.moment)))
            self.settle("CLOCK")

    def tell_nonsense(self, own: random.Random) -> None:
        """A message that is refused, rejected or dropped."""
        body = "693=n%d|117=Q999|694=1" % own.randrange(99)
        kind = own.randrange(4)
        if kind == 0:
            self.say("INV1", "AJ", body)
        elif kind == 1:
            self.say("INV1", "AJ", body, "T9")
        elif kind == 2:
            self.say("INV1", "S", body)
        else:
            self.put("in INV1 %s 8=FIXT.1.1|9=5|35=R|10=000|" % clock_time(self.moment))

    # ---------------------------------------------------------------- asides

    def aside(self) -> None:
        """Something among the others of which the story does not tell, or nothing."""
        acts = [self.others_ask, self.others_ask, self.others_end]
        acts += [self.dealer_errs, self.poor_quotes, self.others_turn]
        for _ in range(self.draw.choice((0, 1, 1, 2, 3))):
            self.draw.choice(acts)()

    def others_ask(self) -> None:
        draw, name = self.draw, self.draw.choice(self.others)
        fields = "o%d" % draw.randrange(10**9), draw.choice(BONDS), draw.choice((1, 2))
        dealers = draw.sample(self.story.dealers, draw.randint(1, len(self.story.dealers)))
        self.ask(name, (*fields, draw.randrange(2, 5 * 10**6), clock_time(CLOSING)), dealers)
        firm = self.firm(name)
        for dealer in map(self.firm, dealers):
            if draw.random() < 0.7:
                room = firm, len(self.venue.investor_desk(firm).requests)
                self.quote(dealer, room, 25_600 + 8 * draw.randrange(-99, 99))
                if draw.random() < 0.7:
                    self.settle(self.name(dealer))

    def others_end(self) -> None:
        """Another investor hits a quote or leaves a request, or one of its quotes is cancelled."""
        draw, name = self.draw, self.draw.choice(self.others)
        desk = self.venue.investor_desk(self.firm(name))
        what = draw.randrange(4)
        if what == 0 and desk.requests:
            terms = draw.randrange(10**9), draw.choice(desk.requests).id.decode()
            self.say(name, "AJ", "693=p%d|694=6|131=%s" % terms)
        elif what == 1 and desk.requests:
            number = draw.randint(1, len(desk.requests))
            self.put("expire %s %d %s" % (name, number, clock_time(CLOSING)))
        elif desk.shown:
            quote = draw.choice(desk.shown)
            self.say(name, "AJ", "693=h%d|117=Q%d|694=1" % (draw.randrange(10**9), quote.k))
            if what == 2:
                self.cancel(quote)
        self.settle(*draw.sample([name, "CLOCK"], draw.randint(0, 2)))

    def dealer_errs(self) -> None:
        """A dealer's message that changes nothing at any other firm."""
        name, what = self.draw.choice(self.story.dealers), self.draw.randrange(4)
        if what == 0:
            self.say(name, "Z", "298=5|117=none")
        elif what == 1:
            self.say(name, "S", "117=x|131=R999|48=%s|22=4|133=99.5" % BONDS[0])
        elif what == 2:
            self.say(name, "S", "117=x|131=R1|48=BONDX0000009|22=4|133=99.5")
        else:
            self.put("in %s %s no frame" % (name, clock_time(self.moment)))

    def poor_quotes(self) -> None:
        """A dealer whose exposure allows no quote tries one on a request of INV1."""
        for request in self.open_requests():
            for firm in self.venue.rooms[(self.one, request.n)].dealers:
                if self.configuration.dealer(firm).exposure == 1 and request.ask.quantity > 1:
                    self.quote(firm, (self.one, request.n), 25_600)

    def others_turn(self) -> None:
        name = self.draw.choice([*self.others, *self.story.dealers, "CLOCK"])
        self.put("turn %s %d" % (name, self.draw.randrange(1, 4)))
