"""Draws days of a venue: configurations and steps, lawful for the most part, rich in refusals.

It draws a day along a venue of the model, so that ids, numbers and moments fit what has come about. What
the venue makes of it is for the comparison to say.
"""

from __future__ import annotations

import random
from collections.abc import Callable, Sequence
from typing import TYPE_CHECKING, Any, TypeVar

from .configuration import read_configuration
from .frames import Stream, StreamFault, moment_text, read_fields, time_text, write_frame
from .lines import Framer, LineFault, StepReader
from .prices import price_text
from .replay import CLOCK, Venue

if TYPE_CHECKING:
    from .dealer import Quote, Request
    from .investor import Shown

Row = TypeVar("Row")
OPENING = 32_400_000  # 09:00:00
MIDDLE = 25_472  # about which prices are drawn: 99.5
SOH = b"\x01"


class Draw(random.Random):
    old = False  # whether what came later (lines `hex` and `clock`, --marks, --live) is left out

    def chance(self, share: float | int) -> bool:
        return self.random() < share

    def of(self, *values: Any) -> Any:
        return self.choice(values)


# ---------------------------------------------------------------- configurations


def names(draw: Draw, count: int, prefix: str) -> list[str]:
    found = [prefix + str(n) for n in range(1, count + 1)]
    if draw.chance(0.1) and found:
        found[-1] = draw.of("A", "ABCDEFGH", "Z9999999", "VENUES", "CLOCKS", "R", "X0")
    return found


def draw_configuration(draw: Draw) -> list[str]:
    """A lawful configuration, as a list of lines."""
    version = draw.of(1, 2, 3)
    lines = [
        "version = %d" % version,
        'date = "%s"' % draw.of("20250314", "20250314", "20241231", "00000101", "20250231"),
    ]
    lines += draw.of([], [], ["unknown = 5"], ['note = "x"', "# a comment", ""])
    if draw.chance(0.2):
        draw.shuffle(lines)
    tables = [
        bond_table(draw, "BOND%s0000%03d" % ("ABCDEFG"[n], n), version)
        for n in range(draw.randint(1, 4))
    ]
    traders = ["T1", "T2", "T3", "TRADER99", "VENUE", "CLOCK", "A"]
    dealers = names(draw, draw.choice([0, 1, 2, 2, 3, 3, 3, 4, 4, 5, 9, 10]), "DLR")
    investors = names(draw, draw.choice([0, 1, 1, 1, 2, 2, 2, 3]), "INV")
    tables += [dealer_table(draw, name, traders) for name in dealers]
    for name in investors:
        if name not in dealers:
            tables.append(investor_table(draw, name, traders))
    if draw.chance(0.2):
        draw.shuffle(tables)  # the rows of each array keep the order drawn here
    for table in tables:
        lines += table
    return lines


def keyed(draw: Draw, head: str, pairs: Sequence[tuple[str, str | int]]) -> list[str]:
    lines = ["%s = %s" % pair for pair in pairs]
    if draw.chance(0.2):
        draw.shuffle(lines)
    return [head] + lines


def bond_table(draw: Draw, name: str, version: int) -> list[str]:
    pairs: list[tuple[str, str | int]] = [("id", '"%s"' % name)]
    grid = draw.choice([32, 64, 128, 256])
    if version > 1:
        pairs.append(("grid", grid))
    elif draw.chance(0.2):
        pairs.append(("grid", draw.of("5", '"x"', "32")))
    if version == 3 and draw.chance(0.6):
        pairs += band_pairs(draw, 256 // grid)
    elif version < 3 and draw.chance(0.2):
        pairs.append((draw.of("low", "high"), draw.of("5", '"x"', '"99.501"', '"100"', "[]")))
    return keyed(draw, "[[bond]]", pairs)


def band_pairs(draw: Draw, step: int) -> list[tuple[str, str]]:
    """Both ends of a band about the prices of the day, seldom far from them."""
    below, above = (step * draw.of(0, 0, 1, 1, 2, 3, 9, 300) for _ in range(2))
    ends = ("low", MIDDLE - below), ("high", MIDDLE + above)
    return [(key, '"%s"' % spelled_price(draw, ticks)) for key, ticks in ends]


def trader_list(draw: Draw, traders: list[str]) -> str:
    chosen = draw.sample(traders, draw.choice([1, 1, 2, 3]))
    return "[%s]" % ", ".join('"%s"' % trader for trader in chosen)


def dealer_table(draw: Draw, name: str, traders: list[str]) -> list[str]:
    quotes = draw.choice([1, 2, 4, 20, 20, 4096])
    exposure = draw.choice(
        [1, 2_000_000, 3_000_000, 4_000_000, 10_000_000, 10_000_000, 10**15, 10**15]
    )
    pairs: list[tuple[str, str | int]] = [
        ("name", '"%s"' % name),
        ("traders", trader_list(draw, traders)),
        ("quotes", quotes),
        ("exposure", exposure),
    ]
    return keyed(draw, "[[dealer]]", pairs)


def investor_table(draw: Draw, name: str, traders: list[str]) -> list[str]:
    requests = draw.choice([1, 3, 5, 20, 20, 20, 1024])
    opened, quantity = draw.choice([1, 2, 3, 20, 20, 1024]), draw.choice(
        [1, 1_000_000, 2_000_000, 5_000_000, 5_000_000, 10**12]
    )
    pairs: list[tuple[str, str | int]] = [
        ("name", '"%s"' % name),
        ("traders", trader_list(draw, traders)),
        ("requests", requests),
    ]
    return keyed(draw, "[[investor]]", pairs + [("open", opened), ("quantity", quantity)])


# ---------------------------------------------------------------- texts of values


def moment_word(draw: Draw, moment: int) -> str:
    """A moment as a TIME, without milliseconds where it has none and the draw says so."""
    text = time_text(moment).decode()
    return text[:-4] if text.endswith(".000") and draw.chance(0.5) else text


def quantity_text(draw: Draw, quantity: int) -> str:
    return str(draw.of("%d", "%d", "%d", "%d.0", "0%d", "%d.") % quantity)


def spelled_price(draw: Draw, ticks: int) -> str:
    text = price_text(ticks).decode()
    if "." not in text:
        text += draw.of("", "", ".", ".0", ".000")
    return str(draw.of(text, text, text, "0" + text))


BAD_IDS = ["", "a b", "x" * 41, "x" * 40, "\u00e9", "~", "!", "a=b"]
BAD_NUMBERS = [
    "",
    "x",
    "-1",
    "0",
    "00000000001",
    "000000001",
    "1.0",
    "999999999",
    " 1",
    "7",
    "10",
    "010",
    "05",
    "4",
    "5",
    "1",
    "6",
]
BAD_PRICES = [
    "",
    "x",
    "-1",
    "-99.5",
    "0",
    "1000",
    "999.99609375",
    "0.00390625",
    "0.001",
    "99.501",
    ".",
    "-",
    "99.5.0",
    "9e1",
    "1234567890123456",
    "123456789012345",
    "99.50390625",
    "99.5078125",
    "99.515625",
    "99.53125",
    "+99.5",
    ".5",
    "5.",
]
BAD_QUANTITIES = [
    "",
    "0",
    "x",
    "-5",
    "1",
    "1.5",
    ".5",
    ".",
    "1000000000000",
    "1000000000001",
    "2000000.00",
    "0000000000000002",
    "1e6",
]
BAD_TEXTS = ["", "4 ", "04", "5", "1", "2", "3", "x", "D", "35", "13"]
BAD_MOMENTS = [
    "",
    "x",
    "20250314-24:00:00",
    "20250315-09:05:00",
    "20251301-09:05:00",
    "20250314-09:05:00.0000",
    "20250314 09:05:00",
    "20250314-23:59:59.999",
    "20250314-00:00:00",
    "20250300-09:05:00",
    "20250314-09:05:60",
    "20250314-9:05:00",
]
BAD_VALUES = {
    117: BAD_IDS,
    131: BAD_IDS + ["R0", "R01", "R1", "R99"],
    48: BAD_IDS + ["BONDA0000001"],
    22: BAD_TEXTS,
    132: BAD_PRICES,
    133: BAD_PRICES,
    134: BAD_QUANTITIES,
    135: BAD_QUANTITIES,
    537: BAD_NUMBERS,
    62: BAD_MOMENTS,
    298: BAD_NUMBERS,
    658: BAD_NUMBERS,
    146: BAD_NUMBERS,
    54: BAD_TEXTS,
    38: BAD_QUANTITIES,
    126: BAD_MOMENTS,
    453: BAD_NUMBERS,
    693: BAD_IDS,
    694: BAD_NUMBERS,
    448: BAD_IDS + ["DLR1", "INV1", "NOBODY"],
    447: BAD_TEXTS,
    452: BAD_TEXTS,
    49: ["", "DLR1", "INV1", "VENUE", "x"],
    56: ["", "VENUE", "VENUES", "DLR1"],
    52: BAD_MOMENTS,
    50: ["", "T1", "T9", "VENUE"],
    34: BAD_NUMBERS,
    35: ["", "S", "R", "Z", "AG", "AJ", "8", "abcde", "D1"],
}
OTHER_TAGS = [
    1,
    11,
    55,
    58,
    60,
    999999999,
    100000000,
    453,
    448,
    447,
    452,
    35,
    34,
    49,
    56,
    52,
    50,
    62,
    117,
    131,
]


def spoil(draw: Draw, fields: list[tuple[int, str]]) -> list[tuple[int, str]]:
    """One fault of a message, or something that is none, among the fields of its body."""
    fields = list(fields)
    what, place = draw.randrange(7), draw.randrange(len(fields)) if fields else 0
    if what == 0 and fields:
        del fields[place]
    elif what == 1 and fields:
        tag, value = fields[place]
        if draw.chance(0.3):
            value = draw.choice(BAD_VALUES.get(tag, [""]))
        fields.insert(draw.randint(0, len(fields)), (tag, value))
    elif what in (2, 3) and fields:
        tag = fields[place][0]
        fields[place] = (tag, draw.choice(BAD_VALUES.get(tag, [""])))
    elif what == 4:
        draw.shuffle(fields)
    elif what == 5 and fields:
        fields.insert(draw.randint(0, len(fields)), fields.pop(place))
    else:
        tag = draw.choice(OTHER_TAGS)
        fields.insert(
            draw.randint(0, len(fields)),
            (tag, draw.choice(BAD_VALUES.get(tag, ["", "x", "[N/A]"]))),
        )
    return fields


# ---------------------------------------------------------------- a day


class Day:
    def __init__(
        self, draw: "Draw", lines: list[str] | None = None, length: int | None = None
    ) -> None:
        self.draw, self.head = draw, lines or draw_configuration(draw)
        self.configuration = read_configuration("\n".join(self.head).encode())
        self.venue, self.reader = Venue(self.configuration), StepReader(self.configuration)
        self.lines: list[bytes] = []
        self.moment = OPENING
        self.bits: dict[int, bytes] = {}
        self.say_counts = Framer(self.configuration.date)
        self.faulty = draw.choice(
            [0, 0, 0.02, 0.02, 0.05, 0.05, 0.3, 0.6]
        )  # how often a message is spoilt
        self.kinds = draw.choice(
            [
                ("say",),
                ("say",),
                ("say", "say", "in"),
                ("in",),
                ("piece",),
                ("say", "in", "piece"),
                ("hex",),
                ("hex", "say"),
                ("say", "in", "piece", "hex"),
            ]
        )
        self.until = draw.choice([0, 0.2, 0.8])  # how often a quote has an end of its own
        self.spread = draw.choice([0, 1, 3])  # how far prices lie apart
        self.busy = draw.choice([0.3, 0.8, 1, 1, 1])  # how often duties are done behind a message
        self.strides = draw.of(
            [0, 1, 500, 1_000], [0, 1, 1_000, 5_000, 30_000], [1_000, 2_000], [7]
        )
        self.lag = draw.choice([0.3, 0.9, 1, 1, 1])  # how readily duties are done
        self.firms = list(range(len(self.configuration.firms)))
        longest = draw.choice([30] * 15 + [60] * 4 + [250])
        for _ in range(draw.randint(1, longest) if length is None else length):
            self.go_on()

    def text(self) -> bytes:
        return b"\n".join(self.lines)

    def go_on(self) -> None:
        """One more thing happens."""
        draw = self.draw
        self.moment = max(0, min(86_399_999, self.moment + draw.choice(self.strides)))
        if draw.chance(0.02):
            self.moment = max(0, self.moment - draw.of(1, 1_000, 100_000, 4_000_000))
        acts = (
            [self.quote] * 12
            + [self.ask] * 5
            + [self.hit] * 5
            + [self.cancel] * 3
            + [self.decline] * 2
        )
        acts += (
            [self.race] * 3
            + [self.contest] * 2
            + [self.leave, self.sweep, self.turns, self.cancel_all, self.noise]
        )
        draw.choice(acts)()
        if draw.chance(self.busy):
            self.settle()

    def settle(self) -> None:
        """Duties are done, of some actors, or of all until nothing is left."""
        actors = self.firms + [CLOCK]
        self.draw.shuffle(actors)
        rounds = self.draw.of(1, 1, 3)
        for actor in actors * rounds:
            pending = len(self.venue.queues[actor])
            if pending and self.draw.chance(self.lag):
                self.turn(actor, self.draw.choice([1, pending, pending, pending + 2]))

    def turn(self, actor: int | str, times: int) -> None:
        self.put(b"turn %s %d" % (self.actor_name(actor), min(times, 1000)))

    def actor_name(self, actor: int | str) -> bytes:
        return self.configuration.firms[actor].name if isinstance(actor, int) else b"CLOCK"

    def turns(self) -> None:
        self.turn(self.draw.choice(self.firms + [CLOCK]), self.draw.of(1, 2, 5, 1000))

    def put(self, line: bytes) -> None:
        """A line of steps, which is done by the venue of the model too."""
        self.lines.append(line)
        try:
            for kind, *step in self.reader.steps(line):
                if kind == "turn":
                    for _ in range(step[1]):
                        if not self.venue.turn(step[0]):
                            break
                else:
                    getattr(self.venue, kind)(*step)
        except LineFault:
            self.lines.pop()

    # ------------------------------------------------------------ messages

    def dealers(self) -> list[int]:
        return self.firms[: len(self.configuration.dealers)]

    def investors(self) -> list[int]:
        return self.firms[len(self.configuration.dealers) :]

    def message(self, firm: int, kind: str, fields: list[tuple[int, str | int]]) -> None:
        """A message of a firm, said, framed here, or in pieces of its stream."""
        draw, row = self.draw, self.configuration.firms[firm]
        texts = [(tag, str(value)) for tag, value in fields]
        while draw.chance(self.faulty):
            texts = spoil(draw, texts)
        trader = (
            draw.choice(row.traders).decode() if draw.chance(0.98) else draw.of("T1", "T77", "t1")
        )
        kind = kind if draw.chance(0.99) else draw.of("S", "R", "Z", "AG", "AJ", "8", "XXXXX", "a")
        how = draw.choice(self.kinds)
        if how == "say":
            return self.say(firm, trader, kind, texts)
        head = [
            (49, row.name.decode()),
            (56, "VENUE"),
            (34, str(self.number(firm))),
            (52, self.sending()),
            (50, trader),
        ]
        if draw.chance(0.1):
            draw.shuffle(head)
        texts = head + texts
        if draw.chance(0.1):
            texts.insert(draw.randint(0, len(texts)), texts.pop(draw.randrange(5)))
        while draw.chance(self.faulty / 2):
            texts = spoil(draw, texts)
        body = [(35, kind.encode())] + [(tag, value.encode()) for tag, value in texts]
        if how == "hex" and draw.chance(0.3):
            body = with_any_bytes(draw, body)
        data = write_frame(body)
        return self.deliver(how, firm, self.spoil_bytes(data))

    def number(self, firm: int) -> Any:
        """The number that is expected, for the most part."""
        expected = self.venue.desks[firm].inbox.expected + self.waiting(firm)
        return (
            expected
            if self.draw.chance(0.98)
            else self.draw.of(0, 1, expected + 1, expected - 1, "0%d" % expected, "x", 10**9)
        )

    def waiting(self, firm: int) -> int:
        return 0

    def sending(self) -> str:
        return (moment_text(self.configuration.date, self.moment)).decode()

    def say(self, firm: int, trader: str, kind: str, fields: list[tuple[int, str]]) -> None:
        draw, name = self.draw, self.configuration.firms[firm].name
        expected = self.venue.desks[firm].inbox.expected
        if self.reader.framer.counts.get(name, 0) + 1 != expected and draw.chance(0.98):
            fields = list(fields)
            fields.insert(
                draw.randint(0, len(fields)) if draw.chance(0.3) else len(fields),
                (34, str(expected)),
            )
        body = "|".join("%d=%s" % field for field in fields) or "1="
        body += draw.of("", "", "", "|")
        self.put(
            (
                "say %s %s %s %s %s"
                % (name.decode(), trader, moment_word(draw, self.moment), kind, body)
            ).encode()
        )

    def spoil_bytes(self, data: bytes) -> bytes:
        """The bytes of a frame, now and then no frame any more, or another spelling of one."""
        draw = self.draw
        if not draw.chance(self.faulty / 2):
            return data
        what = draw.randrange(5)
        if what == 0:
            other = bytearray(data)
            other[draw.randrange(len(other))] = draw.choice(b"0123456789=|AZ \x01\xff")
            return bytes(other)
        if what == 1:
            return data[: draw.randrange(1, len(data))]
        if what == 2:
            return data + bytes(draw.of(b"\x01", b"x", data))
        return respelled(data, draw.of(b"%04d", b"%06d", b"%07d", b"%d"), draw)

    def deliver(self, how: str, firm: int, data: bytes) -> None:
        name, time = (
            self.configuration.firms[firm].name,
            moment_word(self.draw, self.moment).encode(),
        )
        if how == "hex":
            digits = data.hex() if self.draw.chance(0.5) else data.hex().upper()
            return self.put(b"hex %s %s %s" % (name, time, digits.encode()))
        data = data.replace(SOH, b"|").replace(b"\n", b"?")
        if how == "in":
            return self.put(b"in %s %s %s" % (name, time, data))
        waiting = self.bits.pop(firm, b"") + data
        try:
            self.reader.streams.get(firm, Stream()).feed(waiting.replace(b"|", SOH))
        except StreamFault:
            if self.draw.chance(0.9):
                return None
        while waiting:
            size = self.draw.choice([1, 7, 40, len(waiting), len(waiting)])
            if self.draw.chance(0.05):
                self.bits[firm] = waiting
                return None
            self.put(b"piece %s %s %s" % (name, time, waiting[:size]))
            waiting = waiting[size:]
        return None

    # ------------------------------------------------------------ what firms do

    def ask(self) -> None:
        draw = self.draw
        if not self.investors():
            return self.noise()
        firm = draw.choice(self.investors())
        row, desk = self.configuration.investor(firm), self.venue.investor_desk(firm)
        name = (
            "A%d" % (len(desk.requests) + 1) if draw.chance(0.9) else draw.of("A1", "B", "x" * 40)
        )
        bond = (
            draw.choice(self.configuration.bonds).id.decode()
            if draw.chance(0.95)
            else draw.of("BONDX0000009", "b")
        )
        quantity = min(row.quantity, draw.of(1, 500_000, 1_000_000, 2_000_000)) + (
            1 if draw.chance(0.03) else 0
        )
        deadline = min(
            86_399_999,
            self.moment + draw.of(0, 1, 10_000, 30_000, 300_000, 300_000, 3_000_000, 3_000_000),
        )
        fields = [
            (131, name),
            (146, 1),
            (48, bond),
            (22, 4),
            (54, draw.of(1, 2)),
            (38, quantity_text(draw, quantity)),
        ]
        fields.append((126, moment_text(self.configuration.date, deadline).decode()))
        return self.message(firm, "R", fields + self.parties())

    def parties(self) -> list[tuple[int, int | str]]:
        draw, dealers = self.draw, [
            self.configuration.firms[firm].name.decode() for firm in self.dealers()
        ]
        chosen = draw.sample(dealers, min(len(dealers), draw.choice([1, 2, 2, 3, 3, 8, 9])))
        if draw.chance(0.04):
            chosen.append(draw.of("DLR1", "INV1", "NOBODY", "dlr1"))
        entries: list[tuple[int, int | str]] = []
        for dealer in chosen:
            entry: list[tuple[int, int | str]] = [(448, dealer), (447, "D"), (452, 35)]
            if draw.chance(0.05):
                entry = [entry[0], entry[2], entry[1]]
            if draw.chance(0.03):
                entry = list(spoil(draw, [(tag, str(value)) for tag, value in entry]))
            entries += entry
            if draw.chance(0.03):
                entries.append((draw.of(58, 34, 999, 50, 62), draw.of("x", "5", "T1")))
        count = sum(tag == 448 for tag, _ in entries)
        return [
            (453, count if draw.chance(0.97) else draw.of(0, count + 1, "0%d" % count))
        ] + entries

    def quote(self) -> None:
        draw = self.draw
        if not self.dealers():
            return self.noise()
        firm = draw.choice(self.dealers())
        desk = self.venue.dealer_desk(firm)
        if not desk.requests and draw.chance(0.8):
            return self.ask()
        request = self.likely(desk.requests, self.can_be_quoted)
        if request and not self.can_be_quoted(request) and draw.chance(0.6):
            return self.ask()
        name = "q%d" % (len(desk.quotes) + 1) if draw.chance(0.93) else draw.of("q1", "q2", "x")
        shown = (
            "R%d" % request.k
            if request and draw.chance(0.97)
            else draw.of("R1", "R2", "R99", "R01", "A1")
        )
        bond = (
            request.ask.bond.decode()
            if request and draw.chance(0.97)
            else draw.choice(self.configuration.bonds).id.decode()
        )
        side = request.ask.side if request and draw.chance(0.97) else draw.of(1, 2)
        fields = [
            (117, name),
            (131, shown),
            (48, bond),
            (22, 4),
            (133 if side == 1 else 132, self.price(request)),
        ]
        fields += self.extras(request)
        if draw.chance(0.1):
            draw.shuffle(fields)
        return self.message(firm, "S", fields)

    def can_be_quoted(self, request: Request) -> bool:
        return (
            request.closed is None and not request.declined and request.ask.deadline > self.moment
        )

    def race(self) -> None:
        """An investor hits a quote while its dealer takes it back, or at the moment at which it ends."""
        draw, found = self.draw, []
        for firm in self.investors():
            quotes = self.venue.investor_desk(firm).shown
            found += [
                (firm, quote) for quote in quotes if quote.request.is_open() and not quote.gone
            ]
        if not found:
            return self.quote()
        firm, quote = draw.choice(found)
        assert isinstance(quote.word, tuple)
        dealer, q = quote.word
        if draw.chance(0.3):
            posted = self.venue.room((firm, quote.request.n)).standing(quote.word)
            end = (
                posted.until if posted and posted.until is not None else quote.request.ask.deadline
            )
            self.moment = max(0, min(86_399_999, end + draw.of(-1, 0, 1)))
        acts: list[Callable[[], None]] = [
            lambda: self.hit_quote(firm, quote),
            lambda: self.take_back(dealer, self.venue.dealer_desk(dealer).quotes[q - 1]),
        ]
        acts += [
            lambda: self.turn(firm, draw.of(1, 1, 2)),
            lambda: self.turn(dealer, draw.of(1, 1, 2)),
        ]
        if draw.chance(0.3):
            acts.append(lambda: self.turn(dealer, 20))
        draw.shuffle(acts)
        for act in acts:
            act()
        return None

    def contest(self) -> None:
        """The dealers of an open room quote close to one another, some once more, and one of them is hit."""
        draw = self.draw
        able = [
            (room, self.venue.rooms[room])
            for room in self.venue.rooms
            if self.venue.rooms[room].takes()
        ]
        if not able:
            return self.ask()
        (firm, n), room = draw.choice(able)
        for dealer in draw.choices(room.dealers, k=len(room.dealers) + 1):
            request = self.venue.dealer_desk(dealer).request_in((firm, n))
            if request:
                self.quote_again(dealer, request)
                self.turn(dealer, 2)
        shown = [
            quote
            for quote in self.venue.investor_desk(firm).shown
            if quote.request.n == n and not quote.gone
        ]
        if shown:
            self.hit_quote(firm, draw.choice(shown))
            self.turn(firm, draw.of(1, 20))
        return None

    def quote_again(self, dealer: int, request: Request) -> None:
        ask, name = request.ask, "q%d" % (len(self.venue.dealer_desk(dealer).quotes) + 1)
        price = (133 if ask.side == 1 else 132, self.price(request))
        self.message(
            dealer,
            "S",
            [(117, name), (131, "R%d" % request.k), (48, ask.bond.decode()), (22, 4), price],
        )

    def take_back(self, dealer: int, quote: Quote) -> None:
        """The dealer cancels or replaces a quote of its own."""
        request, what = quote.request, self.draw.randrange(3)
        if what == 0:
            self.message(dealer, "Z", [(298, 5), (117, quote.id.decode())])
        elif what == 1:
            self.message(dealer, "Z", [(298, 4)])
        else:
            self.quote_again(dealer, request)

    def likely(self, rows: list[Row], fits: Callable[[Row], bool]) -> Row | None:
        """One of the rows, of those that fit for the most part; None where there are none."""
        fitting = [row for row in rows if fits(row)]
        if fitting and self.draw.chance(0.9):
            return self.draw.choice(fitting)
        return self.draw.choice(rows[-4:]) if rows else None

    def price(self, request: Request | None) -> str:
        draw = self.draw
        if draw.chance(0.03):
            return draw.choice(BAD_PRICES)
        grid = request.ask.grid if request and draw.chance(0.9) else draw.of(32, 64, 128, 256)
        step = 256 // grid
        return spelled_price(draw, MIDDLE + draw.randint(-self.spread, self.spread) * step)

    def extras(self, request: Request | None) -> list[tuple[int, int | str]]:
        """Fields of a quote that need not be there."""
        draw = self.draw
        fields: list[tuple[int, int | str]] = []
        quantity = request.ask.quantity if request else 5
        for tag in (134, 135):
            if draw.chance(0.1):
                fields.append(
                    (
                        tag,
                        quantity_text(draw, quantity)
                        if draw.chance(0.8)
                        else draw.choice(BAD_QUANTITIES),
                    )
                )
        if draw.chance(0.1):
            fields.append((537, draw.of(1, 1, "01", 0, 2)))
        if draw.chance(self.until):
            until = min(
                86_399_999,
                max(0, self.moment + draw.of(-1, 0, 1, 2_000, 20_000, 20_000, 600_000, 600_000)),
            )
            fields.append((62, moment_text(self.configuration.date, until).decode()))
        return fields

    def dealer_and_quote(self) -> tuple[int | None, Quote | None]:
        able = [firm for firm in self.dealers() if self.venue.dealer_desk(firm).quotes]
        if not able:
            return None, None
        firm = self.draw.choice(able)
        return firm, self.likely(self.venue.dealer_desk(firm).quotes, lambda quote: quote.is_live())

    def cancel(self) -> None:
        firm, quote = self.dealer_and_quote()
        if firm is None or quote is None:
            return self.quote()
        name = quote.id.decode() if self.draw.chance(0.95) else self.draw.of("none", "q1")
        return self.message(
            firm, "Z", [(298, self.draw.of(5, 5, 5, 5, 5, "05", 1, 4)), (117, name)]
        )

    def cancel_all(self) -> None:
        firm, quote = self.dealer_and_quote()
        if firm is None:
            return self.quote()
        return self.message(
            firm,
            "Z",
            [(298, self.draw.of(4, 4, "004"))]
            + self.draw.of([], [], [(117, "all")], [(117, "a b")]),
        )

    def decline(self) -> None:
        able = [firm for firm in self.dealers() if self.venue.dealer_desk(firm).requests]
        if not able:
            return self.ask()
        firm = self.draw.choice(able)
        desk = self.venue.dealer_desk(firm)
        request = self.likely(
            desk.requests, lambda request: request.closed is None and not desk.live_quote(request)
        )
        assert request is not None
        return self.message(
            firm,
            "AG",
            [
                (131, "R%d" % (request.k + self.draw.of(0, 0, 0, 0, 0, 0, 5))),
                (658, self.draw.of(10, 10, 10, 10, "010", 99)),
            ],
        )

    def hit(self) -> None:
        able = [firm for firm in self.investors() if self.venue.investor_desk(firm).shown]
        if not able:
            return self.quote()
        firm = self.draw.choice(able)
        quote = self.likely(
            self.venue.investor_desk(firm).shown,
            lambda quote: quote.request.is_open() and not quote.gone,
        )
        assert quote is not None
        return self.hit_quote(firm, quote)

    def hit_quote(self, firm: int, quote: Shown) -> None:
        name = (
            "Q%d" % quote.k if self.draw.chance(0.96) else self.draw.of("Q0", "Q01", "Q999", "q1")
        )
        return self.message(
            firm,
            "AJ",
            [(693, "h%d" % self.draw.randrange(99)), (117, name), (694, 1)]
            + self.draw.of([], [], [], [(131, "x")]),
        )

    def leave(self) -> None:
        able = [firm for firm in self.investors() if self.venue.investor_desk(firm).requests]
        if not able:
            return self.ask()
        firm = self.draw.choice(able)
        request = self.draw.choice(self.venue.investor_desk(firm).requests[-3:])
        name = request.id.decode() if self.draw.chance(0.95) else self.draw.of("none", "A1")
        return self.message(
            firm,
            "AJ",
            [(693, "p"), (694, 6), (131, name)] + self.draw.of([], [], [], [(117, "Q1")]),
        )

    def sweep(self) -> None:
        if self.draw.chance(0.3):
            return self.put(b"clock " + moment_word(self.draw, self.clock_moment()).encode())
        able = [firm for firm in self.investors() if self.venue.investor_desk(firm).requests]
        if not able:
            if self.investors():
                self.put(
                    b"expire %s 1 %s"
                    % (self.configuration.firms[self.investors()[0]].name, time_text(self.moment))
                )
            return
        firm = self.draw.choice(able)
        request = self.draw.choice(self.venue.investor_desk(firm).requests[-3:])
        moment = self.draw.choice(
            [self.moment, request.ask.deadline, request.ask.deadline - 1, request.ask.deadline + 1]
        )
        moment = min(86_399_999, max(0, moment))
        if self.draw.chance(0.5):
            self.moment = moment
        n = (
            request.n
            if self.draw.chance(0.9)
            else self.draw.randint(1, self.configuration.investor(firm).requests)
        )
        self.put(
            b"expire %s %d %s"
            % (self.configuration.firms[firm].name, n, moment_word(self.draw, moment).encode())
        )

    def clock_moment(self) -> int:
        """A moment about the earliest deadline, or about now."""
        deadline = self.venue.first_deadline()
        moment = (
            self.moment
            if deadline is None or self.draw.chance(0.3)
            else deadline + int(self.draw.of(-1, 0, 0, 1))
        )
        moment = min(86_399_999, max(0, moment))
        if self.draw.chance(0.5):
            self.moment = max(moment, self.moment)
        return moment

    def noise(self) -> None:
        """Bytes that are no frame, or a message of a type that is not the firm's."""
        if not self.firms:
            return None
        firm = self.draw.choice(self.firms)
        data = self.draw.of(
            b"x",
            b"8=FIXT.1.1|9=5|35=R|10=000|",
            b" ",
            b"8=FIX.4.4|9=5|35=S|10=000|",
            b"\xff\xfe",
            b"|",
            b"%%",
        )
        if self.draw.chance(0.5):
            return self.deliver(
                "hex",
                firm,
                data + self.draw.of(b"", b"\n", b"\r", b"|", b"\n%%\n", b"x" * 5000, b"\x00"),
            )
        if self.draw.chance(0.5):
            return self.put(
                b"in %s %s %s" % (self.configuration.firms[firm].name, time_text(self.moment), data)
            )
        return self.message(
            firm, self.draw.of("S", "R", "Z", "AG", "AJ", "0"), [(117, "x"), (298, 5), (131, "R1")]
        )


def with_any_bytes(draw: Draw, fields: list[tuple[int, bytes]]) -> list[tuple[int, bytes]]:
    """A field more, or another value of one, of any bytes but the one that ends it."""
    value = bytes(draw.choice(ANY_BYTES) for _ in range(draw.of(1, 1, 3, 20)))
    value += draw.of(b"", b"", b"|34=7", b"\n%%", b"\nsay DLR1 T1 09:00:00 Z 298=4", b"\r", b"\r\n")
    if draw.chance(0.2):
        place = draw.randrange(len(fields))
        return fields[:place] + [(fields[place][0], value)] + fields[place + 1 :]
    place = draw.randint(1, len(fields))
    return fields[:place] + [(58, value)] + fields[place:]


ANY_BYTES = [byte for byte in range(256) if byte != 1]


def respelled(data: bytes, length: bytes, draw: Draw) -> bytes:
    """A frame with another spelling of its length, and its sum right again or not."""
    start, _, rest = data.partition(b"9=")
    number, _, rest = rest.partition(SOH)
    body = rest[:-7]
    if not read_fields(body, SOH):
        return data
    head = start + b"9=" + length % int(number) + SOH + body
    total = sum(head) + draw.of(0, 0, 0, 1)
    return head + b"10=%03d" % (total % 256) + SOH
