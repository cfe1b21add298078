"""Draws inputs that no venue produces: spoilt configurations, due lists made up, spoilt inputs, wrong arguments."""

from __future__ import annotations

from typing import TYPE_CHECKING

from .days import OPENING, draw_configuration, moment_word, spelled_price, spoil
from .frames import moment_text, time_text
from .lines import LineFault, read_due_text
from .replay import alone

if TYPE_CHECKING:
    from .days import Day, Draw

BAD_ENDS = [
    "",
    "low = 99",
    "low = 99.5",
    "high = true",
    "high = []",
    'low = ""',
    'low = "99-16"',
    'high = "x"',
    'high = "9e1"',
    'low = "0"',
    'low = "-1"',
    'high = "1000"',
    'high = "99.501"',
    'low = "99.50390625"',
    'high = "99.50390625"',
    'low = "0.00390625"',
    'high = "999.99609375"',
    'low = "0099.50"',
    'high = "99.5"',
    'high = "99."',
    'low = "100"',
    'high = "1234567890123456"',
]
BAD_LINES = {
    "version": [
        "",
        "version = 0",
        "version = 3",
        "version = 4",
        'version = "1"',
        "version = 1.0",
        "version = true",
        "version = -1",
        "version = []",
        "version = 99999999999999999999",
        "version = 9223372036854775807",
        "version = 0x1",
        "version = 1_0",
        "version = +1",
    ],
    "date": [
        "",
        "date = ",
        "date = 20250314",
        'date = "2025031"',
        'date = "20251314"',
        'date = "20250300"',
        'date = "20250332"',
        'date = "20250014"',
        'date = "2025031x"',
        "date = 2025-03-14",
        'date = ""',
        'date = "202503140"',
        "date = '20250314'",
    ],
    "id": [
        "",
        'id = "bond"',
        'id = "BONDA000000"',
        'id = "BONDA00000011"',
        "id = 5",
        'id = "BONDa0000001"',
        'id = ""',
        'id = "BONDA0000000"',
    ],
    "grid": [
        "",
        "grid = 0",
        "grid = 16",
        "grid = 512",
        'grid = "32"',
        "grid = 32.0",
        "grid = -32",
        "grid = 64",
        "grid = true",
    ],
    "low": BAD_ENDS,
    "high": BAD_ENDS,
    "name": [
        "",
        'name = "dlr1"',
        'name = "1A"',
        'name = "VENUE"',
        'name = "CLOCK"',
        'name = "ABCDEFGHI"',
        'name = ""',
        "name = 5",
        'name = "DLR1"',
        'name = "INV1"',
        'name = "DLR2"',
        'name = "\\u0044LR1"',
        'name = ["DLR1"]',
    ],
    "traders": [
        "",
        "traders = []",
        'traders = "T1"',
        'traders = ["T1", "T1"]',
        'traders = ["t1", 5]',
        'traders = [5, "t1"]',
        'traders = ["T1", 5, "t1"]',
        "traders = [[]]",
        'traders = ["VENUE"]',
        'traders = ["ABCDEFGHI"]',
        'traders = ["T1",]',
        "traders = [%s]" % ", ".join('"T%d"' % n for n in range(17)),
        "traders = [%s]" % ", ".join('"T%d"' % n for n in range(16)),
        "traders = [%s]" % ", ".join(["5"] * 17),
    ],
    "quotes": [
        "",
        "quotes = 0",
        "quotes = 4096",
        "quotes = 4097",
        "quotes = -1",
        'quotes = "4"',
        "quotes = 4.0",
        "quotes = true",
        "quotes = 1e3",
    ],
    "exposure": [
        "",
        "exposure = 0",
        "exposure = 1000000000000000",
        "exposure = 1000000000000001",
        "exposure = 1.5",
        "exposure = 9223372036854775808",
    ],
    "requests": [
        "",
        "requests = 0",
        "requests = 1024",
        "requests = 1025",
        'requests = "x"',
        "requests = false",
        "requests = 0o17",
    ],
    "open": ["", "open = 0", "open = 1024", "open = 1025", "open = 1.0", "open = {}"],
    "quantity": [
        "",
        "quantity = 0",
        "quantity = 1000000000000",
        "quantity = 1000000000001",
        "quantity = inf",
        "quantity = nan",
    ],
}
OTHER_LINES = [
    "[",
    "x",
    "[bond]",
    "[[bond]]",
    "[[dealer]]",
    "[[investor]]",
    "bond = 5",
    "bond = []",
    "dealer = [1]",
    "dealer = 'x'",
    "investor = {}",
    "investor = []",
    "unknown = 1979-05-27T07:32:00Z",
    "[other]",
    "[[other]]",
    "a.b = 1",
    "bond.x = 1",
    "version = 1",
    "\ta = 1 # c",
    'x = """',
    "x = '''",
    "'quoted' = 1",
    '"name" = "DLR9"',
    "x = 1\r",
    "x = [1,\n 2]",
    "\u00e9 = 1",
    '"\u00e9" = 1',
    "x = 1__0",
    "x = 01",
    "x = 0xFF",
    "x = +0.0",
    "x = 1.",
    "x = .5",
    "x = {a = 1}",
    "x = 07:32:00",
]


def spoilt_configuration(draw: Draw) -> list[str]:
    """A configuration with one or two faults, or things that are none."""
    lines = draw_configuration(draw)
    for _ in range(draw.of(1, 1, 1, 2)):
        places = [n for n, line in enumerate(lines) if line.split(" ")[0] in BAD_LINES]
        if draw.chance(0.8) and places:
            place = draw.choice(places)
            lines[place] = draw.choice(BAD_LINES[lines[place].split(" ")[0]])
        elif draw.chance(0.5):
            lines.insert(draw.randint(0, len(lines)), draw.choice(OTHER_LINES))
        else:
            lines[draw.randrange(len(lines))] = draw.choice(OTHER_LINES)
    return lines


def crowded_configuration(draw: Draw) -> list[str]:
    """At or past the limits of rows and sums."""
    version, count = draw.of(1, 2, 3), draw.of(15, 16, 17, 63, 64, 65)
    lines = ["version = %d" % version, 'date = "20250314"']
    for n in range(draw.of(1, 1, 1, 1024, 1025)):
        lines += ["[[bond]]", 'id = "BOND%08d"' % n] + (["grid = 256"] if version > 1 else [])
    for n in range(draw.of(1, count)):
        lines += [
            "[[dealer]]",
            'name = "D%d"' % n,
            'traders = ["T1"]',
            "quotes = %d" % draw.of(4096, 4096, 4096, 4095),
            "exposure = 5",
        ]
    for n in range(draw.of(1, 3, 4, 5, count)):
        lines += [
            "[[investor]]",
            'name = "I%d"' % n,
            'traders = ["T1"]',
            "requests = %d" % draw.of(1024, 1024, 1),
            "open = 5",
            "quantity = 9",
        ]
    return lines


# ---------------------------------------------------------------- due lists that no venue brings about


BANDS = (
    " 99 99.07421875",
    " 99 99",
    " 099.00 99.25",
    " 99.00390625 999.99609375",
    " 0.00390625 999.99609375",
    " 99.25 99",
)


class MadeUp:
    """Due text of one dealer, drawn along the desk that the model makes of it."""

    def __init__(self, draw: Draw) -> None:
        self.draw, self.moment = draw, OPENING
        quotes, exposure = draw.choice([1, 2, 4, 4096]), draw.of(1, 2_000_000, 4_000_000, 10**15)
        traders = draw.of("T1", "T1 T2", "VENUE", " ".join("T%d" % n for n in range(1, 17)))
        self.lines = ["date 20250314", "dealer DLR1 %d %d %s" % (quotes, exposure, traders)]
        if draw.chance(0.2):
            self.lines.insert(draw.randint(0, 2), draw.of("", "# x", "#"))
        self.faulty, self.traders, self.number = (
            draw.choice([0, 0.05, 0.3, 0.6]),
            traders.split(" "),
            1,
        )
        self.desk, self.ended = alone(*read_due_text(self.text().split(b"\n"), 1)), False
        for _ in range(draw.randint(0, 30)):
            self.go_on()

    def text(self) -> bytes:
        return b"\n".join(line.encode() for line in self.lines)

    def put(self, line: str) -> None:
        self.lines.append(line)
        try:
            self.desk = alone(*read_due_text(self.text().split(b"\n"), 1))
        except LineFault:
            if self.draw.chance(0.98):
                self.lines.pop()
            else:
                self.ended = True

    def go_on(self) -> None:
        draw = self.draw
        if self.ended:
            return
        self.moment = max(0, min(86_399_999, self.moment + draw.of(0, 1, 1_000, 60_000, -1_000)))
        acts = (
            [self.quote] * 6
            + [self.shown] * 2
            + [
                self.lifted,
                self.closed,
                self.drop,
                self.drop,
                self.cancel,
                self.cancel,
                self.decline,
                self.odd,
            ]
        )
        if not self.desk.requests and draw.chance(0.8):
            acts = [self.shown]
        draw.choice(acts)()

    def time(self) -> str:
        return moment_word(self.draw, self.moment)

    def shown(self) -> None:
        draw = self.draw
        quantity = draw.of("1", "2000000", "02000000", "1000000000000")
        deadline = time_text(min(86_399_999, self.moment + draw.of(0, 60_000, 600_000))).decode()
        words = [
            draw.of("INV1", "INV2", "DLR1", "A"),
            draw.of("BONDA0000001", "BONDB0000002"),
            draw.of("1", "2"),
            quantity,
            deadline,
            self.time(),
        ]
        grid = draw.of("", "", " 32", " 64", " 128", " 256", " 00256")
        band = draw.of("", "", *BANDS) if grid else ""
        self.put("shown " + " ".join(words) + grid + band)

    def message(self, kind: str, fields: list[tuple[int, str | int]]) -> None:
        draw, texts = self.draw, [(tag, str(value)) for tag, value in fields]
        while draw.chance(self.faulty):
            texts = spoil(draw, texts)
        texts.append((34, self.desk.inbox.expected if draw.chance(0.97) else draw.of(1, "x", 0)))
        body = "|".join("%d=%s" % field for field in texts)
        self.put("say %s %s %s %s" % (draw.choice(self.traders), self.time(), kind, body))

    def quote(self) -> None:
        draw, desk = self.draw, self.desk
        request = draw.choice(desk.requests) if desk.requests else None
        ask = request.ask if request else None
        name = "q%d" % (len(desk.quotes) + 1) if draw.chance(0.9) else "q1"
        step = 256 // ask.grid if ask and draw.chance(0.95) else 1
        price = spelled_price(draw, 25_344 + step * draw.randrange(20))
        fields: list[tuple[int, str | int]] = [
            (117, name),
            (131, "R%d" % (request.k if request else 1)),
            (48, ask.bond.decode() if ask else "BONDA0000001"),
            (22, 4),
        ]
        fields.append((133 if ask and ask.side == 1 else 132, price))
        if draw.chance(0.1):
            fields.append(
                (62, moment_text(b"20250314", max(0, self.moment + draw.of(0, 1, 60_000))).decode())
            )
        self.message("S", fields)

    def cancel(self) -> None:
        name = self.draw.choice(self.desk.quotes).id.decode() if self.desk.quotes else "q1"
        self.message(
            "Z",
            self.draw.of(
                [(298, 5), (117, name)],
                [(298, 5), (117, name)],
                [(298, 4)],
                [(298, 4), (117, name)],
            ),
        )

    def decline(self) -> None:
        self.message(
            "AG", [(131, "R%d" % self.draw.randint(1, len(self.desk.requests) + 1)), (658, 10)]
        )

    def lifted(self) -> None:
        self.put("lifted %d" % self.draw.randint(0, len(self.desk.quotes) + 2))

    def closed(self) -> None:
        k = self.draw.randint(0, len(self.desk.requests) + 1)
        self.put("closed %d %s %s" % (k, self.draw.of("1", "1", "3", "4", "5", "6"), self.time()))

    def drop(self) -> None:
        self.put("drop %d %s" % (self.draw.randint(0, len(self.desk.quotes) + 1), self.time()))

    def odd(self) -> None:
        if self.draw.chance(0.5):
            return self.put(
                "hex %s %s"
                % (self.time(), self.draw.of("7c", "0a", "0D", "380a7C", "41" * 4097, "00ff", "7"))
            )
        return self.put(
            self.draw.of(
                "own %s 8=FIXT.1.1|9=5|35=R|10=000|",
                "own %s  x",
                "closed 99 1 %s",
                "closed 000000001 4 %s",
                "drop 999999999 %s",
                "drop 0 %s",
                "own %s |",
                "closed 0 6 %s",
            )
            % self.time()
        )


# ---------------------------------------------------------------- streams


STREAM_FIRMS = [
    "version = 1",
    'date = "20250314"',
    "[[dealer]]",
    'name = "DLR1"',
    'traders = ["T1"]',
    "quotes = 4",
    "exposure = 5",
    "[[investor]]",
    'name = "INV1"',
    'traders = ["T8"]',
    "requests = 4",
    "open = 4",
    "quantity = 5",
]


def stream(draw: Draw) -> bytes:
    """Bytes of a stream of messages, the last of which may be at fault, with bars for the byte 0x01."""
    pieces = []
    for number in range(1, draw.randint(2, 4)):
        body = b"35=Z|49=DLR1|56=VENUE|34=%d|52=20250314-09:00:00|50=T1|298=5|117=x%s|" % (
            number,
            b"x" * draw.of(0, 0, 0, 3985, 3990, 3991),
        )
        size = draw.of(b"%d", b"%d", b"%03d", b"%05d", b"%06d") % len(body)
        if draw.chance(0.15):
            size = draw.of(
                b"%07d" % len(body),
                b"",
                b"x",
                b"1x",
                b"%d" % (len(body) + 1),
                b"%d" % (len(body) - 1),
                b"4071",
                b"4072",
                b"999999",
                b"0",
            )
        data = b"8=FIXT.1.1|9=%s|%s" % (size, body)
        total = b"%03d" % (sum(data.replace(b"|", b"\x01")) % 256)
        if draw.chance(0.15):
            total = draw.of(b"000", b"00", b"0000", b"x00", b"00x")
        data += b"10=%s|" % total
        if draw.chance(0.1):
            place = draw.randrange(len(data))
            data = data[:place] + draw.of(b"", b"9", b"|", b"8=", b"x") + data[place + 1 :]
        pieces.append(data)
    return b"".join(pieces)


def stream_lines(draw: Draw) -> bytes:
    """Steps of streams, cut in pieces."""
    lines = []
    for name in draw.of([b"DLR1"], [b"DLR1"], [b"DLR1", b"INV1"]):
        data = stream(draw)
        while data:
            size = draw.choice([1, 2, 3, 5, 8, 13, 14, 15, 20, 21, 100, 2000, len(data), len(data)])
            lines.append(b"piece %s 09:00:0%d %s" % (name, draw.randrange(10), data[:size]))
            data = data[size:]
            if draw.chance(0.05):
                break
    if draw.chance(0.3):
        draw.shuffle(lines)
    return b"\n".join(lines)


# ---------------------------------------------------------------- inputs spoilt as bytes and as lines


def spoilt_input(draw: Draw, data: bytes) -> bytes:
    lines = data.split(b"\n")
    for _ in range(draw.of(1, 1, 1, 2, 5)):
        what, place = draw.randrange(8), draw.randrange(len(lines))
        if what == 0:
            del lines[place]
            lines = lines or [b""]
        elif what == 1:
            lines.insert(draw.randint(0, len(lines)), lines[place])
        elif what == 2:
            lines.insert(draw.randint(0, len(lines)), lines.pop(place))
        elif what == 3:
            lines.insert(place, draw.choice(ODD_LINES + LATER_ODD_LINES * 2))
        elif what == 4:
            words = lines[place].split(b" ")
            lines[place] = spoilt_words(draw, words)
        elif lines[place]:
            line, at = bytearray(lines[place]), draw.randrange(len(lines[place]))
            line[at : at + draw.of(0, 1)] = draw.of(
                b"", b" ", b"|", b"0", b"9", b"A", b"=", b"\x01", b"\xc3", b"\r", b":", b".", b"-"
            )
            lines[place] = bytes(line)
    return b"\n".join(lines)


def spoilt_words(draw: Draw, words: list[bytes]) -> bytes:
    place = draw.randrange(len(words))
    what = draw.randrange(3)
    if what == 0:
        del words[place]
    elif what == 1:
        words.insert(place, words[place])
    else:
        words[place] = draw.choice(ODD_WORDS)
    return b" ".join(words)


ODD_WORDS = [
    b"",
    b"CLOCK",
    b"DLR1",
    b"INV1",
    b"NOBODY",
    b"0",
    b"1",
    b"1000",
    b"1001",
    b"0001",
    b"1000000000",
    b"999999999",
    b"000000001",
    b"09:00:00",
    b"09:00:00.000",
    b"09:00:00.00",
    b"24:00:00",
    b"09:60:00",
    b"9:00:00",
    b"say",
    b"in",
    b"turn",
    b"expire",
    b"piece",
    b"R",
    b"T1",
    b"T|1",
    b"x" * 60,
    b"32",
    b"33",
    b"256",
    b"1=",
    b"1=|",
    b"|",
    b"01=x",
    b"8=x",
    b"1234567890=x",
    b"123456789=x",
    b"=x",
    b"x",
]
ODD_LINES = [
    b"",
    b"#",
    b"# turn",
    b" ",
    b"%%",
    b"%% ",
    b" %%",
    b"turn CLOCK 1",
    b"turn CLOCK 0",
    b"turn CLOCK 1001",
    b"turn DLR1 0001",
    b"turn NOBODY 1",
    b"expire INV1 0 09:00:00",
    b"expire DLR1 1 09:00:00",
    b"expire CLOCK 1 09:00:00",
    b"expire INV1 1024 09:00:00",
    b"expire INV1 1025 23:59:59.999",
    b"in DLR1 09:00:00  ",
    b"in DLR1 09:00:00 ",
    b"in DLR1 09:00:00",
    b"in CLOCK 09:00:00 x",
    b"piece DLR1 09:00:00 8",
    b"piece INV1 09:00:00 x",
    b"piece DLR1 09:00:00 8=FIXT.1.1|9=5|35=R|10=000|",
    b"piece DLR1 09:00:00 8=FIXT.1.1|9=5|35=R|10=00x|",
    b"piece DLR2 09:00:00 8=FIXT.1.1|9=4072|",
    b"piece DLR2 09:00:00 8=FIXT.1.1|9=4071|",
    b"piece INV1 09:00:00 8=FIXT.1.1|9=|",
    b"piece INV1 09:00:00 8=FIXT.1.1|9=0000001",
    b"piece INV1 09:00:00 8=FIXT.1.1|9=000001",
    b"piece NOBODY 09:00:00 x",
    b"piece CLOCK 09:00:00 x",
    b"say DLR1 T1 09:00:00 S 117=a",
    b"say CLOCK T1 09:00:00 S 117=a",
    b"say DLR1  09:00:00 S 117=a",
    b"say DLR1 T1 09:00:00 S ",
    b"say DLR1 T1 09:00:00 S |",
    b"say DLR1 T1 09:00:00 S 117=a||",
    b"say DLR1 T1 09:00:00 S 117=a|",
    b"say DLR1 T1 09:00:00 S 10=a",
    b"say DLR1 T1 09:00:00 S 0117=a",
    b"say DLR1 T1 09:00:00 S 117=a b|131=R1",
    b"say DLR1 T1 09:00:00 S 58=" + b"x" * 3980,
    b"say DLR1 T1 09:00:00 S 58=" + b"x" * 4010,
    b"say DLR1 T1 09:00:00 S 117=\x01",
    b"say DLR1 T1 09:00:00 35=S 117=a",
    b"date 20250314",
    b"lifted 1",
    b"lifted 1000000000",
    b"closed 1 2 09:00:00",
    b"drop 1 09:00:00",
    b"say T1 09:00:00 S 117=a",
    b"say T1 09:00:00 S 58=" + b"x" * 3990,
    b"own 09:00:00 ",
    b"shown INV1 BONDA0000001 1 1 09:00:00 09:00:00 16",
    b"shown VENUE BONDA0000001 1 1 09:00:00 09:00:00",
    b"shown INV1 BONDA0000001 1 1 09:00:00 09:00:00 256 99",
    b"shown INV1 BONDA0000001 1 1 09:00:00 09:00:00 256 99 99.501",
    b"shown INV1 BONDA0000001 1 1 09:00:00 09:00:00 256 100 99",
    b"shown INV1 BONDA0000001 1 1 09:00:00 09:00:00 256 99 100 101",
    b"shown INV1 BONDA0000001 1 1 09:00:00 09:00:00 99 100",
]


LATER_ODD_LINES = [
    b"clock",
    b"clock ",
    b"clock 09:00:00 ",
    b"clock 24:00:00",
    b"clock 23:59:59.999",
    b"clock CLOCK 09:00:00",
    b"clock 09:00:00",
    b"clock  09:00:00",
    b"hex DLR1 09:00:00 ",
    b"hex DLR1 09:00:00",
    b"hex DLR1 09:00:00 0",
    b"hex DLR1 09:00:00 0g",
    b"hex DLR1 09:00:00 00",
    b"hex DLR1 09:00:00 aA",
    b"hex NOBODY 09:00:00 00",
    b"hex NOBODY 09:00:00 000",
    b"hex CLOCK 09:00:00 00",
    b"hex DLR1 09:00:00  00",
    b"hex DLR1 09:00:00 00 00",
    b"hex INV1 09:00:00 " + b"41" * 4097,
    b"hex DLR1 25:00:00 00",
    b"hex 09:00:00 7c",
    b"hex 09:00:00 7C0a0D",
    b"hex 09:00:00 7",
    b"hex 09:00:00 ",
    b"own 09:00:00 \r",
    b"in INV1 09:00:00 x\r",
    b"hex DLR1 09:00:00 0x",
    b"hex DLR1 09:00:00 +1",
    b"hex DLR1 09:00:00 \xd9\xa1",
]


def exact_frames(draw: Draw, day: Day) -> bytes:
    """A `say` line whose frame has about 4,096 bytes."""
    name = draw.choice([row.name for row in day.configuration.firms] or [b"NOBODY"])
    head = b"say %s T1 09:00:00 S 58=" % name
    return head + b"x" * (
        4096
        - 13
        - 5
        - 7
        - 5
        - len(b"49=%s|56=VENUE|34=1|52=20250314-09:00:00.000|50=T1|58=|" % name)
        + draw.randint(-2, 2)
    )


WRONG_ARGUMENTS = [
    ["--frames"],
    ["x"],
    [""],
    ["alone", "x"],
    ["due"],
    ["dues", "--frames"],
    ["dues", "A"],
    ["due", "A", "B"],
    ["compare"],
    ["blotter"],
    ["replay", "A", "B"],
    ["replay", "--x"],
    ["due", "DLR1", "--frames"],
    ["replay", "--frames", "--frames"],
    ["compare", "DLR1", "--frames"],
    ["blotter", "INV1", "--frames"],
    ["alone", "--woven"],
    ["replay", "--woven"],
    ["Replay"],
    ["alone", "--Frames"],
    ["replay", "-f"],
    ["live", "x"],
    ["--", "alone"],
    ["replay", b"\xff"],
    [b"\xff"],
    ["due", b"\xff"],
    ["alone", "--frames=1"],
    ["--frames", "alone"],
    ["live", "--live"],
    ["replay", "--marks"],
    ["live", "--marks", "--marks"],
    ["replay", "--live", "--live"],
    ["alone", "--live"],
    ["--live", "replay"],
    ["due", "--live"],
    ["dues", "--live", "--live"],
    ["compare", "--live"],
    ["live", "--marks", "x"],
    ["day", "--live"],
    ["live", "--mark"],
    ["due", "--investor"],
    ["compare", "--investor"],
    ["due", "--investor", "--investor", "INV1"],
    ["dues", "--investor"],
    ["replay", "--investor", "INV1"],
    ["due", "--investor", "INV1", "DLR1"],
    ["due", "--investor=INV1"],
    ["blotter", "--investor", "INV1"],
]
