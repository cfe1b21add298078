"""Checks laws of investors, and of dealers that hear nothing, with the model, on days that are drawn.

`views`: what an investor was sent is its view of what was due to it, on days drawn as for `compare.py`.
`silence`: two days on which nobody hits, and which are one but for the steps of other dealers: what was
due to a dealer is one list in both. `apart`: two days whose steps come one by one, and which are one on
one side of the venue: the list of each firm there is one in both, and so are its messages. A pair whose
steps are the same counts for nothing. `channels`: why a side is more than two investors that ask no dealer
in common, and why no duties of the clock may be left: in two small days of each kind the lists differ.
`threads`: as `views`, on days that `PROGRAM day` ran on threads: the list is that of an order of their
actions that gives what was printed, which `orders.py` finds.
"""

from __future__ import annotations

from collections.abc import Callable

from .actions import message_of
from .configuration import Configuration, read_configuration
from .days import Day, Draw
from .lawful import ran
from .lines import LineFault, StepReader
from .live import LiveDay
from .prices import price_text
from .replay import Venue, investor_alone, seen_by

Lines = list[bytes]
BONDS = ("BONDA0000001", "BONDB0000002")
LOW, HIGH = "99.5", "99.96875"  # a band that has all prices of the days but the highest


# ---------------------------------------------------------------- views


def views(seed: int) -> tuple[int, list[str]]:
    """How many messages the investors of a day were sent, and those whose view differs."""
    day = Day(Draw(seed))
    venue, faults, sent = day.venue, [], 0
    for firm in day.investors():
        desk = investor_alone(seen_by(day.configuration, firm), venue.due[firm])
        sent += len(desk.sent)
        if desk.frames() != venue.desks[firm].frames():
            faults.append("the view of %s" % venue.desks[firm].row.name.decode())
    return sent, faults


# ---------------------------------------------------------------- drawn lines


class Story:
    """Lines of some firms of a venue: each a firm and its line, in the order of their moments."""

    def __init__(
        self,
        draw: Draw,
        configuration: Configuration,
        asked: Callable[[int], list[int]],
        hits: bool,
    ) -> None:
        self.draw, self.configuration, self.asked, self.hits = draw, configuration, asked, hits
        self.counts: dict[int, int] = {}
        self.lines: list[tuple[float, int, bytes]] = []

    def fill(self, firms: list[int], most: int) -> None:
        for firm in firms:
            act = self.of_dealer if self.configuration.is_dealer(firm) else self.of_investor
            for _ in range(self.draw.randint(0, most)):
                at = self.draw.random()
                self.lines.append((at, firm, b""))
            times = sorted(at for at, who, _ in self.lines if who == firm)
            self.lines = [line for line in self.lines if line[1] != firm]
            self.lines += [(at, firm, act(firm, self.time(at))) for at in times]

    @staticmethod
    def time(at: float) -> str:
        return "09:00:%02d" % int(at * 50)

    def say(self, firm: int, time: str, kind: str, body: str) -> bytes:
        row = self.configuration.firms[firm]
        return (
            "say %s %s %s %s %s" % (row.name.decode(), row.traders[0].decode(), time, kind, body)
        ).encode()

    def count(self, firm: int) -> int:
        self.counts[firm] = self.counts.get(firm, 0) + 1
        return self.counts[firm]

    def of_dealer(self, firm: int, time: str) -> bytes:
        draw, n, k = self.draw, self.draw.randint(1, 3), self.count(firm)
        until = draw.of("", "", "", "|62=20250314-09:00:20")
        price = price_text(25_600 - draw.randint(0, 3) * 8).decode()
        quote = "117=q%d|131=R%d|48=%s|22=4|13%d=%s%s" % (
            k,
            n,
            draw.of(*BONDS),
            draw.of(2, 3),
            price,
            until,
        )
        what = draw.choice(["S"] * 8 + ["Z", "Z", "A", "AG", "x"])
        if what == "S":
            return self.say(firm, time, "S", quote)
        if what == "Z":
            return self.say(firm, time, "Z", "117=q%d|298=5" % draw.randint(1, k))
        if what == "A":
            return self.say(firm, time, "Z", "298=4")
        if what == "AG":
            return self.say(firm, time, "AG", "131=R%d|658=10" % n)
        return b"in %s %s no frame" % (self.configuration.firms[firm].name, time.encode())

    def of_investor(self, firm: int, time: str) -> bytes:
        draw, k = self.draw, self.count(firm)
        what = draw.choice(["R"] * 3 + (["hit"] * 4 if self.hits else []) + ["pass"])
        if what == "hit":
            return self.say(firm, time, "AJ", "693=h%d|694=1|117=Q%d" % (k, draw.randint(1, 4)))
        if what == "pass":
            return self.say(firm, time, "AJ", "693=p%d|694=6|131=a%d" % (k, draw.randint(1, k)))
        names = [self.configuration.firms[dealer].name.decode() for dealer in self.asked(firm)]
        if not names:
            return self.say(firm, time, "AJ", "693=p%d|694=6|131=none" % k)
        chosen = draw.sample(names, draw.randint(1, len(names)))
        parties = "".join("|448=%s|447=D|452=35" % name for name in chosen)
        body = "131=a%d|146=1|48=%s|22=4|54=%d|38=1000000|126=20250314-09:00:%02d|453=%d%s"
        return self.say(
            firm,
            time,
            "R",
            body % (k, draw.of(*BONDS), draw.of(1, 2), draw.of(15, 30, 55), len(chosen), parties),
        )


def dealer_limits(draw: Draw) -> tuple[int, int]:
    return draw.of(2, 5, 40), draw.of(1_000_000, 2_000_000, 9_000_000)


def drawn_head(draw: Draw, limits: list[tuple[int, int]], investors: int) -> Lines:
    lines = ["version = 3", 'date = "20250314"']
    for bond in BONDS:
        lines += ["[[bond]]", 'id = "%s"' % bond, "grid = 32"]
        lines += draw.of([], ['low = "%s"' % LOW, 'high = "%s"' % HIGH])
    for n, (quotes, exposure) in enumerate(limits, 1):
        lines += ["[[dealer]]", 'name = "DLR%d"' % n, 'traders = ["T1"]']
        lines += ["quotes = %d" % quotes, "exposure = %d" % exposure]
    for n in range(1, investors + 1):
        lines += ["[[investor]]", 'name = "INV%d"' % n, 'traders = ["T1"]']
        lines += [
            "requests = %d" % draw.of(3, 20),
            "open = %d" % draw.of(1, 2, 20),
            "quantity = 5000000",
        ]
    return [line.encode() for line in lines]


def merged(*stories: Story) -> Lines:
    """The lines of stories, in the order of their moments."""
    return [line for _, _, line in sorted(part for story in stories for part in story.lines)]


# ---------------------------------------------------------------- silence


def told(configuration: Configuration, lines: Lines) -> Venue:
    """A venue after lines, in which duties are done by turns alone."""
    venue, reader = Venue(configuration), StepReader(configuration)
    for line in lines:
        for kind, *step in reader.steps(line):
            if kind == "turn":
                for _ in range(step[1]):
                    venue.turn(step[0])
            else:
                getattr(venue, kind)(*step)
    return venue


def with_turns(draw: Draw, configuration: Configuration, story: Story, firms: list[int]) -> None:
    """Turns of firms, at moments of their own."""
    for firm in firms:
        name = configuration.firms[firm].name
        story.lines += [
            (draw.random(), firm, b"turn %s %d" % (name, draw.of(1, 2, 9)))
            for _ in range(draw.randint(2, 9))
        ]


def silence(seed: int) -> tuple[int, list[str]]:
    draw = Draw(seed)
    dealers, investors = draw.randint(2, 4), draw.randint(1, 2)
    limits = [dealer_limits(draw) for _ in range(dealers)]
    configuration = read_configuration(b"\n".join(drawn_head(draw, limits, investors)))
    one, firms = draw.randrange(dealers), range(dealers + investors)
    ours = [firm for firm in firms if firm == one or firm >= dealers]
    shared = Story(draw, configuration, lambda _firm: list(range(dealers)), False)
    shared.fill(ours, 12)
    with_turns(draw, configuration, shared, ours)
    for at in (0.3, 0.6, 0.99):
        shared.lines.append((at, -1, b"clock 09:00:%02d" % int(at * 60)))
        shared.lines.append((at + 0.005, -1, b"turn CLOCK %d" % draw.of(1, 3, 50)))
    days = []
    for _ in range(2):
        others = Story(draw, configuration, lambda _firm: [], False)
        rest = [firm for firm in firms if firm not in ours]
        others.fill(rest, 20)
        with_turns(draw, configuration, others, rest)
        days.append(merged(shared, others))
    venues = [told(configuration, lines) for lines in days]
    differ = days[0] != days[1] and venues[0].due[one] != []
    lists = [venue.due[one] for venue in venues]
    sent = [venue.desks[one].frames() for venue in venues]
    return int(differ), ["lists differ"] * (lists[0] != lists[1]) + ["messages differ"] * (
        sent[0] != sent[1]
    )


# ---------------------------------------------------------------- apart


def apart(seed: int) -> tuple[int, list[str]]:
    draw = Draw(seed)
    dealers, investors = draw.randint(2, 6), draw.randint(2, 4)
    side = [firm % 2 == 0 for firm in range(dealers)] + [n % 2 == 0 for n in range(investors)]
    limits, rows = [dealer_limits(draw) for _ in range(dealers)], draw.random()
    configuration = read_configuration(b"\n".join(drawn_head(Draw(rows), limits, investors)))
    limits = [limits[firm] if side[firm] else dealer_limits(draw) for firm in range(dealers)]
    venue_too = read_configuration(b"\n".join(drawn_head(Draw(rows), limits, investors)))
    firms = range(dealers + investors)

    def asked(firm: int) -> list[int]:
        return [dealer for dealer in range(dealers) if side[dealer] == side[firm]]

    here = [firm for firm in firms if side[firm]]
    shared = Story(draw, configuration, asked, True)
    shared.fill(here, 20)
    for at in (0.35, 0.65, 0.999):
        shared.lines.append((at, -1, b"clock 09:00:%02d" % int(at * 60)))
    days = []
    for _ in range(2):
        others = Story(draw, configuration, asked, True)
        others.fill([firm for firm in firms if not side[firm]], 20)
        days.append(merged(shared, others))
    venues = [lived(configuration, days[0]), lived(venue_too, days[1])]
    faults = []
    for firm in here:
        name = configuration.firms[firm].name.decode()
        if venues[0].due[firm] != venues[1].due[firm]:
            faults.append("the list of " + name)
        if venues[0].desks[firm].frames() != venues[1].desks[firm].frames():
            faults.append("the messages of " + name)
    differ = days[0] != days[1] and any(venues[0].due[firm] for firm in here)
    return int(differ), faults


def lived(configuration: Configuration, lines: Lines) -> Venue:
    day = LiveDay(configuration)
    for line in lines:
        day.answer(line)
    return day.venue


# ---------------------------------------------------------------- channels

ASKS = "say %s T1 09:00:00 R 131=a|146=1|48=BONDA0000001|22=4|54=1|38=1000000|126=20250314-09:00:30|453=%d%s"
QUOTES = "say %s T1 09:00:05 S 117=q%d|131=R%d|48=BONDA0000001|22=4|133=99.5"
ENDS = "say %s T1 09:00:06 AJ 693=h|694=%s"


def asks(investor: str, *dealers: str) -> str:
    return ASKS % (
        investor,
        len(dealers),
        "".join("|448=%s|447=D|452=35" % name for name in dealers),
    )


def through_a_third(passes: bool) -> list[str]:
    """INV1 asks DLR1 and INV2 asks DLR2; INV3 asks both. INV1 passes, or its request stays open.

    While that stays open, DLR1's quote on it takes all of its exposure; so INV3 has no `Q2` to hit, its
    request stays open too, and DLR2's quote on it takes all of DLR2's exposure.
    """
    return [
        asks("INV1", "DLR1"),
        asks("INV3", "DLR1", "DLR2"),
        asks("INV2", "DLR2"),
        QUOTES % ("DLR1", 1, 1),
        *[ENDS % ("INV1", "6|131=a")] * passes,
        QUOTES % ("DLR1", 2, 2),
        QUOTES % ("DLR2", 1, 1),
        ENDS % ("INV3", "1|117=Q2"),
        QUOTES % ("DLR2", 2, 2),
    ]


def through_the_clock(is_asked: bool) -> list[str]:
    """INV1 asks DLR1, or it does not; INV2 asks DLR2. The clock does two duties."""
    lines = [asks("INV1", "DLR1")] * is_asked + [asks("INV2", "DLR2"), "turn INV1 9", "turn INV2 9"]
    return lines + ["expire INV1 1 09:00:30", "expire INV2 1 09:00:30", "turn CLOCK 2"]


def channels(_seed: int) -> tuple[int, list[str]]:
    limits = [(9, 1_000_000), (9, 1_000_000)]
    configuration = read_configuration(b"\n".join(drawn_head(Draw(1), limits, 3)))
    investor, faults = configuration.firm(b"INV2"), []
    assert investor is not None
    for days, run in ((through_a_third, lived), (through_the_clock, told)):
        lists = [
            run(configuration, [line.encode() for line in days(yes)]).due[investor]
            for yes in (True, False)
        ]
        if lists[0] == lists[1]:
            faults.append("no channel " + days.__name__.replace("_", " "))
    return 2, faults


# ---------------------------------------------------------------- threads


def threads(program: list[str], seed: int) -> tuple[int, list[str]]:
    """How many messages the investors of a day on threads were sent, and those whose view differs."""
    try:
        run = ran(program, seed)
        venue = run.venue()
    except (ValueError, LineFault) as fault:
        return 0, [str(fault)]
    faults, sent = [], 0
    for firm in range(len(run.configuration.dealers), len(run.configuration.firms)):
        desk = investor_alone(seen_by(run.configuration, firm), venue.due[firm])
        sent += len(desk.sent)
        if [message_of(fields) for fields in desk.sent] != run.sent[firm]:
            faults.append("the view of %s" % run.configuration.firms[firm].name.decode())
    return sent, faults


TRIALS: dict[str, Callable[[int], tuple[int, list[str]]]] = {
    "views": views,
    "silence": silence,
    "apart": apart,
    "channels": channels,
}
