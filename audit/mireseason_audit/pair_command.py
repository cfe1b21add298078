"""`pair`: makes second days beside the log's, and says what they show one dealer."""

import random
import textwrap
from dataclasses import dataclass, field
from pathlib import Path

from .check import Checker
from .frame import fields_of, text_of
from .jobs import by_place
from .left_out import LeftOutDay
from .lines import Came
from .log import Log
from .pair import Compared, Differences, compare, difference_words, differences
from .records import Day
from .second_day import Move, MovedDay, append
from .venue import message_of

MOST_MOVED = 64  # 32nds
WIDTH = 96
CHOICES = [by for by in range(-MOST_MOVED, MOST_MOVED + 1) if by]


@dataclass
class Told:
    """A report, and whether all that it says is as it should be."""

    lines: list[str] = field(default_factory=list)
    is_good: bool = True

    def say(self, text: str, good: bool = True, indent: int = 4) -> None:
        space = " " * indent
        self.lines += textwrap.wrap(
            text, WIDTH, initial_indent=space, subsequent_indent=space + "  "
        )
        self.is_good = self.is_good and good


@dataclass(frozen=True)
class PairCommand:
    """What pairs are made with."""

    checker: Checker
    dealer: str
    seed: int
    folder: Path

    def run(self) -> Told:
        told = Told()
        begun = self.checker.begun()
        day = begun.day
        self.checker.write_day(day)
        venue, files = self.checker.venue, self.checker.files
        venue.to_file(["due", self.dealer, "--live"], files.day, files.due(self.dealer))
        self._prices(day, told)
        self._left_out(day, told)
        self.checker.check_end(begun)
        return told

    # ------------------------------------------------------------ prices

    def _prices(self, day: Day, told: Told) -> None:
        """The second day on which the other dealers' prices are moved."""
        path = self.folder / "prices.live"
        changed, put_back = self._moved_day(day, path)
        dealers = len({one.dealer for one in changed.moved})
        text = "Other dealers' prices: %d quotes of %d dealers moved by up to %d 32nds (seed %d)."
        told.say(text % (len(changed.moved), dealers, MOST_MOVED, self.seed), indent=0)
        told.say("The venue answers each of these quotes as it was answered.")
        if put_back:
            told.say("%d more stand as they were: it refuses the other price." % put_back)
        found = self._compared(path, told)
        if not found.only_cover:
            told.say("MORE DIFFERS THAN OTHER DEALERS' PRICES MAY CHANGE.", False)

    def _moved_day(self, day: Day, path: Path) -> tuple[MovedDay, int]:
        """Moves prices, and puts back those for which the venue has another answer."""
        kept: set[int] = set()
        while True:
            changed = MovedDay()
            with self.checker.source.open() as log:
                changed.write(log, day, self._move(kept), path)
                places = {one.place: one.dealer for one in changed.moved}
                otherwise = self._otherwise(log, path, places)
            if not otherwise:
                return changed, len(kept)
            kept |= otherwise

    def _move(self, kept: set[int]) -> Move:
        """By how many 32nds each quote is moved: the same at each call."""
        draw = random.Random(self.seed)

        def move(place: int, came: Came) -> int:
            by = draw.choice(CHOICES)
            return 0 if came.firm == self.dealer or place in kept else by

        return move

    def _otherwise(self, log: Log, path: Path, places: dict[int, str]) -> set[int]:
        """The places of moved quotes that the venue answers otherwise than the log has it."""
        before = {}
        for firm in set(places.values()):
            for row in log.sent(firm):
                if places.get(row.place) == firm:
                    before[row.place] = answer_of(row.bytes)
        found = set()
        arguments = ["live", "--frames", "--marks"]
        with self.checker.venue.run(arguments, path) as run:
            for place, lines in by_place(run.lines(), (p for p in log.places() if p > 0)):
                for name, frame in map(message_of, lines):
                    if name == places.get(place) and answer_of(frame) != before.get(place):
                        found.add(place)
        return found

    # ------------------------------------------------------------ messages left out

    def _left_out(self, day: Day, told: Told) -> None:
        """The second day without the other dealers' messages."""
        path, second = self.folder / "without.live", LeftOutDay(self.dealer)
        progress = self.checker.progress
        with self.checker.source.open() as log:
            progress.begin("entries", log.last_place() + 1)
            second.write(log, day, self.checker.venue, path, progress.step)
            progress.end()
        dealers = {firm.name for firm in day.dealers}
        count = sum(count for firm, count in second.left_out.items() if firm in dealers)
        hits = sum(second.left_out.values()) - count
        told.lines.append("")
        text = "Others' messages: all %d of the other dealers are left out, and %d hits of quotes."
        told.say(text % (count, hits), indent=0)
        if second.renamed:
            text = "%d hits of its quotes name them as they are shown on the second day."
            told.say(text % second.renamed)
        self._compared(path, told)

    # ------------------------------------------------------------ what both days show

    def _compared(self, path: Path, told: Told) -> Differences:
        """What `compare` says, and what differs in words."""
        venue, files = self.checker.venue, self.checker.files
        both, second = self.folder / "both.live", self.folder / "second.due"
        append(files.day, path, both)
        compared = compare(venue, self.dealer, both)
        told.say("rfq_venue compare %s --live: %s." % (self.dealer, ", ".join(compared.lines)))
        venue.to_file(["due", self.dealer, "--live"], path, second)
        found = differences(files.due(self.dealer), second)
        say_compared(compared, found, told)
        return found


def say_compared(compared: Compared, found: Differences, told: Told) -> None:
    """What `compare` says of two days, whose lists differ as was found, in words."""
    words = difference_words(found)
    if not compared.row_equal:
        told.say("THE DATE OR ITS ROW DIFFERS, AND BOTH DAYS HAVE ONE CONFIGURATION.", False)
    if not compared.holds:
        told.say("ROW AND LIST ARE EQUAL AND THE MESSAGES ARE NOT: THAT MUST NOT BE.", False)
    elif not compared.due_equal and not words:
        told.say("The items of its list are the same, and STAND IN ANOTHER ORDER.", False)
    elif not compared.due_equal:
        told.say("Of its list, and so of its messages, this differs and nothing else:")
    elif words:
        told.say("`compare` SAYS THAT ITS LISTS ARE EQUAL, AND THEY ARE NOT:", False)
    else:
        text = "All %d items of its list are equal, so it was sent the same bytes."
        told.say(text % found.items)
    for text in words:
        told.say(text, found.are_declared, indent=8)


def answer_of(frame: bytes) -> tuple[str, str]:
    """QuoteStatus (297) and QuoteRejectReason (300)."""
    fields = fields_of(frame)
    return text_of(fields, 297), text_of(fields, 300)
