"""The jobs of a check. A job that runs the venue's program writes what it prints to a file, and
another writes `sent` to files of the same form, so that the audit compares whole blocks. It goes
through two blocks line by line only if they differ, to find the first difference.
"""

import itertools
from abc import ABC, abstractmethod
from array import array
from collections import defaultdict
from collections.abc import Iterable, Iterator
from contextlib import ExitStack
from dataclasses import dataclass, replace
from pathlib import Path

from . import items
from .chain import Chained, lines_before, places_of, read_chain, write_day
from .carrying import check_notes, check_wire
from .closing import Closing
from .differing import differing
from .faults import Unreadable
from .findings import Finding
from .lines import decoded
from .log import Log, Source
from .noted import NOTES, firm_of, misnoted
from .progress import quiet
from .records import SOH, Day, Firm, Sent
from .streams import (
    BLOCK,
    Followed,
    Growing,
    cut_at,
    is_same,
    last_line_of,
    lines_in,
    lines_of,
)
from .venue import LineFault, Venue, message_of

NOT_GIVEN = "the log has a message that the venue does not give"
NOT_SENT = "the log lacks a message that the venue gives"
ANOTHER = "the log has another message than the venue gives"
ALONE = "what was due to it alone gives another message than it was sent"
MARKS = (b"done ", b"fault ")
BARS = bytes.maketrans(SOH, b"|")
DATE = b"date "  # begins a due text
HEAD_LINES = 2  # of one: the date and the dealer
LINE_SHOWN = 64  # bytes of a line that is none


@dataclass(frozen=True)
class Files:
    """The files of a check, in one folder."""

    folder: Path

    @property
    def day(self) -> Path:
        return self.folder / "day.live"

    @property
    def given(self) -> Path:
        """What `live --marks` prints of the day."""
        return self.folder / "day.given"

    def due(self, dealer: str) -> Path:
        return self.folder / ("%s.due" % dealer)

    def alone(self, dealer: str) -> Path:
        """What `alone` prints of that."""
        return self.folder / ("%s.alone" % dealer)

    def sent(self, firm: str) -> Path:
        """What a firm was sent, as lines that the program prints."""
        return self.folder / ("%s.sent" % firm)

    def places(self, firm: str) -> Path:
        """The places of these, eight bytes each."""
        return self.folder / ("%s.places" % firm)

    def notes(self, firm: str) -> Path:
        """What its session tells a firm of the notes beside these, as lines that the program
        prints; not there where its session is at fault.
        """
        return self.folder / ("%s.notes" % firm)

    def session_notes(self, firm: str) -> Path:
        """The lines of its session notes."""
        return self.folder / ("%s.session" % firm)


@dataclass(frozen=True)
class Audited:
    """What all jobs look at."""

    source: Source
    venue: Venue
    files: Files
    day: Day


@dataclass(frozen=True)
class ChainJob:
    """The order of the entries and their chain."""

    source: Source

    def __call__(self) -> Chained:
        with self.source.open() as log:
            return read_chain(log, quiet)


@dataclass(frozen=True)
class FindingsJob(ABC):
    """A job that opens the log for itself."""

    audited: Audited

    def __call__(self) -> list[Finding]:
        with self.audited.source.open() as log:
            return list(self._findings(log))

    @abstractmethod
    def _findings(self, log: Log) -> Iterator[Finding]:
        """What is not as it should be."""


class DayJob(FindingsJob):
    """The day as a file that the venue reads."""

    def _findings(self, log: Log) -> Iterator[Finding]:
        write_day(log, self.audited.day, self.audited.files.day, quiet)
        return iter(())


@dataclass(frozen=True)
class SentJob(FindingsJob):
    """What some firms were sent, left as files; and what their sessions carried, against that."""

    firms: tuple[str, ...]

    def _findings(self, log: Log) -> Iterator[Finding]:
        files, reasons = self.audited.files, self.audited.day.names_of_reasons
        keep_notes(log, self.firms, files)
        for firm in self.firms:
            keep(log, firm, files)
            if log.has_chain:
                yield from check_wire(log, firm, reasons, files.notes(firm))
            if log.has_notes:
                with files.session_notes(firm).open("rb") as lines:
                    yield from check_notes(log, firm, lines)


class LiveJob(FindingsJob):
    """`live --marks` over the day, left as a file; the day may still be written meanwhile."""

    def _findings(self, log: Log) -> Iterator[Finding]:
        files = self.audited.files
        arguments = ["live", "--frames", "--marks", *self.audited.day.notes_flag]
        run = self.audited.venue.to_file(arguments, Growing(files.day), files.given)
        self._check_answers(" ".join(arguments), Growing(files.day).lines())
        Growing(files.given).end()
        yield from self._faulty_lines(log, run.faults)

    def _check_answers(self, command: str, lines: int) -> None:
        """A program that does not answer each line says nothing of the log."""
        marks = tuple(mark + b"%d " % lines for mark in MARKS)
        last = last_line_of(self.audited.files.given) + b" "
        if lines > lines_before(self.audited.day) and not last.startswith(marks):
            text = "`%s %s` has not answered the last line, %d"
            raise Unreadable(text % (self.audited.venue, command, lines))

    def _faulty_lines(self, log: Log, faults: list[LineFault]) -> Iterator[Finding]:
        """Entries whose line the venue does not take; a day of no gateway may have some."""
        if faults and log.has_chain:
            index = faults[0].line - lines_before(self.audited.day) - 1
            place = next(itertools.islice(places_of(log), index, None), None)
            text = "the venue does not take its line: %s" % faults[0].name
            yield Finding("entries", text, place)


class GivenJob(FindingsJob):
    """What `live --marks` gives, all firms, against `sent`: the messages and their places.

    It is read while the program writes it.
    """

    def _findings(self, log: Log) -> Iterator[Finding]:
        files, firms = self.audited.files, [firm.name for firm in self.audited.day.firms]
        with GivenReader(files, firms, self._places(log)) as reader:
            for lines in lines_in(Growing(files.given).blocks()):
                reader.take(lines)
            texts, places, notes = reader.ended()
        for firm in texts:
            lines_given = (line for _, line in self._given(log, firm))
            yield from held(firm, log.sent(firm), lines_given)
        for firm in [*texts, *(firm for firm in places if firm not in texts)]:
            yield from misplaced(firm, log.sent(firm), self._given(log, firm))
        for firm in notes:
            yield from misnoted(firm, lines_of(files.notes(firm)), self._noted(log, firm))

    def _places(self, log: Log) -> Iterator[int]:
        """The places of the day's lines."""
        return places_of(log) if log.has_gaps() else itertools.count(1)

    def _given(self, log: Log, firm: str) -> Iterator[tuple[int, bytes]]:
        """What the venue gave one firm: the entry's place, and the line."""
        lines = lines_of(self.audited.files.given)
        for place, messages in by_place(lines, self._places(log)):
            for line in messages:
                if first_word(line) == firm:
                    yield place, line

    def _noted(self, log: Log, firm: str) -> Iterator[tuple[int, bytes]]:
        """What the venue noted beside one firm's messages: the entry's place, and the line."""
        lines = lines_of(self.audited.files.given)
        for place, messages in by_place(lines, self._places(log)):
            for line in messages:
                if line.startswith(NOTES) and firm_of(line) == firm:
                    yield place, line


class GivenReader(Closing):
    """Holds what `live --marks` gives against the files of what firms were sent."""

    def __init__(self, files: Files, firms: list[str], places: Iterator[int]) -> None:
        self._files, self._waiting = files, places
        self._place = next(places, -1)
        self._texts: dict[str, Followed] = {}
        self._places: dict[str, Followed] = {}
        told = [firm for firm in firms if files.notes(firm).exists()]
        self._notes = {firm: Followed(files.notes(firm)) for firm in told}
        for firm in firms:
            self._follow(firm)

    def _follow(self, firm: str) -> None:
        self._texts[firm] = Followed(self._files.sent(firm))
        self._places[firm] = Followed(self._files.places(firm))

    def take(self, lines: list[bytes]) -> None:
        """Some lines."""
        given: dict[bytes, tuple[list[bytes], list[int]]] = defaultdict(lambda: ([], []))
        place, waiting = self._place, self._waiting
        for line in lines:
            word = line[: line.find(b" ") + 1]
            if word in MARKS:
                place = next(waiting, -1)
                continue
            if word in NOTES:
                self._take_note(line)
                continue
            texts, places = given[word]
            texts.append(line)
            places.append(place)
        self._place = place
        if b"" in given:
            text = "`live --marks` prints a line that is neither a message nor a mark: %r"
            raise Unreadable(text % given[b""][0][0][:LINE_SHOWN])
        for word, (texts, places) in given.items():
            self._hold(decoded(word[:-1]), texts, array("q", places))

    def _hold(self, firm: str, lines: list[bytes], places: "array[int]") -> None:
        if firm not in self._texts:
            self._follow(firm)
        self._texts[firm].take(b"\n".join([*lines, b""]))
        self._places[firm].take(places.tobytes())

    def _take_note(self, line: bytes) -> None:
        """What is noted beside a message, of a firm whose session has no fault."""
        followed = self._notes.get(firm_of(line))
        if followed is not None:
            followed.take(line + b"\n")

    def ended(self) -> tuple[list[str], list[str], list[str]]:
        """The firms that were sent other messages, those with messages of other entries, and those
        whose session tells other notes.
        """
        kinds = self._texts, self._places, self._notes
        texts, places, notes = (
            [firm for firm, followed in kind.items() if not followed.is_same()] for kind in kinds
        )
        return texts, places, notes

    def close(self, failed: bool = False) -> None:
        for kind in (self._texts, self._places, self._notes):
            for followed in kind.values():
                followed.close()


class DueJob(FindingsJob):
    """`dues --live` over the day, the list of each dealer left in a file of its own; the day may
    still be written meanwhile.
    """

    def _findings(self, log: Log) -> Iterator[Finding]:
        venue, files, day = self.audited.venue, self.audited.files, self.audited.day
        waiting = iter(day.dealers)
        with venue.run(["dues", "--live"], Growing(files.day)) as run:
            for pieces in due_texts(run.blocks()):
                dealer = next(waiting, None)
                if dealer is None or not self._keep(dealer, pieces):
                    raise Unreadable("`%s dues --live` gives a list of no dealer's" % venue)
        for dealer in waiting:
            raise Unreadable("`%s dues --live` gives no list of %s" % (venue, dealer.name))
        return iter(())

    def _keep(self, dealer: Firm, pieces: Iterator[bytes]) -> bool:
        """Leaves a list in the file of a dealer; answers whether it is of that one."""
        with self.audited.files.due(dealer.name).open("w+b") as file:
            file.writelines(pieces)
            file.seek(0)
            return is_head(list(itertools.islice(file, HEAD_LINES)), self.audited.day, dealer)


@dataclass(frozen=True)
class AloneJob(FindingsJob):
    """`alone` of what was due to a dealer, against what it was sent."""

    dealer: str

    def _findings(self, log: Log) -> Iterator[Finding]:
        venue, files, dealer = self.audited.venue, self.audited.files, self.dealer
        try:
            venue.to_file(["alone", "--frames"], files.due(dealer), files.alone(dealer))
        except Unreadable as fault:
            raise Unreadable("of the list of %s %s" % (dealer, fault)) from None
        if not is_same(files.alone(dealer), files.sent(dealer)):
            found = held(dealer, log.sent(dealer), lines_of(files.alone(dealer)), ALONE)
            yield from (replace(one, named_items=(items.ALONE,)) for one in found)


def keep_notes(log: Log, firms: Iterable[str], files: Files) -> None:
    """Leaves the lines of firms' session notes in files."""
    with ExitStack() as opened:
        of_firms = {
            firm.encode(): opened.enter_context(files.session_notes(firm).open("wb"))
            for firm in firms
        }
        for row in log.seals() if log.has_notes else ():
            for line in row.notes.splitlines(keepends=True):
                if (file := of_firms.get(line.partition(b" ")[0])) is not None:
                    file.write(line)


def keep(log: Log, firm: str, files: Files) -> None:
    """Leaves what a firm was sent in files.

    Where a message is no line that the program prints, or its number is not the next, there is no
    file in the end, and nothing is the same as it.
    """
    before, number, is_plain = b"%b " % firm.encode(), 0, True
    with (
        files.sent(firm).open("wb", BLOCK) as text_file,
        files.places(firm).open("wb", BLOCK) as places_file,
    ):
        for block in log.sent_blocks(firm):
            text = before + (b"\n" + before).join([*block.bytes[:-1], block.bytes[-1] + b"\n"])
            count = len(block.numbers)
            is_plain &= block.numbers == tuple(range(number + 1, number + count + 1))
            is_plain &= text.count(b"\n") == count and b"|" not in text
            number += count
            text_file.write(text.translate(BARS))
            places_file.write(array("q", block.others).tobytes())
    if not is_plain:
        files.sent(firm).unlink()


def due_texts(blocks: Iterable[bytes]) -> Iterator[Iterator[bytes]]:
    """Due texts that stand one after the other, each in pieces.

    A text begins with its date. No other line begins so, since each begins with the word that says
    what it is, and a message that has a line feed is written in hexadecimal digits.
    """
    count = 0

    def number(piece: bytes) -> int:
        nonlocal count
        count += piece.startswith(DATE)
        return count

    return (pieces for _, pieces in itertools.groupby(cut_at(DATE, blocks), number))


def is_head(head: list[bytes], day: Day, dealer: Firm) -> bool:
    """Whether lines are the head of a due text: the date and the row of this dealer."""
    date, row = DATE + b"%b\n" % day.date.encode(), b"dealer %b " % dealer.name.encode()
    return len(head) == HEAD_LINES and head[0] == date and head[1].startswith(row)


def misplaced(
    firm: str, rows: Iterator[Sent], given: Iterator[tuple[int, bytes]]
) -> Iterator[Finding]:
    """The first message of a firm that the venue gave for another entry, or that is not there."""
    for number, (place, line) in enumerate(given, 1):
        row = next(rows, None)
        if row is None:
            text = message_of(line)[1]
            yield Finding(firm, NOT_SENT, place, number, given=text)
            return
        if row.place != place:
            yield Finding(firm, "it is given for entry %d" % place, row.place, row.number)
            return


def first_word(line: bytes) -> str:
    return decoded(line.partition(b" ")[0])


def by_place(lines: Iterable[bytes], places: Iterator[int]) -> Iterator[tuple[int, list[bytes]]]:
    """The lines of `live --marks`, those of each entry together."""
    messages: list[bytes] = []
    for line in lines:
        if line.startswith(MARKS):
            yield next(places, -1), messages
            messages = []
        else:
            messages.append(line)


def held(
    firm: str, rows: Iterable[Sent], lines: Iterable[bytes], another: str = ANOTHER
) -> Iterator[Finding]:
    """Holds a firm's rows against the lines that the venue prints; the first difference."""
    for number, (row, line) in enumerate(itertools.zip_longest(rows, lines), 1):
        given = None if line is None else message_of(line)[1]
        if row is None:
            yield Finding(firm, NOT_SENT, number=number, given=given)
            return
        if given is None:
            yield Finding(firm, NOT_GIVEN, row.place, row.number, found=row.bytes)
            return
        if row.number != number:
            text = "the log has number %d where %d comes next" % (row.number, number)
            yield Finding(firm, text, row.place, number, given=given)
            return
        if row.bytes != given:
            finding = Finding(firm, another, row.place, number, given=given, found=row.bytes)
            yield replace(finding, differing=differing(given, row.bytes))
            return
