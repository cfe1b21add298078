"""Checks the order of the entries and their chain, and writes the day as a file that the venue
reads.
"""

import itertools
import re
from collections import Counter
from collections.abc import Iterator
from dataclasses import dataclass, field
from hashlib import sha256
from pathlib import Path

from . import items
from .door import DOOR, Door, DoorReader
from .findings import Finding
from .lines import firm_and_time
from .log import Log
from .identity import Speaker
from .notes import is_note, speaker_of
from .progress import Step
from .records import Day, Entry, SealRow
from .streams import FEED, Growing

NO_HASH = bytes(32)
SEALS = (items.SEALS,)  # what a finding belongs to
MARK = 100  # entries from one hash of a seal to the next
RESET = re.compile(rb"# act \S+ \S+ reset-session ([A-Z0-9]+)(?: |$)")  # the session of a firm
NO_NUMBER = (0, 0)

Numbers = dict[str, tuple[int, int]]  # of each firm, a number of its session, and an entry's place


def hash_of(entry: Entry, has_door: bool) -> bytes:
    """The hash that an entry must have, from its other columns."""
    before, firm, number = entry.before.hex(), entry.firm or "-", dashed(entry.number)
    received = f" {entry.received}" if has_door else ""
    connection = f" {dashed(entry.connection)}" if has_door else ""
    head = (
        f"{before} {entry.place} {entry.term} {entry.moment}{received} {firm} {number}{connection} "
        f"{len(entry.line)}\n"
    )
    return sha256(head.encode() + entry.line).digest()


def dashed(number: int | None) -> int | str:
    return "-" if number is None else number


@dataclass
class Chained:
    """What one pass over the entries found."""

    entries: int = 0
    last_place: int = 0
    last: bytes = NO_HASH  # the hash of the last entry
    marks: dict[int, str] = field(default_factory=dict)  # place to hash, in hexadecimal
    findings: list[Finding] = field(default_factory=list)
    firms: set[str] = field(default_factory=set)  # that entries name
    numbers: Numbers = field(default_factory=dict)  # the greatest, and the last entry with one
    door: Door | None = None  # of a log that says who connected
    terms: list[tuple[int, int]] = field(default_factory=list)  # the first entry of each, and it
    speakers: list[Speaker] = field(default_factory=list)  # the gateways that their notes name
    resets: Counter[str] = field(default_factory=Counter)  # of sessions, by operators


class ChainReader:
    """Holds each entry against the one before it. Of each kind of fault the first is told."""

    def __init__(self, has_chain: bool, has_door: bool = False) -> None:
        self.found = Chained()
        self._has_chain, self._has_door = has_chain, has_door
        self._before: Entry | None = None
        self._told: set[str] = set()

    def take(self, entry: Entry) -> None:
        self._check_order(entry)
        if self._has_chain:
            self._check_chain(entry)
        if entry.place > 0:
            self._check_line(entry)
        self._note(entry)

    def _note(self, entry: Entry) -> None:
        """Keeps what is left of an entry once it is through."""
        found = self.found
        found.entries += 1
        self._before = entry
        found.last_place, found.last = entry.place, entry.hash
        if not found.terms or found.terms[-1][1] != entry.term:
            found.terms.append((entry.place, entry.term))
        speaker = speaker_of(entry) if entry.firm is None else None
        if speaker is not None:
            found.speakers.append(speaker)
        if entry.firm is not None:
            found.firms.add(entry.firm)
        if entry.place % MARK == 0:
            found.marks[entry.place] = entry.hash.hex()

    def tell(self, kind: str, entry: Entry, text: str) -> None:
        if kind not in self._told:
            self._told.add(kind)
            self.found.findings.append(Finding("entries", text, place=entry.place))

    def _check_order(self, entry: Entry) -> None:
        before = self._before
        place = 0 if before is None else before.place + 1
        if entry.place != place:
            text = "entry %d is missing" % place
            if before is not None:
                text += ": after %d comes %d" % (before.place, entry.place)
            self.tell("order", entry._replace(place=place), text)
        if before is not None and self._has_chain and entry.moment < before.moment:
            text = "its moment %s is before %s, that of entry %d"
            self.tell("moment", entry, text % (entry.moment, before.moment, before.place))
        if before is not None and entry.term < before.term:
            text = "its term %d is before %d, that of entry %d"
            self.tell("term", entry, text % (entry.term, before.term, before.place))

    def _check_chain(self, entry: Entry) -> None:
        if entry.hash != hash_of(entry, self._has_door):
            self.tell("hash", entry, "it was changed: its SHA-256 is another than it says")
        elif entry.before != (NO_HASH if self._before is None else self._before.hash):
            self.tell("before", entry, "it does not follow on the entry before it, as that is now")

    def _check_line(self, entry: Entry) -> None:
        if not self._has_chain:
            return
        if not is_step_line(entry.line, entry.firm, entry.moment):
            self._check_words(entry)
        if entry.firm is None:
            self._begin_again(entry)
        elif entry.number is not None:
            before, _ = self.found.numbers.get(entry.firm, NO_NUMBER)
            if entry.number <= before:
                text = "number %d of %s's session comes after %d"
                self.tell("number", entry, text % (entry.number, entry.firm, before))
            self.found.numbers[entry.firm] = max(before, entry.number), entry.place

    def _begin_again(self, entry: Entry) -> None:
        """Behind an operator's reset the numbers of a session begin again."""
        found = RESET.match(entry.line)
        if found is not None:
            self.found.numbers.pop(found[1].decode(), None)
            self.found.resets[found[1].decode()] += 1

    def _check_words(self, entry: Entry) -> None:
        """The firm and the time of a line against those of its row."""
        firm, time = firm_and_time(entry.line)
        if firm != entry.firm:
            self.tell("firm", entry, "its line is of %s, and its row of %s" % (firm, entry.firm))
        if time != entry.moment:
            text = "its line is of %s, and its row of %s" % (time, entry.moment)
            self.tell("time", entry, text)
        if (firm, time) == (entry.firm, entry.moment):
            self.tell("line", entry, "its line is not one that a gateway writes")


def is_step_line(line: bytes, firm: str | None, moment: str) -> bool:
    """Whether a line is one, and that of this firm at this moment; without a firm, of a clock, or
    one that the venue ignores.
    """
    if firm:
        return line.startswith(f"hex {firm} {moment} ".encode()) and line.find(FEED) < 0
    return firm is None and (line == b"clock " + moment.encode() or is_note(line, moment))


def read_chain(log: Log, step: Step) -> Chained:
    """One pass over all entries, and over what happened to connections beside it."""
    reader = ChainReader(log.has_chain, log.has_door)
    door = DoorReader(log.connection_events()) if log.has_door else None
    for block in log.entry_blocks():
        for entry in map(Entry._make, block.rows()):
            reader.take(entry)
            if door is not None:
                door.take(entry)
        step(len(block.places))
    found = reader.found
    if door is not None:
        found.door = door.end()
        found.firms |= found.door.firms
        found.findings += found.door.findings
    if log.has_seals:
        found.findings += itertools.islice(misnumbered(log.seals(), log.has_notes), 1)
        found.findings += unsealed(found, *log.last_seal())
    return found


def misnumbered(seals: Iterator[SealRow], has_notes: bool) -> Iterator[Finding]:
    """Seals that are missing, of less than the one before, or of other session notes."""
    before = SealRow(0, -1, 0, b"", NO_HASH)
    for row in seals:
        if row.number != before.number + 1:
            text = "seal %d is missing: in its place comes %d"
            words = text % (before.number + 1, row.number)
            yield Finding("entries", words, row.place, named_items=SEALS)
        elif row.place < before.place or row.event < before.event:
            words = "seal %d is of less than the one before" % row.number
            yield Finding("entries", words, row.place, named_items=SEALS)
        elif has_notes and row.hash != notes_hash(before.hash, row.notes):
            text = "the session notes of seal %d were changed: their hash is another than it says"
            yield Finding("entries", text % row.number, row.place, named_items=SEALS)
        before = row


def notes_hash(before: bytes, notes: bytes) -> bytes:
    """The running hash of session notes behind these (docs/RECOVERY.md)."""
    for line in notes.split(FEED)[: notes.count(FEED)]:
        before = sha256(b"%s %s\n" % (before.hex().encode(), line)).digest()
    return before if notes.endswith(FEED) or not notes else b""


def unsealed(found: Chained, place: int, event: int) -> Iterator[Finding]:
    """What follows the last seal: each gateway seals what it writes. Whether a seal is right, only
    who has the gateways' secret can tell.
    """
    if place != found.last_place:
        text = "it is not sealed: the last seal is of entry %d" % place
        yield Finding("entries", text, found.last_place, named_items=SEALS)
    events = 0 if found.door is None else found.door.events
    if event != events:
        text = "row %d is not sealed: the last seal is of row %d" % (events, event)
        yield Finding(DOOR, text, named_items=SEALS)


def write_day(log: Log, day: Day, path: Path, step: Step) -> None:
    """Writes the day into a file as the venue reads it, which may do so meanwhile.

    An entry is one line of it, whatever stands in the log: where one has a line feed, which no
    gateway writes, a carriage return stands in its place, and the venue does not take the line.
    """
    count = lines_before(day)
    with path.open("wb") as file:
        file.write(day.head)
        for lines in log.line_blocks():
            count += len(lines)
            text = FEED.join([*lines, b""])
            if text.count(FEED) != len(lines):
                text = b"".join(line.replace(FEED, b"\r") + FEED for line in lines)
            file.write(text)
            step(len(lines))
    Growing(path).end(count)


def lines_before(day: Day) -> int:
    """How many lines of the file stand in front of that of the first entry after place 0."""
    return day.head.count(b"\n")


def places_of(log: Log) -> Iterator[int]:
    """The places of the entries whose lines stand in the file."""
    return (place for place in log.places() if place > 0)
