"""Reads the session notes that gateways have sealed, and checks by them what a firm's session was given: docs/RECOVERY.md has
their form and hashes. So the audit sees that somebody has changed a copy, and needs no venue's program for that.
"""

import re
import sqlite3
from collections.abc import Iterable, Iterator
from hashlib import sha256
from itertools import islice
from typing import NamedTuple

from .findings import Finding
from .records import Outgoing, SealRow

# Somebody who writes the log may put any bytes there, which the seal's hash tells: nothing is read of a line with a number that
# no gateway has, since none is too long for Python or a database.
LINE = re.compile(
    rb"\S+ (?P<epoch>\d{1,10}) (?P<kind>[A01235jRLM]) (?P<number>\d{1,10}) (?P<expected>\d{1,10})"
    rb" (?P<had>\d{1,10}) (?P<given>\d{1,10}) (?P<hash>[0-9a-f]{64}) (?P<moment>[!-~]+)(?: (?P<more>.*))?"
)
PLACE = re.compile(rb"\d{1,10}")
ESCAPED = re.compile(rb"\\x([0-9a-f]{2})")
REJECTS = ("3", "j")
RESET, LOGON = "R", "A"
WITHOUT_NUMBER = (RESET, "L", "M")
USE_ONE = (LOGON, "5")  # a Logon and a Logout have number 1 as long as nothing has had it
NOTHING = bytes(32)
LAST = 999_999_990  # number of a session
FIRST = 2  # number of the venue's first message: 1 is that of the answer to the first Logon
LINES_AT_A_TIME = 256


class Note(NamedTuple):
    """What a line says that a copy can be held against."""

    epoch: int
    kind: str
    number: int
    expected: int
    had: int
    given: int
    hash: bytes
    moment: str
    fields: bytes  # of a Reject: all behind 35, each with its SOH

    @property
    def begins_anew(self) -> bool:
        """Whether it is of a Logon with 141=Y: what the session keeps of its own is dropped."""
        return self.kind == LOGON and self.fields.endswith(b" Y")

    @property
    def last(self) -> int:
        """Of a reset, the last place of an entry before it."""
        place = self.fields.partition(b" ")[0] if self.kind == RESET else b""
        return int(place) if PLACE.fullmatch(place) else 0


def note_of(line: bytes) -> Note | None:
    found = LINE.fullmatch(line)
    if found is None:
        return None
    more = ESCAPED.sub(lambda digits: bytes.fromhex(digits[1].decode()), found["more"] or b"")
    kind, moment = found["kind"].decode(), found["moment"].decode()
    epoch, number, expected, had, given = (
        int(found[name]) for name in ("epoch", "number", "expected", "had", "given")
    )
    hash_ = bytes.fromhex(found["hash"].decode())
    return Note(epoch, kind, number, expected, had, given, hash_, moment, more)


class NotesByFirm:
    """The session notes of a log by their firms, in a file of this process alone that has no name: a log has them by its
    seals, and a day may have millions.
    """

    def __init__(self, seals: Iterable[SealRow]) -> None:
        self._lines = sqlite3.connect("", isolation_level=None)
        self._lines.executescript("PRAGMA journal_mode = OFF; CREATE TABLE note (firm, line)")
        rows = ((line.partition(b" ")[0], line) for row in seals for line in row.notes.splitlines())
        self._lines.execute("BEGIN")
        self._lines.executemany("INSERT INTO note VALUES (?, ?)", rows)
        self._lines.execute("CREATE INDEX by_firm ON note (firm)")
        self._lines.execute("COMMIT")

    def firms(self) -> list[str]:
        """The firms that they name."""
        firms = self._lines.execute("SELECT DISTINCT firm FROM note ORDER BY firm")
        return [firm.decode("utf-8", "backslashreplace") for firm, in firms]

    def of(self, firm: str) -> Iterator[Note]:
        """Those of a firm, in their order, and nothing that has not their form."""
        lines = self._lines.execute(
            "SELECT line FROM note WHERE firm = ? ORDER BY rowid", (firm.encode(),)
        )
        while block := lines.fetchmany(LINES_AT_A_TIME):
            yield from (note for line, in block if (note := note_of(line)) is not None)

    def close(self) -> None:
        self._lines.close()


def misnoted_session(firm: str, kept: Iterable[Outgoing], notes: list[Note]) -> Iterator[Finding]:
    """The first difference of each kind. kept is what the session keeps, in its order."""
    yield from islice(other_messages(firm, kept, notes), 1)
    yield from islice(other_numbers(firm, notes), 1)


def other_messages(firm: str, kept: Iterable[Outgoing], notes: list[Note]) -> Iterator[Finding]:
    """Whether the venue's messages are those that the session was given, by each note's hash."""
    rows = (row for row in kept if row.sent is not None and not row.copy)
    given, running, number = 0, NOTHING, 0
    for note in notes:
        for row in islice(rows, max(note.given - given, 0)):
            text = b"%s %d\n%s" % (running.hex().encode(), len(row.bytes), row.bytes)
            given, running, number = given + 1, sha256(text).digest(), row.number
        is_over = note.expected > LAST or number >= LAST  # what the venue gives then has no number
        if given < note.given and is_over:
            return
        if running != note.hash:
            words = "the messages of its session up to number %d are not those that were sealed"
            yield Finding(firm, words % note.given)


def other_numbers(firm: str, notes: list[Note]) -> Iterator[Finding]:
    """Whether each note has the number that is due, and the epoch that the session has."""
    session = SessionNumbers()
    for at, note in enumerate(notes, 1):
        session.give(max(note.given - session.given, 0))
        if not session.takes(note):
            words = "note %d of its session does not follow on those before it"
            yield Finding(firm, words % at)
            return
        session.take(note)


class Run(NamedTuple):
    """Messages of the venue whose numbers of the session follow on one another."""

    number: int  # the session's of the first one,
    given: int  # and the venue's
    length: int


class SessionNumbers:
    """The numbers of a firm's session, note by note."""

    def __init__(self) -> None:
        self.epoch = 0
        self.next = FIRST
        self.expected = 1
        self.given = 0
        self.runs: list[Run] = []  # what the session keeps of the venue's in this epoch
        self._is_one_free = True

    def give(self, count: int) -> None:
        """The venue gives so many messages; each gets a number as long as one is left."""
        left = LAST + 1 - self.next if self.expected <= LAST else 0
        self._keep(self.given + 1, max(min(count, left), 0))
        self.given += count

    def _keep(self, given: int, count: int) -> None:
        """Gives the next numbers to messages of the venue."""
        last = self.runs[-1] if self.runs else Run(0, 0, 0)
        if (last.number + last.length, last.given + last.length) == (self.next, given):
            self.runs[-1] = last._replace(length=last.length + count)
        elif count > 0:
            self.runs.append(Run(self.next, given, count))
        self.next += count

    def takes(self, note: Note) -> bool:
        """Whether a note may come now."""
        if note.epoch != self.epoch or note.given < self.given:
            return False
        if note.kind in WITHOUT_NUMBER:
            return note.number == 0
        is_one_due = self._is_one_free and note.kind in USE_ONE
        return note.number == (1 if is_one_due or note.begins_anew else self.next)

    def take(self, note: Note) -> None:
        """Takes a note. Behind a reset the runs have what is copied."""
        if note.kind == RESET:
            self._reset(note.had)
            return
        self.expected = note.expected
        if note.kind in USE_ONE:
            self._is_one_free = False
        if note.number == self.next:
            self.next += 1

    def _reset(self, had: int) -> None:
        """What the firm is not known to have gets the numbers from 2 on."""
        before, self.runs, self.next = self.runs, [], FIRST
        for run in before:
            known = min(max(had + 1 - run.number, 0), run.length)
            self._keep(run.given + known, run.length - known)
        self.epoch += 1
        self.expected = 1
        self._is_one_free = True


def dropped_in(notes: Iterable[Note]) -> set[tuple[int, int]]:
    """Of the Rejects that a session kept, by epoch and number, those that it keeps no longer: a Logon with 141=Y came."""
    kept: set[tuple[int, int]] = set()
    dropped: set[tuple[int, int]] = set()
    for note in notes:
        if note.kind in REJECTS:
            kept.add((note.epoch, note.number))
        elif note.begins_anew:
            dropped |= {one for one in kept if one[0] == note.epoch}
    return dropped
