"""Checks a log against checkpoints that were kept outside of its database.

A gateway keeps its last checkpoint in a file, and sends each to whoever is to have them. So a file
has one checkpoint in several lines, or one in each line, with tabs instead of line ends. Whoever
can write the database can cut off its end and take signatures out of it, but changes none of these
files.
"""

from collections.abc import Iterable, Iterator, Sequence
from dataclasses import dataclass
from functools import cached_property
from hashlib import sha256
from itertools import islice
from pathlib import Path

from . import items
from .door import DOOR
from .faults import Unreadable, Wrong
from .findings import Finding
from .frame import number_in
from .log import Log
from .records import NO_NAME, Checkpoint, Day

TITLE = "mireseason log "
SIGNATURE = "signature "
LONGEST = 1 << 28  # bytes of a file: a line for each second of some years
LONGEST_ONE = 1 << 12
CUT = "cut"  # where a finding is
CUT_END = (items.CUT,)  # what it belongs to


@dataclass(frozen=True)
class KeptCheckpoint:
    """A checkpoint as it was kept."""

    source: str  # the file's name, and the line
    text: bytes  # what was signed
    signature: bytes

    @cached_property
    def values(self) -> dict[str, str]:
        """What stands behind the first word of each line."""
        parts = [line.partition(" ") for line in self.text.decode("ascii", "replace").splitlines()]
        return {word: value for word, _, value in parts}

    def number(self, word: str) -> int:
        """The number of a line `WORD NUMBER` or `WORD NUMBER HEX`."""
        found = number_in(self.values.get(word, "").partition(" ")[0])
        if found is None:
            raise Wrong("%s: its line `%s` has no number" % (self.source, word))
        return found

    def hash(self, word: str) -> str:
        """The hash of a line `WORD NUMBER HEX`."""
        return self.values.get(word, "").partition(" ")[2]

    @property
    def place(self) -> int:
        """Of the last entry that it covers."""
        return self.number("entry")


def read_outside(path: Path) -> list[KeptCheckpoint]:
    """All checkpoints of a file."""
    try:
        with path.open("rb") as file:
            data = file.read(LONGEST + 1)
    except OSError as fault:
        raise Unreadable("the checkpoint can't be read: %s" % fault) from None
    if len(data) > LONGEST:
        raise Unreadable("%s is longer than %d bytes" % (path, LONGEST))
    if b"\t" not in data:
        return [checkpoint_of(path.name, data)]
    whole, end, _ = data.rpartition(b"\n")  # a last line that is not whole is still being written
    lines = whole.split(b"\n") if end else []
    name = "%s, line %d"
    return [checkpoint_in(name % (path.name, at), line) for at, line in enumerate(lines, 1)]


def checkpoint_in(source: str, line: bytes) -> KeptCheckpoint:
    """The checkpoint that a gateway sent in one line; Wrong where it is none."""
    return checkpoint_of(source, line.removesuffix(b"\n").replace(b"\t", b"\n") + b"\n")


def checkpoint_of(source: str, data: bytes) -> KeptCheckpoint:
    """One checkpoint; Wrong where the text is none."""
    text, mark, last = data[:LONGEST_ONE].rpartition(SIGNATURE.encode())
    digits = last.removesuffix(b"\n").decode("ascii", "replace")
    try:
        signature = bytes.fromhex(digits)
    except ValueError:
        signature = b""
    if not mark or not text.startswith(TITLE.encode()) or len(digits) != 128 or not signature:
        raise Wrong("%s is no checkpoint of a gateway" % source)
    return KeptCheckpoint(source, text, signature)


def compared(log: Log, day: Day, kept: list[KeptCheckpoint]) -> Iterator[Finding]:
    """What of checkpoints the log has not, or has otherwise; of each kind the first. One that was
    kept for another day or another venue says nothing of this log.
    """
    own = [one for one in kept if is_of(one, day)]
    if not own:
        names = ", ".join(sorted({one.source.partition(",")[0] for one in kept}))
        yield Finding(CUT, "%s has no checkpoint of this log" % (names or "no file"), 0)
    yield from islice(contradicted(own), 1)
    for find in (compared_day, compared_entry, compared_event, compared_notes):
        yield from islice((found for one in own for found in find(log, day, one)), 1)


def contradicted(kept: Iterable[KeptCheckpoint]) -> Iterator[Finding]:
    """Checkpoints of one number that are not the same: two logs of one day have been signed."""
    first: dict[int, KeptCheckpoint] = {}
    for one in kept:
        number = one.number("checkpoint")
        other = first.setdefault(number, one) if number else one
        if other.signature != one.signature:
            text = "checkpoint %d is another in %s than in %s: the log was made anew;"
            text += " hold each log against what was received before that"
            yield Finding(CUT, text % (number, one.source, other.source), one.place)


def is_of(one: KeptCheckpoint, day: Day) -> bool:
    """Whether a checkpoint is of this day of this venue."""
    own = {"venue": day.venue or NO_NAME, "day": day.date}
    return all(one.values.get(word) == value for word, value in own.items())


def compared_day(log: Log, day: Day, one: KeptCheckpoint) -> Iterator[Finding]:
    configuration = sha256(day.configuration).hexdigest()
    if one.values.get("configuration") != configuration:
        text = "%s was made of another configuration: the whole log is another one"
        yield Finding(CUT, text % one.source, 0)


def compared_entry(log: Log, day: Day, one: KeptCheckpoint) -> Iterator[Finding]:
    place, last = one.place, log.last_place()
    if place > last:
        text = "it ends at entry %d, and %s has signed up to entry %d: its end was cut off"
        words = text % (last, one.source, place)
        yield Finding("entries", words, last + 1, named_items=CUT_END)
    elif log.hash_at(place).hex() != one.hash("entry"):
        text = "it is not the one that %s has signed: the log was changed here or before"
        yield Finding("entries", text % one.source, place, named_items=CUT_END)


def compared_event(log: Log, day: Day, one: KeptCheckpoint) -> Iterator[Finding]:
    event, last = one.number("connection"), log.last_event()
    if event > last:
        text = "it ends at row %d, and %s has signed up to row %d: its end was cut off"
        yield Finding(DOOR, text % (last, one.source, event), named_items=CUT_END)
    elif event and log.event_hash_at(event).hex() != one.hash("connection"):
        text = "row %d is not the one that %s has signed: the rows were changed here or before"
        yield Finding(DOOR, text % (event, one.source), named_items=CUT_END)


def compared_notes(log: Log, day: Day, one: KeptCheckpoint) -> Iterator[Finding]:
    """The session notes, of a form that has some."""
    if not log.has_notes or "seal" not in one.values or one.number("seal") == 0:
        return
    seal, now = one.number("seal"), log.notes_hash_at(one.number("seal")).hex()
    if not now:
        text = "seal %d was there, as %s has signed, and is not any more: the end was cut off"
        yield Finding("entries", text % (seal, one.source), one.place, named_items=CUT_END)
    elif now != one.hash("seal"):
        text = "the session notes up to seal %d are not those that %s has signed"
        yield Finding("entries", text % (seal, one.source), one.place, named_items=CUT_END)


def missing_rows(rows: Iterable[Checkpoint], kept: list[KeptCheckpoint]) -> Iterator[Finding]:
    """Checkpoints that were kept outside and that the log has no more, or otherwise."""
    signatures = {row.number: row.signature for row in rows}
    for one in kept:
        number = one.number("checkpoint")
        if number and signatures.get(number) != one.signature:
            how = "has it otherwise" if number in signatures else "has it no more"
            text = "checkpoint %d was made, as %s shows, and the log %s"
            words = text % (number, one.source, how)
            yield Finding("entries", words, one.place, named_items=CUT_END)
            return
