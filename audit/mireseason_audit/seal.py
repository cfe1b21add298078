"""Writes and checks the seal of a log, signed with an Ed25519 key.

A seal is text. It has:

- the hash of the last entry, from which all others follow, and that of each hundredth, so that the
  audit can say at which place a chain was made anew;
- how many rows say what happened to connections, with the hash of the last;
- of each firm, how many messages it was sent, and those of its session, with their SHA-256;
- in its last line, a signature of all that.
"""

import base64
import binascii
import hashlib
import itertools
import os
from collections.abc import Iterable, Iterator
from dataclasses import dataclass, replace
from pathlib import Path
from typing import Protocol

from . import items
from .chain import Chained
from .door import DOOR
from .faults import Unreadable, Wrong
from .findings import Finding
from .frame import number_in
from .log import Log
from .records import Carried, Day, Messages

TITLE = "mireseason-seal 1"
SIGNATURE = "signature "


@dataclass(frozen=True)
class Sealed:
    """What a seal says of a log."""

    lines: tuple[str, ...]

    @property
    def text(self) -> bytes:
        return "".join(line + "\n" for line in self.lines).encode()

    def values(self, word: str) -> dict[str, str]:
        """Of the lines `WORD NAME VALUE`, the values by their names."""
        parts = [line.split(" ", 2) for line in self.lines]
        return {part[1]: part[2] for part in parts if part[0] == word and len(part) == 3}


def sealed(log: Log, day: Day, chained: Chained) -> Sealed:
    """What the seal of a log has to say."""
    lines = [TITLE, "date day %s" % day.date, "version day %s" % day.version]
    lines.append("program day %s" % day.program)
    configuration = hashlib.sha256(day.configuration).hexdigest()
    lines.append("configuration day %s" % configuration)
    lines += ["entry %d %s" % item for item in sorted(chained.marks.items())]
    lines.append("last %d %s" % (chained.last_place, chained.last.hex()))
    if chained.door is not None:
        lines.append("door rows %d %s" % (chained.door.events, chained.door.last.hex()))
    for firm in day.firms:
        lines.append("sent %s %s" % (firm.name, digest(log.sent_blocks(firm.name))))
        lines.append("session %s %s" % (firm.name, digest(log.outgoing_blocks(firm.name))))
    return Sealed(tuple(lines))


def digest(blocks: Iterable[Carried]) -> str:
    """How many rows, and their SHA-256: of each its numbers, its length, what else a session keeps
    of it, and its bytes.
    """
    found, count = hashlib.sha256(), 0
    for block in blocks:
        rows = [
            b"%d %d %d%b\n%b" % (number, -1 if other is None else other, len(data), more, data)
            for (number, other, data), more in zip(zip(*block[:3]), more_of(block))
        ]
        found.update(b"".join(rows))
        count += len(rows)
    return "%d %s" % (count, found.hexdigest())


def more_of(block: Carried) -> Iterable[bytes]:
    """What a session keeps of each message beside its bytes, with a space in front of each."""
    if isinstance(block, Messages):
        return itertools.repeat(b"")
    return (b"".join(b" %b" % str(one).encode() for one in more) for more in zip(*block[3:]))


def write_seal(what: Sealed, key: Path, path: Path) -> None:
    """Signs and writes a seal. One that stands there is evidence, and stays."""
    from .signing import private_key

    signature = base64.b64encode(private_key(key).sign(what.text))
    data = what.text + SIGNATURE.encode() + signature + b"\n"
    try:
        write_new(path, data)
    except FileExistsError:
        if path.read_bytes() != data:
            raise Unreadable("%s is there, and has another seal" % path) from None
    except OSError as fault:
        raise Unreadable("the seal can't be written: %s" % fault) from None


def write_new(path: Path, data: bytes) -> None:
    """Writes a file that was not there, and is on disk then. Where there is no room for all of it
    none is left: a part of a seal would stand there as another one.
    """
    with path.open("xb") as file:
        try:
            file.write(data)
            file.flush()
            os.fsync(file.fileno())
        except BaseException:
            path.unlink()
            raise


def read_seal(path: Path, key: Path) -> Sealed:
    """Reads a seal and its signature; Wrong where that is not the key's."""
    from .signing import is_signed, public_key

    public = public_key(key)
    try:
        text = path.read_bytes()
    except OSError as fault:
        raise Unreadable("the seal can't be read: %s" % fault) from None
    body, mark, last = text.rpartition(SIGNATURE.encode())
    if not mark or not body.startswith(TITLE.encode() + b"\n"):
        raise Wrong("%s is no seal of this form" % path.name)
    try:
        signature = base64.b64decode(last.strip(), validate=True)
    except binascii.Error:
        raise Wrong("%s: its signature is no base64" % path.name) from None
    if not is_signed(body, signature, [public]):
        raise Wrong("%s: the signature is not that of the key" % path.name)
    return Sealed(tuple(body.decode("utf-8", "replace").removesuffix("\n").split("\n")))


class Kept(Protocol):
    """What of a log is asked where it has more than its seal."""

    def hash_at(self, place: int) -> str:
        """The hash of an entry."""

    def event_hash_at(self, place: int) -> str:
        """The hash of what happened to a connection."""

    def first(self, word: str, firm: str, count: int) -> str:
        """The first messages of a firm (`sent`), or of its session, as a seal has them."""


@dataclass(frozen=True)
class KeptLog:
    """That of a log."""

    log: Log

    def hash_at(self, place: int) -> str:
        return self.log.hash_at(place).hex()

    def event_hash_at(self, place: int) -> str:
        return self.log.event_hash_at(place).hex()

    def first(self, word: str, firm: str, count: int) -> str:
        blocks: Iterable[Carried] = self.log.outgoing_blocks(firm)
        if word == "sent":
            blocks = self.log.sent_blocks(firm)
        return digest(first_of(blocks, count))


def first_of(blocks: Iterable[Carried], count: int) -> Iterator[Carried]:
    """So many rows."""
    for block in blocks:
        if count > 0:
            yield block.picked(range(min(count, len(block.numbers))))
        count -= len(block.numbers)


def compared(seal: Sealed, now: Sealed, kept: Kept) -> Iterator[Finding]:
    """What a log is now, against what its seal says."""
    if seal != now:
        found = [*compared_entries(seal, now, kept), *compared_door(seal, now, kept)]
        found += compared_messages(seal, now, kept)
        found = found or [Finding("entries", "the log is not the one that was sealed")]
        yield from (replace(one, named_items=(items.SUPERVISOR,)) for one in found)


def compared_door(seal: Sealed, now: Sealed, kept: Kept) -> Iterator[Finding]:
    """What happened to connections, where it is not what was sealed, or not that alone."""
    before, after = (one.values("door").get("rows", "") for one in (seal, now))
    if before != after:
        first, _, last = before.partition(" ")
        more = count_of(after) - count_of(before)
        text = "its rows are not those that were sealed"
        if more > 0 and (first == "0" or kept.event_hash_at(count_of(before)) == last):
            text = "its rows go on after those that were sealed: %d more" % more
        yield Finding(DOOR, text)


def compared_messages(seal: Sealed, now: Sealed, kept: Kept) -> Iterator[Finding]:
    """The firms whose messages are not those that were sealed, or not those alone."""
    for word, whose in (("sent", "messages"), ("session", "messages of its session")):
        said, found = seal.values(word), now.values(word)
        for firm in sorted(said.keys() | found.keys()):
            before, after = said.get(firm, ""), found.get(firm, "")
            if before != after:
                more = count_of(after) - count_of(before)
                text = "its %s are not those that were sealed" % whose
                if more > 0 and kept.first(word, firm, count_of(before)) == before:
                    text = "its %s go on after those that were sealed: %d more" % (whose, more)
                yield Finding(firm, text)


def count_of(value: str) -> int:
    """How many messages there are, by a value of `sent` or `session`."""
    return number_in(value.partition(" ")[0]) or 0


def compared_entries(seal: Sealed, now: Sealed, kept: Kept) -> Iterator[Finding]:
    """The first entries that are not those that were sealed."""
    said, found = seal.values("entry"), now.values("entry")
    last_said, last_found = seal.values("last"), now.values("last")
    whole = 0
    for name, value in sorted(said.items(), key=lambda item: int(item[0])):
        if found.get(name) != value:
            yield Finding("entries", between(whole, int(name)), int(name))
            return
        whole = int(name) + 1
    if last_said != last_found:
        last, there = int(next(iter(last_said), "0")), int(next(iter(last_found), "0"))
        if last < there and kept.hash_at(last) == last_said.get(str(last)):
            whole = last + 1
        yield Finding("entries", at_the_end(whole, last, there), last)
    elif seal.lines[1:5] != now.lines[1:5]:
        yield Finding("entries", "the day is not the one that was sealed", 0)


def at_the_end(whole: int, last: int, there: int) -> str:
    """How a log ends otherwise than its seal, which has `last` and holds all before `whole`."""
    if there < last:
        return between(whole, last) + "; the log ends at entry %d" % there
    if there == last:
        return between(whole, last)
    more = "the log goes on to entry %d, after entry %d, the last that was sealed" % (there, last)
    return more if whole > last else "%s; %s" % (between(whole, last), more)


def between(first: int, last: int) -> str:
    return "from entry %d to %d they are not those that were sealed" % (first, last)
