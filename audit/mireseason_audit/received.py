"""Keeps the checkpoints of one day that a supervisor received, in a file that only grows.

Each line is a checkpoint as a gateway sent it. A line is appended whole, and is on disk before the
next one is read. Several processes may append to one file, since each gateway has one of its own.
"""

import fcntl
import os
from collections.abc import Iterator
from contextlib import contextmanager
from dataclasses import dataclass, field
from pathlib import Path

from .faults import Unreadable, Wrong
from .outside import KeptCheckpoint, checkpoint_in

MOST_BYTES = 96 << 20  # of a file: a line for each 0.8 s of a day, and half as many more
FLAGS = os.O_RDWR | os.O_APPEND | os.O_CREAT | os.O_CLOEXEC | os.O_NOFOLLOW
MODE = 0o640


@dataclass
class ReceivedDay:
    """One file, and the signatures that it has by the numbers of their checkpoints."""

    path: Path
    most_bytes: int = MOST_BYTES
    signatures: dict[int, tuple[bytes, ...]] = field(default_factory=dict)
    lines: dict[int, int] = field(default_factory=dict)  # of each number, the first line with it
    count: int = 0  # of the file's lines
    other: int = 0  # the first line that contradicts one before it; 0: none does
    read_bytes: int = 0  # of the file, those whose lines `signatures` has

    def keep(self, one: KeptCheckpoint, line: bytes) -> str:
        """Appends a line unless the file has it. Answers what is wrong with it; empty for nothing.

        A checkpoint that contradicts another one is kept, too: both together are the evidence.
        """
        with self._locked() as file:
            self._catch_up(file)
            number = one.number("checkpoint")
            if one.signature in self.signatures.get(number, ()):
                return ""
            if self.read_bytes + len(line) > self.most_bytes:
                text = "checkpoint %d is not kept: %s has %d bytes, and %d at most"
                return text % (number, self.path.name, self.read_bytes, self.most_bytes)
            append(file, self.path, line, self.read_bytes)
            contradiction = self._note(one)
            self.read_bytes += len(line)
        return self._in_words(contradiction) if contradiction else ""

    def _in_words(self, contradiction: str) -> str:
        """With the lines: those in front came first, and nobody can put one there any more."""
        text = "line %d: %s; what came first is of another log, lines 1 to %d"
        return text % (self.count, contradiction, self.other - 1)

    def _contradiction(self, one: KeptCheckpoint, number: int) -> str:
        if number in self.signatures:
            text = "checkpoint %d came otherwise before, in line %d: the log was made anew"
            return text % (number, self.lines[number])
        before = self.signatures.get(number - 1, ())
        named = one.values.get("before")
        if before and named is not None and named not in [mark.hex() for mark in before]:
            text = "checkpoint %d follows on another one than the %d that came before it:"
            return (text + " the log was made anew") % (number, number - 1)
        return ""

    def _catch_up(self, file: int) -> None:
        """Reads what others have appended, and cuts off a line that nobody has written whole."""
        size = os.fstat(file).st_size
        if size < self.read_bytes:  # somebody has put another file in its place
            self.signatures, self.lines = {}, {}
            self.count = self.other = self.read_bytes = 0
        with open(file, "rb", closefd=False) as lines:
            lines.seek(self.read_bytes)
            for line in lines:
                if not line.endswith(b"\n"):
                    os.ftruncate(file, self.read_bytes)
                    break
                self._note_line(line)
                self.read_bytes += len(line)

    def _note_line(self, line: bytes) -> None:
        try:
            self._note(checkpoint_in("%s, line %d" % (self.path.name, self.count + 1), line))
        except Wrong:
            self.count += 1  # somebody else's: `check --checkpoint` tells of it

    def _note(self, one: KeptCheckpoint) -> str:
        """Takes the next line; answers what it contradicts, if it does."""
        number = one.number("checkpoint")
        contradiction = self._contradiction(one, number)
        self.count += 1
        self.lines.setdefault(number, self.count)
        self.signatures[number] = (*self.signatures.get(number, ()), one.signature)
        if contradiction and not self.other:
            self.other = self.count
        return contradiction

    @contextmanager
    def _locked(self) -> Iterator[int]:
        """The file, to which nobody else appends meanwhile."""
        try:
            file = os.open(self.path, FLAGS, MODE)
        except OSError as fault:
            raise Unreadable("%s can't be written to: %s" % (self.path, fault.strerror)) from None
        try:
            fcntl.flock(file, fcntl.LOCK_EX)
            yield file
        finally:
            os.close(file)


def append(file: int, path: Path, line: bytes, size: int) -> None:
    """A whole line behind so many bytes, on disk; nothing of it where it can't be written."""
    try:
        written = os.write(file, line)
        if written != len(line):
            raise OSError(0, "the disk is full")
        os.fdatasync(file)
    except OSError as fault:
        os.ftruncate(file, size)
        raise Unreadable("%s can't be written to: %s" % (path, fault.strerror)) from None
