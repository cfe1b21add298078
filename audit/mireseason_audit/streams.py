"""Reads files in blocks, so that none is held in memory."""

import os
import time
from collections.abc import Iterable, Iterator
from dataclasses import dataclass
from hashlib import sha256
from itertools import zip_longest
from pathlib import Path
from typing import BinaryIO

BLOCK = 1 << 17  # bytes: so few that a processor's cache holds what is made of them
LAST_BYTES = 4096
LOOK = 0.005  # seconds from one look at a file that grows to the next
FEED = b"\n"


def blocks_of(path: Path) -> Iterator[bytes]:
    with path.open("rb") as file:
        while block := file.read(BLOCK):
            yield block


@dataclass(frozen=True)
class Growing:
    """A file that one process reads while another writes it."""

    path: Path

    @property
    def whole(self) -> Path:
        """It is there once all of the file is."""
        return self.path.with_name(self.path.name + ".whole")

    def end(self, lines: int = 0) -> None:
        """Says that all of it is there, and how many lines that are, for whom who asks."""
        part = self.path.with_name(self.path.name + ".part")
        part.write_text("%d" % lines)
        part.rename(self.whole)

    def lines(self) -> int:
        """How many lines there are in the end."""
        while not self.whole.exists():
            time.sleep(LOOK)
        return int(self.whole.read_text())

    def blocks(self) -> Iterator[bytes]:
        """All that is written into it, up to its end; it may not be there yet."""
        with self._opened() as file:
            for _ in self._looks():
                while block := file.read(BLOCK):
                    yield block

    def pour(self, pipe: int) -> None:
        """Gives all of that to a pipe; nobody here looks at it."""
        at = 0
        with self._opened() as file:
            for _ in self._looks():
                while count := os.sendfile(pipe, file.fileno(), at, BLOCK):
                    at += count

    def _opened(self) -> BinaryIO:
        self.path.touch()
        return self.path.open("rb")

    def _looks(self) -> Iterator[None]:
        """The moments to read what is there; after the last of them nothing more comes."""
        is_whole = False
        while not is_whole:
            is_whole = self.whole.exists()  # before it is read: what is read then is the rest
            yield
            if not is_whole:
                time.sleep(LOOK)


def lines_of(path: Path) -> Iterator[bytes]:
    """The lines of a file, without their line feeds."""
    with path.open("rb") as file:
        for line in file:
            yield line.removesuffix(FEED)


def last_line_of(path: Path) -> bytes:
    """The last line of a file, of one that is longer its end; empty where there is none."""
    with path.open("rb") as file:
        file.seek(max(0, path.stat().st_size - LAST_BYTES))
        return file.read().removesuffix(FEED).rpartition(FEED)[2]


def lines_in(blocks: Iterable[bytes]) -> Iterator[list[bytes]]:
    """The lines of blocks, without their line feeds, many at a time."""
    rest = b""
    for block in blocks:
        *lines, rest = (rest + block).split(FEED)
        yield lines
    if rest:
        yield [rest]


def cut_at(mark: bytes, blocks: Iterable[bytes]) -> Iterator[bytes]:
    """What blocks have, in pieces: one begins in front of each line that begins with the mark."""
    for lines in whole_lines_in(blocks):
        at = 0
        while end := lines.find(FEED + mark, at) + 1:
            yield lines[at:end]
            at = end
        yield lines[at:]


def whole_lines_in(blocks: Iterable[bytes]) -> Iterator[bytes]:
    """The same bytes in blocks that end with a line, all but the last one."""
    rest = b""
    for block in blocks:
        text = rest + block
        end = text.rfind(FEED) + 1
        if end:
            yield text[:end]
        rest = text[end:]
    if rest:
        yield rest


def digest_of(path: Path) -> str:
    """The SHA-256 of a file."""
    found = sha256()
    for block in blocks_of(path):
        found.update(block)
    return found.hexdigest()


def is_same(one: Path, other: Path) -> bool:
    """Whether two files have the same bytes; not if one is not there."""
    if not (one.exists() and other.exists()) or one.stat().st_size != other.stat().st_size:
        return False
    return all(left == right for left, right in zip_longest(blocks_of(one), blocks_of(other)))


class Followed:
    """A file that is read as far as what is given has the same bytes."""

    def __init__(self, path: Path) -> None:
        self._file = path.open("rb") if path.exists() else None
        self._is_same = self._file is not None

    def take(self, data: bytes) -> None:
        """What comes next."""
        if self._is_same and self._file is not None:
            self._is_same = self._file.read(len(data)) == data

    def is_same(self) -> bool:
        """Whether all was the same, and the file has no more."""
        return self._is_same and self._file is not None and not self._file.read(1)

    def close(self) -> None:
        if self._file is not None:
            self._file.close()
