"""Takes the copies that a gateway made of its days in SQLite, and trusts nothing in them.

Whoever controls the gateway's host may have put anything there: a name that leads elsewhere, a file without an end, another
day's log, a program. So the keeper opens each file as a plain file of that folder, and reads no more of it than there is room
for. It runs nothing of it, and looks into the log with programs of its own.
"""

import hashlib
import os
import re
import sqlite3
import stat
from collections.abc import Iterator
from contextlib import closing, contextmanager
from dataclasses import dataclass
from pathlib import Path
from typing import BinaryIO

from bounded_toml import table_of

from .day_file import hasty_reader_of, on_disk
from .faults import Fault, one_line

SUMS = "SHA256SUMS"
LINE = re.compile(r"([0-9a-f]{64})  ([A-Za-z0-9][A-Za-z0-9._-]{0,99})")
LONGEST_SUMS = 1 << 16  # bytes
RESERVE = 256 << 20  # bytes that stay free on the disk of the keeper's own copies
PIECE = 1 << 20
# Views, triggers, virtual tables, columns that are computed, and each index that SQLite has not made for a key: it may say
# something else than the rows.
MORE_THAN_TABLES = """SELECT
    (SELECT count(*) FROM sqlite_schema WHERE type <> 'table' AND (type <> 'index' OR sql IS NOT NULL)
        OR sql LIKE 'CREATE VIRTUAL%') +
    (SELECT count(*) FROM sqlite_schema t, pragma_table_xinfo(t.name) c WHERE t.type = 'table' AND c.hidden > 0)"""


@dataclass(frozen=True)
class GivenCopy:
    """A copy of one day."""

    folder: Path
    log: str  # the name of the log's file

    def digest(self) -> str:
        """The SHA-256 of the log, as the gateway's list has it."""
        found = self.sums().get(self.log)
        if found is None:
            raise Fault("%s: %s has no line for %s" % (self.folder, SUMS, self.log))
        return found

    def take(self, place: Path) -> None:
        """Puts the log and its last checkpoint into a folder, where they are on disk then and what the gateway's list says."""
        self.take_file(self.log, self.digest(), place / self.log)
        for name, digest in self.sums().items():
            if name.endswith(".checkpoint"):
                self.take_file(name, digest, place / name)

    def take_file(self, name: str, digest: str, copy: Path) -> None:
        with self.opened(name) as file, copy.open("xb") as to:
            size = os.fstat(file.fileno()).st_size
            disk = os.statvfs(copy.parent)
            if size > disk.f_bavail * disk.f_frsize - RESERVE:
                raise Fault("%s: there is no room for %d bytes" % (copy.parent, size))
            found = hashlib.sha256()
            while piece := file.read(min(PIECE, size)):
                size -= len(piece)
                to.write(piece)
                found.update(piece)
        on_disk(copy)
        if found.hexdigest() != digest:
            raise Fault("%s is not what %s says" % (self.folder / name, SUMS))

    def sums(self) -> dict[str, str]:
        """What the gateway's list says, by the names of files."""
        with self.opened(SUMS) as file:
            lines = file.read(LONGEST_SUMS).decode("ascii", "replace").splitlines()
        return {found[2]: found[1] for found in map(LINE.fullmatch, lines) if found}

    @contextmanager
    def opened(self, name: str) -> Iterator[BinaryIO]:
        """A plain file of the folder; Fault where it is a link, a pipe or anything else."""
        try:
            with open(self.number_of(name), "rb") as file:
                yield file
        except OSError as fault:
            raise Fault("%s: %s" % (self.folder / name, one_line(fault))) from None

    def number_of(self, name: str) -> int:
        """The descriptor of a plain file, the only one that stays open."""
        flags = os.O_RDONLY | os.O_NOFOLLOW | os.O_CLOEXEC
        folder = os.open(self.folder, flags | os.O_DIRECTORY)
        try:
            number = os.open(name, flags | os.O_NONBLOCK, dir_fd=folder)
        finally:
            os.close(folder)
        if stat.S_ISREG(os.fstat(number).st_mode):
            return number
        os.close(number)
        raise Fault("%s is no plain file" % (self.folder / name))


def names_in(folder: Path) -> list[str]:
    """The names there, in their order."""
    try:
        return sorted(os.listdir(folder))
    except OSError as fault:
        raise Fault(one_line(fault)) from None


def check_tables(log: Path) -> None:
    """Fault where a log has anything but tables: who reads it runs nothing that its writer thought of."""
    try:
        with closing(hasty_reader_of(log)) as file:
            file.execute("PRAGMA trusted_schema = OFF")
            ((more,),) = file.execute(MORE_THAN_TABLES).fetchall()
    except sqlite3.Error as fault:
        raise Fault("%s: %s" % (log.name, fault)) from None
    if more:
        raise Fault("%s has more than tables" % log.name)


def check_day(head: dict[str, str], configuration: bytes, venue: str, day: str) -> None:
    """Fault where entry 0 is not of this day of this venue."""
    try:
        date = table_of(configuration).get("date")
    except ValueError:
        date = None
    if date != day or head.get("venue", "-") != (venue or "-"):
        raise Fault("its entry 0 is of another day or venue")
