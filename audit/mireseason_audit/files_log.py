"""Reads two files as a log: a day of `live`, and what was sent, as `live --frames` or
`replay --frames` print it.
"""

import itertools
import sqlite3
from collections.abc import Iterator
from dataclasses import dataclass
from pathlib import Path
from typing import BinaryIO

from .faults import Unreadable
from .jobs import MARKS, by_place
from .lines import decoded, firm_and_time
from .records import DIVIDER
from .sqlite_log import SqliteSource
from .venue import Venue, message_of

MOST_BYTES = 16_777_216  # of a configuration
TABLES = """
CREATE TABLE form (number INTEGER NOT NULL);
INSERT INTO form (number) VALUES (1);
CREATE TABLE entry (place INTEGER PRIMARY KEY, term INTEGER, moment TEXT, firm TEXT, number INTEGER,
    line BLOB, before BLOB, hash BLOB);
CREATE TABLE sent (firm TEXT, number INTEGER, place INTEGER, bytes BLOB,
    PRIMARY KEY (firm, number));
CREATE TABLE outgoing (firm TEXT, number INTEGER, sent INTEGER, bytes BLOB,
    PRIMARY KEY (firm, number));
CREATE TABLE session (firm TEXT PRIMARY KEY, target INTEGER, logged_on INTEGER);
"""


@dataclass(frozen=True)
class TwoFiles:
    """The day and what was sent; the venue says for which line it gives each message."""

    day: Path
    sent: Path
    venue: Venue

    def to_log(self, path: Path) -> SqliteSource:
        """Puts both into a file of SQLite, which has no chain."""
        connection = sqlite3.connect(path, isolation_level=None)
        try:
            connection.executescript(TABLES)
            connection.execute("BEGIN")
            connection.executemany(
                "INSERT INTO entry VALUES (?, 0, ?, ?, NULL, ?, x'', x'')", self._entries()
            )
            connection.executemany("INSERT INTO sent VALUES (?, ?, 0, ?)", self._messages())
            connection.executemany(
                "UPDATE sent SET place = ? WHERE firm = ? AND number = ?", self._places()
            )
            connection.execute("COMMIT")
        except OSError as fault:
            raise Unreadable("%s" % fault) from None
        finally:
            connection.close()
        return SqliteSource(path, has_chain=False, title=self.day.name)

    def _entries(self) -> Iterator[tuple[int, str, str | None, bytes]]:
        """The configuration as the line of place 0, and the lines after it."""
        with self.day.open("rb") as file:
            yield 0, "", None, self._configuration(file)
            for place, line in enumerate(file, 1):
                line = line.removesuffix(b"\n")
                firm, time = firm_and_time(line)
                yield place, time or "", firm, line

    def _configuration(self, file: BinaryIO) -> bytes:
        """What stands in front of the first `%%`, which is read too."""
        lines: list[bytes] = []
        left = MOST_BYTES
        while left > 0 and (line := file.readline(left)):
            if line in (DIVIDER, DIVIDER.rstrip()):
                return b"".join(lines)
            lines.append(line)
            left -= len(line)
        raise Unreadable("%s: no line `%%%%` follows a configuration" % self.day)

    def _messages(self) -> Iterator[tuple[str, int, bytes]]:
        numbers: dict[str, int] = {}
        with self.sent.open("rb") as file:
            for count, line in enumerate(file, 1):
                if line.startswith(MARKS):
                    continue
                firm, frame = message_of(line.removesuffix(b"\n"))
                if not firm or not frame:
                    raise Unreadable("%s: line %d is no message" % (self.sent, count))
                numbers[firm] = numbers.get(firm, 0) + 1
                yield firm, numbers[firm], frame

    def _places(self) -> Iterator[tuple[int, str, int]]:
        numbers: dict[str, int] = {}
        with self.venue.run(["live", "--frames", "--marks"], self.day) as run:
            for place, lines in by_place(run.lines(), itertools.count(1)):
                for line in lines:
                    firm = decoded(line.partition(b" ")[0])
                    numbers[firm] = numbers.get(firm, 0) + 1
                    yield place, firm, numbers[firm]
