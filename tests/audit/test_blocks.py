"""Compares blocks with blocks: the audit sees a difference wherever it stands and wherever a block ends."""

import itertools
import unittest
from array import array
from collections.abc import Iterator
from dataclasses import dataclass
from pathlib import Path
from typing import cast
from unittest.mock import patch

from mireseason_audit import sqlite_log
from mireseason_audit.carrying import check_wire
from mireseason_audit.faults import Unreadable
from mireseason_audit.frame import fields_of, framed
from mireseason_audit.jobs import Files, GivenReader, keep
from mireseason_audit.log import Log
from mireseason_audit.records import Messages, Outgoing, Sent
from mireseason_audit.sqlite_log import SqliteSource
from mireseason_audit.streams import lines_in
from mireseason_audit.wire import carried, parts_of

from tests.audit.common import DAY, LogCase, folder
from tests.audit.samples import ACCEPTED, SHOWN, soh

FIRMS = "ALPHA", "BRAVO"
# What `live --marks` gives for five lines: the third brings nothing, the fourth is a fault.
GIVEN = (
    b"ALPHA 8=1|\nBRAVO 8=2|\ndone 1\nALPHA 8=3|x=y z|\ndone 2\ndone 3\nfault 4 form\n"
    b"BRAVO 8=4|\nBRAVO 8=5|\nALPHA 8=6|\ndone 5\n"
)
TEXTS = {
    "ALPHA": b"ALPHA 8=1|\nALPHA 8=3|x=y z|\nALPHA 8=6|\n",
    "BRAVO": b"BRAVO 8=2|\nBRAVO 8=4|\nBRAVO 8=5|\n",
}
PLACES = {"ALPHA": [1, 2, 5], "BRAVO": [1, 5, 5]}
SIZES = 1, 2, 7, 16, 1 << 20


def cut(data: bytes, size: int) -> list[bytes]:
    return [data[at : at + size] for at in range(0, len(data), size)]


class Given(unittest.TestCase):
    """What the venue gives, against the files of what firms were sent."""

    def setUp(self) -> None:
        kept_folder = folder()
        self.addCleanup(kept_folder.cleanup)
        self.files = Files(Path(kept_folder.name))
        for firm in FIRMS:
            self.files.sent(firm).write_bytes(TEXTS[firm])
            self.files.places(firm).write_bytes(array("q", PLACES[firm]).tobytes())

    def found(self, given: bytes, size: int) -> tuple[list[str], list[str]]:
        """The firms with other messages, and those with messages of other entries."""
        with GivenReader(self.files, list(FIRMS), itertools.count(1)) as reader:
            for lines in lines_in(cut(given, size)):
                reader.take(lines)
            texts, places, _ = reader.ended()
            return texts, places

    def noted(self, given: bytes, size: int) -> tuple[list[str], list[str], list[str]]:
        """The same, and the firms whose sessions tell other notes than the venue gives."""
        with GivenReader(self.files, list(FIRMS), itertools.count(1)) as reader:
            for lines in lines_in(cut(given, size)):
                reader.take(lines)
            return reader.ended()

    def test_notes(self) -> None:
        """What is noted is held against what the session tells, of a firm whose session has no
        fault; and is no message.
        """
        notes = b"why ALPHA 2 Closed\ntrade ALPHA 3 20261125-FJORD-ALPHA-1\n"
        first, second = notes.splitlines(keepends=True)
        given = GIVEN + notes + b"why BRAVO 1 Closed\n"
        for told, others in (
            (notes, []),
            (first, ["ALPHA"]),
            (second, ["ALPHA"]),
            (second + first, ["ALPHA"]),
            (notes + second, ["ALPHA"]),
            (notes.replace(b"2", b"4"), ["ALPHA"]),
            (b"", ["ALPHA"]),
        ):
            self.files.notes("ALPHA").write_bytes(told)
            for size in SIZES:
                self.assertEqual(self.noted(given, size), ([], [], others), told)

    def test_nothing_differs(self) -> None:
        for size in range(1, len(GIVEN) + 2):
            self.assertEqual(self.found(GIVEN, size), ([], []), size)

    def test_each_changed_byte(self) -> None:
        """Of a mark only its word is looked at, and how the last line ends is not: that is done
        once the program has ended.
        """
        unread = {len(GIVEN) - 1}
        for mark in (b"done 1", b"done 2", b"done 3", b"fault 4 form", b"done 5"):
            start = GIVEN.index(mark)
            unread.update(range(start + mark.index(b" ") + 1, start + len(mark)))
        for at in range(len(GIVEN)):
            changed = GIVEN[:at] + bytes([GIVEN[at] ^ 1]) + GIVEN[at + 1 :]
            for size in SIZES:
                try:
                    is_found = self.found(changed, size) != ([], [])
                except Unreadable:
                    is_found = True
                self.assertEqual(is_found, at not in unread, at)

    def test_lines_left_out_doubled_and_moved(self) -> None:
        lines = GIVEN.splitlines(keepends=True)
        for at, line in enumerate(lines):
            rest = lines[:at] + lines[at + 1 :]
            changes = [rest, lines[: at + 1] + lines[at:]]
            changes += [[*rest[:to], line, *rest[to:]] for to in range(len(lines))]
            for changed in changes:
                expected = self.told_by(changed)
                for size in SIZES:
                    found = self.found(b"".join(changed), size)
                    self.assertEqual((sorted(found[0]), sorted(found[1])), expected, changed)

    def told_by(self, lines: list[bytes]) -> tuple[list[str], list[str]]:
        """The same, each firm's lines looked at one by one."""
        texts: dict[str, bytes] = dict.fromkeys(FIRMS, b"")
        places: dict[str, list[int]] = {firm: [] for firm in FIRMS}
        place = 1
        for line in lines:
            word = line.split(b" ")[0].decode()
            if word in ("done", "fault"):
                place += 1
            else:
                texts[word] += line
                places[word].append(place)
        others = [firm for firm in FIRMS if texts[firm] != TEXTS[firm]]
        return others, [firm for firm in FIRMS if places[firm] != PLACES[firm]]

    def test_a_firm_that_was_sent_nothing(self) -> None:
        self.assertEqual(self.found(GIVEN + b"CEDAR 8=7|\n", 7), (["CEDAR"], ["CEDAR"]))

    def test_a_line_that_is_none(self) -> None:
        for line in (b"ALPHA\n", b"\n", b"done\n", b"fault"):
            for size in SIZES:
                with self.subTest(line, size=size):
                    self.assertRaises(Unreadable, self.found, GIVEN + line, size)


@dataclass(frozen=True)
class Session:
    """The messages of one firm and of its session, as a log gives them."""

    given: list[tuple[int, int, bytes]]
    left: list[tuple[int, int | None, bytes]]
    size: int = 1  # of a block
    has_epochs: bool = False

    def sent_blocks(self, firm: str) -> Iterator[Messages]:
        return blocks(self.given, self.size)

    def sent(self, firm: str) -> Iterator[Sent]:
        return (Sent(firm, *row) for row in self.given)

    def outgoing(self, firm: str) -> Iterator[Outgoing]:
        return (Outgoing(firm, *row) for row in self.left)


def blocks(rows: list[tuple[int, int, bytes]], size: int) -> Iterator[Messages]:
    """Rows, so many at a time, as columns."""
    for at in range(0, len(rows), size):
        yield Messages(*zip(*rows[at : at + size]))


def session() -> Session:
    """Seven messages, in front of them one and behind them another of the session itself."""
    sent: list[tuple[int, int, bytes]] = []
    outgoing: list[tuple[int, int | None, bytes]] = []
    head = "35=%s|34=%d|49=VENUE|52=20250314-09:00:20.000|56=DLR1"

    def put(kind: str, number: int | None, body: bytes) -> None:
        start = soh(head % (kind, len(outgoing) + 1))
        data = framed(fields_of(start + body + b"\x01"))
        outgoing.append((len(outgoing) + 1, number, data))

    put("A", None, soh("|98=0|108=30"))
    for number in range(1, 8):
        fields = fields_of(soh(SHOWN if number % 3 == 1 else ACCEPTED))[2:-1]
        frame = framed((tag, b"%d" % number if tag == 34 else value) for tag, value in fields)
        parts = parts_of(frame)
        assert parts is not None
        sent.append((number, number * 10, frame))
        put(parts.kind.decode(), number, carried(parts, None))
    put("5", None, b"")
    return Session(sent, outgoing)


class Sessions(unittest.TestCase):
    """A session and what it carries."""

    def is_right(self, log: Session) -> bool:
        return not list(check_wire(cast(Log, log), "DLR1"))

    def test_all_is_right(self) -> None:
        self.assertTrue(self.is_right(session()))

    def test_rows_left_out_doubled_and_turned(self) -> None:
        """Whether the last message of the session itself left, only a seal can tell."""
        for name in "given", "left":
            rows = getattr(session(), name)
            alike = rows, rows[:-1] if name == "left" else rows
            for at in range(len(rows)):
                turned = rows[:at] + rows[at : at + 2][::-1] + rows[at + 2 :]
                for changed in (rows[:at] + rows[at + 1 :], rows[: at + 1] + rows[at:], turned):
                    log = session()
                    getattr(log, name)[:] = changed
                    self.assertEqual(self.is_right(log), changed in alike, (name, at))

    def test_two_bodies_that_are_turned(self) -> None:
        """The numbers stay where they were."""
        for at in range(1, 7):
            log = session()
            (one, first, data), (two, second, text) = log.left[at : at + 2]
            log.left[at : at + 2] = [(one, first, text), (two, second, data)]
            self.assertFalse(self.is_right(log), at)

    def test_a_byte_of_each_message(self) -> None:
        for row in range(9):
            number, other, data = session().left[row]
            for at in (0, 20, len(data) // 2, len(data) - 2, len(data) - 1):
                log = session()
                log.left[row] = number, other, data[:at] + bytes([data[at] ^ 1]) + data[at + 1 :]
                self.assertFalse(self.is_right(log), (row, at))


class Kept(unittest.TestCase):
    """What a firm was sent, as a file."""

    def kept(self, rows: list[tuple[int, int, bytes]], size: int) -> tuple[bytes | None, bytes]:
        with folder() as name:
            files = Files(Path(name))
            keep(cast(Log, Session(rows, [], size)), "DLR1", files)
            sent = files.sent("DLR1")
            data = sent.read_bytes() if sent.exists() else None
            return data, files.places("DLR1").read_bytes()

    def test_blocks_of_any_size(self) -> None:
        rows = session().given
        text = "".join("DLR1 %s\n" % data.decode().replace("\x01", "|") for _, _, data in rows)
        places = array("q", range(10, 80, 10)).tobytes()
        for size in range(1, 9):
            self.assertEqual(self.kept(rows, size), (text.encode(), places))

    def test_what_is_no_line_of_the_program(self) -> None:
        """Nor is a number that is not the next: there is no file, and nothing is like it."""
        for size in (1, 2, 3, 7):
            for at in range(7):
                rows = session().given
                number, place, data = rows[at]
                for row in (
                    (number, place, data + b"\n"),
                    (number, place, b"|" + data),
                    (number, place, data.replace(b"\x01", b"|", 1)),
                    (number + 1, place, data),
                    (number - 1, place, data),
                ):
                    rows[at] = row
                    self.assertIsNone(self.kept(rows, size)[0], (at, row))


class Texts(LogCase):
    """A column of texts may hold bytes that are none."""

    def test_no_row_is_left_out_or_given_twice(self) -> None:
        with SqliteSource(DAY).open() as log:
            rows = list(log.entries())
        for places in ([1], [300], [20, 21, 299], [0, len(rows) - 1]):
            for place in places:
                self.change("UPDATE entry SET firm = CAST(x'41ff' AS TEXT) WHERE place = ?", place)
                rows[place] = rows[place]._replace(firm="A\\xff")
            for size in (1, 7, 300, 1000):
                with patch.object(sqlite_log, "ROWS_AT_A_TIME", size):
                    with SqliteSource(self.log).open() as log:
                        self.assertEqual(list(log.entries()), rows, (places, size))


if __name__ == "__main__":
    unittest.main()
