"""Who it was: what happened to connections, and which connection each message came on, against
what gateway/schema.sql says of them.
"""

import hashlib
import re
import shutil
import sqlite3
import subprocess
import unittest
from collections.abc import Iterable
from contextlib import closing
from dataclasses import dataclass, field
from pathlib import Path
from typing import Any

from mireseason_audit.came_on import CameOn
from mireseason_audit.door import Door, DoorReader, event_hash
from mireseason_audit.records import ConnectionEvent, Entry

from tests.audit.common import DAY, Folder, Ran, audit, folder, keys, venue_words
from tests.audit.pages import Element, read_page, rows_of, table_behind

PEER = "192.0.2.1:40001"
Changes = list[tuple[int, dict[str, Any], str]]  # where, what stands there, and what is said of it


@dataclass
class Log:
    """A log without anything but what the door needs: each row follows on the one before."""

    entries: list[Entry] = field(default_factory=list)
    events: list[ConnectionEvent] = field(default_factory=list)

    def entry(self, at: str, firm: str | None = None, connection: int | None = None) -> "Log":
        """An entry of a time to the microsecond; with a connection, a message that came on it."""
        place = len(self.entries)
        number = None if connection is None else place
        row = Entry(place, 0, at[:12], firm, number, b"", b"", b"", at, connection)
        self.entries.append(row)
        return self

    def event(self, at: str, event: str, **columns: Any) -> "Log":
        before = self.events[-1].hash if self.events else bytes(32)
        place, behind = len(self.events) + 1, len(self.entries) - 1
        has_number, has_firm = event in ("logon", "end"), event in ("logon", "end", "refused")
        firm, why = "DLR1" if has_firm else None, None if event == "logon" else "closed"
        number = 1 if has_number else None
        made = ConnectionEvent(
            place, 0, at, event, behind, number, firm, PEER, None, why, 0, before, b""
        )._replace(**columns)
        self.events.append(made._replace(hash=event_hash(made)))
        return self

    def found(self) -> Door:
        reader = DoorReader(iter(self.events))
        for entry in self.entries:
            reader.take(entry)
        return reader.end()

    def texts(self) -> list[str]:
        return [" ".join(one.lines()) for one in self.found().findings]


def whole() -> Log:
    """A day as it should be: a message before and after a lost connection, and strangers."""
    log = Log().entry("09:00:00.000000").event("09:00:00.000500", "logon")
    log.entry("09:00:01.000001", "DLR1", 1).entry("09:00:01.000001", "DLR1", 1)
    log.event("09:00:01.000001", "refused", why="wrong password")
    log.event("09:00:01.000002", "stranger", why="no Logon", left_out=7)
    log.entry("09:00:02.000000").event("09:00:02.000000", "end")
    log.entry("09:00:02.000100", "DLR1").event("09:00:03.000000", "logon", number=2)
    log.event("09:00:03.000000", "logon", number=5, firm="INV1").entry("09:00:04.1", "DLR1", 2)
    log.entries[-1] = log.entries[-1]._replace(moment="09:00:04.100", received="09:00:04.099999")
    log.event("09:00:05.000000", "left out", why="no Logon", left_out=2, address="")
    return log.event("09:00:05.000000", "end", number=2)


class Doors(unittest.TestCase):
    """A day that is changed in one thing, and what is said of it, however it is cut into blocks."""

    def test_the_hash_is_that_of_the_schema(self) -> None:
        """BEFORE PLACE TERM MOMENT ENTRY NUMBER FIRM LEFT_OUT and the lengths of EVENT ADDRESS
        CERTIFICATE WHY, a line feed, and these texts.
        """
        row = ConnectionEvent(
            7,
            2,
            "09:00:00.000001",
            "end",
            12,
            3,
            "DLR1",
            PEER,
            "Dé",
            "closed",
            4,
            bytes(range(32)),
            b"",
        )
        text = bytes(range(32)).hex() + " 7 2 09:00:00.000001 12 3 DLR1 4 3 15 3 6\n"
        text += "end" + PEER + "Dé" + "closed"
        self.assertEqual(event_hash(row), hashlib.sha256(text.encode()).digest())
        row = row._replace(event="left out", number=None, firm=None, certificate=None, why=None)
        text = bytes(range(32)).hex() + " 7 2 09:00:00.000001 12 - - 4 8 15 - -\nleft out" + PEER
        self.assertEqual(event_hash(row), hashlib.sha256(text.encode()).digest())

    def test_a_whole_day(self) -> None:
        found = whole().found()
        self.assertEqual([one.text for one in found.findings], [])
        self.assertEqual((found.events, found.connections), (8, 3))
        self.assertEqual(found.last, whole().events[-1].hash)

    def test_entries_that_are_not_as_they_should_be(self) -> None:
        changes: Changes = [
            (1, {"connection": None}, "entry 1: number 1 of DLR1's session came on no connection"),
            (
                1,
                {"connection": 9},
                "entry 1: number 1 of DLR1's session came on connection 9, and"
                " no Logon was accepted on that before it",
            ),
            (
                1,
                {"connection": 2},
                "entry 1: number 1 of DLR1's session came on connection 2, and"
                " no Logon was accepted on that before it",
            ),
            (
                5,
                {"connection": 5},
                "entry 5: number 5 of DLR1's session came on connection 5," " which is INV1's",
            ),
            (
                5,
                {"connection": 1},
                "entry 5: number 5 of DLR1's session came on connection 1," " which had ended",
            ),
            (
                5,
                {"firm": "INV1"},
                "entry 5: number 5 of INV1's session came on connection 2," " which is DLR1's",
            ),
            (
                4,
                {"number": 4, "connection": 1},
                "entry 4: number 4 of DLR1's session came on" " connection 1, which had ended",
            ),
            (4, {"connection": 1}, "entry 4: it has connection 1, and is no message that came"),
            (
                2,
                {"received": "09:00:01.000000"},
                "entry 2: it was received at 09:00:01.000000, and"
                " what came before it on its connection at 09:00:01.000001",
            ),
            (
                2,
                {"received": "09:00:01.001000"},
                "entry 2: it was received at 09:00:01.001000," " after its moment 09:00:01.000",
            ),
            (
                3,
                {"received": "09:00:01.999999"},
                "entry 3: it was made at 09:00:01.999999, and its" " moment is 09:00:02.000",
            ),
            (
                3,
                {"received": "09:00:02.001000"},
                "entry 3: it was made at 09:00:02.001000, and its" " moment is 09:00:02.000",
            ),
            (
                2,
                {"received": "09:00:01.00000"},
                "entry 2: it was received at 09:00:01.00000, which" " is no time",
            ),
        ]
        for at, columns, text in changes:
            log = whole()
            log.entries[at] = log.entries[at]._replace(**columns)
            self.assertIn("entries: " + text, log.texts(), (at, columns))

    def test_rows_that_are_not_as_they_should_be(self) -> None:
        changes: Changes = [
            (3, {"hash": bytes(32)}, "row 3: it was changed: its SHA-256 is another than it says"),
            (3, {"place": 9}, "row 3 is missing: in its place comes 9"),
            (2, {"term": -1}, "row 2: its term -1 is before 0, that of the row before it"),
            (
                2,
                {"moment": "08:59:59.999999"},
                "row 2: its moment 08:59:59.999999 is before"
                " 09:00:00.000500, that of the row before it",
            ),
            (
                4,
                {"moment": "09:00:01.999999"},
                "row 4: its moment 09:00:01.999999 is before"
                " 09:00:02.000, that of entry 3, after which it stands",
            ),
            (3, {"moment": "9:00"}, "row 3: its moment 9:00 is no time"),
            (4, {"entry": 1}, "row 4: it stands after entry 1, and the row before it after 2"),
            (8, {"entry": 6}, "row 8: it stands after entry 6, and the last one is 5"),
            (2, {"event": "let in"}, "row 2: it is `let in`, and there is no such event"),
            (1, {"number": None}, "row 1: it is `logon`, without number"),
            (3, {"firm": "DLR1"}, "row 3: it is `stranger`, with firm"),
            (4, {"why": None}, "row 4: it is `end`, without why"),
            (5, {"number": 1}, "row 5: connection 1 comes after connection 1"),
            (
                6,
                {"firm": "DLR1"},
                "row 6: connection 5 of DLR1 begins, and its connection 2 has" " not ended",
            ),
            (8, {"number": 3}, "row 8: connection 3 of DLR1 ends, and it has no such connection"),
            (
                8,
                {"address": "192.0.2.9:1"},
                "row 8: connection 2 ends as that of 192.0.2.9:1, and" " began as that of " + PEER,
            ),
            (
                8,
                {"certificate": "X"},
                "row 8: connection 2 ends as that of %s, certificate X, and"
                " began as that of %s" % (PEER, PEER),
            ),
            (
                4,
                {"moment": "09:00:01.000000", "entry": 2},
                "row 4: connection 1 ends at"
                " 09:00:01.000000, and a message came on it at 09:00:01.000001",
            ),
        ]
        for place, columns, text in changes:
            log = whole()
            changed = log.events[place - 1]._replace(**columns)
            if "hash" not in columns:
                changed = changed._replace(hash=event_hash(changed))
            log.events[place - 1] = changed
            self.assertIn("door: " + text, log.texts(), (place, columns))
            if place < 8 and "place" not in columns:
                follows = "door: row %d: it does not follow on the row before it, as that is now"
                self.assertIn(follows % (place + 1), log.texts())

    def test_a_message_that_waited(self) -> None:
        """It was received before a Logon of another firm, and had its turn at the log behind that:
        the venue takes it at its receipt.
        """
        log = Log().entry("09:00:00.000000").event("09:00:00.000500", "logon")
        log.event("09:00:02.000000", "logon", number=2, firm="INV1")
        log.entry("09:00:01.000001", "DLR1", 1).entry("09:00:02.000100", "INV1", 2)
        self.assertEqual(log.texts(), [])

    def test_a_logon_that_is_taken_out(self) -> None:
        log = whole()
        del log.events[0]
        self.assertIn("door: row 1 is missing: in its place comes 2", log.texts())
        text = "entries: entry 1: number 1 of DLR1's session came on connection 1, and no Logon"
        self.assertTrue(any(one.startswith(text) for one in log.texts()), log.texts())

    def test_words_on_a_page(self) -> None:
        log = whole()
        connections = CameOn({event.number or 0: event for event in log.events[:1]})
        words = [connections.words(entry) for entry in log.entries[1:6]]
        self.assertEqual(
            words[0],
            "received 09:00:01.000001 on connection 1 from 192.0.2.1:40001,"
            " since 09:00:00.000500",
        )
        self.assertEqual(words[3], "made by the gateway 09:00:02.000100")
        self.assertEqual(
            words[4], "received 09:00:04.099999 on connection 2, on which it had no" " Logon"
        )
        none = log.entries[1]._replace(connection=None)
        self.assertEqual(connections.words(none), "received 09:00:01.000001 on no connection")


class DrawnDay(unittest.TestCase):
    """A day as a gateway writes it now, checked and paged once."""

    kept: Folder
    place: Path
    ran: Ran

    @classmethod
    def setUpClass(cls) -> None:
        cls.kept = folder()
        cls.addClassCleanup(cls.kept.cleanup)
        cls.place = Path(cls.kept.name)
        words = ["/usr/bin/python3", "-m", "tests.audit.draw_day", str(cls.place / "day.db")]
        words += ["--requests", "9", "--seed", "6", "--", *venue_words()]
        subprocess.run(words, check=True)
        cls.ran = audit("page", cls.place / "day.db", cls.place / "pages")

    def rows(self, query: str, log: Path | None = None) -> list[Any]:
        with closing(sqlite3.connect(log or self.place / "day.db")) as connection:
            return connection.execute(query).fetchall()

    def pages(self, names: Iterable[str]) -> list[Element]:
        return [read_page(self.place / "pages" / name) for name in names]

    def test_it_is_whole(self) -> None:
        self.assertEqual((self.ran.status, self.ran.err), (0, ""), self.ran.text)
        ((events, last),) = self.rows(
            "SELECT count(*), (SELECT hash FROM connection ORDER BY place DESC LIMIT 1)"
            " FROM connection"
        )
        ((connections,),) = self.rows("SELECT count(*) FROM connection WHERE event = 'logon'")
        text = "door      %d connections in %d rows, each follows on the one before: %s"
        self.assertIn(text % (connections, events, last.hex()), self.ran.out.splitlines())
        self.assertIn("and the record is consistent", self.ran.out)

    def test_each_message_says_which_connection_it_came_on(self) -> None:
        query = """SELECT entry.place, entry.firm, entry.number, received, address, certificate,
            connection.moment, connection.number FROM entry LEFT JOIN connection
            ON connection.number = entry.connection AND event = 'logon' WHERE entry.firm <> ''"""
        shown: dict[str, Element] = {}
        for page in self.pages(
            "firms/%s-1.html" % firm
            for firm, in self.rows("SELECT DISTINCT firm FROM entry WHERE firm <> ''")
        ):
            shown |= {one.attributes["id"]: one for one in page.all("article", "came")}
        rows = self.rows(query)
        self.assertEqual(len(shown), len(rows))
        for place, _, number, received, address, certificate, since, connection in rows:
            words = [one.text for one in shown["e%d" % place].all("p")[0].all("span")]
            named = (
                address + (", certificate %s" % certificate if certificate else "")
                if address
                else ""
            )
            expected = "made by the gateway %s" % received
            if number is not None:
                text = "received %s on connection %d from %s, since %s"
                expected = text % (received, connection, named, since)
            self.assertEqual(words[-1], expected)

    def test_a_request_says_it_too(self) -> None:
        received = dict(self.rows("SELECT place, received FROM entry"))
        acts = 0
        for page in self.pages(
            "requests/" + path.name for path in (self.place / "pages" / "requests").iterdir()
        ):
            for row in rows_of(table_behind(page, "Who said what, and who was told what")):
                place, who, came = int(row[1].text), row[2].text, row[3].text
                acts += 1
                self.assertEqual(came == "", who == "the clock", came)
                if came:
                    self.assertRegex(came, r"^(received|made by the gateway) ")
                    self.assertIn(received[place], came)
        self.assertGreater(acts, 20)

    def test_the_page_of_the_door(self) -> None:
        """Each row of the table, in its order; what a stranger has named is text."""
        (page,) = self.pages(["door-1.html"])
        shown = [[cell.text for cell in row] for row in rows_of(page.all("table")[0])]
        query = """SELECT place, moment, event, coalesce(number, ''), coalesce(firm, ''), address,
            coalesce(certificate, ''), entry, left_out, coalesce(why, '') FROM connection
            ORDER BY place"""
        rows = [[str(value) for value in row] for row in self.rows(query)]
        for row in rows:
            row[8] = row[8] if row[8] != "0" else ""
        self.assertEqual(shown, rows)
        self.assertIn("<b>nobody</b>", [row[6] for row in shown])
        (index,) = self.pages(["index.html"])
        self.assertIn("door-1.html", [one.attributes["href"] for one in index.all("a")])

    def test_a_seal_holds_the_door(self) -> None:
        private, public = keys(self.place)
        log = self.place / "sealed.db"
        shutil.copyfile(self.place / "day.db", log)
        self.assertEqual(audit("seal", log, "--key", private).status, 0)
        self.assertEqual(audit("check", log, "--key", public).status, 0)
        ((last, hash_, entry),) = self.rows(
            "SELECT place, hash, entry FROM connection ORDER BY place DESC LIMIT 1", log
        )
        made = ConnectionEvent(
            last + 1,
            0,
            "18:00:00.000000",
            "stranger",
            entry,
            None,
            None,
            "192.0.2.9:1",
            None,
            "no Logon",
            0,
            hash_,
            b"",
        )
        values = (*made[:-1], event_hash(made))
        with closing(sqlite3.connect(log, isolation_level=None)) as connection:
            marks = ", ".join(["?"] * len(values))
            connection.execute("INSERT INTO connection VALUES (%s)" % marks, values)
            ran = audit("check", log, "--key", public)
            text = "door: its rows go on after those that were sealed: 1 more"
            self.assertIn(text, ran.out.splitlines())
            connection.execute("DELETE FROM connection WHERE place >= ?", (last,))
        ran = audit("check", log, "--key", public)
        self.assertIn("door: its rows are not those that were sealed", ran.out.splitlines())

    def test_a_finding_says_who_it_was(self) -> None:
        """On which connection the message came that is not as it should be."""
        ((place, received, number, address, since),) = self.rows(
            """SELECT entry.place, received, connection.number, address, connection.moment
            FROM entry JOIN connection ON connection.number = entry.connection AND event = 'logon'
            WHERE certificate IS NULL ORDER BY entry.place LIMIT 1"""
        )
        log = self.changed("UPDATE entry SET line = line || x'00' WHERE place = %d" % place)
        lines = audit("check", log).out.splitlines()
        at = next(n for n, line in enumerate(lines) if "%d: it was changed" % place in line)
        words = (received, number, address, since)
        expected = "    its message was  received %s on connection %d from %s, since %s" % words
        self.assertEqual(lines[at + 1], expected)

    def test_columns_of_other_types(self) -> None:
        for query, text in (
            ("UPDATE connection SET term = 'x' WHERE place = 2", "connection 2: 'x' stands where"),
            ("UPDATE entry SET connection = 'x' WHERE place = 1", "entry 1: 'x' stands where"),
        ):
            log = self.changed(query)
            ran = audit("check", log)
            self.assertEqual((ran.status, ran.out), (2, ""), query)
            self.assertIn(text, ran.err)
        for query, text in (
            (
                "UPDATE connection SET address = x'ff' WHERE place = 2",
                "door: row 2: it was changed",
            ),
            (
                "UPDATE connection SET certificate = CAST(x'ff41' AS TEXT) WHERE place = 2",
                "door: row 2: it was changed",
            ),
            (
                "UPDATE entry SET received = CAST(received AS BLOB) WHERE place = 1",
                "entries: entry 1: it was changed",
            ),
        ):
            ran = audit("check", self.changed(query))
            self.assertEqual((ran.status, ran.err), (1, ""), query)
            self.assertIn("\n" + text, ran.out)

    def test_a_firm_that_the_day_does_not_have(self) -> None:
        ran = audit("check", self.changed("UPDATE connection SET firm = 'ZETA' WHERE place = 1"))
        self.assertIn("\nZETA: the configuration has no such firm", ran.out)

    def changed(self, query: str) -> Path:
        log = self.place / "changed.db"
        shutil.copyfile(self.place / "day.db", log)
        with closing(sqlite3.connect(log, isolation_level=None)) as connection:
            connection.execute(query)
        return log


class OldDays(unittest.TestCase):
    """A log of form 1 is audited as before, and says nothing of who it was."""

    def test_nothing_is_said_of_the_door(self) -> None:
        ran = audit("check", DAY)
        self.assertEqual((ran.status, ran.err), (0, ""))
        self.assertFalse(re.search(r"(?m)^door", ran.out))

    def test_a_form_that_the_tables_are_not_of(self) -> None:
        with folder() as name:
            log = Path(name) / "day.db"
            for number, text in (
                (2, "the form of its tables is none of 1, 3, 4, 5 and 6"),
                (3, "no such column: received"),
            ):
                shutil.copyfile(DAY, log)
                with closing(sqlite3.connect(log, isolation_level=None)) as connection:
                    connection.execute("UPDATE form SET number = %d" % number)
                ran = audit("check", log)
                self.assertEqual((ran.status, ran.out), (2, ""))
                self.assertIn(text, ran.err)
                self.assertEqual(len(ran.err.splitlines()), 1)


if __name__ == "__main__":
    unittest.main()
