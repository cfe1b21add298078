"""Seals and signatures of a log. Somebody put an entry in, with the right number and hash; changed one,
and made the chain anew; or cut the log off. And other keys, and logs of older forms.
"""

import hashlib
import sqlite3
import subprocess
import unittest
from contextlib import closing
from datetime import date
from pathlib import Path
from typing import Any

from mireseason_audit.checkpoints import check_numbers_of
from mireseason_audit.sqlite_log import SqliteSource
from mireseason_audit.until import UntilLog

from tests.audit import ledger
from tests.audit.common import ROOT, Ran, audit, folder, keys, venue_words
from tests.audit.draw_day import DATE
from tests.audit.tamper import ENTRIES, hash_of

FORMS = (3, 4, 5, 6)
SIGNED = r"checked +signatures: \d+ checkpoints, each by a gateway; no entry follows the last, of entry \d+\n"


def rows_of(log: Path, query: str, *values: object) -> list[Any]:
    with closing(sqlite3.connect(log, isolation_level=None)) as connection:
        return connection.execute(query, values).fetchall()


def draw(path: Path, form: int) -> None:
    words = ["/usr/bin/python3", "-m", "tests.audit.draw_day", str(path), "--requests", "6"]
    words += ["--form", str(form)]
    if form > 3:
        words += ["--checkpoint", str(path.with_suffix(".checkpoint"))]
    words += ["--", *venue_words()]
    subprocess.run(words, check=True, cwd=ROOT)


class Signatures(unittest.TestCase):
    place: Path

    @classmethod
    def setUpClass(cls) -> None:
        kept = folder()
        cls.addClassCleanup(kept.cleanup)
        cls.place = Path(kept.name)
        for form in FORMS:
            draw(cls.place / ("drawn-%d.db" % form), form)
        (cls.place / "gateway.pub").write_bytes(ledger.public_key())
        _, other = keys(cls.place)
        other.rename(cls.place / "other.pub")

    def setUp(self) -> None:
        self.log = self.place / "day.db"
        self.log.write_bytes((self.place / "drawn-6.db").read_bytes())
        self.kept = self.place / "drawn-6.checkpoint"

    def check_log(self, *words: str) -> Ran:
        key = str(self.place / "gateway.pub")
        return audit("check", self.log, *(words or ("--gateway-key", key)))

    def do(self, query: str, *values: object) -> None:
        rows_of(self.log, query, *values)

    def put_in(self) -> int:
        """The last entry once more behind itself, with number and hash as they have to be."""
        row = list(rows_of(self.log, ENTRIES)[-1])
        before = rows_of(self.log, "SELECT hash FROM entry ORDER BY place DESC LIMIT 1")[0][0]
        row[0] += 1
        place, term, moment, firm, number, line, _, _, received, connection = row
        values = place, term, moment, received, firm, number, connection, line, before
        last: Any = tuple(row)
        digest = hash_of(last, before)
        self.do("INSERT INTO entry VALUES (?, ?, ?, ?, ?, ?, ?, ?, ?, ?)", *values, digest)
        return int(place)

    def found(self, ran: Ran, pattern: str) -> None:
        self.assertEqual(ran.status, 1, ran.text)
        self.assertRegex(ran.out, pattern)

    def test_whole(self) -> None:
        ran = self.check_log()
        self.assertEqual(ran.status, 0, ran.text)
        self.assertRegex(ran.out, SIGNED)

    def test_several_keys(self) -> None:
        named = (str(self.place / name) for name in ("other.pub", "gateway.pub"))
        ran = self.check_log(*(word for name in named for word in ("--gateway-key", name)))
        self.assertEqual(ran.status, 0, ran.text)

    def test_put_in(self) -> None:
        place = self.put_in()
        ran = self.check_log()
        self.found(ran, r"entries: entry %d: it is not sealed: the last seal is of entry" % place)
        self.found(ran, r"entries: entry %d: 1 entry follows the last checkpoint" % place)

    def test_put_in_with_a_seal(self) -> None:
        """A seal that is none, which only the gateways can tell: nobody has signed the entry."""
        place = self.put_in()
        seal = (
            "INSERT INTO seal SELECT number + 1, 0, ?, event, x'', hash, ? FROM seal"
            " ORDER BY number DESC LIMIT 1"
        )
        self.do(seal, place, hashlib.sha256(b"guessed").digest())
        ran = self.check_log()
        self.found(ran, r"entries: entry %d: 1 entry follows the last checkpoint" % place)

    def test_chain_anew(self) -> None:
        """The hash of an early entry, and each that follows from it."""
        before = bytes(32)
        for row in rows_of(self.log, ENTRIES):
            if row[0] == 5:
                row = (*row[:8], row[8][:-1] + ("1" if row[8][-1] == "0" else "0"), *row[9:])
            digest = hash_of(row, before)
            change = "UPDATE entry SET received = ?, before = ?, hash = ? WHERE place = ?"
            self.do(change, row[8], before, digest, row[0])
            before = digest
        pattern = r"entries: entry \d+: checkpoint \d+ is signed by none of the keys"
        self.found(self.check_log(), pattern)

    def test_door_row_changed(self) -> None:
        self.do(
            "INSERT INTO connection SELECT place + 1, term, moment, 'stranger', entry, NULL, NULL,"
            " address, NULL, 'no Logon', 0, hash, hash FROM connection ORDER BY place DESC LIMIT 1"
        )
        ran = self.check_log()
        self.found(ran, r"door: row \d+ is not sealed: the last seal is of row \d+")
        self.found(ran, r"door: no gateway has signed the rows from \d+ on")

    def test_no_checkpoints(self) -> None:
        self.do("DELETE FROM checkpoint")
        pattern = r"found wrong signatures: 0 checkpoints, NOT AS THEY SHOULD BE"
        self.found(self.check_log(), pattern)

    def test_last_checkpoint_out(self) -> None:
        self.do("DELETE FROM checkpoint WHERE number = (SELECT max(number) FROM checkpoint)")
        self.found(
            self.check_log(), r"entries: entry \d+: \d+ entr\w+ follows? the last checkpoint"
        )

    def test_other_key(self) -> None:
        ran = self.check_log("--gateway-key", str(self.place / "other.pub"))
        self.found(ran, r"checkpoint 1 is signed by none of the keys")

    def test_no_key(self) -> None:
        for text in (b"", b"-----BEGIN PUBLIC KEY-----\nAAAA\n-----END PUBLIC KEY-----\n"):
            (self.place / "none.pub").write_bytes(text)
            ran = self.check_log("--gateway-key", str(self.place / "none.pub"))
            self.assertEqual(ran.status, 2, ran.text)
            self.assertIn("none.pub can't be read", ran.err)

    def test_until(self) -> None:
        key = str(self.place / "gateway.pub")
        ran = audit("stats", self.log, "--until", "9", "--gateway-key", key)
        self.assertEqual(ran.status, 2, ran.text)
        self.assertIn("signatures, checkpoints and seals are of the whole log", ran.err)

    def test_a_gap_is_seen_in_a_part(self) -> None:
        """Up to an entry the checkpoints have numbers as in the whole log."""
        self.do("DELETE FROM checkpoint WHERE number = 1")
        with SqliteSource(self.log).open() as log:
            found = check_numbers_of(UntilLog(log, log.last_place()), DATE, date.max)
        assert found is not None
        self.assertIn("checkpoint 1 is missing", found.findings[0].text)

    def test_forms_before(self) -> None:
        """A log with all that its sessions sent, and one that no end ends: checked as they were."""
        for form in (4, 5):
            self.log.write_bytes((self.place / ("drawn-%d.db" % form)).read_bytes())
            ran = self.check_log()
            self.assertEqual(ran.status, 0, ran.text)
            self.assertIn("as its session carried them", ran.out)
            self.assertIn("not checked checkpoints: in this form of the log", ran.out)

    def test_form_3(self) -> None:
        """A log of an old release: checked as it was, and nobody has signed it."""
        self.log.write_bytes((self.place / "drawn-3.db").read_bytes())
        ran = audit("check", self.log)
        self.assertEqual(ran.status, 0, ran.text)
        self.assertIn("not checked signatures: without --gateway-key", ran.out)
        ran = self.check_log()
        self.assertEqual(ran.status, 2, ran.text)
        self.assertIn("of a form in which gateways did not sign", ran.err)
