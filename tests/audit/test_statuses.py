"""Statuses if something fails: 2 if nothing is known of the log, its file, the program or what is beside
them, and 1 if what is wrong stands in the log.
"""

import os
import shlex
import shutil
import signal
import sqlite3
import subprocess
import time
import unittest
from collections.abc import Callable
from contextlib import closing
from pathlib import Path

from tests.audit.common import AUDIT, DAY, LogCase, audit, remembered, venue_words
from tests.audit.witness import Witness
from tests.gateway.wait import LONG


class Statuses(LogCase):
    # ------------------------------------------------------------ the file

    def test_what_cannot_be_read(self) -> None:
        empty, text = self.place / "empty.db", self.place / "text.db"
        empty.write_bytes(b"")
        text.write_text("no log")
        for path in (empty, text, self.place / "nothing.db", self.place):
            self.assertEqual(audit("check", path).status, 2, path)
        self.change("UPDATE form SET number = 2")
        self.assertEqual(audit("check", self.log).status, 2)

    def test_a_log_that_goes_on_while_it_is_read(self) -> None:
        """The program is the one who knows when it is read: an entry is added when it is asked."""
        words = "INSERT INTO entry SELECT place + 1, 0, moment, NULL, NULL, line, hash, hash"
        words += " FROM entry ORDER BY place DESC LIMIT 1"
        program = shlex.join(venue_words())
        cases: list[tuple[str, str, list[object]]] = [
            ("alone", "check", []),
            ("live", "check", []),
            ("compare", "page", [self.place / "pages"]),
            ("compare", "pair", ["ALPHA"]),
        ]
        for number, (asked, command, rest) in enumerate(cases):
            with self.subTest(command + " " + asked):
                self.log = self.place / ("day-%d.db" % number)
                shutil.copyfile(DAY, self.log)
                self.change("PRAGMA journal_mode = WAL")
                script = 'case " $* " in *" %s "*) sqlite3 %s "%s" ;; esac; exec %s "$@"'
                grow = ["sh", "-c", script % (asked, self.log, words, program), "sh"]
                ran = audit(command, self.log, *rest, venue=grow)
                self.assertEqual((ran.status, ran.out), (2, ""))
                self.assertRegex(ran.err, "goes on while it is read, from entry 336 to 3")
                self.assertEqual(len(ran.err.splitlines()), 1)

    def test_a_log_that_is_lost_while_it_is_read(self) -> None:
        for number, command in enumerate(
            (
                "rm %s",
                "truncate -s 8192 %s",
                "truncate -s 100 %s",
                "truncate -s 0 %s",
                "echo no log >%s",
                "dd if=/dev/urandom of=%s bs=4096 count=99 2>/dev/null",
            )
        ):
            with self.subTest(command):
                self.log = self.place / ("day-%d.db" % number)
                shutil.copyfile(DAY, self.log)
                script = 'case " $* " in *" live "*) %s ;; esac; exec %s "$@"'
                words = script % (command % self.log, shlex.join(remembered()))
                ran = audit("check", self.log, venue=["sh", "-c", words, "sh"])
                self.assertEqual((ran.status, ran.out), (2, ""), ran.text)
                self.assertEqual(len(ran.err.splitlines()), 1, ran.err)
                self.assertIn(self.log.name, ran.err)

    def test_a_file_that_is_not_whole(self) -> None:
        """What stands in a log beside it was not written into it yet, and nobody may do so."""
        connection = sqlite3.connect(self.log, isolation_level=None)
        connection.execute("PRAGMA cache_size = 1")
        connection.execute("BEGIN")
        connection.execute("UPDATE entry SET term = 7")
        (self.place / "cut").mkdir()
        log = self.place / "cut" / "day.db"
        for end in ("", "-journal"):
            shutil.copyfile(str(self.log) + end, str(log) + end)
        connection.close()
        log.parent.chmod(0o555)
        try:
            ran = audit("check", log)
        finally:
            log.parent.chmod(0o755)
        self.assertEqual((ran.status, ran.out), (2, ""), ran.text)

    def test_a_log_in_a_folder_that_is_not_ours(self) -> None:
        """A file that was copied while it was open, without its write-ahead log, can still be
        read.
        """
        with closing(sqlite3.connect(self.log)) as connection:
            connection.execute("PRAGMA journal_mode = WAL")
        self.place.chmod(0o555)
        try:
            self.assertEqual(audit("check", self.log).status, 0)
        finally:
            self.place.chmod(0o755)

    # ------------------------------------------------------------ the program

    def test_a_program_that_is_no_venue(self) -> None:
        for words in (["false"], ["true"], ["/nowhere/venue"], ["sh", "-c", "exit 3"]):
            ran = audit("check", self.log, venue=words)
            self.assertNotEqual(ran.status, 0, words)
            self.assertNotIn("Traceback", ran.text)
        self.assertEqual(audit("check", self.log, venue=["/nowhere/venue"]).status, 2)

    def test_lists_that_are_not_one_for_each_dealer(self) -> None:
        """Whatever the program prints with status 0: nothing is said of the log then."""
        first, last = "/^dealer ALPHA/", "/^dealer EIGER/"
        for edit, text in (
            ("%s,$d" % first, "gives a list of no dealer's"),
            ("%s,$d" % last, "gives a list of no dealer's"),
            ("$!N;/dealer EIGER/d;P;D", "gives no list of EIGER"),
            ("s/^dealer BRAVO/dealer CEDAR/", "gives a list of no dealer's"),
            ("$a date 20261125", "gives a list of no dealer's"),
            ("1i own 09:00:00.000 x", "gives a list of no dealer's"),
            ("s/^lifted .*/lifted x/", "of the list of"),
        ):
            with self.subTest(edit):
                ran = audit("check", self.log, venue=self.edited("dues", edit))
                self.assertEqual((ran.status, ran.out), (2, ""))
                self.assertIn(text, ran.err)
                self.assertEqual(len(ran.err.splitlines()), 1)

    def test_lines_that_are_not_answered(self) -> None:
        """A program that ends early with status 0: nothing is said of the log then."""
        for edit in ("200q", "$d", "/^done /d", "d", "s/^done /dune /", "1q"):
            with self.subTest(edit):
                ran = audit("check", self.log, venue=self.edited("live", edit))
                self.assertEqual((ran.status, ran.out), (2, ""))
                self.assertIn("has not answered the last line, 399", ran.err)

    def test_words_of_a_program_that_are_none(self) -> None:
        for words in ("'", "rfq_venue \\", ""):
            done = subprocess.run(
                [str(AUDIT), "check", str(self.log)],
                env={**os.environ, "VENUE": words},
                capture_output=True,
                text=True,
                check=False,
            )
            self.assertEqual((done.returncode, len(done.stderr.splitlines())), (2, 1), done.stderr)

    def test_a_program_that_ends_while_it_is_asked_line_by_line(self) -> None:
        """`pair` asks `live` line by line."""
        words = 'case "$*" in live*) exit 0 ;; esac; exec %s "$@"' % shlex.join(venue_words())
        ran = audit("pair", self.log, "ALPHA", venue=["sh", "-c", words, "sh"])
        self.assertEqual((ran.status, len(ran.err.splitlines())), (2, 1), ran.err)

    # ------------------------------------------------------------ what stands in a log

    def test_another_type_in_a_column(self) -> None:
        self.change("UPDATE entry SET line = CAST(line AS TEXT) WHERE place = 3")
        first = " WHERE firm = 'ALPHA' AND number = 1"
        self.change("UPDATE sent SET bytes = CAST(bytes AS TEXT)" + first)
        self.assertEqual(audit("check", self.log).status, 0)
        self.change("UPDATE sent SET place = 'x'" + first)
        ran = audit("check", self.log)
        self.assertEqual(ran.status, 2, ran.text)
        self.assertIn("sent ALPHA 1", ran.err)

    def test_another_type_in_a_column_of_names_and_times(self) -> None:
        """Whoever asks for a firm's rows by its name gets none in which the name is no text."""
        for query, text in (
            (
                "UPDATE entry SET firm = CAST(firm AS BLOB) WHERE place = 300",
                "entries: entry 300: it was changed",
            ),
            (
                "UPDATE entry SET moment = CAST(moment AS BLOB) WHERE place = 300",
                "entries: entry 300: it was changed",
            ),
            (
                "UPDATE entry SET moment = CAST(x'ff' || moment AS TEXT) WHERE place = 300",
                "entries: entry 300: it was changed",
            ),
            (
                "UPDATE entry SET line = CAST(line || x'ff' AS TEXT) WHERE place = 300",
                "entries: entry 300: it was changed",
            ),
            (
                "INSERT INTO sent VALUES (CAST('ALPHA' AS BLOB), 1, 3, x'00')",
                "b'ALPHA': the configuration has no such firm",
            ),
            (
                "INSERT INTO outgoing VALUES (CAST(x'ff' AS TEXT), 1, NULL, x'00')",
                "\\xff: the configuration has no such firm",
            ),
        ):
            shutil.copyfile(DAY, self.log)
            self.change(query)
            ran = audit("check", self.log)
            self.assertEqual((ran.status, ran.err), (1, ""), query)
            self.assertIn("\n" + text, ran.out)

    def test_no_number_where_one_should_stand(self) -> None:
        rejected = "(SELECT place FROM sent WHERE instr(bytes, '35=3' || char(1)) LIMIT 1)"
        for query, text in (
            ("UPDATE session SET target = 'x' WHERE firm = 'ALPHA'", "session ALPHA: 'x' stands"),
            ("UPDATE entry SET number = 'x' WHERE place = " + rejected, ": 'x' stands where"),
            (
                "UPDATE outgoing SET sent = 'x' WHERE firm = 'ALPHA' AND number = 4",
                "outgoing ALPHA 4: 'x' stands",
            ),
        ):
            shutil.copyfile(DAY, self.log)
            self.change(query)
            ran = audit("check", self.log)
            self.assertEqual((ran.status, ran.out), (2, ""), query)
            self.assertIn(text, ran.err)
            self.assertEqual(len(ran.err.splitlines()), 1)

    def test_what_makes_rows_while_it_is_read(self) -> None:
        """Whoever writes a view or a computed column says how many rows it has, and how long ones."""
        for queries, name in (
            (
                ("ALTER TABLE session RENAME TO rows", "CREATE VIEW session AS SELECT * FROM rows"),
                "session",
            ),
            (
                ("DROP TABLE session", "CREATE VIRTUAL TABLE session USING fts5(firm, target)"),
                "session",
            ),
            (("ALTER TABLE sent ADD COLUMN more BLOB AS (zeroblob(1000000))",), "sent"),
        ):
            shutil.copyfile(DAY, self.log)
            for query in queries:
                self.change(query)
            ran = audit("check", self.log)
            self.assertEqual((ran.status, ran.out), (2, ""), queries)
            self.assertIn("%s is no table, or has a computed column" % name, ran.err)
            self.assertEqual(len(ran.err.splitlines()), 1)

    def test_a_value_that_is_longer_than_any(self) -> None:
        for query in (
            "UPDATE entry SET line = zeroblob(20000000) WHERE place = 0",
            "UPDATE entry SET moment = CAST(zeroblob(20000000) AS TEXT) WHERE place = 300",
            "UPDATE sent SET bytes = zeroblob(20000000) WHERE firm = 'ALPHA' AND number = 1",
        ):
            shutil.copyfile(DAY, self.log)
            self.change(query)
            ran = audit("check", self.log)
            self.assertEqual((ran.status, ran.out), (2, ""), query)
            self.assertEqual(ran.err, "mireseason-audit: day.db: string or blob too big\n")

    def test_a_line_feed_in_a_line(self) -> None:
        """An entry is one line for the venue, so that those behind it keep their places."""
        self.change(
            "UPDATE entry SET line = CAST(line || char(10) || 'clock 09:00:00.000' AS BLOB)"
            " WHERE place = 300"
        )
        last = [row for row in Witness(DAY).sent if row.firm == "BRAVO"][-1]
        self.change("UPDATE sent SET place = 301 WHERE firm = 'BRAVO' AND number = ?", last.number)
        ran = audit("check", self.log)
        self.assertEqual(ran.status, 1, ran.text)
        self.assertIn("entries: entry 300: it was changed", ran.out)
        self.assertIn("entries: entry 300: the venue does not take its line: form", ran.out)
        text = "BRAVO: entry 301, number %d: it is given for entry %d" % (last.number, last.place)
        self.assertIn(text, ran.out)

    def test_no_entry_and_no_day(self) -> None:
        self.change("DELETE FROM entry")
        ran = audit("check", self.log)
        self.assertEqual((ran.status, ran.err), (1, ""))
        self.assertIn("no entry 0", ran.out)

    def test_a_firm_that_the_day_does_not_have(self) -> None:
        rows = "SELECT 'NOBODY', number, place, bytes FROM sent WHERE firm = 'ALPHA'"
        self.change("INSERT INTO sent " + rows)
        ran = audit("check", self.log)
        self.assertEqual(ran.status, 1)
        self.assertIn("NOBODY: the configuration has no such firm", ran.out)

    # ------------------------------------------------------------ what fails beside the log

    def test_what_can_not_be_written(self) -> None:
        """Neither says anything of the log, and each is one line with its cause."""
        with open("/dev/full", "wb") as full:
            words = [str(AUDIT), "check", "--venue", shlex.join(remembered()), str(self.log)]
            done = subprocess.run(words, stdout=full, stderr=subprocess.PIPE, check=False)
        self.assertEqual((done.returncode, len(done.stderr.splitlines())), (2, 1))
        self.assertIn(b"No space left on device", done.stderr)
        limited = ["sh", "-c", 'ulimit -f 16; exec "$@"', "sh", *words]  # of the size of a file
        done = subprocess.run(limited, capture_output=True, check=False)
        self.assertEqual((done.returncode, done.stdout), (2, b""))
        self.assertIn(b"File too large", done.stderr)
        self.assertEqual(len(done.stderr.splitlines()), 1)
        (self.place / "file").write_text("")
        ran = audit("page", self.log, self.place / "file" / "pages")
        self.assertEqual((ran.status, ran.out, len(ran.err.splitlines())), (2, "", 1), ran.err)

    def test_a_signal(self) -> None:
        """It ends the program that is run, too, and leaves no file behind, if it can be handled."""
        asleep = 'case "$*" in live*) echo $$ >"$TMPDIR/asleep"; exec sleep 600 ;; esac; '
        program = asleep + 'exec %s "$@"' % shlex.join(remembered())
        venue = shlex.join(["sh", "-c", program, "sh"])
        for number, status in ((signal.SIGTERM, 143), (signal.SIGINT, 130), (signal.SIGKILL, -9)):
            left = self.place / ("left-%d" % number)
            left.mkdir()
            process = subprocess.Popen(
                [str(AUDIT), "check", "--venue", venue, str(self.log)],
                env={**os.environ, "TMPDIR": str(left)},
                stderr=subprocess.PIPE,
            )
            file = left / "asleep"
            self.wait_until(lambda: file.exists() and file.read_text().strip() != "")
            asked = Path("/proc") / file.read_text().strip()
            process.send_signal(number)
            _, told = process.communicate(timeout=LONG)  # whoever has it open is gone then
            self.assertEqual((process.returncode, told), (status, b""))
            # The kernel kills it where nobody else can, and a little later.
            self.wait_until(lambda: not asked.exists())
            if number != signal.SIGKILL:
                self.assertEqual([path.name for path in left.iterdir()], ["asleep"])

    def wait_until(self, holds: Callable[[], bool]) -> None:
        deadline = time.monotonic() + LONG
        while not holds():
            self.assertLess(time.monotonic(), deadline)
            time.sleep(0.05)

    def test_a_locale_without_letters_of_other_alphabets(self) -> None:
        plain = {"LC_ALL": "C", "PYTHONUTF8": "0", "PYTHONCOERCECLOCALE": "0"}
        pages = self.place / "pages"
        ran = audit("page", self.log, pages, environment=plain)
        self.assertEqual((ran.status, ran.err), (0, ""))
        self.assertIn("✓", (pages / "index.html").read_text(encoding="utf-8"))
        self.change("INSERT INTO sent VALUES ('É', 1, 3, x'00')")
        ran = audit("check", self.log, environment=plain)
        self.assertEqual((ran.status, ran.err), (1, ""))
        self.assertIn("\\xc9: the configuration has no such firm", ran.out)


if __name__ == "__main__":
    unittest.main()
