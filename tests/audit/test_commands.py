"""The commands, with their statuses: 0 if all is as it should be, 1 if it is not."""

import base64
import hashlib
import os
import re
import sqlite3
import subprocess
import unittest
from contextlib import closing
from pathlib import Path
from random import Random

from tests.audit.common import AUDIT, DAY, ROOT, LogCase, audit, keys, openssl, venue_words
from tests.audit.pages import read_page, rows_of, table_behind, walk
from tests.audit.tamper import Tamperer, framed
from tests.audit.witness import Witness


# The audit, where a file may not have the last byte of a seal from when that is written.
NO_ROOM = """import sys, resource
sys.path[:0] = ["audit", "common"]
from mireseason_audit import main, seal
write = seal.write_new
def write_in_less(path, data):
    resource.setrlimit(resource.RLIMIT_FSIZE, (len(data) - 1, len(data)))
    write(path, data)
seal.write_new = write_in_less
sys.exit(main.main(sys.argv[1:]))"""


def day_text(path: Path) -> bytes:
    """The day of a log as `live` reads it."""
    with closing(sqlite3.connect(path)) as connection:
        query = "SELECT line FROM entry ORDER BY place"
        lines: list[bytes] = [line for line, in connection.execute(query)]
    configuration = lines[0].split(b"%%\n", 1)[1]
    return configuration + b"%%\n" + b"".join(line + b"\n" for line in lines[1:])


class Commands(LogCase):
    def change_answer(self, before: str, after: str) -> int:
        """Changes the bytes of the first acceptance of a quote of ALPHA; answers its number."""
        number = next(
            row.number
            for row in Witness(DAY).sent
            if row.firm == "ALPHA" and row.message["35"] == "AI" and row.message.get("297") == "0"
        )
        value = "CAST(replace(bytes, %s, %s) AS BLOB)" % (before, after)
        query = "UPDATE sent SET bytes = %s WHERE firm = 'ALPHA' AND number = ?"
        self.change(query % value, number)
        return number

    # ------------------------------------------------------------ check

    def test_a_line_for_each_firm_and_one_verdict(self) -> None:
        ran = audit("check", self.log)
        witness = Witness(self.log)
        self.assertEqual((ran.status, ran.err), (0, ""))
        for name in witness.dealers + witness.investors:
            count = sum(row.firm == name for row in witness.sent)
            self.assertRegex(ran.out, r"(?m)^%s +\w+ +%d messages: as replayed" % (name, count))
        entries = r"(?m)^entries +%d, each follows on the one before" % witness.entries
        self.assertRegex(ran.out, entries)
        self.assertEqual(len(re.findall(r"(?m)^verdict: ", ran.out)), 1)

    def test_a_difference_has_firm_number_texts_and_place(self) -> None:
        number = self.change_answer("'297=0'", "'297=9'")
        ran = audit("check", self.log)
        self.assertEqual(ran.status, 1)
        rows = {(row.firm, row.number): row for row in Witness(DAY).sent}
        place = rows["ALPHA", number].place
        text = "ALPHA: entry %d, number %d: the log has another message" % (place, number)
        self.assertIn(text, ran.out)
        self.assertRegex(ran.out, r"the venue gives +8=FIXT\.1\.1\|.*297=0\|10=")
        self.assertRegex(ran.out, r"the log has +8=FIXT\.1\.1\|.*297=9\|10=")
        self.assertRegex(ran.out, r"(?m)^ALPHA .* NOT AS THEY SHOULD BE$")
        self.assertRegex(ran.out, r"(?m)^BRAVO .* as replayed")

    def test_a_bar_where_an_soh_should_stand(self) -> None:
        number = self.change_answer("char(1) || '297'", "'|297'")
        ran = audit("check", self.log)
        self.assertEqual(ran.status, 1)
        pattern = r"number %d: the log has another message than the venue gives"
        self.assertRegex(ran.out, pattern % number)

    # ------------------------------------------------------------ two files

    def two_files(self) -> tuple[Path, Path]:
        day, sent = self.place / "day.live", self.place / "sent.txt"
        day.write_bytes(day_text(self.log))
        query = "SELECT firm, bytes FROM sent ORDER BY place, firm, number"
        with closing(sqlite3.connect(self.log)) as connection, sent.open("wb") as file:
            for firm, data in connection.execute(query):
                file.write(firm.encode() + b" " + data.replace(b"\x01", b"|") + b"\n")
        return day, sent

    def test_two_files(self) -> None:
        day, sent = self.two_files()
        ran = audit("check", day, "--sent", sent)
        self.assertEqual(ran.status, 0, ran.text)
        self.assertIn("without a chain", ran.out)
        sent.write_bytes(sent.read_bytes().replace(b"297=17", b"297=18", 1))
        self.assertEqual(audit("check", day, "--sent", sent).status, 1)
        self.assertEqual(audit("check", day, "--sent", self.place / "nothing").status, 2)
        self.assertEqual(audit("seal", day, "--sent", sent, "--key", sent).status, 2)

    def test_two_files_that_are_none(self) -> None:
        day, sent = self.two_files()
        lines = sent.read_bytes().splitlines(keepends=True)
        for line in (b"x\n", b"\n", b" 8=FIXT.1.1|\n", b"ALPHA \n"):
            sent.write_bytes(b"".join([*lines[:7], line, *lines[7:]]))
            ran = audit("check", day, "--sent", sent)
            told = "mireseason-audit: %s: line 8 is no message\n" % sent
            self.assertEqual((ran.status, ran.text), (2, told), line)
        sent.write_bytes(b"done 1\n" + b"".join(lines) + b"fault 2 form\ndone 3 09:00:00.000\n")
        self.assertEqual(audit("check", day, "--sent", sent).status, 0)
        for text in (b"", b"%% \n", b"version = 1\n", b"# a line\n" * 2_000_000, b"x" * 20_000_000):
            day.write_bytes(text)
            ran = audit("check", day, "--sent", sent)
            self.assertEqual((ran.status, ran.out), (2, ""), text[:9])
            self.assertIn("no line `%%` follows a configuration", ran.err)

    def test_two_files_are_paged(self) -> None:
        """One line more has bytes that are no message: the venue drops them without an answer."""
        day, sent = self.two_files()
        day.write_bytes(day.read_bytes() + b"in ALPHA 17:00:00.000 no message\n")
        ran = audit("page", day, self.place / "pages", "--sent", sent)
        self.assertEqual(ran.status, 0, ran.text)
        refused = sorted((self.place / "pages").glob("refused-*.html"))[-1].read_text()
        self.assertEqual(refused.count("no answer"), 1)
        pages = len(list((self.place / "pages" / "requests").iterdir()))
        self.assertEqual(pages, len(Witness(self.log).requests))

    def test_what_firms_write_is_text_on_the_pages(self) -> None:
        """Identifiers may have any letter of ASCII; other fields, and bytes that are no message,
        may be anything at all. A quantity may have a point, and a price an exponent.
        """
        script, image = "<script>alert(1)</script>", "\"><img/src=x/onerror=a()>'&lt;{{7*7}}"
        deadline = "20250314-09:05:00"
        day, sent = self.place / "day.live", self.place / "sent.txt"
        lines = [
            "say INV1 T8 09:00:00 R 131=%s|146=1|48=BONDA0000001|22=4|54=1|38=2000000.0|126=%s"
            "|453=1|448=DLR1|447=D|452=35" % (script, deadline),
            "say DLR1 T1 09:01:00 S 117=%s|131=R1|48=BONDA0000001|22=4|133=99.5" % image,
            "say DLR1 T1 09:01:01 S 117=b|131=R1|48=BONDA0000001|22=4|133=1e9999|58=</b>",
            "say DLR1 T1 09:01:02 %s 117=b|58=%s" % (script.replace(" ", ""), image),
            "in DLR1 09:01:03 </code></details><script>\xff\x00 \u202e",
            "hex DLR1 00:00:inf 00",
            "hex DLR1 09:01:04 %s" % ("131=R1\x01" * 2).encode().hex(),
            "say INV1 T8 09:02:00 AJ 693=%s|694=1|117=Q1" % image,
        ]
        head = (ROOT / "examples" / "three-dealers.toml").read_bytes() + b"%%\n"
        day.write_bytes(head + "".join(line + "\n" for line in lines).encode("utf-8", "replace"))
        with day.open("rb") as file:
            words = [*venue_words(), "live", "--frames"]
            done = subprocess.run(words, stdin=file, capture_output=True, check=True)
        sent.write_bytes(done.stdout)
        pages = self.place / "pages"
        ran = audit("page", day, pages, "--sent", sent)
        self.assertEqual(ran.status, 0, ran.text)
        for path in pages.rglob("*.html"):
            for element in walk(read_page(path)):
                if element.name == "script":  # the one that hides rows
                    self.assertEqual((element.attributes, element.raw), ({"src": "filter.js"}, ""))
                self.assertNotEqual(element.name, "img", path)
                self.assertFalse([key for key in element.attributes if key.startswith("on")], path)
        index = read_page(pages / "index.html")
        ((row,),) = (rows_of(table_behind(index, "Requests")),)
        texts = [cell.text for cell in row]
        self.assertEqual(texts[3], script)
        self.assertEqual(texts[5], "2 000 000")
        self.assertIn("Traded, BONDA00000012 000 000", index.all("dl", "amounts")[0].text)
        request = read_page(pages / "requests" / "0001.html")
        self.assertIn(image, request.text)
        self.assertIn("1e9999", request.text)
        firm = read_page(pages / "firms" / "DLR1-1.html")
        self.assertIn("</code></details><script>\\xc3\\xbf\\x00 \\xe2\\x80\\xae", firm.text)

    # ------------------------------------------------------------ seal

    def test_seal_and_key(self) -> None:
        private, public = keys(self.place)
        other = self.place / "other"
        other.mkdir()
        _, wrong = keys(other)
        self.assertEqual(audit("check", self.log, "--key", public).status, 2)  # no seal yet
        ran = audit("seal", self.log, "--key", private)
        self.assertEqual(ran.status, 0)
        self.assertRegex(ran.out, r"\njudged: the entries, .*; not judged: what firms were sent")
        first = self.log.with_name("day.db.seal").read_bytes()
        self.assertEqual(audit("seal", self.log, "--key", private).status, 0)
        self.assertEqual(first, self.log.with_name("day.db.seal").read_bytes())
        ran = audit("check", self.log, "--key", public)
        self.assertEqual(ran.status, 0, ran.text)
        self.assertIn("as it was sealed", ran.out)
        self.assertEqual(audit("check", self.log, "--key", wrong).status, 1)
        self.assertEqual(audit("check", self.log, "--key", self.place / "none.pem").status, 2)
        for at in range(0, len(first), 97):
            changed = bytes([first[at] ^ 1])
            self.log.with_name("day.db.seal").write_bytes(first[:at] + changed + first[at + 1 :])
            self.assertIn(audit("check", self.log, "--key", public).status, (1, 2), at)

    def test_a_seal_that_is_there_stays(self) -> None:
        private, public = keys(self.place)
        seal = self.log.with_name("day.db.seal")
        seal.write_bytes(b"another")
        ran = audit("seal", self.log, "--key", private)
        self.assertEqual((ran.status, ran.out, seal.read_bytes()), (2, "", b"another"))
        self.assertIn("is there, and has another seal", ran.err)
        other = self.place / "other.seal"
        self.assertEqual(audit("seal", self.log, "--key", private, "--out", other).status, 0)
        ran = audit("check", self.log, "--seal", other)
        self.assertEqual((ran.status, ran.out), (2, ""))
        ran = audit("check", self.log, "--seal", other, "--key", public)
        self.assertEqual(ran.status, 0, ran.text)

    def test_a_seal_for_which_there_is_no_room(self) -> None:
        """Nothing is left of it, so that the log can be sealed once there is room."""
        private, _ = keys(self.place)
        whole, seal = self.place / "whole.seal", self.log.with_name("day.db.seal")
        self.assertEqual(audit("seal", self.log, "--key", private, "--out", whole).status, 0)
        words = ["/usr/bin/python3", "-c", NO_ROOM, "seal", str(self.log), "--key", str(private)]
        ran = subprocess.run(words, cwd=ROOT, capture_output=True, text=True, check=False)
        self.assertEqual((ran.returncode, ran.stdout, seal.exists()), (2, "", False))
        self.assertIn("the seal can't be written", ran.stderr)
        self.assertEqual(audit("seal", self.log, "--key", private).status, 0)
        self.assertEqual(seal.read_bytes(), whole.read_bytes())

    def test_a_log_that_goes_on_behind_its_seal(self) -> None:
        """Whether what was sealed is still there is told, and what is behind it."""
        private, public = keys(self.place)
        self.assertEqual(audit("seal", self.log, "--key", private).status, 0)
        with closing(sqlite3.connect(self.log, isolation_level=None)) as connection:
            ((hash_,),) = connection.execute("SELECT hash FROM entry WHERE place = 336")
            line = b"clock 20:00:00.000"
            text = hash_.hex() + " 337 0 20:00:00.000 - - %d\n" % len(line)
            digest = hashlib.sha256(text.encode() + line).digest()
            values = (337, 0, "20:00:00.000", None, None, line, hash_, digest)
            connection.execute("INSERT INTO entry VALUES (?, ?, ?, ?, ?, ?, ?, ?)", values)
        beat = Tamperer(self.log, Random(1))
        ((count,),) = beat.rows("SELECT max(number) FROM outgoing WHERE firm = 'ALPHA'")
        body = b"35=0|34=%d|49=VENUE|52=20261125-20:00:00.000|56=ALPHA|" % (count + 1)
        beat.do("INSERT INTO outgoing VALUES ('ALPHA', ?, NULL, ?)", count + 1, framed(body))
        ran = audit("check", self.log, "--key", public)
        self.assertEqual((ran.status, ran.err), (1, ""))
        told = [line for line in ran.out.splitlines() if "sealed" in line]
        self.assertEqual(
            told,
            [
                "entries: entry 336: the log goes on to entry 337, after entry 336, the last that was"
                " sealed",
                "ALPHA: its messages of its session go on after those that were sealed: 1 more",
            ],
        )
        beat.do(
            "UPDATE outgoing SET bytes = ? WHERE firm = 'ALPHA' AND number = 1",
            framed(b"35=A|34=1|49=VENUE|52=20261125-08:00:00.001|56=ALPHA|98=0|108=30|1137=9|"),
        )
        beat.connection.close()
        ran = audit("check", self.log, "--key", public)
        self.assertIn("ALPHA: its messages of its session are not those that were sealed", ran.out)

    def test_the_signature_is_openssl_s(self) -> None:
        """Whoever has openssl alone verifies a seal: its last line is the signature of the
        others.
        """
        private, public = keys(self.place)
        audit("seal", self.log, "--key", private)
        lines = self.log.with_name("day.db.seal").read_bytes().splitlines(keepends=True)
        (self.place / "text").write_bytes(b"".join(lines[:-1]))
        (self.place / "signature").write_bytes(base64.b64decode(lines[-1].split()[1]))
        openssl(
            "pkeyutl",
            "-verify",
            "-rawin",
            "-pubin",
            "-inkey",
            str(public),
            "-in",
            str(self.place / "text"),
            "-sigfile",
            str(self.place / "signature"),
        )

    def test_a_broken_chain_is_not_sealed(self) -> None:
        private, _ = keys(self.place)
        self.change("UPDATE entry SET moment = '23:00:00.000' WHERE place = 5")
        self.assertEqual(audit("seal", self.log, "--key", private).status, 1)
        self.assertFalse(self.log.with_name("day.db.seal").exists())

    # ------------------------------------------------------------ pages

    def test_a_signed_page(self) -> None:
        private, public = keys(self.place)
        pages = self.place / "pages"
        audit("seal", self.log, "--key", private)
        ran = audit("page", self.log, pages, "--key", public, "--sign", private)
        self.assertEqual(ran.status, 0, ran.text)
        openssl(
            "pkeyutl",
            "-verify",
            "-rawin",
            "-pubin",
            "-inkey",
            str(public),
            "-in",
            str(pages / "SHA256SUMS"),
            "-sigfile",
            str(pages / "SHA256SUMS.sig"),
        )
        self.assertIn("as it was sealed", (pages / "index.html").read_text())
        self.assertEqual(audit("page", self.log, pages).status, 2)  # the folder is not empty

    def test_a_key_that_is_none(self) -> None:
        """It is looked at before the day is."""
        _, public = keys(self.place)
        pages = self.place / "pages"
        for key in (self.place / "none.pem", public, self.log):
            for words in (["page", self.log, pages, "--sign"], ["seal", self.log, "--key"]):
                ran = audit(*words, key, venue=["/nowhere/venue"])
                self.assertEqual((ran.status, ran.out), (2, ""))
                self.assertIn("the private key %s can't be read" % key, ran.err)
        self.assertFalse(pages.exists())

    def test_a_request_that_the_day_does_not_have(self) -> None:
        """The folder is still empty, so that it can be written into."""
        pages = self.place / "pages"
        for number in (0, 41, -1):
            ran = audit("page", self.log, pages, "--request", number)
            self.assertEqual((ran.status, ran.out), (2, ""), number)
            self.assertIn("the day has no request %d: it has 40" % number, ran.err)
        ran = audit("page", self.log, pages, "--request", 40)
        self.assertEqual(ran.status, 0, ran.text)

    def test_a_place_that_is_far_away(self) -> None:
        """A firm's pages are as many as there are places."""
        self.change("UPDATE entry SET place = 1000000000000000 WHERE place = 336")
        ran = audit("check", self.log)
        self.assertIn("entry 336 is missing: after 335 comes 1000000000000000", ran.out)
        ran = audit("page", self.log, self.place / "pages")
        self.assertEqual((ran.status, ran.err), (1, ""))
        self.assertIn("entry 336 is missing: after 335 comes 1000000000000000", ran.out)
        text = "entries: no pages are written of 336 entries with places up to 1000000000000000"
        self.assertIn(text, ran.out)
        self.assertEqual(list((self.place / "pages").iterdir()), [])

    def test_a_page_of_a_day_with_a_fault(self) -> None:
        self.change_answer("'297=0'", "'297=9'")
        ran = audit("page", self.log, self.place / "pages")
        self.assertEqual(ran.status, 1, ran.text)
        text = (self.place / "pages" / "index.html").read_text()
        self.assertIn("Not as it should be.", text)
        self.assertIn("ALPHA: entry", text)

    # ------------------------------------------------------------ certificates and pairs

    def test_the_commands_of_a_certificate(self) -> None:
        """Each command that a certificate prints gives the hash that stands there."""
        pages = self.place / "pages"
        self.assertEqual(audit("page", self.log, pages).status, 0)
        (self.place / "bin").mkdir()
        program = self.place / "bin" / "rfq_venue"
        program.write_text('#!/bin/sh\nexec %s "$@"\n' % " ".join(venue_words()))
        program.chmod(0o755)
        path = "%s:%s" % (self.place / "bin", os.environ["PATH"])
        text = (pages / "certificates" / "BRAVO.html").read_text()
        hashes = re.findall(r"SHA-256\s+<code>([0-9a-f]{64})", text)
        pattern = r"(?m)^(?:<pre[^>]*>)?((?:rfq_venue|sha256sum) .*?)(?:</pre>)?$"
        commands = re.findall(pattern, text)
        answers = []
        for command in commands:
            command = command.replace("&lt;", "<")
            done = subprocess.run(
                command,
                shell=True,
                cwd=pages / "certificates",
                capture_output=True,
                text=True,
                env={**os.environ, "PATH": path},
                check=True,
            )
            answers.append(done.stdout.split()[0])
        self.assertEqual(answers, [hashes[0], hashes[1], hashes[0], hashes[1]])

    def test_a_certificate_that_compare_speaks_against(self) -> None:
        for number, edit in enumerate(
            (
                "s/^due .*/due equal/;s/^messages .*/messages differ at 1/",
                "s/^row equal/row differs/",
            )
        ):
            pages = self.place / ("pages-%d" % number)
            ran = audit("page", self.log, pages, venue=self.edited("compare", edit))
            self.assertEqual((ran.status, ran.err), (1, ""), ran.text)
            self.assertRegex(ran.out, "ALPHA: a second day beside this one: row ")
            self.assertIn("a second day beside this one", (pages / "index.html").read_text())

    def test_pair(self) -> None:
        ran = audit("pair", self.log, "ALPHA", venue=venue_words())
        self.assertEqual(ran.status, 0, ran.text)
        self.assertEqual(len(re.findall(r"compare ALPHA --live: row equal", ran.out)), 2)
        self.assertRegex(ran.out, r"quotes of 4 dealers moved by up to 64 32nds")
        prices, without = ran.out.split("Others' messages")
        self.assertNotRegex(prices, r"expired|won|lifted")
        # Its quotes that were hit are hit without the others, too, by the names that they have
        # then.
        self.assertRegex(without, r"[1-9][0-9]* hits of its quotes name them")
        self.assertNotRegex(without, r"lifted no longer: [1-9]")

    def test_pair_of_no_dealer(self) -> None:
        """An investor has no list of its own; and nobody else is asked about."""
        for name in ("FJORD", "NOBODY"):
            ran = audit("pair", self.log, name)
            told = "mireseason-audit: the day has no dealer %s\n" % name
            self.assertEqual((ran.status, ran.out, ran.err), (2, "", told))

    def test_pair_of_two_files(self) -> None:
        """Messages that the program frames are moved, named anew and left out as others are; what
        is no frame stays, and so does whatever the dealer itself sent.
        """
        day, sent = self.place / "day.live", self.place / "sent.txt"
        text = (ROOT / "examples" / "live" / "auction.lines").read_bytes()
        hits = [line for line in text.splitlines(keepends=True) if line.startswith(b"say INV1")]
        more = b"in DLR2 09:00:30 8=FIXT.1.1|9=5|35=S|117=x|131=R1|133=99|10=000|\n"
        more += b"say DLR1 T1 09:00:30 AJ 693=x|694=1|117=\xff\n"
        for quote, count in ((b"Q2", 1), (b"Q1", 0)):
            day.write_bytes(text.replace(hits[1], more + hits[1].replace(b"Q2", quote)))
            with day.open("rb") as file:
                words = [*venue_words(), "live", "--frames"]
                done = subprocess.run(words, stdin=file, capture_output=True, check=True)
            sent.write_bytes(done.stdout)
            ran = audit("pair", day, "DLR1", "--sent", sent, venue=venue_words())
            self.assertEqual((ran.status, ran.err), (0, ""), ran.text)
            self.assertIn("1 quotes of 1 dealers moved by up to 64 32nds", ran.out)
            told = "all 2 of the other dealers are left out, and %d hits of quotes"
            self.assertIn(told % count, ran.out)

    def test_wrong_arguments(self) -> None:
        wrong: list[list[str]] = [[], ["nothing"], ["check"], ["page", "x"], ["pair", "x"]]
        for words in wrong:
            done = subprocess.run([str(AUDIT), *words], capture_output=True, check=False)
            self.assertEqual(done.returncode, 2)


if __name__ == "__main__":
    unittest.main()
