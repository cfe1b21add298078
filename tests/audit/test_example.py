"""The gateway's example, as a supervisor gets it: two commands, from its log to pages and a
verdict.
"""

import os
import re
import shlex
import subprocess
import unittest
from pathlib import Path

import pytest

from tests.audit.common import ROOT, audit, folder, venue_words
from tests.audit.pages import read_page, rows_of, table_behind
from tests.gateway.midnight import wait_for_room


class Example(unittest.TestCase):
    gateway: Path

    @pytest.fixture(autouse=True)
    def built(self, gateway_program: Path) -> None:
        self.gateway = gateway_program

    def test_a_day_of_the_gateway(self) -> None:
        wait_for_room("the gateway's example")
        with folder() as name:
            own = {"VENUE": shlex.join(venue_words()), "GATEWAY": str(self.gateway)}
            script = ROOT / "examples" / "gateway" / "run.sh"
            words, environment = [str(script), name + "/day"], {**os.environ, **own}
            done = subprocess.run(
                words, env=environment, capture_output=True, text=True, check=False
            )
            self.assertEqual(done.returncode, 0, done.stderr)
            (log,) = Path(name).glob("day/day-*.db")
            ran = audit("check", log)
            self.assertEqual(ran.status, 0, ran.text)
            # Each firm logs on, on a busy machine perhaps again, and each message came on one of its
            # connections.
            door = re.search(r"(?m)^door +(\d+) connections in \d+ rows, each follows on", ran.out)
            self.assertGreaterEqual(int(door[1]) if door else 0, 3, ran.out)
            ran = audit("page", log, Path(name) / "pages")
            self.assertEqual(ran.status, 0, ran.text)
            index = read_page(Path(name) / "pages" / "index.html")
            (row,) = rows_of(table_behind(index, "Requests"))
            texts = [cell.text for cell in row]
            # INV1 asks two dealers for two million; DLR2 quotes 99.4375 and is hit, and DLR1
            # quotes 99.5.
            self.assertEqual(texts[2], "INV1")
            self.assertEqual(texts[4:9], ["buys", "2 000 000", "BONDA0000001", "2", "2"])
            self.assertEqual(texts[9:], ["◆ awarded", "DLR2", "99.4375", "DLR1"])
            # Of each firm a message came; what is no message of it the gateway made, at its end.
            on_one = r"received [0-9:.]{15} on connection [0-9]+ from 127\.0\.0\.1:[0-9]+, since "
            for firm in ("DLR1", "DLR2", "INV1"):
                page = read_page(Path(name) / "pages" / "firms" / (firm + "-1.html"))
                heads = [one.all("p")[0].text for one in page.all("article", "came")]
                self.assertTrue([head for head in heads if re.search(on_one, head)], heads)
                for head in heads:
                    self.assertRegex(head, on_one + "|made by the gateway")


if __name__ == "__main__":
    unittest.main()
