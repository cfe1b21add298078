"""Why an operator did it: each order for a firm or for the venue needs a reason, and everybody who reads the day afterwards
finds it."""

import html
import json
import re
from pathlib import Path

import pytest

from tests.admin.operator import acts, admin, audit, did
from tests.gateway.market import BOND
from tests.gateway.stage import DEALER, Stage
from tests.limits.flood import logged_on

OF_THE_VENUE = [["halt"], ["halt", "--bond", BOND.decode()]]
OF_A_DEALER = [["cancel", "DLR1"], ["cancel", "DLR1", "--trader", "T1"], ["suspend", "DLR1"]]
WITHOUT_WORDS = ["", " ", "\t\n", "\x7f "]
# A control character, a line feed, markup, a quotation mark and a letter that is not ASCII; and as each stands in the log.
ANY = 'a\x01b\n<b onload="x">ü\x1b[31m'
IN_THE_LOG = r"a\x01b\x0a<b onload=\x22x\x22>\xc3\xbc\x1b[31m"
LONGEST_NOTE = 200  # bytes of an act's line


def opened(stage: Stage) -> None:
    stage.door.operators = ""
    stage.open()


def test_no_act_of_these_without_a_reason(stage: Stage) -> None:
    """The operator is told to say why, and nothing is done: neither without a reason nor with one that nobody can read."""
    opened(stage)
    for words in OF_THE_VENUE + OF_A_DEALER:
        said = admin(stage, *words)
        assert said.status == 1 and "say why: --because" in said.err, (words, said)
        for blank in WITHOUT_WORDS:
            said = admin(stage, *words, "--because", blank)
            assert said.status == 1 and "--because needs a reason after it" in said.err, said
    assert acts(stage) == []
    assert json.loads(did(stage, "--json", "status"))["rows"][0]["takes_business"] is True


def test_who_reads_the_day_finds_the_reason(stage: Stage, tmp_path: Path) -> None:
    """The log has it in one line whatever its bytes are, and so have the gateway's events and page, the audit's list of acts, and
    the pages of the firms: that of a firm has what was done to it or to all, and nothing that was done to another alone.
    """
    opened(stage)
    with logged_on(stage, DEALER):
        did(stage, "cancel", "DLR1", "--because", ANY)
    did(stage, "halt", "--because", "all of them")
    assert [line.split(b") ", 1)[1].decode() for line in acts(stage)] == [
        'cancel DLR1 because="%s"' % IN_THE_LOG,
        'halt because="all of them"',
    ]
    told = stage.door.told.read_text()
    assert 'cancel DLR1" because="%s"' % IN_THE_LOG in told
    found = json.loads(audit(stage, "acts", "--json").out)
    assert [(row["act"], row["because"]) for row in found] == [
        ("cancel DLR1", IN_THE_LOG),
        ("halt", "all of them"),
    ]
    pages = tmp_path / "pages"
    ran = audit(stage, "page", str(pages))
    assert ran.status == 0, ran.text
    cell = '<td data-label="Because">%s</td>'
    both = [IN_THE_LOG, "all of them"]
    for firm, reasons in (("DLR1", both), ("DLR2", both[1:]), ("INV1", both[1:])):
        text = (pages / "firms" / (firm + ".html")).read_text()
        shown = re.findall(cell % "(.*?)", text)
        assert [html.unescape(each) for each in shown] == reasons, (firm, shown)
        assert "<b onload" not in text


@pytest.mark.parametrize("words", [["halt"], ["cancel", "DLR1"]], ids=" ".join)
def test_the_longest_reason(stage: Stage, words: list[str]) -> None:
    """An act's line has 200 bytes. A reason that just fits is kept whole; one byte more, and nothing is done."""
    opened(stage)
    did(stage, *words, "--because", "x")
    (line,) = acts(stage)
    room = LONGEST_NOTE - len(line) + 1
    for reason in ("x" * (room + 1), "x" * (room - 3) + "\n" + "x"):
        said = admin(stage, *words, "--because", reason)
        assert said.status == 1 and "give a shorter reason" in said.err, said
    assert len(acts(stage)) == 1
    for reason in ("x" * room, "x" * (room - 4) + "\n"):
        did(stage, *words, "--because", reason)
        assert len(acts(stage)[-1]) == LONGEST_NOTE, acts(stage)[-1]
