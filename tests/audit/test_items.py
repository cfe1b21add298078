"""No item of a report states a result that did not hold: a day breaks each one, as text, as a page and
as JSON. An item that was checked in part says so, also in the verdict.
"""

import json
import sqlite3
from collections.abc import Callable
from contextlib import closing
from dataclasses import dataclass
from pathlib import Path

import pytest
from mireseason_audit.check import Checker
from mireseason_audit.differing import differing
from mireseason_audit.evidence import Evidence
from mireseason_audit.faults import Wrong
from mireseason_audit.identity import Asked
from mireseason_audit.items import checks_text
from mireseason_audit.jobs import Files
from mireseason_audit.outside import read_outside
from mireseason_audit.progress import Progress
from mireseason_audit.report import report, report_json
from mireseason_audit.seal import read_seal, sealed, write_seal
from mireseason_audit.sqlite_log import SqliteSource
from mireseason_audit.summary import Summary
from mireseason_audit.templates import Templates
from mireseason_audit.venue import Venue
from mireseason_audit.verdict import Verdict

from tests.audit.common import keys, remembered
from tests.audit.draw_day import DATE
from tests.audit.pages import read_page
from tests.audit.test_evidence import Day, day, drawn

__all__ = ["day", "drawn"]  # fixtures

Break = Callable[[Day], object]


def change(script: str) -> Break:
    return lambda day: day.change(script)


SENT_TO = "UPDATE sent SET bytes = x'00' WHERE firm = '%s' AND number = 1"
BROKEN: dict[str, Break] = {
    "entries": change("UPDATE entry SET line = line || 'x' WHERE place = 2"),
    "tables": change("CREATE VIEW more AS SELECT * FROM entry"),
    "door": change("UPDATE connection SET address = '203.0.113.9:1' WHERE place = 1"),
    "messages": change(SENT_TO % "FJORD"),
    "each dealer alone": change(SENT_TO % "ALPHA"),
    "sessions": change("UPDATE sent SET told = '58=x' WHERE firm = 'ALPHA' AND number = 1"),
    "reasons and trades": change(
        "UPDATE sent SET told = NULL WHERE rowid = (SELECT min(rowid) FROM sent WHERE told IS NOT NULL)"
    ),
    "seals": change("DELETE FROM seal WHERE number = (SELECT max(number) FROM seal)"),
    "checkpoints": change("DELETE FROM checkpoint WHERE is_end = 1"),
    "day asked for": lambda day: None,
    "signatures": change("DELETE FROM checkpoint WHERE is_end = 1"),
    "cut-off end": Day.cut,
    "supervisor's seal": change("DELETE FROM connection WHERE place = 1"),
}
ASKED = {"day asked for": Asked(date="20261124")}


@dataclass(frozen=True)
class Checked:
    """What a check says of a day, in its three forms."""

    verdict: Verdict
    folder: Path

    @property
    def lines(self) -> list[str]:
        return report(self.verdict)

    def line(self, item: str) -> str:
        (line,) = [one for one in self.lines if one[11:].startswith(" %s: " % item)]
        return line

    @property
    def on_page(self) -> list[str]:
        words = {"verdict": self.verdict, "summary": Summary()}
        text = Templates(self.verdict.day).page("asked.html", "", **words)
        path = self.folder / "asked.html"
        path.write_text(text, encoding="utf-8")
        (looks,) = read_page(path).all("ul", "looks")
        return [one.text for one in looks.all("li")]


def check(day: Day, place: Path, evidence: Evidence) -> Checked:
    folder = place / "check"
    folder.mkdir()
    source = SqliteSource(day.log)
    checker = Checker(source, Venue(tuple(remembered())), Files(folder), 2, Progress())
    return Checked(evidence.judge(source, evidence.told_of(checker.check)), folder)


@pytest.fixture
def evidence(day: Day, tmp_path: Path) -> Evidence:
    """All that there is, of the day before it is broken."""
    private, public = keys(tmp_path)
    seal = tmp_path / "day.seal"
    source = SqliteSource(day.log)
    checker = Checker(source, Venue(("/nowhere",)), Files(tmp_path), 1, Progress())
    with source.open() as log:
        write_seal(sealed(log, log.day(), checker.chain(log)), private, seal)
    kept = tuple(read_outside(day.kept))
    return Evidence(Asked(), (day.key,), kept, read_seal(seal, public))


@pytest.mark.parametrize("item", BROKEN)
def test_an_item_that_did_not_hold_says_so(
    day: Day, tmp_path: Path, evidence: Evidence, item: str
) -> None:
    BROKEN[item](day)
    asked = ASKED.get(item, evidence.asked)
    checked = check(day, tmp_path, Evidence(asked, evidence.keys, evidence.kept, evidence.seal))
    line = checked.line(item)
    assert line.startswith("found wrong %s: " % item) and "NOT" in line, line
    assert any(one == " ".join(line.split()) for one in checked.on_page), checked.on_page
    said = json.loads(report_json(checked.verdict))
    (look,) = [one for one in said["looks"] if one["name"] == item]
    assert (look["kind"], look["is_wrong"]) == ("found wrong", True)
    wrong = checked.lines[-1].rpartition("; found wrong: ")[2].split(", ")
    named = {one for finding in said["findings"] for one in finding["items"]}
    assert item in wrong and set(wrong) >= named, checked.lines[-1]
    for one in said["looks"]:
        assert one["is_wrong"] == (one["name"] in wrong)


def test_each_item_is_broken(day: Day, tmp_path: Path) -> None:
    """Of the program alone there is nothing that a log could break: it is a proved one, or not."""
    verdict = check(day, tmp_path, Evidence()).verdict
    assert {look.name for look in verdict.looks} - {"proved program"} == BROKEN.keys()
    assert not any(look.is_wrong for look in verdict.looks)


def test_what_was_not_checked_in_full_and_is_wrong(day: Day, tmp_path: Path) -> None:
    day.change("DELETE FROM checkpoint WHERE is_end = 1")
    asked = Asked(date="20261124")
    checked = check(day, tmp_path, Evidence(asked))
    assert "; not checked in full: none says that the day has ended" in checked.line("checkpoints")
    end = "; not checked in full: without --venue-name or --program-sha256 it may be the log of"
    assert checked.line("day asked for").endswith(end + " another venue or program")


def test_the_cause_stands_first(day: Day, tmp_path: Path, evidence: Evidence) -> None:
    place = day.cut()
    with closing(sqlite3.connect(day.log, isolation_level=None)) as log:
        log.execute("UPDATE sent SET told = '58=x' WHERE firm = 'ALPHA' AND number = 1")
    lines = check(day, tmp_path, evidence).lines
    at = next(at for at, line in enumerate(lines) if " supervisor's seal: " in line)
    first = lines[at + 1]
    assert "its end was cut off" in first and "entry %d" % (place + 1) in first, lines


def test_how_far_evidence_reaches(day: Day, tmp_path: Path, evidence: Evidence) -> None:
    """The verdict's sentence says it, and that a signature was not checked."""
    with SqliteSource(day.log).open() as log:
        last = log.last_place()
    kept = Evidence(kept=evidence.kept)
    words = check(day, tmp_path, kept).verdict.words
    text = "; checkpoints from outside reach up to entry %d of %d" % (last, last)
    assert text + ", and their signatures were not checked; not checked: " in words
    (tmp_path / "check").rename(tmp_path / "before")
    words = check(day, tmp_path, evidence).verdict.words
    assert text + "; not checked: " in words and "cut-off end" not in words


def test_a_checkpoint_of_the_beginning(day: Day, tmp_path: Path, evidence: Evidence) -> None:
    """It covers a part of the log, so the rest is not checked."""
    verdict = check(day, tmp_path, evidence).verdict
    verdict.reach = 0
    (look,) = [one for one in verdict.looks if one.name == "cut-off end"]
    assert look.kind == "in part"
    text = "reach up to entry 0 of %d; not checked: " % verdict.last_place
    assert text in verdict.words and "cut-off end after entry 0" in verdict.words


def test_another_days_checkpoint_reaches_nowhere(
    day: Day, tmp_path: Path, evidence: Evidence
) -> None:
    """One of another day with more entries says nothing of how far this one is covered."""
    other = tmp_path / "other.checkpoint"
    text = day.kept.read_text().replace("day %s" % DATE, "day 20261124")
    other.write_text(text.replace("\nentry ", "\nentry 9"))
    assert evidence.kept is not None
    both = Evidence(kept=(*evidence.kept, *read_outside(other)))
    verdict = check(day, tmp_path, both).verdict
    assert verdict.reach == verdict.last_place, verdict.words


def test_an_empty_log_that_was_signed_before(day: Day, tmp_path: Path, evidence: Evidence) -> None:
    """Nothing of it can be checked; what it had, those outside still say."""
    with SqliteSource(day.log).open() as log:
        last = log.last_place()
    day.change("DELETE FROM entry")
    with pytest.raises(Wrong, match="day.checkpoint shows that it had entries up to %d" % last):
        check(day, tmp_path, evidence)
    ran = day.check()
    assert ran.status == 1
    assert ran.out.endswith("day it is of; nothing else of the log was judged\n"), ran.text


def test_what_is_looked_at_fits_a_terminal() -> None:
    """Each line of the help; a longer one would break there."""
    widths = [len(line) for line in checks_text().splitlines()]
    assert 76 < max(widths) <= 80


def test_which_fields_differ() -> None:
    one = b"8=FIXT.1.1\x019=9\x0135=S\x01132=99.5\x01448=A\x01448=B\x0110=001\x01"
    other = b"8=FIXT.1.1\x019=8\x0135=S\x01132=99.25\x01448=A\x0160=x\x0110=002\x01"
    told = "132: 99.5 given, 99.25 found; 448: A, B given, A found; 60: nothing given, x found"
    assert differing(one, other) == told
    assert differing(one, one) == ""


def test_the_fields_of_a_message_that_differs(day: Day, tmp_path: Path) -> None:
    """One digit of what the log says was sent: the report names the field."""
    with closing(sqlite3.connect(day.log, isolation_level=None)) as log:
        query = "SELECT firm, number, bytes FROM sent WHERE instr(bytes, x'0133383d') ORDER BY 1, 2"
        firm, number, data = log.execute(query).fetchone()
        quantity = data.partition(b"\x0138=")[2].partition(b"\x01")[0]
        changed = data.replace(b"\x0138=%b\x01" % quantity, b"\x0138=9%b\x01" % quantity[1:])
        assert changed != data
        log.execute(
            "UPDATE sent SET bytes = ? WHERE firm = ? AND number = ?", (changed, firm, number)
        )
    lines = check(day, tmp_path, Evidence()).lines
    given, there = quantity.decode(), "9" + quantity[1:].decode()
    assert any("38: %s given, %s found" % (given, there) in line for line in lines), lines
