"""What a log is checked against beside the rules: what was asked for, checkpoints kept outside, the
numbers of checkpoints, the tables of its form. And what the verdict says was not checked.
"""

import json
import sqlite3
import subprocess
from collections.abc import Iterator
from contextlib import closing
from datetime import date
from pathlib import Path
from typing import cast

import pytest
from mireseason_audit import outside
from mireseason_audit.chain import misnumbered
from mireseason_audit.checkpoints import is_over, numbered
from mireseason_audit.evidence import with_loss
from mireseason_audit.faults import Unreadable, Wrong
from mireseason_audit.findings import Finding
from mireseason_audit.identity import Asked, Identity, speakers_of
from mireseason_audit.log import Log as AnyLog
from mireseason_audit.notes import speaker_of
from mireseason_audit.outside import compared, missing_rows, read_outside
from mireseason_audit.proved import proved_programs
from mireseason_audit.records import Checkpoint, Entry, SealRow
from mireseason_audit.sqlite_log import SqliteSource

from tests.audit import ledger
from tests.audit.common import ROOT, Ran, audit, venue_words
from tests.audit.draw_day import DATE

FEW = ["--requests", "3", "--dealers", "2", "--investors", "1"]


def draw(path: Path) -> None:
    words = ["/usr/bin/python3", "-m", "tests.audit.draw_day", str(path), *FEW]
    words += ["--checkpoint", str(path.with_suffix(".checkpoint")), "--", *venue_words()]
    subprocess.run(words, check=True, cwd=ROOT)


@pytest.fixture(scope="module")
def drawn(tmp_path_factory: pytest.TempPathFactory, remembered: None) -> Path:
    """A small day with the checkpoint that was kept outside."""
    path = tmp_path_factory.mktemp("evidence") / "day.db"
    draw(path)
    path.with_name("gateway.pub").write_bytes(ledger.public_key())
    return path


class Day:
    """A copy of the drawn day that may be changed."""

    def __init__(self, drawn: Path, place: Path) -> None:
        self.log, self.kept = place / "day.db", drawn.with_suffix(".checkpoint")
        self.key = drawn.with_name("gateway.pub")
        self.log.write_bytes(drawn.read_bytes())

    def change(self, script: str) -> None:
        with closing(sqlite3.connect(self.log)) as connection:
            connection.executescript(script)

    def cut(self) -> int:
        """Takes all behind a seal away, with what belongs to it; the last entry that is left."""
        with closing(sqlite3.connect(self.log, isolation_level=None)) as connection:
            rows = "SELECT number, place, event FROM checkpoint ORDER BY number"
            number, place, event = connection.execute(rows).fetchall()[0]
            for query in (
                "DELETE FROM checkpoint WHERE number > %d" % number,
                "DELETE FROM seal WHERE place > %d" % place,
                "DELETE FROM entry WHERE place > %d" % place,
                "DELETE FROM connection WHERE place > %d" % event,
                "DELETE FROM sent WHERE place > %d" % place,
            ):
                connection.execute(query)
        return int(place)

    def check(self, *words: object) -> Ran:
        return audit("check", self.log, *words)


@pytest.fixture
def day(drawn: Path, tmp_path: Path) -> Day:
    return Day(drawn, tmp_path)


# ------------------------------------------------------------ which log it is


def test_the_day_that_was_asked_for(day: Day) -> None:
    asked = ["--date", DATE, "--venue-name", "-", "--program-sha256", ledger.PROGRAM.upper()]
    ran = day.check(*asked)
    assert ran.status == 0, ran.text
    assert "day       %s, of the gateway's only venue\n" % DATE in ran.out
    assert "program   %s, SHA-256 %s\n" % (ledger.VERSION, ledger.PROGRAM) in ran.out
    assert "checked     day asked for: " in ran.out
    assert "day asked for" not in ran.out.splitlines()[-1]


@pytest.mark.parametrize(
    "asked, told",
    [
        (["--date", "20261124"], "day: entry 0: it is of the date %s, and not 20261124" % DATE),
        (["--venue-name", "LDN"], "day: entry 0: it is of the venue -, and not LDN"),
        (["--program-sha256", "0" * 64], "it is of the program %s, and" % ledger.PROGRAM),
    ],
)
def test_another_day(day: Day, asked: list[str], told: str) -> None:
    """Of each of the three alone, by what entry 0 says."""
    with SqliteSource(day.log).open() as log:
        identity = Identity(log.day(), {})
    names = {"--date": "date", "--venue-name": "venue", "--program-sha256": "program"}
    identity.asked = Asked(**{names[asked[0]]: asked[1]})
    (finding,) = identity.findings()
    assert told in next(finding.lines())


def test_another_day_fails(day: Day) -> None:
    ran = day.check("--date", "20261124")
    assert ran.status == 1 and "it is of the date %s, and not 20261124" % DATE in ran.out


@pytest.mark.parametrize("words", [["--date", "2026-11-24"], ["--program-sha256", "abc"]])
def test_none_that_can_be_asked_for(day: Day, words: list[str]) -> None:
    ran = day.check(*words)
    assert ran.status == 2 and words[1] in ran.err and ran.err.count("\n") == 1


def test_proved_programs(tmp_path: Path) -> None:
    """The program's line, among those of other files; the first file that is there counts."""
    named = tmp_path / "proved.sha256"
    assert proved_programs([named]) == {}
    lines = ["# sums", "%s  crates/rfq_venue/out/rfq_venue" % ledger.PROGRAM, "abc  more"]
    lines += ["%s  sources of rfq_venue" % ("1" * 64), "%s  lib.a" % ("2" * 64)]
    named.write_text("\n".join(lines))
    proved = proved_programs([tmp_path / "none", named])
    assert list(proved) == [ledger.PROGRAM]
    named.write_bytes(b"\xff")
    with pytest.raises(Unreadable):
        proved_programs([named])


def test_a_program_that_is_proved(day: Day) -> None:
    with SqliteSource(day.log).open() as log:
        found = log.day()
    own = Identity(found, {ledger.PROGRAM: "rfq_venue"})
    assert own.is_proved and "names as proved" in own.program_words
    other = Identity(found, {"0" * 64: "rfq_venue"})
    assert not other.is_proved and "none that this repository names" in other.program_words


def note_entry(place: int, term: int, line: bytes) -> Entry:
    return Entry(place, term, "08:00:00.000", None, None, line, b"", b"")


def test_gateways_are_named(day: Day) -> None:
    """Entry 0's, that of a note, and a term of which no note says whose it is."""
    line = b"# gateway 08:00:00.000 gw2.example mireseason-gateway 2.0 (abc)"
    second = speaker_of(note_entry(7, 2, line))
    assert second is not None
    assert second[2:] == ("gw2.example", "mireseason-gateway 2.0 (abc)")
    assert speaker_of(note_entry(7, 2, b"# gateway 08:00:00.000 gw2")) is None
    with SqliteSource(day.log).open() as log:
        speakers = speakers_of(log.day(), [(0, 1), (7, 2), (9, 4)], [second])
    assert [(one.place, one.term, one.name) for one in speakers] == [
        (0, 1, ""),
        (7, 2, "gw2.example"),
        (9, 4, ""),
    ]
    assert "a gateway that is not named, from entry 9, in term 4" == speakers[2].words


# ------------------------------------------------------------ what was not checked


def test_what_was_not_checked(day: Day, tmp_path: Path) -> None:
    """The same words on the terminal, in JSON and on the page."""
    ran = day.check()
    assert ran.status == 0, ran.text
    said = json.loads(day.check("--json").out)
    looks = [(look["name"], look["is_done"], look["words"]) for look in said["looks"]]
    listed = [line for line in ran.out.splitlines() if line.startswith(("checked", "not checked"))]
    kinds = {True: "checked    ", False: "not checked"}
    assert listed == ["%s %s: %s" % (kinds[done], name, text) for name, done, text in looks]
    left = [name for name, is_done, _ in looks if not is_done]
    assert {"signatures", "cut-off end", "supervisor's seal", "day asked for"} <= set(left)
    assert said["verdict"].endswith("; not checked: " + ", ".join(left))
    assert ran.out.splitlines()[-1] == "verdict: " + said["verdict"]
    paged = audit("page", day.log, tmp_path / "pages")
    assert paged.status == 0, paged.text
    html = (tmp_path / "pages" / "index.html").read_text()
    shown = html.replace("&#39;", "'").replace("&#34;", '"')
    assert all(text in shown for _, _, text in looks)


def test_all_that_can_be_checked(day: Day) -> None:
    ran = day.check("--gateway-key", day.key, "--checkpoint", day.kept)
    assert ran.status == 0, ran.text
    assert "checked     signatures: " in ran.out and "checked     cut-off end: " in ran.out
    last = ran.out.splitlines()[-1]
    assert "signatures" not in last and "cut-off end" not in last
    assert "the last says that the day has ended" in ran.out


# ------------------------------------------------------------ checkpoints


def test_a_cut_day(day: Day) -> None:
    """Each table ends at one checkpoint, and nothing in the log is wrong but that it ended."""
    place = day.cut()
    ran = day.check("--gateway-key", day.key)
    assert ran.status == 1, ran.text
    assert "its end may have been cut off" in ran.out
    ran = day.check("--checkpoint", day.kept)
    assert ran.status == 1
    assert "entries: entry %d: it ends at entry %d, and day.checkpoint" % (place + 1, place) in (
        ran.out
    )
    assert "was made, as day.checkpoint shows, and the log has it no more" in ran.out


def kept_lines(day: Day, path: Path) -> Path:
    """What a supervisor's process has: a line for each, and a last one that is not whole."""
    line = day.kept.read_text().rstrip("\n").replace("\n", "\t") + "\n"
    path.write_text(line + line.replace("day " + DATE, "day 20261124") + line[:99])
    return path


def test_checkpoints_in_lines(day: Day, tmp_path: Path) -> None:
    """That of another day says nothing of this one."""
    lines = kept_lines(day, tmp_path / "received.checkpoints")
    assert len(read_outside(lines)) == 2
    with SqliteSource(day.log).open() as log:
        kept = read_outside(lines)
        assert list(compared(log, log.day(), kept)) == []
        assert list(missing_rows(log.checkpoints(), kept[:1])) == []
        (finding,) = compared(log, log.day(), kept[1:])
    assert "has no checkpoint of this log" in finding.text


def test_a_checkpoint_of_another_venue(day: Day, tmp_path: Path) -> None:
    """A gateway signs one for each of its venues: that of another one says nothing of this log."""
    other = tmp_path / "other.checkpoint"
    other.write_text(day.kept.read_text().replace("\nvenue -\n", "\nvenue LDN\n"))
    with SqliteSource(day.log).open() as log:
        (finding,) = compared(log, log.day(), read_outside(other))
        own = [*read_outside(day.kept), *read_outside(other)]
        assert list(compared(log, log.day(), own)) == []
    assert finding.text == "other.checkpoint has no checkpoint of this log"


def test_a_loss_that_an_operator_accepted(day: Day) -> None:
    """What is missing is told all the same, with who gave it up, when, and why."""
    lines = [
        b'# act 10:00:00.000 op(7) log accept-loss because="the disk is gone"',
        b'# act 10:00:01.000 op(7) halt because="log accept-loss"',
        b'# act 10:00:02.000 pat(8) log accept-loss because="and once more"',
    ]
    entries = [note_entry(place, 1, line) for place, line in enumerate(lines, 5)]
    entries.append(entries[0]._replace(place=8, firm="DLR1"))

    class Log:
        def entries(self) -> Iterator[Entry]:
            return iter(entries)

    (one,) = with_loss(cast(AnyLog, Log()), [Finding("entries", "its end was cut off", 3)])
    assert one.place == 3 and one.text == (
        'its end was cut off; entry 5: op(7) accepted the loss of a log\'s end, because "the disk is gone"'
        '; entry 7: pat(8) accepted the loss of a log\'s end, because "and once more"'
    )


@pytest.mark.parametrize(
    "old, new, told",
    [
        ("entry ", "entry 9", "was cut off"),
        ("configuration ", "configuration 0", "of another configuration"),
        ("connection ", "connection 9", "was cut off"),
    ],
)
def test_a_checkpoint_that_the_log_lacks(
    day: Day, tmp_path: Path, old: str, new: str, told: str
) -> None:
    other = tmp_path / "other.checkpoint"
    other.write_text(day.kept.read_text().replace("\n" + old, "\n" + new))
    with SqliteSource(day.log).open() as log:
        found = list(compared(log, log.day(), read_outside(other)))
    assert any(told in finding.text for finding in found), found


@pytest.mark.parametrize("text", ["", "x", "mireseason log 6\nsignature 00\n", "\t\n\t\n"])
def test_no_checkpoint(tmp_path: Path, text: str) -> None:
    path = tmp_path / "none.checkpoint"
    path.write_text(text)
    with pytest.raises(Wrong):
        read_outside(path)


def test_a_file_of_checkpoints_that_is_too_long(
    tmp_path: Path, monkeypatch: pytest.MonkeyPatch
) -> None:
    monkeypatch.setattr(outside, "LONGEST", 99)
    path = tmp_path / "long.checkpoint"
    path.write_text("x" * 100)
    with pytest.raises(Unreadable, match="long.checkpoint is longer than 99 bytes$"):
        read_outside(path)
    path.write_text("x" * 99)
    with pytest.raises(Wrong, match="long.checkpoint is no checkpoint of a gateway$"):
        read_outside(path)


# Of each seal its number, and the last entry and the last row of connections then.
SEALS: list[tuple[list[tuple[int, int, int]], str]] = [
    ([(1, 4, 0), (2, 4, 0), (3, 9, 0), (4, 9, 3)], ""),
    ([(2, 4, 0)], "seal 1 is missing: in its place comes 2"),
    ([(1, 4, 0), (3, 9, 0)], "seal 2 is missing: in its place comes 3"),
    ([(1, 9, 3), (2, 8, 3)], "seal 2 is of less than the one before"),
    ([(1, 9, 3), (2, 9, 2)], "seal 2 is of less than the one before"),
]


@pytest.mark.parametrize("rows, told", SEALS, ids=[told for _, told in SEALS])
def test_numbers_of_seals(rows: list[tuple[int, int, int]], told: str) -> None:
    found = misnumbered((SealRow(*row) for row in rows), has_notes=False)
    assert [one.text for one in found] == ([told] if told else [])


def checkpoints(numbers: list[int], ended: int) -> Iterator[Checkpoint]:
    for number in numbers:
        yield Checkpoint(number, 0, number, b"", 0, b"", b"", number == ended)


@pytest.mark.parametrize(
    "numbers, ended, told",
    [
        ([1, 2, 3], 3, "3, numbered without a gap; the last says that the day has ended"),
        ([1, 2, 3], 2, "3, numbered without a gap; none says that the day has ended"),
        ([], 0, "none was made yet"),
        ([1, 3], 3, "2, NOT AS THEY SHOULD BE"),
        ([2, 3], 3, "2, NOT AS THEY SHOULD BE"),
    ],
)
def test_numbers_of_checkpoints(numbers: list[int], ended: int, told: str) -> None:
    found = numbered(checkpoints(numbers, ended))
    assert found.words == told
    assert bool(found.findings) == ("NOT" in told)


def test_when_a_day_is_over() -> None:
    assert is_over("20261124", date(2026, 11, 25))
    assert not is_over("20261125", date(2026, 11, 25))
    assert not is_over("20261131", date(2026, 12, 25))


# ------------------------------------------------------------ tables


@pytest.mark.parametrize(
    "script, told",
    [
        ("CREATE TRIGGER t AFTER INSERT ON entry BEGIN SELECT 1; END", "trigger t of entry"),
        ("CREATE VIEW v AS SELECT * FROM entry", "view v"),
        ("CREATE TABLE more (x)", "table more"),
        ("CREATE VIRTUAL TABLE words USING fts5(word)", "table words"),
        ("CREATE INDEX i ON sent (place)", "index i of sent"),
        ("ALTER TABLE sent ADD COLUMN more TEXT", "column more of sent"),
        ("PRAGMA user_version = 7", "user_version 7"),
    ],
)
def test_beyond_the_form(day: Day, script: str, told: str) -> None:
    day.change(script)
    with SqliteSource(day.log).open() as log:
        assert list(log.beyond_form()) == [told]


def test_beyond_the_form_is_a_finding(day: Day) -> None:
    day.change("CREATE TRIGGER t AFTER INSERT ON sent BEGIN DELETE FROM sent; END")
    ran = day.check()
    assert ran.status == 1
    assert "tables: no gateway makes this: trigger t of sent" in ran.out


def test_bytes_behind_the_last_page(day: Day) -> None:
    with day.log.open("ab") as file:
        file.write(b"more")
    with SqliteSource(day.log).open() as log:
        assert list(log.beyond_form()) == ["4 bytes after the last page"]
