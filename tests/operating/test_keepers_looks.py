"""What one look of the keeper does with the days in PostgreSQL, moment by moment, with stand-ins for the database, the copies
and the audit.

`test_keeper.py` has a real database, a gateway and the audit instead.
"""

import fcntl
import hashlib
import os
import shutil
import sqlite3
import subprocess
import sys
from collections.abc import Callable, Iterator
from contextlib import closing, contextmanager
from dataclasses import dataclass, field, replace
from datetime import datetime, timedelta, timezone
from pathlib import Path
from types import SimpleNamespace

import pytest
from mireseason_keeper import copies as copying
from mireseason_keeper import day_file
from mireseason_keeper import keeper as keepers
from mireseason_keeper import main
from mireseason_keeper.copies import DayCopy
from mireseason_keeper.database import Column, End, Log, Table
from mireseason_keeper.day_file import (
    definition,
    digest_of_file,
    digest_of_log,
    on_disk,
    tables_of,
    write_day,
)
from mireseason_keeper.faults import Fault
from mireseason_keeper.given_copies import GivenCopy
from mireseason_keeper.keeper import Counts, Keeper
from mireseason_keeper.metrics import write_metrics
from mireseason_keeper.settings import Settings, read_settings

FIRST, SECOND, TODAY, NEXT = ("day_202611%d" % day for day in (25, 26, 27, 28))
NOON = datetime(2026, 11, 27, 12, tzinfo=timezone.utc)
MIDNIGHT = NOON.replace(hour=0)  # the end of SECOND
ENTRY = Table("entry", (Column("line", "bytea", True, True),))
CONFIGURATION = """[log]
postgres = "primary"
readers = "standby"
[copies]
folder = "copies"
[seal]
key = "seal.pem"
gateways = ["gateway.pub"]
[metrics]
file = "keeper.prom"
"""


@dataclass
class Day:
    """A log."""

    entries: tuple[bytes, ...] = (b"entry 0",)
    how: End = End(True, True)

    def first_line(self) -> bytes | None:
        return self.entries[0] if self.entries else None

    def end(self) -> End:
        return self.how

    def tables(self) -> list[Table]:
        return [ENTRY]

    def rows(self, _: Table) -> Iterator[tuple[bytes, ...]]:
        return ((entry,) for entry in self.entries)


@dataclass
class Around:
    """All that the keeper has to do with, and what it did there."""

    days: dict[str, Day] = field(default_factory=dict)
    sealed: set[str] = field(default_factory=set)
    refused: set[str] = field(default_factory=set)  # logs, and servers, that answer nothing
    others: set[str] = field(default_factory=set)  # logs that a gateway makes at the same moment
    long_readers: int = 0
    has_program: bool = True
    done: list[str] = field(default_factory=list)

    def refuse(self, name: str) -> None:
        if name in self.refused:
            raise Fault("%s does not answer" % name)


@dataclass
class Database:
    """Stands for a server of the logs."""

    around: Around
    connection: str

    def logs(self) -> list[str]:
        return sorted(self.around.days)

    def make(self, schema: str) -> None:
        if schema in self.around.others:
            self.around.days[schema] = Day()
            raise Fault("%s is there" % schema)
        self.around.refuse(schema)
        self.around.days[schema] = Day(())
        self.around.done.append("make " + schema)

    def remove(self, schema: str) -> None:
        del self.around.days[schema]
        self.around.done.append("remove " + schema)

    def end_long(self, role: str, longest: timedelta) -> int:
        self.around.refuse(self.connection)
        minutes = longest / timedelta(minutes=1)
        self.around.done.append("end %s of %s after %d" % (role, self.connection, minutes))
        return self.around.long_readers

    @contextmanager
    def reading(self, schema: str) -> Iterator[Day]:
        self.around.refuse(schema)
        yield self.around.days[schema]


@dataclass
class Copies:
    """Stands for the copies: a folder for each."""

    around: Around

    def begin(self, log: Day, schema: str, folder: Path) -> None:
        assert log is self.around.days[schema]
        self.around.done.append("begin %s at %s" % (schema, folder.name))

    def finish(self, schema: str, venue: str, day: str, folder: Path) -> DayCopy:
        folder.mkdir()
        self.around.done.append("finish %s of [%s] %s" % (schema, venue, day))
        return DayCopy(self.around.has_program, "verdict: it is good")

    def is_sealed(self, schema: str, folder: Path) -> bool:
        assert folder.exists()
        return schema in self.around.sealed

    def check_anew(self, digest: str, schema: str, folder: Path, words: list[str]) -> None:
        assert digest == digest_of_log(self.around.days[schema])  # type: ignore[arg-type]
        self.around.refuse(folder.name)
        self.around.done.append("check %s with %s" % (folder.name, " ".join(words)))


@dataclass
class Stood:
    """A keeper among stand-ins."""

    around: Around
    file: Path
    said: Callable[[], str]

    @property
    def settings(self) -> Settings:
        return read_settings(self.file)

    def has_copies(self, *dates: str) -> None:
        for date in dates:
            (self.settings.folder / date).mkdir()

    def looks(self, now: datetime = NOON) -> tuple[list[str], list[str], Counts]:
        """What it did, but for readers and what is said of tables, what it said, and what it counted."""
        self.around.done.clear()
        counts = Keeper(self.settings, lambda: now).run()
        done = [line for line in self.around.done if not line.startswith("end ")]
        return done, self.said().splitlines(), counts


@pytest.fixture
def stood(
    place: Path, monkeypatch: pytest.MonkeyPatch, capsys: pytest.CaptureFixture[str]
) -> Stood:
    around = Around({TODAY: Day(), NEXT: Day(())})
    monkeypatch.setattr(keepers, "Database", lambda connection: Database(around, connection))
    monkeypatch.setattr(keepers, "Copies", lambda settings: Copies(around))
    (place / "copies").mkdir()
    (place / "keeper.toml").write_text(CONFIGURATION)
    return Stood(around, place / "keeper.toml", lambda: capsys.readouterr().err)


def test_tables_of_the_days_that_are_next(stood: Stood) -> None:
    """Of the day that goes on and the one behind it; a day that has its tables is left alone."""
    assert stood.looks() == ([], [], Counts())
    del stood.around.days[NEXT]
    assert stood.looks() == (["make " + NEXT], ["tables made log=" + NEXT], Counts())
    stood.around.days.clear()
    assert stood.looks()[0] == ["make " + TODAY, "make " + NEXT]


def test_tables_that_are_not_made(stood: Stood) -> None:
    """A fault, unless a gateway has made them meanwhile; and the other day has its own all the same."""
    stood.around.days.clear()
    stood.around.refused.add(TODAY)
    told = 'tables are not made log=%s cause="%s does not answer"' % (TODAY, TODAY)
    done, said, counts = stood.looks()
    assert (done, said[0]) == (["make " + NEXT], told)
    assert counts == Counts(without_tables=1, at_fault=1)
    stood.around.others.add(TODAY)
    assert stood.looks() == ([], [], Counts())


LATE, CLOSED, OPEN = timedelta(minutes=10), End(True, True), End(True, False)
A_SECOND = timedelta(seconds=1)
# How the day before ends, how long after it somebody looks, and what is said; a copy is made where it is the first.
ENDS = {
    "it is closed": (CLOSED, timedelta(0), "day copied"),
    "it is not closed": (OPEN, LATE - A_SECOND, "day is not closed yet"),
    "it is never closed": (OPEN, LATE, "day copied"),
    "somebody writes there": (End(False, False), LATE, "day is still written"),
    "somebody closes it": (End(False, True), LATE, "day is still written"),
}


@pytest.mark.parametrize("name", ENDS)
def test_when_a_day_is_copied(stood: Stood, name: str) -> None:
    """Once its gateway has closed it, or ten minutes later, if it has ended; what waits is no fault."""
    end, later, expected = ENDS[name]
    stood.around.days[SECOND] = Day(how=end)
    stood.around.sealed.add(SECOND)
    done, said, counts = stood.looks(MIDNIGHT + later)
    assert said[0].startswith("%s log=%s" % (expected, SECOND))
    if expected != "day copied":
        assert (done, len(said), counts) == ([], 1, Counts(without_copy=1))
        return
    folder = stood.settings.folder / "20261126"
    assert done == ["begin %s at 20261126" % SECOND, "finish %s of [] 20261126" % SECOND]
    assert said == ['day copied log=%s to=%s audit="verdict: it is good"' % (SECOND, folder)]
    assert counts == Counts() and stood.looks(MIDNIGHT + later) == ([], [], Counts())


def test_a_day_that_has_not_ended_is_not_copied(stood: Stood) -> None:
    stood.around.days[SECOND] = Day()
    assert stood.looks(MIDNIGHT - A_SECOND)[0] == []


def test_a_copy_without_its_program(stood: Stood) -> None:
    stood.around.days[SECOND] = Day()
    stood.around.sealed.add(SECOND)
    stood.around.has_program = False
    done, said, counts = stood.looks()
    assert said[1:] == ["day is copied without its program log=" + SECOND]
    assert len(done) == 2 and counts == Counts()


def test_a_copy_without_a_seal(stood: Stood) -> None:
    """Each look tells where to look, and its log stays."""
    stood.around.days |= {FIRST: Day(), SECOND: Day()}
    stood.has_copies("20261125", "20261126")
    stood.around.sealed.add(SECOND)
    stood.file.write_text(CONFIGURATION.replace("[seal]", "keep = 1\n[seal]"))
    report = stood.settings.folder / "20261125" / "check.txt"
    told = "copy has no seal log=%s: look at %s" % (FIRST, report)
    assert stood.looks() == ([], [told], Counts(without_seal=1, at_fault=1))
    assert FIRST in stood.around.days


def test_which_days_go(stood: Stood) -> None:
    """The oldest, where so many are to stay: each after its copy was checked anew."""
    stood.around.days |= {FIRST: Day(), SECOND: Day()}
    stood.around.sealed |= {FIRST, SECOND}
    stood.has_copies("20261125", "20261126")
    assert stood.looks() == ([], [], Counts())
    stood.file.write_text(CONFIGURATION.replace("[seal]", "keep = 2\n[seal]"))
    assert stood.looks() == ([], [], Counts())
    stood.file.write_text(CONFIGURATION.replace("[seal]", "keep = 1\n[seal]"))
    stood.around.refused.add("20261125")
    told = 'log is not removed log=%s cause="20261125 does not answer"' % FIRST
    assert stood.looks() == ([], [told], Counts(at_fault=1))
    stood.around.refused.clear()
    checked = "check 20261125 with --date 20261125 --venue-name -"
    told = "log removed log=%s copy=%s" % (FIRST, stood.settings.folder / "20261125")
    assert stood.looks() == ([checked, "remove " + FIRST], [told], Counts())


def test_a_day_without_a_seal_is_one_of_those_that_stay(stood: Stood) -> None:
    """So the day before it goes: of two days one stays, whatever the audit says of it."""
    stood.around.days |= {FIRST: Day(), SECOND: Day()}
    stood.around.sealed.add(FIRST)
    stood.has_copies("20261125", "20261126")
    stood.file.write_text(CONFIGURATION.replace("[seal]", "keep = 1\n[seal]"))
    done, _, counts = stood.looks()
    assert done[-1] == "remove " + FIRST and counts == Counts(without_seal=1, at_fault=1)
    assert sorted(stood.around.days) == [SECOND, TODAY, NEXT]


def test_several_venues(stood: Stood) -> None:
    """Each by itself: its own tables and copies, and of its own days as many stay."""
    text = CONFIGURATION.replace("[copies]", 'schema = "{venue}_{date}"\n[copies]\nkeep = 1')
    stood.file.write_text('[venue]\nnames = ["north", "south"]\n' + text)
    stood.around.days.clear()
    for name in ("north_20261125", "north_20261126", "south_20261126", "south_20261127"):
        stood.around.days[name] = Day()
    stood.around.sealed |= set(stood.around.days)
    stood.has_copies("20261125-north", "20261126-north")
    done, _, counts = stood.looks()
    assert done == [
        "make north_20261127",
        "make north_20261128",
        "check 20261125-north with --date 20261125 --venue-name north",
        "remove north_20261125",
        "make south_20261128",
        "begin south_20261126 at 20261126-south",
        "finish south_20261126 of [south] 20261126",
    ]
    assert counts == Counts()


def test_a_day_that_nobody_began(stood: Stood) -> None:
    """Its tables go, it needs no copy, and it counts for none of those that are to stay."""
    stood.around.days |= {FIRST: Day(), SECOND: Day(())}
    stood.around.sealed.add(FIRST)
    stood.has_copies("20261125")
    stood.file.write_text(CONFIGURATION.replace("[seal]", "keep = 1\n[seal]"))
    told = "tables of no day removed log=" + SECOND
    assert stood.looks() == (["remove " + SECOND], [told], Counts())
    assert sorted(stood.around.days) == [FIRST, TODAY, NEXT]


def test_a_day_that_can_not_be_read(stood: Stood) -> None:
    """It keeps no other from being copied, and stays."""
    stood.around.days |= {FIRST: Day(), SECOND: Day()}
    stood.around.sealed |= {FIRST, SECOND}
    stood.around.refused.add(FIRST)
    done, said, counts = stood.looks()
    assert said[0] == 'log is not read log=%s cause="%s does not answer"' % (FIRST, FIRST)
    assert len(done) == 2 and SECOND in done[1] and counts == Counts(at_fault=1)


def test_a_place_of_copies_that_is_away(stood: Stood) -> None:
    stood.around.days[SECOND] = Day()
    stood.settings.folder.rmdir()
    _, said, counts = stood.looks()
    assert said[0].startswith('day is not copied log=%s cause="[Errno 2]' % SECOND)
    assert counts == Counts(without_copy=1, at_fault=1)


def test_readers_that_take_long(stood: Stood) -> None:
    """On both servers, after ten minutes; one that does not answer keeps the other from nothing."""
    stood.looks()
    ended = ["end reader of %s after 10" % server for server in ("primary", "standby")]
    assert stood.around.done == ended
    stood.around.refused.add("primary")
    stood.around.long_readers = 3
    _, said, counts = stood.looks()
    assert said[0] == 'readers are not looked at cause="primary does not answer"'
    assert said[1].startswith("readers ended count=3") and counts == Counts(at_fault=1)
    stood.file.write_text(CONFIGURATION.replace('readers = "standby"\n', ""))
    assert len(stood.looks()[1]) == 1


def test_a_line_is_one_line(capsys: pytest.CaptureFixture[str]) -> None:
    """What a database or a file says gives no second line to the journal, and nothing to a terminal."""
    keepers.say("a\nb\x1b[1m")
    assert capsys.readouterr().err == "a?b?[1m\n"


# ------------------------------------------------------------ a copy that is read anew

# Notes its words and the key that it is given, and says two lines, or nothing.
AUDIT = """#!/bin/sh
echo "$*" >"%(words)s"
for word; do [ "$before" != --key ] || cat "$word" >"%(words)s.key"; before=$word; done
[ -z "%(verdict)s" ] || printf '%%s\\n' "it began" "%(verdict)s"
exit %(status)d
"""


@dataclass
class Copied:
    """A copy of a day, with the keys and the audit of its keeper."""

    stood: Stood
    day: Day = field(default_factory=Day)

    def __post_init__(self) -> None:
        for words in (
            "genpkey -algorithm ed25519 -out seal.pem",
            "pkey -in seal.pem -pubout -out seal.pub",
        ):
            subprocess.run(["openssl", *words.split()], cwd=self.place, check=True)
        program = '[venue]\nprogram = "program"\n[audit]\ncommand = ["%s"]\n' % self.audit
        self.stood.file.write_text(program + CONFIGURATION)
        self.audits("verdict: it is good", 0)
        self.copies.begin(self.log, FIRST, self.folder)
        part = copying.part_of(self.folder)
        (part / "last.checkpoint").touch()
        (part / "later.checkpoints").touch()
        self.copies.close(part, self.folder)

    @property
    def place(self) -> Path:
        return self.stood.file.parent

    @property
    def audit(self) -> Path:
        return self.place / "audit"

    @property
    def copies(self) -> copying.Copies:
        return copying.Copies(self.stood.settings)

    @property
    def folder(self) -> Path:
        return self.place / "copies" / "20261125"

    @property
    def log(self) -> Log:
        return self.day  # type: ignore[return-value]

    def audits(self, verdict: str, status: int) -> None:
        told = {"words": self.place / "words", "verdict": verdict, "status": status}
        self.audit.write_text(AUDIT % told)
        self.audit.chmod(0o755)

    def is_checked(self) -> None:
        self.copies.check_anew(digest_of_log(self.log), FIRST, self.folder, ["--date", "20261125"])

    def is_refused(self, cause: str) -> None:
        with pytest.raises(Fault, match=cause):
            self.is_checked()


@pytest.fixture
def copied(stood: Stood) -> Copied:
    return Copied(stood)


def test_what_a_copy_is_checked_by(copied: Copied) -> None:
    """The keeper's own seal, the gateways' keys, what they have signed, and the venue's program: the copy's, if it has one."""
    copied.is_checked()
    words = (copied.place / "words").read_text().split()
    log = copied.folder / (FIRST + ".db")
    assert words[:6] == [
        "check",
        str(log),
        "--date",
        "20261125",
        "--venue",
        "%s/program" % copied.place,
    ]
    assert words[6] == "--key" and words[8:] == [
        "--gateway-key",
        str(copied.place / "gateway.pub"),
        "--checkpoint",
        str(copied.folder / "last.checkpoint"),
        "--checkpoint",
        str(copied.folder / "later.checkpoints"),
    ]
    assert (copied.place / "words.key").read_bytes() == (copied.place / "seal.pub").read_bytes()
    shutil.rmtree(copied.folder)
    copied.copies.begin(copied.log, FIRST, copied.folder)
    (copying.part_of(copied.folder) / "program").touch()
    copied.copies.close(copying.part_of(copied.folder), copied.folder)
    copied.is_checked()
    words = (copied.place / "words").read_text().split()
    assert words[4:6] == ["--venue", str(copied.folder / "program")]


@pytest.mark.parametrize("is_the_days", [True, False])
def test_what_stands_in_a_copy(
    copied: Copied, monkeypatch: pytest.MonkeyPatch, is_the_days: bool
) -> None:
    """The log, its configuration, what gateways have sent, what the audit says, and the program if it is that of entry 0. What a
    reader leaves beside the log does not stay.
    """
    (copied.place / "received").mkdir()
    (copied.place / "received" / "day-20261126.checkpoints").write_text("sent")
    text = copied.stood.file.read_text()
    copied.stood.file.write_text(text.replace("[seal]\n", '[seal]\ncheckpoints = "received"\n'))
    (copied.place / "program").write_text("runs")
    digest = hashlib.sha256(b"runs").hexdigest() if is_the_days else "0" * 64
    head = b"venue -\nprogram %s\n%%%%\nversion = 3\n" % digest.encode()
    monkeypatch.setattr(copying, "first_line", lambda file: head)
    folder = copied.place / "copies" / "20261126"
    copied.copies.begin(copied.log, SECOND, folder)
    for end in ("-wal", "-shm"):
        (copying.part_of(folder) / (SECOND + ".db" + end)).touch()
    made = copied.copies.finish(SECOND, "", "20261126", folder)
    assert made == DayCopy(is_the_days, "verdict: it is good")
    there = {path.name: path for path in folder.iterdir()}
    program = {"program"} if is_the_days else set()
    received = "received-day-20261126.checkpoints"
    listed = {SECOND + ".db", "venue.toml", "check.txt", received, "SHA256SUMS"}
    assert there.keys() == listed | program
    assert there["venue.toml"].read_text() == "version = 3\n"
    assert there["check.txt"].read_text() == "it began\nverdict: it is good\n"
    assert there[received].read_text() == "sent"
    if is_the_days:
        assert there["program"].read_text() == "runs"
        assert there["program"].stat().st_mode & 0o777 == 0o550


ENTRY_0 = b"venue -\nprogram -\n%%\nversion = 3\n"


@pytest.mark.parametrize("status", [0, 1, 2])
def test_which_copy_is_sealed(copied: Copied, monkeypatch: pytest.MonkeyPatch, status: int) -> None:
    """One in which the audit finds nothing: not one of which it does not know whether it is as it should be (2), and none of
    another day or another venue.
    """
    monkeypatch.setattr(copying, "first_line", lambda file: ENTRY_0)
    copied.audits("verdict: so it is", status)
    folder = copied.place / "copies" / "20261126"
    copied.copies.begin(copied.log, SECOND, folder)
    assert copied.copies.finish(SECOND, "", "20261126", folder).verdict == "verdict: so it is"
    log = copying.part_of(folder) / (SECOND + ".db")
    last = (copied.place / "words").read_text().split()
    is_sealed = last == ["seal", str(log), "--key", str(copied.place / "seal.pem")]
    assert is_sealed == (status == 0) and last[0] == ("seal" if is_sealed else "check")
    assert is_sealed or last[4:8] == ["--date", "20261126", "--venue-name", "-"]


def test_a_copy_that_can_not_be_sealed(copied: Copied, monkeypatch: pytest.MonkeyPatch) -> None:
    """It has no name then: the next run makes it anew."""
    monkeypatch.setattr(copying, "first_line", lambda file: ENTRY_0)
    copied.audit.write_text('#!/bin/sh\n[ "$1" != seal ] || { echo "no key" >&2; exit 2; }\n')
    folder = copied.place / "copies" / "20261126"
    copied.copies.begin(copied.log, SECOND, folder)
    with pytest.raises(Fault, match="^%s.db is not sealed: no key" % SECOND):
        copied.copies.finish(SECOND, "", "20261126", folder)
    assert not folder.exists()


def test_a_copy_is_on_disk_before_it_has_its_name(
    copied: Copied, monkeypatch: pytest.MonkeyPatch
) -> None:
    """So one that has its name is whole, also behind a power cut; and the name is on disk, too."""
    did: list[str] = []
    renamed = Path.rename

    def rename(path: Path, to: Path) -> Path:
        did.append("named")
        return renamed(path, to)

    monkeypatch.setattr(copying, "on_disk", lambda path: did.append(path.name))
    monkeypatch.setattr(Path, "rename", rename)
    part = copied.place / "copies" / "other.part"
    part.mkdir()
    for name in ("one", "two"):
        (part / name).touch()
    copied.copies.close(part, part.with_suffix(""))
    assert sorted(did[:3]) == ["SHA256SUMS", "one", "two"]
    assert did[3:] == ["other.part", "named", "copies"]


def test_copies_that_are_not_what_they_were(copied: Copied) -> None:
    """By the audit, by the log's rows, and by the sums of its files: of one that is gone, of a new one and of a changed one."""
    copied.audits("verdict: it is not", 1)
    copied.is_refused("^the audit of its copy: verdict: it is not$")
    copied.audits("", 2)
    copied.is_refused("^the audit of its copy: it says nothing$")
    copied.audits("verdict: it is good", 0)
    copied.day = Day((b"entry 0", b"entry 1"))
    copied.is_refused("^its copy is another$")
    copied.day = Day()
    checkpoints = copied.folder / "later.checkpoints"
    checkpoints.chmod(0o640)
    checkpoints.write_text("more")
    copied.is_refused("^its copy is another: later.checkpoints$")
    checkpoints.unlink()
    copied.is_refused("^its copy is another: later.checkpoints$")
    checkpoints.touch()
    copied.is_checked()
    for name in ("new", "also"):  # of several the first by its name is told
        (copied.folder / name).touch()
        copied.is_refused("^its copy is another: %s$" % name)
    for name in ("new", "also"):
        (copied.folder / name).unlink()
    (copied.place / "seal.pem").unlink()
    copied.is_refused("seal.pem")
    (copied.folder / "SHA256SUMS").unlink()
    copied.is_refused("^its copy can't be read: ")


def test_no_audit(copied: Copied) -> None:
    copied.audit.unlink()
    copied.is_refused("^mireseason-audit: .*No such file or directory")


def test_who_may_read_a_copy(copied: Copied) -> None:
    """The keeper and its group, and nobody writes there any more; a program can still be run."""
    for path in copied.folder.iterdir():
        assert path.stat().st_mode & 0o777 == 0o440, path
    part = copied.place / "copies" / "other.part"
    part.mkdir()
    (part / "program").touch(0o777)
    copied.copies.close(part, part.with_suffix(""))
    assert (part.with_suffix("") / "program").stat().st_mode & 0o777 == 0o550


def test_a_disk_that_keeps_something_else(copied: Copied, monkeypatch: pytest.MonkeyPatch) -> None:
    """What was written is read again before it counts."""
    monkeypatch.setattr(copying, "digest_of_file", lambda path: "another")
    with pytest.raises(Fault, match="look at the disk"):
        copied.copies.begin(copied.log, SECOND, copied.place / "copies" / "20261126")


def test_what_rows_are_ordered_by() -> None:
    """By the key, wherever its columns stand, else by all: a log and its copy are read in one order."""
    more, key = Column("more", "text", False, False), Column("number", "bigint", True, True)
    for columns, order in (
        ((more, key), (key,)),
        ((more, key, key), (key, key)),
        ((more,), (more,)),
    ):
        table = Table("rows", columns)
        assert table.order == order
        with closing(sqlite3.connect(":memory:")) as file:
            named = [replace(one, name="%s_%d" % (one.name, at)) for at, one in enumerate(columns)]
            table = Table("rows", tuple(named))
            file.execute(definition(table))
            assert tables_of(file) == [("rows", ", ".join(one.name for one in table.order))]


def test_a_file_that_is_no_copy(copied: Copied) -> None:
    with pytest.raises(Fault, match="none.db: unable to open"):
        digest_of_file(copied.place / "none.db")
    with pytest.raises(Fault, match="day.db: unable to open"):
        write_day(copied.log, copied.place / "away" / "day.db")


def test_an_entry_that_takes_without_end(copied: Copied, monkeypatch: pytest.MonkeyPatch) -> None:
    """Whoever made a log may have made it so that it is not found soon: it is looked for a minute long, and no more."""
    log = copied.folder / (FIRST + ".db")
    assert day_file.ENTRY_SECONDS == 60.0
    monkeypatch.setattr(day_file, "STEPS", 1)
    monkeypatch.setattr(day_file, "ENTRY_SECONDS", -1.0)
    with pytest.raises(Fault, match="^%s.db: interrupted$" % FIRST):
        day_file.first_line(log)


def test_entry_0_is_that_of_the_table(tmp_path: Path) -> None:
    """As the audit reads it: the index of the key may lead to another row."""
    log = tmp_path / "day.db"
    keyed = "CREATE TABLE entry (place BIGINT NOT NULL, line BYTEA NOT NULL, PRIMARY KEY (place))"
    index = "SELECT type, name, tbl_name, rootpage, sql FROM sqlite_schema WHERE type = 'index'"
    with closing(sqlite3.connect(log, isolation_level=None)) as file:
        file.execute(keyed)
        file.execute("INSERT INTO entry VALUES (0, x'61'), (1, x'62')")
        (row,) = file.execute(index).fetchall()
        file.execute("PRAGMA writable_schema = ON")
        file.execute("DELETE FROM sqlite_schema WHERE type = 'index'")
        bare = keyed.replace("PRIMARY KEY (place)", "CHECK (1)")
        file.execute("UPDATE sqlite_schema SET sql = ?", (bare,))
    with closing(sqlite3.connect(log, isolation_level=None)) as file:
        file.execute("PRAGMA writable_schema = ON")
        file.execute("UPDATE entry SET place = 1 - place")
        file.execute("UPDATE sqlite_schema SET sql = ?", (keyed,))
        file.execute("INSERT INTO sqlite_schema VALUES (?, ?, ?, ?, ?)", row)
    with closing(sqlite3.connect(log)) as file:
        query = "SELECT line FROM entry WHERE place = 0"
        assert file.execute(query).fetchall() == [(b"a",)]
    assert day_file.first_line(log) == b"b"


def test_the_parts_of_entry_0() -> None:
    """A word a line, and after them the configuration; no more than 64 KiB of words are taken for any."""
    assert copying.parts_of(b"venue north\nprogram a b\n%%\nx = 1\n%%\n") == (
        {"venue": "north", "program": "a b"},
        b"x = 1\n%%\n",
    )
    assert copying.parts_of(b"%%\n") == ({}, b"")
    longest = b"venue " + b"x" * (65_536 - 7) + b"\n"
    assert copying.parts_of(longest + b"%%\n") == ({"venue": "x" * (65_536 - 7)}, b"")
    for none in (None, b"", b"venue north\n", b"x" + longest + b"%%\n"):
        with pytest.raises(Fault, match="^it has no entry 0$"):
            copying.parts_of(none)


def test_nothing_stays_open(place: Path) -> None:
    """A run takes many files: neither a file nor its folder stays open, whatever is found there."""
    (place / "day.db").write_bytes(b"x")
    (place / "link").symlink_to("day.db")
    os.mkfifo(place / "pipe")
    (place / "folder").mkdir()
    given, before = GivenCopy(place, "day.db"), os.listdir("/proc/self/fd")
    with given.opened("day.db") as file:
        assert file.read() == b"x"
    for name, why in (
        ("link", ": .*symbolic"),
        ("pipe", " is no plain file$"),
        ("folder", " is no plain file$"),
        ("none", ": .*No such"),
    ):
        with pytest.raises(Fault, match="^%s%s" % (place / name, why)), given.opened(name):
            pass
    with pytest.raises(Fault, match="No such"), GivenCopy(place / "away", "x").opened("x"):
        pass
    on_disk(place / "day.db")
    on_disk(place)
    assert os.listdir("/proc/self/fd") == before


def test_a_list_of_sums_that_is_too_long(place: Path) -> None:
    """64 KiB of it are read: what a gateway's host has put behind that is not there."""
    given, digest = GivenCopy(place, "day.db"), "0" * 64
    line = "%s  day.db\n" % digest
    for before, is_read in ((65_536 - len(line), True), (65_536, False)):
        (place / "SHA256SUMS").write_text("#" * (before - 1) + "\n" + line)
        if is_read:
            assert given.digest() == digest
            continue
        with pytest.raises(Fault, match="SHA256SUMS has no line for day.db$"):
            given.digest()


def test_how_much_stays_free(place: Path, monkeypatch: pytest.MonkeyPatch) -> None:
    """256 MiB of the disk of the keeper's own copies."""
    text = b"x" * 1000
    (place / "day.db").write_bytes(text)
    given, digest = GivenCopy(place, "day.db"), hashlib.sha256(text).hexdigest()
    for name, room in (("fits", 1000), ("fits-not", 999)):
        disk = SimpleNamespace(f_bavail=(256 << 20) + room, f_frsize=1)
        monkeypatch.setattr(os, "statvfs", lambda path, disk=disk: disk)
        if name == "fits":
            given.take_file("day.db", digest, place / name)
            assert (place / name).read_bytes() == text
            continue
        with pytest.raises(Fault, match="there is no room for 1000 bytes$"):
            given.take_file("day.db", digest, place / name)


# ------------------------------------------------------------ the command


def figures(file: Path) -> dict[str, int]:
    lines = [line for line in file.read_text().splitlines() if not line.startswith("#")]
    pairs = (line.split(" ") for line in lines)
    return {name.removeprefix("mireseason_"): int(value) for name, value in pairs}


def test_what_prometheus_is_told(place: Path) -> None:
    """Each number under its own name, in a file that another user may read."""
    counts = Counts(without_copy=1, without_seal=2, at_fault=3, without_tables=4)
    write_metrics(place / "keeper.prom", counts, NOON)
    assert figures(place / "keeper.prom") == {
        "days_without_copy": 1,
        "copies_without_seal": 2,
        "keeper_faults": 3,
        "days_without_tables": 4,
        "keeper_last_run_timestamp_seconds": 1795780800,
    }
    assert (place / "keeper.prom").stat().st_mode & 0o777 == 0o644
    assert [path.name for path in place.iterdir()] == ["keeper.prom"]


def test_the_status_of_a_run(stood: Stood) -> None:
    """0 where all was done, 1 where something is at fault; the metrics are written either way."""
    stood.around.days.clear()
    metrics = stood.file.with_name("keeper.prom")
    assert main.run(stood.file, stood.settings) == 0
    assert figures(metrics)["keeper_faults"] == 0
    stood.around.refused.add("primary")
    assert main.run(stood.file, stood.settings) == 1
    assert figures(metrics)["keeper_faults"] == 1
    stood.file.write_text(CONFIGURATION.partition("[metrics]")[0])
    stood.around.refused.clear()
    assert main.run(stood.file, stood.settings) == 0


def test_a_run_that_does_nothing(stood: Stood, monkeypatch: pytest.MonkeyPatch) -> None:
    """A server that does not answer at all is one fault, which the metrics have."""

    def logs(self: Database) -> list[str]:
        raise Fault("no server")

    monkeypatch.setattr(Database, "logs", logs)
    assert main.run(stood.file, stood.settings) == 1
    assert stood.said() == 'nothing is done cause="no server"\n'
    assert figures(stood.file.with_name("keeper.prom"))["keeper_faults"] == 1


def test_two_runs_at_once(stood: Stood) -> None:
    """The second one does nothing and is no fault; the metrics stay those of the first."""
    number = os.open(stood.file, os.O_RDONLY)
    try:
        fcntl.flock(number, fcntl.LOCK_EX)
        assert main.run(stood.file, stood.settings) == 0
    finally:
        os.close(number)
    assert stood.said() == "another run goes on\n" and stood.around.done == []
    assert not stood.file.with_name("keeper.prom").exists()


def test_a_look_at_the_configuration(stood: Stood, monkeypatch: pytest.MonkeyPatch) -> None:
    """Which logs there are is asked, and no more."""
    monkeypatch.setattr(main, "Database", lambda connection: Database(stood.around, connection))
    assert not [fault for fault in main.faults_of(stood.settings) if fault.startswith("the logs")]

    def logs(self: Database) -> list[str]:
        raise Fault("%s is away" % self.connection)

    monkeypatch.setattr(Database, "logs", logs)
    assert main.faults_of(stood.settings)[-1] == "the logs: primary is away"
    monkeypatch.setattr(sys, "argv", ["mireseason-keeper", "--check", str(stood.file)])
    assert main.main() == 1
    assert stood.said().endswith("mireseason-keeper: the logs: primary is away\n")
    assert stood.around.done == []


def test_words_of_the_command(
    stood: Stood, monkeypatch: pytest.MonkeyPatch, capsys: pytest.CaptureFixture[str]
) -> None:
    """A configuration at fault is status 2, without a run; --version asks for none."""
    monkeypatch.setattr(sys, "argv", ["mireseason-keeper", "none.toml"])
    assert main.main() == 2
    assert capsys.readouterr().err.startswith("mireseason-keeper: none.toml: ")
    monkeypatch.setattr(sys, "argv", ["mireseason-keeper", "--version", "none.toml"])
    assert main.main() == 0 and capsys.readouterr().out.startswith("mireseason-keeper ")
    monkeypatch.setattr(sys, "argv", ["mireseason-keeper", str(stood.file)])
    stood.around.days.clear()
    assert main.main() == 0 and len(stood.around.days) == 2
