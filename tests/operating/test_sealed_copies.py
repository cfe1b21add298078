"""A keeper seals the copies that a gateway made of days in SQLite, and trusts nothing that it is given."""

import hashlib
import os
import shlex
import shutil
import sqlite3
import subprocess
from collections.abc import Callable
from contextlib import closing
from dataclasses import dataclass
from datetime import datetime, time, timedelta, timezone
from pathlib import Path

import pytest
from mireseason_keeper import given_copies
from mireseason_keeper.keeper import Counts
from mireseason_keeper.sealing import SealingKeeper
from mireseason_keeper.settings import read_settings

from tests.audit.draw_day import DATE
from tests.audit.ledger import public_key
from tests.gateway.stage import Stage
from tests.gateway.wait import LONG, until
from tests.harness.clock import Clock
from tests.harness.options import ROOT
from tests.operating.test_configuration import VENUE
from tests.operating.test_copies import DAYS, copy_of, first_monday, open_and_end
from tests.operating.test_week import Week

AUDIT = ROOT / "audit" / "mireseason-audit"
BEFORE = "20261124"  # the day before the drawn one
AFTER = datetime(2026, 11, 26, 0, 30, tzinfo=timezone.utc)  # it has ended, half an hour ago
QUIET = '#!/bin/sh\nexec %s "$@"\n'
TELLING = '#!/bin/sh\n: >"$0.has-run"\nexec %s "$@"\n'


@pytest.fixture(scope="module")
def drawn(venue: tuple[str, ...], tmp_path_factory: pytest.TempPathFactory) -> Path:
    """The log of a day, as a gateway leaves it."""
    log = tmp_path_factory.mktemp("drawn") / (DATE + ".db")
    draw(log, 1, venue)
    return log


def draw(log: Path, seed: int, venue: tuple[str, ...]) -> None:
    """A day by the gateway's keys, its last checkpoint, and all that it sent."""
    words = ["/usr/bin/python3", "-m", "tests.audit.draw_day", str(log), "--seed", str(seed)]
    words += ["--requests", "2", "--dealers", "2", "--investors", "1"]
    words += ["--checkpoint", str(log.with_suffix(".checkpoint"))]
    words += ["--sent", str(log.with_suffix(".sent")), "--", *venue]
    subprocess.run(words, cwd=ROOT, check=True, timeout=LONG)


def write_program(file: Path, text: str, venue: tuple[str, ...]) -> None:
    """A script that runs the venue."""
    file.write_text(text % shlex.join(venue))
    file.chmod(0o755)


def write_keeper(folder: Path, given: str, keys: str, more: str = "") -> None:
    """A keeper's configuration, its key, and its own place of copies."""
    for name in ("copies", "sealed"):
        (folder / name).mkdir()
    (folder / "keeper.toml").write_text(
        '[log]\ncopies = "%s"\nfile = "{date}.db"\n[venue]\nprogram = "program"\n%s'
        '[copies]\nfolder = "copies"\nsealed = "sealed"\n'
        '[seal]\nkey = "seal.pem"\ngateways = ["%s/gateway.pub"]\n'
        '[audit]\ncommand = ["%s"]\n' % (given, more, keys, AUDIT)
    )
    for words in (
        "genpkey -algorithm ed25519 -out seal.pem",
        "pkey -in seal.pem -pubout -out seal.pub",
    ):
        subprocess.run(["openssl", *words.split()], cwd=folder, check=True, capture_output=True)


def sum_of(file: Path) -> str:
    return hashlib.sha256(file.read_bytes()).hexdigest()


@dataclass
class Place:
    """A gateway's copy of the drawn day, and a keeper of it with a folder and a key of its own."""

    folder: Path
    told: Callable[[], str]

    @property
    def given(self) -> Path:
        return self.folder / "given" / DATE

    @property
    def log(self) -> Path:
        return self.given / (DATE + ".db")

    @property
    def copy(self) -> Path:
        return self.folder / "copies" / DATE

    @property
    def seal(self) -> Path:
        return self.copy / (DATE + ".db.seal")

    @property
    def receipt(self) -> Path:
        return self.folder / "sealed" / DATE

    def write_sums(self) -> None:
        """The list that the gateway puts beside what it copied."""
        files = sorted(path for path in self.given.iterdir() if path.name != "SHA256SUMS")
        lines = ["%s  %s\n" % (sum_of(path), path.name) for path in files]
        (self.given / "SHA256SUMS").write_text("".join(lines))

    def run(self, now: datetime = AFTER) -> Counts:
        """One look, at a moment."""
        return SealingKeeper(read_settings(self.folder / "keeper.toml"), lambda: now).run()

    def is_refused(self, cause: str) -> None:
        """One look takes nothing, and says why."""
        counts = self.run()
        told = self.told()
        assert "day is not sealed log=%s" % DATE in told and cause in told, told
        assert (counts.at_fault, counts.without_copy) == (1, 1)
        assert not self.copy.exists() and not self.receipt.exists()


@pytest.fixture
def kept(
    place: Path, drawn: Path, venue: tuple[str, ...], capsys: pytest.CaptureFixture[str]
) -> Place:
    made = Place(place, lambda: capsys.readouterr().err)
    (place / "given").mkdir()
    made.given.mkdir()
    shutil.copyfile(drawn, made.log)
    write_program(made.given / "rfq_venue", TELLING, venue)
    checkpoint = drawn.with_suffix(".checkpoint")
    (made.given / checkpoint.name).write_bytes(checkpoint.read_bytes())
    made.write_sums()
    write_program(place / "program", QUIET, venue)
    (place / "gateway.pub").write_bytes(public_key())
    write_keeper(place, "given", ".")
    return made


def test_a_copy_is_sealed(kept: Place) -> None:
    """Once, with what it takes to check the day; and the gateway may read that it is."""
    assert kept.run() == Counts()
    told = kept.told()
    assert "day copied log=%s.db" % DATE in told
    assert ' audit="verdict: each firm was sent what the rules give' in told
    subprocess.run(
        ["sha256sum", "--check", "--strict", "SHA256SUMS"],
        cwd=kept.copy,
        check=True,
        capture_output=True,
    )
    there = {path.name for path in kept.copy.iterdir()}
    log = DATE + ".db"
    # Not the program that was given: that of entry 0 is not the keeper's own.
    assert there == {
        log,
        log + ".seal",
        DATE + ".checkpoint",
        "venue.toml",
        "check.txt",
        "SHA256SUMS",
    }
    assert (kept.copy / log).read_bytes() == kept.log.read_bytes()
    assert not (kept.given / "rfq_venue.has-run").exists(), "a program that was given was run"
    words: list[str | Path] = [AUDIT, "check", kept.copy / log, "--venue", kept.folder / "program"]
    words += ["--key", kept.folder / "seal.pub", "--gateway-key", kept.folder / "gateway.pub"]
    found = subprocess.run(words, capture_output=True, text=True, timeout=LONG, check=False)
    assert found.returncode == 0 and "as it was sealed" in found.stdout, found.stdout
    assert kept.receipt.read_text() == (kept.copy / "SHA256SUMS").read_text()
    assert kept.receipt.stat().st_mode & 0o777 == 0o644
    assert kept.run() == Counts() and kept.told() == ""
    # What somebody else has put there is no word of this keeper's.
    kept.receipt.write_text("%s  %s.seal\n" % ("0" * 64, log))
    assert kept.run() == Counts()
    assert kept.receipt.read_text() == (kept.copy / "SHA256SUMS").read_text()


def test_a_day_that_goes_on_is_left_alone(kept: Place) -> None:
    """A copy that comes before its day has ended is not the day's."""
    assert kept.run(datetime(2026, 11, 25, 23, 59, tzinfo=timezone.utc)) == Counts()
    assert not kept.copy.exists()


def as_link(kept: Place) -> None:
    os.replace(kept.log, kept.folder / "elsewhere")
    kept.log.symlink_to(kept.folder / "elsewhere")


def as_pipe(kept: Place) -> None:
    kept.log.unlink()
    os.mkfifo(kept.log)


def as_folder_that_is_a_link(kept: Place) -> None:
    os.replace(kept.given, kept.folder / "elsewhere")
    kept.given.symlink_to(kept.folder / "elsewhere")


def as_another(kept: Place) -> None:
    data = kept.log.read_bytes()
    kept.log.write_bytes(data[:-1] + bytes([data[-1] ^ 1]))


def as_longer(kept: Place) -> None:
    kept.log.write_bytes(kept.log.read_bytes() + b"\0")


def without_list(kept: Place) -> None:
    (kept.given / "SHA256SUMS").unlink()


def without_line(kept: Place) -> None:
    (kept.given / "SHA256SUMS").write_text("%s  ../%s.db\n" % (sum_of(kept.log), DATE))


def told_to_sqlite(kept: Place, *statements: str) -> None:
    """Changes the log, and has the list say so."""
    with closing(sqlite3.connect(kept.log, isolation_level=None)) as file:
        for statement in statements:
            file.execute(statement)
    kept.write_sums()


def with_view(kept: Place) -> None:
    endless = (
        "WITH RECURSIVE n(x) AS (SELECT 1 UNION ALL SELECT x FROM n) SELECT x AS number FROM n"
    )
    told_to_sqlite(kept, "DROP TABLE form", "CREATE VIEW form AS " + endless)


def with_trigger(kept: Place) -> None:
    told_to_sqlite(kept, "CREATE TRIGGER t AFTER INSERT ON entry BEGIN DELETE FROM form; END")


def with_computed_column(kept: Place) -> None:
    told_to_sqlite(kept, "ALTER TABLE form ADD COLUMN more AS (zeroblob(1000000000))")


def with_stored_column(kept: Place) -> None:
    """Its rows hold what was computed when they were written."""
    more = "CREATE TABLE form (number INTEGER, more BLOB AS (zeroblob(9)) STORED)"
    told_to_sqlite(kept, "DROP TABLE form", more)


def with_a_table_of_a_module(kept: Place) -> None:
    told_to_sqlite(
        kept, "DROP TABLE form", "CREATE VIRTUAL TABLE form USING rtree(number, low, high)"
    )


def with_index(kept: Place) -> None:
    """It may say something else than the rows, and have the name of one that SQLite makes."""
    told_to_sqlite(
        kept,
        "CREATE INDEX by_place ON entry (place, line)",
        "PRAGMA writable_schema = ON",
        "UPDATE sqlite_schema SET name = 'sqlite_autoindex_entry_1',"
        " sql = replace(sql, 'by_place', 'sqlite_autoindex_entry_1') WHERE name = 'by_place'",
    )


def without_entries(kept: Place) -> None:
    told_to_sqlite(kept, "DELETE FROM entry")


def told_in_entry_0(kept: Place, text: str) -> None:
    """Has the configuration of entry 0 be this."""
    told_to_sqlite(
        kept, "UPDATE entry SET line = CAST('venue -\n%%%%\n%s' AS BLOB) WHERE place = 0" % text
    )


def with_brackets(kept: Place) -> None:
    told_in_entry_0(kept, "a = " + "[" * 100_000)


def with_dots(kept: Place) -> None:
    told_in_entry_0(kept, ".".join(["a"] * 10_000) + " = 1")


def with_a_long_entry(kept: Place) -> None:
    told_to_sqlite(kept, "UPDATE entry SET line = zeroblob(18 << 20) WHERE place = 0")


def with_a_long_head(kept: Place) -> None:
    words = "CAST(hex(zeroblob(1 << 16)) AS BLOB)"
    told_to_sqlite(kept, "UPDATE entry SET line = %s || line WHERE place = 0" % words)


def as_no_database(kept: Place) -> None:
    kept.log.write_bytes(b"SQLite format 3\0" + bytes(range(256)) * 16)
    kept.write_sums()


def of_another_venue(kept: Place) -> None:
    other = "CAST(replace(CAST(line AS TEXT), 'venue -', 'venue north') AS BLOB)"
    told_to_sqlite(kept, "UPDATE entry SET line = %s WHERE place = 0" % other)


Change = Callable[[Place], None]
# What a gateway's host may give in the place of a copy, and what is said of it.
REFUSED: list[tuple[Change, str]] = [
    (as_link, "symbolic links"),
    (as_pipe, "is no plain file"),
    (as_folder_that_is_a_link, "given/%s/SHA256SUMS: " % DATE),
    (as_another, "is not what SHA256SUMS says"),
    (as_longer, "is not what SHA256SUMS says"),
    (without_list, "No such file"),
    (without_line, "has no line for"),
    (with_view, "has more than tables"),
    (with_trigger, "has more than tables"),
    (with_computed_column, "has more than tables"),
    (with_stored_column, "has more than tables"),
    (with_a_table_of_a_module, "has more than tables"),
    (with_index, "has more than tables"),
    (without_entries, "it has no entry 0"),
    (with_brackets, "of another day or venue"),
    (with_dots, "of another day or venue"),
    (with_a_long_entry, "too big"),
    (with_a_long_head, "it has no entry 0"),
    (as_no_database, DATE + ".db"),
    (of_another_venue, "of another day or venue"),
]


@pytest.mark.parametrize("change, cause", REFUSED, ids=[change.__name__ for change, _ in REFUSED])
def test_what_is_not_taken(kept: Place, change: Change, cause: str) -> None:
    change(kept)
    kept.is_refused(cause)


def test_a_log_of_another_day(kept: Place) -> None:
    """A name makes no day of it."""
    os.replace(kept.log, kept.given / (BEFORE + ".db"))
    kept.write_sums()
    kept.given.rename(kept.given.with_name(BEFORE))
    assert kept.run().at_fault == 1
    assert "of another day or venue" in kept.told()
    assert not list((kept.folder / "copies").glob("[0-9]" * 8))


def test_a_copy_keeps_no_other_from_being_sealed(kept: Place) -> None:
    """Whatever it has in the place of a configuration, and though it comes first."""
    good = kept.folder / "good"
    shutil.copytree(kept.given, good)
    with_brackets(kept)
    os.replace(kept.log, kept.given / (BEFORE + ".db"))
    kept.write_sums()
    kept.given.rename(kept.given.with_name(BEFORE))
    good.rename(kept.given)
    assert kept.run().at_fault == 1
    assert "day is not sealed log=%s" % BEFORE in kept.told()
    assert kept.seal.exists() and kept.receipt.exists()


def test_no_room(kept: Place, monkeypatch: pytest.MonkeyPatch) -> None:
    """What does not fit is not begun, and the disk is not filled."""
    monkeypatch.setattr(given_copies, "RESERVE", 1 << 62)
    kept.is_refused("there is no room for")


def test_what_is_taken_is_on_disk(kept: Place, monkeypatch: pytest.MonkeyPatch) -> None:
    """The log and its checkpoint: the gateway may remove its own once they are here."""
    did: list[Path] = []
    to = kept.folder / "taken"
    to.mkdir()
    monkeypatch.setattr(given_copies, "on_disk", did.append)
    given_copies.GivenCopy(kept.given, kept.log.name).take(to)
    assert sorted(did) == [to / (DATE + ".checkpoint"), to / (DATE + ".db")]


def test_a_file_that_grows(place: Path, monkeypatch: pytest.MonkeyPatch) -> None:
    """No more of it is read than there was room for when it was looked at."""
    file, text, room = place / "x.db", b"x" * 1000, os.statvfs

    def grows(path: Path) -> os.statvfs_result:
        with file.open("ab") as more:
            more.write(b"y" * 1000)
        return room(path)

    file.write_bytes(text)
    monkeypatch.setattr(os, "statvfs", grows)
    digest = hashlib.sha256(text).hexdigest()
    given_copies.GivenCopy(place, file.name).take_file(file.name, digest, place / "copy")
    assert (place / "copy").read_bytes() == text and file.stat().st_size == 2000


def test_a_log_that_was_changed(kept: Place) -> None:
    """It is kept as it came, with what the audit says of it, and without a seal: each look tells of it."""
    told_to_sqlite(kept, "UPDATE entry SET received = '08:00:00.000001' WHERE place = 2")
    for _ in range(2):
        assert kept.run() == Counts(without_seal=1, at_fault=1)
        assert "copy has no seal log=" in kept.told()
    assert "NOT AS THEY SHOULD BE" in (kept.copy / "check.txt").read_text()
    assert not kept.seal.exists() and not kept.receipt.exists()


def has_received(kept: Place, sent: Path) -> None:
    """The keeper has what a gateway sent of this day, by another way than its log."""
    (kept.folder / "received").mkdir()
    shutil.copyfile(sent, kept.folder / "received" / ("day-%s.checkpoints" % DATE))
    file = kept.folder / "keeper.toml"
    file.write_text(file.read_text().replace("[seal]\n", '[seal]\ncheckpoints = "received"\n'))


def test_what_was_received_is_kept_beside_the_seal(kept: Place, drawn: Path) -> None:
    has_received(kept, drawn.with_suffix(".sent"))
    assert kept.run() == Counts()
    assert (kept.copy / ("received-day-%s.checkpoints" % DATE)).exists() and kept.seal.exists()
    assert "checked     cut-off end: " in (kept.copy / "check.txt").read_text()


def test_a_day_that_root_made_anew(kept: Place, drawn: Path, venue: tuple[str, ...]) -> None:
    """With the real keys, so nothing is wrong in it: the keeper has received another day, and seals
    neither.
    """
    made = kept.folder / "made.db"
    draw(made, 2, venue)
    shutil.copyfile(made, kept.log)
    (kept.given / (DATE + ".checkpoint")).write_bytes(made.with_suffix(".checkpoint").read_bytes())
    kept.write_sums()
    has_received(kept, drawn.with_suffix(".sent"))
    assert kept.run() == Counts(without_seal=1, at_fault=1)
    said = (kept.copy / "check.txt").read_text()
    assert "not the one that received-day-%s.checkpoints, line 2 has signed" % DATE in said
    assert not kept.seal.exists() and not kept.receipt.exists()


def test_another_day_than_the_sealed_one(kept: Place) -> None:
    """Whoever makes the day anew on the gateway's host is told of, and what was sealed stays."""
    kept.run()
    before = kept.receipt.read_text(), kept.seal.read_bytes()
    told_to_sqlite(kept, "UPDATE entry SET received = '08:00:00.000001' WHERE place = 2")
    kept.told()
    assert kept.run() == Counts(at_fault=1)
    assert "copy is another than the sealed one log=%s" % DATE in kept.told()
    assert (kept.receipt.read_text(), kept.seal.read_bytes()) == before


def test_a_copy_that_rots(kept: Place) -> None:
    """The gateway is told of no copy that is not what it was: all of it is read anew before."""
    kept.run()
    kept.receipt.unlink()
    log = kept.copy / (DATE + ".db")
    log.chmod(0o640)
    log.write_bytes(log.read_bytes()[:-1] + b"?")
    assert kept.run() == Counts(at_fault=1)
    assert "its copy is another: %s.db" % DATE in kept.told()
    assert not kept.receipt.exists()


def test_a_day_that_does_not_come(kept: Place) -> None:
    """Where copies came so far and that of the last day does not, somebody is told an hour later."""
    kept.run()
    kept.told()
    assert kept.run(datetime(2026, 11, 27, 0, 59, tzinfo=timezone.utc)) == Counts()
    late = kept.run(datetime(2026, 11, 27, 1, 1, tzinfo=timezone.utc))
    assert late == Counts(without_copy=1, at_fault=1)
    assert "no copy has come log=20261126" in kept.told()


def test_nothing_is_mounted(kept: Place) -> None:
    """The whole command: status 1, and a line that names the place."""
    (kept.folder / "given").rename(kept.folder / "away")
    words = [ROOT / "keeper" / "mireseason-keeper", kept.folder / "keeper.toml"]
    done = subprocess.run(words, capture_output=True, text=True, timeout=LONG, check=False)
    assert done.returncode == 1 and "given" in done.stderr, done.stderr


def checked(kept: Place) -> "subprocess.CompletedProcess[str]":
    program = ROOT / "keeper" / "mireseason-keeper"
    words = [str(program), "--check", str(kept.folder / "keeper.toml")]
    return subprocess.run(words, capture_output=True, text=True, timeout=LONG, check=False)


MISSING = {
    "program": "program: there is no such file",
    "seal.pem": "seal.pem: there is no such file",
    "gateway.pub": "gateway.pub: there is no such file",
    "copies": "copies: there is no such folder",
    "sealed": "sealed: there is no such folder",
    "given": "the logs: ",
    str(AUDIT): "away: there is no such program",
}


@pytest.mark.parametrize("name", MISSING, ids=lambda name: Path(name).name)
def test_what_is_missing_is_found_before_a_run(kept: Place, name: str) -> None:
    """By --check, which does nothing."""
    done = checked(kept)
    assert (done.returncode, "is a configuration of a keeper" in done.stdout) == (0, True), done
    if name == str(AUDIT):
        file = kept.folder / "keeper.toml"
        file.write_text(file.read_text().replace(name, "away"))
    else:
        (kept.folder / name).rename(kept.folder / "elsewhere")
    done = checked(kept)
    assert (done.returncode, MISSING[name] in done.stderr) == (1, True), done.stderr
    assert not kept.copy.exists()


# ------------------------------------------------------------ beside a gateway


@pytest.fixture
def week(stage: Stage, clock: Clock) -> Week:
    """A gateway that keeps one day's log, and those that are not sealed; and a keeper beside it. Day 1 is a Monday."""
    found = Week(stage, clock, (first_monday() - timedelta(days=3)).date())
    (stage.folder / "venue.toml").write_text(VENUE)
    stage.door.write()
    file = stage.folder / "gateway.toml"
    copies = '[copies]\nfolder = "copies"\nsealed = "keeper/sealed"\nkeep = 1\n'
    file.write_text(file.read_text().replace("day-{date}.db", "{date}.db") + DAYS + copies)
    (stage.folder / "copies").mkdir()
    keeper = stage.folder / "keeper"
    keeper.mkdir()
    write_program(keeper / "program", QUIET, stage.door.programs.venue)
    write_keeper(keeper, "../copies", "../keys", DAYS)
    return found


def test_no_log_goes_before_it_is_sealed(week: Week) -> None:
    """Not by the word of another log's seal, and not without one."""
    stage, keeper = week.stage, week.stage.folder / "keeper"
    week.set_clock(week.day(1), time(8, 0), -30)
    stage.door.start()
    week.wait_told("closed until=")
    open_and_end(week, 1)
    first, second, third = (week.log_of(week.day(number)) for number in (1, 2, 3))
    receipts = [keeper / "sealed" / log.stem for log in (first, second)]
    forged = "".join("%s  %s\n" % ("0" * 64, first.name + end) for end in ("", ".seal"))
    receipts[0].write_text(forged)
    open_and_end(week, 2)
    week.wait_told('log is not removed date=%s cause="another log was sealed' % first.stem)
    until("both are copied", LONG, lambda: copy_of(week, 2).exists() and copy_of(week, 1).exists())

    words = [str(ROOT / "keeper" / "mireseason-keeper"), str(keeper / "keeper.toml")]
    environment = {**os.environ, **week.clock.environment}
    done = subprocess.run(
        words, env=environment, capture_output=True, text=True, timeout=LONG, check=False
    )
    assert done.returncode == 0, done.stderr
    for log, receipt in zip((first, second), receipts):
        assert "  %s.seal\n" % log.name in receipt.read_text()
    receipts[1].unlink()
    open_and_end(week, 3)
    week.wait_told('log is not removed date=%s cause="it is not sealed yet"' % second.stem)
    until("the sealed one is removed", LONG, lambda: not first.exists())
    assert second.exists() and third.exists()
