"""The keeper of the days in PostgreSQL: it makes tables before they are needed, checks and seals its copies, and removes
nothing that is not copied."""

import os
import re
import shlex
import sqlite3
import subprocess
from collections.abc import Iterator
from contextlib import closing
from dataclasses import dataclass
from datetime import date, datetime, timedelta, timezone
from pathlib import Path

import pytest
from mireseason_keeper.database import Database
from mireseason_keeper.day_file import digest_of_file, digest_of_log, write_day
from mireseason_keeper.faults import Fault

from tests.gateway.ledger import PostgresLog
from tests.gateway.stage import Stage, Tools
from tests.gateway.wait import LONG, until
from tests.harness.clock import Clock
from tests.harness.options import ROOT
from tests.operating.owned_logs import OwnedLogs, said
from tests.operating.test_week import ENDS, OPENS, RULES, Week

PROGRAM = ROOT / "keeper" / "mireseason-keeper"
AUDIT = ROOT / "audit" / "mireseason-audit"
USUAL = {**os.environ, "PATH": "/usr/bin:/bin"}


class WeekInPostgres(Week):
    """Its logs are checked by the keeper."""

    def date_of(self, number: int) -> str:
        """The date in UTC that the day's log bears."""
        return self.log_of(self.day(number)).stem

    def schema_of(self, number: int) -> str:
        return "day_" + self.date_of(number)

    def check_log(self, number: int) -> None:
        """Nothing: a copy is checked."""


def run(*words: str | Path, environment: dict[str, str]) -> "subprocess.CompletedProcess[str]":
    return subprocess.run(
        [str(word) for word in words],
        env=environment,
        capture_output=True,
        text=True,
        timeout=LONG,
        check=False,
    )


@dataclass
class Keeper:
    """A keeper of a week's days, with a key that no gateway has."""

    week: WeekInPostgres
    database: OwnedLogs
    told: str = ""  # by its last run

    @property
    def folder(self) -> Path:
        return self.week.stage.folder / "keeper"

    @property
    def copies(self) -> Path:
        return self.folder / "copies"

    @property
    def venue(self) -> Path:
        """The program by which it checks: the venue's, or a script for one of several words."""
        words = self.week.stage.door.programs.venue
        return Path(words[0]) if len(words) == 1 else self.folder / "program"

    def write(self) -> None:
        """Its configuration, keys and place of copies."""
        self.copies.mkdir(parents=True)
        words = shlex.join(self.week.stage.door.programs.venue)
        (self.folder / "program").write_text('#!/bin/sh\nexec %s "$@"\n' % words)
        (self.folder / "program").chmod(0o755)
        text = '[log]\npostgres = "%s"\n' % self.database.of("keeper")
        text += '[venue]\nprogram = "%s"\n' % self.venue
        text += RULES.replace('"holidays"', '"../holidays"')
        text += '[copies]\nfolder = "copies"\nkeep = 1\n'
        text += '[seal]\nkey = "seal.pem"\ngateways = ["../keys/gateway.pub"]\n'
        text += '[audit]\ncommand = ["%s"]\n[metrics]\nfile = "metrics.prom"\n' % AUDIT
        (self.folder / "keeper.toml").write_text(text)
        key = self.folder / "seal.pem"
        for line in (
            ["genpkey", "-algorithm", "ed25519", "-out", str(key)],
            ["pkey", "-in", str(key), "-pubout", "-out", str(key.with_suffix(".pub"))],
        ):
            assert run("openssl", *line, environment=USUAL).returncode == 0

    def run(self) -> int:
        """One look, by the clock of the week; its status."""
        environment = {**USUAL, **self.week.clock.environment}
        done = run(PROGRAM, self.folder / "keeper.toml", environment=environment)
        assert done.returncode in (0, 1), done.stderr
        self.told = done.stderr
        return done.returncode

    def runs(self, status: int, *texts: str) -> None:
        """One look, with this status and these words."""
        assert self.run() == status, self.told
        for text in texts:
            assert text in self.told, (text, self.told)

    def wait_told(self, text: str) -> None:
        """Looks until it says so: a gateway that has ended is waited for, for some seconds."""

        def is_told() -> bool:
            self.run()
            return text in self.told

        until("the keeper says %r" % text, LONG, is_told)

    def copy_of(self, number: int) -> Path:
        return self.copies / self.week.date_of(number)

    def figures(self) -> dict[str, float]:
        lines = (self.folder / "metrics.prom").read_text().splitlines()
        pairs = [line.rsplit(" ", 1) for line in lines if line[0] != "#"]
        return {name.removeprefix("mireseason_"): float(value) for name, value in pairs}

    def check_copy(self, number: int) -> None:
        """A copy is whole and sealed: its files alone show that the day is as it should be."""
        folder = self.copy_of(number)
        log = folder / (self.week.schema_of(number) + ".db")
        sums = ["sha256sum", "--check", "--strict", "SHA256SUMS"]
        subprocess.run(sums, cwd=folder, check=True, capture_output=True)
        named = re.compile(r'^date = "%s"$' % self.week.date_of(number), re.MULTILINE)
        assert named.search((folder / "venue.toml").read_text()), "the configuration lacks the day"
        program = folder / self.venue.name
        if self.venue.name != "program":
            assert program.read_bytes() == self.venue.read_bytes()
        words: list[str | Path] = ["check", log]
        words += ["--venue", program if program.exists() else self.venue]
        words += ["--key", self.folder / "seal.pub"]
        words += ["--gateway-key", self.week.stage.door.keys / "gateway.pub"]
        found = run(AUDIT, *words, environment=USUAL)
        assert found.returncode == 0 and "as it was sealed" in found.stdout, found.stdout
        assert (
            "verdict: each firm was sent what the rules give" in (folder / "check.txt").read_text()
        )


@pytest.fixture
def owned(postgres_database: str, place: Path) -> OwnedLogs:
    made = OwnedLogs(postgres_database, place)
    made.make()
    return made


def last_week() -> date:
    """The Friday before it: the database removes no day that may still go on by its own clock."""
    today = datetime.now(timezone.utc).date()
    return today - timedelta(days=today.weekday() + 7 + 3)


@pytest.fixture
def keeper(tools: Tools, place: Path, owned: OwnedLogs) -> Iterator[Keeper]:
    """A keeper, and a gateway that logs into its database, in the week that is over."""
    stage = Stage(tools, place, PostgresLog(owned.of("gateway"), "day_{date}"))
    clock = Clock(tools.shim, place)
    stage.door.environment.update(clock.environment)
    week = WeekInPostgres(stage, clock, last_week())
    week.write()
    made = Keeper(week, owned)
    made.write()
    yield made
    stage.close()


def play_day(keeper: Keeper, number: int) -> None:
    keeper.week.open_day(number)
    keeper.week.stage.auction()
    keeper.runs(0)
    assert not keeper.copy_of(number).exists(), "a day that goes on is copied"
    keeper.week.end_day(number)


def flip_last(path: Path) -> None:
    """Another last byte; and a second time the one that it had."""
    path.chmod(0o640)
    data = path.read_bytes()
    path.write_bytes(data[:-1] + bytes([data[-1] ^ 1]))


def test_days_in_postgres(keeper: Keeper) -> None:
    """Tables before a day opens, a sealed copy after it, and a log that goes when its copy is all that it is."""
    week, database = keeper.week, keeper.database
    first, second = week.schema_of(1), week.schema_of(2)
    week.set_clock(week.day(1), OPENS, -60)
    keeper.runs(0, "tables made log=" + first, "tables made log=" + second)
    assert database.logs() == [first, second]
    week.stage.door.start()
    week.wait_told("closed until=")
    play_day(keeper, 1)

    # What is to be mounted there is away: nothing is made in its place, and nothing is lost.
    away = keeper.copies.rename(keeper.folder / "away")
    keeper.wait_told("day is not copied log=" + first)
    assert not keeper.copies.exists() and keeper.figures()["days_without_copy"] == 1
    away.rename(keeper.copies)
    keeper.runs(0, "day copied log=" + first)
    assert keeper.figures()["days_without_copy"] == 0
    keeper.check_copy(1)

    # Of two days the older one goes; but not while its copy is another, or while the log is.
    play_day(keeper, 2)
    change = "UPDATE %s.entry SET received = '00:00:00.000001' WHERE place = 2"
    database.did(change % second)
    copied = keeper.copy_of(1) / (first + ".db")
    flip_last(copied)
    keeper.runs(1, 'log is not removed log=%s cause="its copy is another' % first)
    flip_last(copied)
    database.did("UPDATE %s.sent SET place = place + 1" % first)
    keeper.runs(1, 'log is not removed log=%s cause="its copy is another"' % first)
    database.did("UPDATE %s.sent SET place = place - 1" % first)
    keeper.wait_told("log removed log=" + first)
    assert first not in database.logs()
    keeper.check_copy(1)

    # Somebody changed the second one before it was copied: its copy says so, and has no seal.
    keeper.wait_told("copy has no seal log=" + second)
    assert "NOT AS THEY SHOULD BE" in (keeper.copy_of(2) / "check.txt").read_text()
    assert not list(keeper.copy_of(2).glob("*.seal"))
    assert keeper.figures()["copies_without_seal"] == 1

    # A day that no gateway began has no copy.
    assert week.stage.door.stop() == 0
    fourth, fifth = week.schema_of(4), week.schema_of(5)
    assert database.logs() == [second, fourth, fifth]
    week.set_clock(week.day(4), ENDS, 60)
    keeper.runs(1, "tables of no day removed log=" + fourth, "copy has no seal log=" + second)
    assert not keeper.copy_of(4).exists()
    database.did("DROP SCHEMA %s CASCADE" % second)
    keeper.runs(0)


MAY_NOT = [
    "INSERT INTO entry SELECT * FROM entry",
    "UPDATE entry SET moment = moment",
    "DELETE FROM checkpoint",
    "DROP TABLE entry",
    "LOCK TABLE entry IN ACCESS EXCLUSIVE MODE",
    "SELECT FROM speaker FOR SHARE",
    "CREATE SCHEMA other",
    "CREATE TEMP TABLE other (x INT)",
    "SET ROLE log_owner",
    "SELECT rolpassword FROM pg_authid",
    "SELECT pg_advisory_lock(1)",
    "SELECT mireseason.make_log('pg_evil')",
    "SELECT mireseason.remove_log('mireseason')",
    "SELECT mireseason.remove_log('day_20990101')",
]
REFUSED = ("permission denied", "must be", "no log is called", "is not over")


def test_what_the_keepers_role_may_not(owned: OwnedLogs) -> None:
    """It makes and removes days by their names; and nobody but it removes any."""
    old = "day_20200102"
    owned.did("SELECT mireseason.make_log('%s')" % old)
    for statement in MAY_NOT:
        found = said(
            owned.of("keeper"), "SET search_path TO " + old, "BEGIN; %s; COMMIT" % statement
        )
        because = any(words in found.stderr for words in REFUSED)
        assert found.returncode != 0 and because, (statement, found.stdout, found.stderr)
    for role in ("gateway", "reader"):
        found = said(owned.of(role), "SELECT mireseason.remove_log('%s')" % old)
        assert "permission denied" in found.stderr, (role, found.stderr)
    assert said(owned.of("keeper"), "SELECT * FROM %s.entry" % old).returncode == 0
    assert said(owned.of("keeper"), "SELECT mireseason.remove_log('%s')" % old).returncode == 0
    assert owned.logs() == []


# ------------------------------------------------------------ a day's rows, without a gateway

DAY = "day_20200102"
# Rows as no gateway would put them: out of order, with and without a value, and more than are asked for at a time.
ENTRIES = (
    "INSERT INTO entry VALUES (1, 0, 'b', 'c', 'DLR1', 2, 3, '\\x01ff', '', '\\x00'),"
    " (0, 0, '', '', NULL, NULL, NULL, 'entry 0', '', '')"
)
SENT = "INSERT INTO sent SELECT firm, n, 0, '\\x00' FROM unnest('{b,B,a}'::text[]) firm, generate_series(1, %d) n"
ROWS = 400  # of each firm


def put(owned: OwnedLogs, *statements: str) -> None:
    """What the day's tables would let no gateway do."""
    owned.did("SET session_replication_role = replica", "SET search_path TO " + DAY, *statements)


@pytest.fixture
def day(owned: OwnedLogs) -> Database:
    """The database as the keeper sees it, with the tables of a day."""
    made = Database(owned.of("keeper"))
    made.make(DAY)
    return made


def test_days_by_their_names(owned: OwnedLogs, day: Database) -> None:
    """Made and removed, each for all; and what the server refuses is a fault in one line."""
    day.make("day_20990101")
    assert day.logs() == owned.logs() == [DAY, "day_20990101"]
    day.make("day_20190101")  # the oldest is the first to go, whenever its tables were made
    assert day.logs() == ["day_20190101", DAY, "day_20990101"]
    day.remove("day_20190101")
    with pytest.raises(Fault, match='^schema "%s" already exists' % DAY) as fault:
        day.make(DAY)
    assert "\n" not in str(fault.value)
    with pytest.raises(Fault, match="is not over"):
        day.remove("day_20990101")
    day.remove(DAY)
    assert day.logs() == ["day_20990101"]
    with pytest.raises(Fault, match="^%s: " % DAY), day.reading(DAY) as log:
        log.first_line()


def test_a_day_as_a_file(owned: OwnedLogs, day: Database, place: Path) -> None:
    """All of its tables but for who speaks, with their keys, and each row once: the log and the file have one digest."""
    file = place / "day.db"
    with day.reading(DAY) as log:
        assert log.first_line() is None
    put(owned, ENTRIES, SENT % ROWS)
    with day.reading(DAY) as log:
        assert log.first_line() == b"entry 0"
        digest = write_day(log, file)
        assert digest == digest_of_log(log) == digest_of_file(file)
        put(owned, "UPDATE sent SET place = 1 WHERE firm = 'a' AND number = %d" % ROWS)
        assert digest_of_log(log) == digest, "a reader sees what was changed after it began"
    with day.reading(DAY) as log:
        assert digest_of_log(log) != digest
    with closing(sqlite3.connect(file)) as copy:
        tables = copy.execute("SELECT name FROM sqlite_schema WHERE type = 'table'").fetchall()
        expected = "checkpoint connection entry form seal sent"
        assert sorted(name for (name,) in tables) == expected.split()
        keys = 'SELECT name, type, "notnull", pk FROM pragma_table_info(?)'
        assert copy.execute(keys, ("sent",)).fetchall() == [
            ("firm", "TEXT", 1, 1),
            ("number", "INTEGER", 1, 2),
            ("place", "INTEGER", 1, 0),
            ("bytes", "BYTEA", 1, 0),
            ("told", "TEXT", 0, 0),
        ]
        assert copy.execute(keys, ("entry",)).fetchall()[4] == ("firm", "TEXT", 0, 0)
        assert copy.execute("SELECT * FROM entry ORDER BY place").fetchall() == [
            (0, 0, "", "", None, None, None, b"entry 0", b"", b""),
            (1, 0, "b", "c", "DLR1", 2, 3, b"\x01\xff", b"", b"\x00"),
        ]
        sent = copy.execute("SELECT firm, number, place, bytes FROM sent ORDER BY rowid").fetchall()
    assert sent == [(firm, n, 0, b"\0") for firm in "Bab" for n in range(1, ROWS + 1)]


def test_how_a_log_ends(owned: OwnedLogs, day: Database) -> None:
    """Silent for five seconds, and signed up to its last entry and the last row of the door."""

    def end(*statements: str) -> tuple[bool, bool]:
        put(owned, *statements)
        with day.reading(DAY) as log:
            found = log.end()
        assert found.is_closed == (found.is_silent and found.is_signed)
        return found.is_silent, found.is_signed

    def signed(number: int, place: int, event: int) -> str:
        return "INSERT INTO checkpoint VALUES (%d, 0, %d, %d, 0, 0, '')" % (number, place, event)

    assert end() == (True, False)
    assert end(ENTRIES) == (True, False)
    assert end(signed(1, 0, 0)) == (True, False)
    assert end(signed(2, 1, 0)) == (True, True)
    door = "INSERT INTO connection VALUES (1, 0, '', 'end', 0, 1, NULL, '', NULL, '', 0, '', '')"
    assert end(door) == (True, False)
    assert end(signed(3, 1, 1)) == (True, True)
    assert end("UPDATE speaker SET seen = clock_timestamp() + interval '1 hour'") == (False, True)
    assert end("UPDATE speaker SET seen = clock_timestamp() - interval '6 s'") == (True, True)


@pytest.mark.parametrize(
    "table", ['"Other" (x INTEGER)', 'other ("X" INTEGER)', "other (x INTEGER, y REAL)"]
)
def test_tables_that_no_log_has(owned: OwnedLogs, day: Database, table: str) -> None:
    """Their names would stand in statements of SQLite."""
    put(owned, "CREATE TABLE " + table)
    with day.reading(DAY) as log, pytest.raises(Fault, match="is none of a log"):
        log.tables()


def test_tables_of_another_form(owned: OwnedLogs) -> None:
    """A new version of database.sql takes away what was made ahead, so that it is made anew; a day that has begun stays."""
    owned.did("SELECT mireseason.make_log('day_20200102'), mireseason.make_log('day_20990101')")
    row = "INSERT INTO day_20200102.entry VALUES (0, 0, '', '', NULL, NULL, NULL, '', '', '')"
    owned.did("SET session_replication_role = replica", row)
    owned.make()
    assert owned.logs() == ["day_20200102"]
