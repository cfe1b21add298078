"""Days that have ended are copied, whole or not at all; only a day that was copied is removed."""

import os
import re
import shlex
import sqlite3
import subprocess
from concurrent.futures import ThreadPoolExecutor
from contextlib import closing
from dataclasses import dataclass
from datetime import date, datetime, time, timedelta, timezone
from pathlib import Path

import pytest

from tests.admin.operator import admin
from tests.gateway.stage import Stage
from tests.gateway.wait import LONG, until
from tests.harness.clock import Clock
from tests.harness.options import ROOT
from tests.operating.hung_folder import hung
from tests.operating.test_configuration import VENUE, told
from tests.operating.test_week import Week

DAYS = '[day]\nopens = "08:00"\nends = "08:55"\nzone = "America/New_York"\n'


def first_monday() -> datetime:
    today = datetime.now(timezone.utc)
    return today + timedelta(days=7 - today.weekday())


@pytest.fixture
def week(stage: Stage, clock: Clock) -> Week:
    """Its days 1 to 3 are Monday to Wednesday; a day's log is copied, and two days stay."""
    found = Week(stage, clock, (first_monday() - timedelta(days=3)).date())
    (stage.folder / "venue.toml").write_text(VENUE)
    stage.door.write()
    file = stage.folder / "gateway.toml"
    file.write_text(
        file.read_text().replace("day-{date}.db", "{date}.db")
        + DAYS
        + '[copies]\nfolder = "copies"\nkeep = 1\n'
    )
    return found


def copy_of(week: Week, number: int) -> Path:
    return week.stage.folder / "copies" / week.log_of(week.day(number)).stem


def open_and_end(week: Week, number: int) -> None:
    week.open_day(number)
    week.stage.auction()
    week.end_day(number)


def audited(log: Path, *words: str) -> "subprocess.CompletedProcess[str]":
    command = [str(ROOT / "audit" / "mireseason-audit"), *words, str(log)]
    return subprocess.run(
        command,
        env={**os.environ, "PATH": "/usr/bin:/bin"},
        capture_output=True,
        text=True,
        timeout=LONG,
        check=False,
    )


def test_days_are_copied(week: Week) -> None:
    """What stands in a copy, what is checked and sealed there, and which logs are removed."""
    stage = week.stage
    copies = stage.folder / "copies"
    week.set_clock(week.day(1), time(8, 0), -30)
    stage.door.start()
    week.wait_told("closed until=")

    # What is to be mounted there is away: nothing is made in its place, and the day ends all the same.
    open_and_end(week, 1)
    week.wait_told("day is not copied date=")
    assert not copies.exists() and week.log_of(week.day(1)).exists()
    until("it is counted", LONG, lambda: stage.counters()["mireseason_days_without_copy"] == 1)

    # Now it is there: the day before follows with the next. Of the two the older one's log need not stay.
    copies.mkdir()
    open_and_end(week, 2)
    until("both are copied", LONG, lambda: copy_of(week, 1).exists() and copy_of(week, 2).exists())
    until("it is counted", LONG, lambda: stage.counters()["mireseason_days_without_copy"] == 0)
    until("the older one is removed", LONG, lambda: not week.log_of(week.day(1)).exists())
    assert week.log_of(week.day(2)).exists()
    for number in (1, 2):
        there = copy_of(week, number)
        subprocess.run(
            ["sha256sum", "--check", "--strict", "SHA256SUMS"],
            cwd=there,
            check=True,
            capture_output=True,
        )
        log = there / week.log_of(week.day(number)).name
        found = audited(
            log,
            "check",
            "--gateway-key",
            str(stage.door.keys / "gateway.pub"),
            "--venue",
            shlex.join(stage.door.programs.venue),
        )
        assert found.returncode == 0, found.stdout + found.stderr
        configuration = (there / "venue.toml").read_text()
        assert re.search(
            r'^date = "%s"$' % there.name, configuration, re.MULTILINE
        ), "the configuration lacks the day"
        if len(stage.door.programs.venue) == 1:
            program = Path(stage.door.programs.venue[0])
            assert (there / program.name).read_bytes() == program.read_bytes()

    # Sealed by a key that the gateway's host lacks.
    key = stage.folder / "supervisor.pem"
    subprocess.run(
        ["openssl", "genpkey", "-algorithm", "ed25519", "-out", str(key)],
        check=True,
        capture_output=True,
    )
    log = copy_of(week, 1) / week.log_of(week.day(1)).name
    assert audited(log, "seal", "--key", str(key)).returncode == 0
    assert Path(str(log) + ".seal").exists()

    # A copy that is not what the log is any more takes no log with it.
    log = copy_of(week, 2) / week.log_of(week.day(2)).name
    log.chmod(0o640)
    with log.open("r+b") as file:
        file.seek(-1, os.SEEK_END)
        last = file.read(1)
        file.seek(-1, os.SEEK_END)
        file.write(bytes([last[0] ^ 1]))
    open_and_end(week, 3)
    week.wait_told('log is not removed date=%s cause="its copy is another"' % copy_of(week, 2).name)
    assert week.log_of(week.day(2)).exists()
    until("the third is copied", LONG, copy_of(week, 3).exists)
    assert not list(copies.glob("*.part"))


def goes_on(week: Week, ends: tuple[str, str], begins: time) -> None:
    """The end of the first day is moved, and its gateway is killed and started again before the new one, which comes soon."""
    week.stage.door.kill()
    file = week.stage.folder / "gateway.toml"
    before, after = ('ends = "%s"' % end for end in ends)
    file.write_text(file.read_text().replace(before, after))
    week.set_clock(week.day(1), begins)
    since = week.told()
    week.stage.door.start()
    week.stage.door.wait_open()
    week.set_clock(week.day(1), time.fromisoformat(ends[1]), -1)
    week.wait_told("day went on after it was copied date=", since)


@pytest.mark.root
def test_copies_whose_disk_does_not_answer(week: Week) -> None:
    """The day ends, the next one opens and can be halted, whatever was asked of that disk; a stop is one."""
    stage = week.stage
    file = stage.folder / "gateway.toml"
    file.write_text(
        file.read_text().replace("keep = 1\n", 'keep = 1\nsealed = "sealed"\n')
        + '[operator]\nsocket = "admin.sock"\n'
    )
    for name in ("copies", "sealed"):
        (stage.folder / name).mkdir()
    with hung(stage.folder / "copies"):
        week.set_clock(week.day(1), time(8, 0), -30)
        stage.door.start()
        week.wait_told("closed until=")
        open_and_end(week, 1)
        open_and_end(week, 2)
        week.wait_told("days are not copied cause=")
        week.open_day(3)
        with ThreadPoolExecutor() as pool:
            answers = list(pool.map(lambda _: admin(stage, "--json", "status"), range(3)))
        for said in answers:
            assert "its disk does not answer" in said.out, said.text
        assert admin(stage, "halt", "--because", "they asked").status == 0
        assert stage.door.stop() == 0


@dataclass
class WeekOfFolders(Week):
    """The log of each day is in a folder of its own."""

    def log_of(self, day: date) -> Path:
        return super().log_of(day).with_suffix("") / "log.db"


def test_a_folder_of_each_day(stage: Stage, clock: Clock) -> None:
    """The gateway makes it with the day, and makes nothing above it."""
    week = WeekOfFolders(stage, clock, (first_monday() - timedelta(days=3)).date())
    (stage.folder / "venue.toml").write_text(VENUE)
    stage.door.write()
    file = stage.folder / "gateway.toml"
    text = file.read_text().replace("day-{date}.db", "logs/{date}/log.db") + DAYS
    file.write_text(text)
    found = told(stage)
    assert found.returncode == 1, found.stderr
    assert "[log] sqlite: there is no folder %s\n" % (stage.folder / "logs") in found.stderr
    file.write_text(text.replace("logs/", ""))
    assert told(stage).returncode == 0
    week.set_clock(week.day(1), time(8, 0), -30)
    stage.door.start()
    week.wait_told("closed until=")
    open_and_end(week, 1)
    open_and_end(week, 2)


def test_a_day_that_goes_on_after_its_copy(week: Week) -> None:
    """Its end is moved and the gateway started again: it is copied anew, and what was copied before stays beside. So is it the next
    time."""
    stage = week.stage
    (stage.folder / "copies").mkdir()
    week.set_clock(week.day(1), time(8, 0), -30)
    stage.door.start()
    week.wait_told("closed until=")
    open_and_end(week, 1)
    there = copy_of(week, 1)
    until("it is copied", LONG, there.exists)
    before = (there / week.log_of(week.day(1)).name).read_bytes()

    goes_on(week, ("08:55", "09:30"), time(9, 5))
    asides = [there.parent / ("%s.%d" % (there.name, number)) for number in (1, 2)]
    until("it is copied again", LONG, lambda: asides[0].exists() and there.exists())
    name = week.log_of(week.day(1)).name
    assert (asides[0] / name).read_bytes() == before
    second = (there / name).read_bytes()
    assert second == week.log_of(week.day(1)).read_bytes() != before

    goes_on(week, ("09:30", "09:50"), time(9, 35))
    until("it is copied a third time", LONG, lambda: asides[1].exists() and there.exists())
    assert [(aside / name).read_bytes() for aside in asides] == [before, second]
    assert (there / name).read_bytes() == week.log_of(week.day(1)).read_bytes() != second
    until("it is counted", LONG, lambda: stage.counters()["mireseason_days_without_copy"] == 0)


def last_checkpoint(log: Path) -> tuple[int, int]:
    """The number of the log's last checkpoint, and whether it ends the day."""
    with closing(sqlite3.connect(log)) as database:
        row = database.execute(
            "SELECT number, is_end FROM checkpoint ORDER BY number DESC LIMIT 1"
        ).fetchone()
    return int(row[0]), int(row[1])


def test_the_end_of_a_day_is_signed_late(week: Week) -> None:
    """A gateway is killed within a day and started again on the next one: it signs where the day before has ended, in its log and
    outside of it."""
    stage = week.stage
    (stage.folder / "copies").mkdir()
    week.set_clock(week.day(1), time(8, 0), -30)
    stage.door.start()
    week.open_day(1)
    stage.auction()
    stage.door.kill()
    for firm in stage.firms:
        firm.kill()
    log = week.log_of(week.day(1))
    number, is_end = last_checkpoint(log)
    assert not is_end, "the day that goes on has an end"
    week.set_clock(week.day(2), time(8, 0), -30)
    stage.door.start()
    week.wait_told("the end of a day was signed late date=%s" % log.stem)
    assert last_checkpoint(log) == (number + 1, 1)
    kept = stage.folder / "checkpoints" / ("day-%s.checkpoint" % log.stem)
    assert "\ncheckpoint %d\n" % (number + 1) in kept.read_text()
    assert "\nend yes\n" in kept.read_text()
    week.open_day(2)
    week.end_day(2)
    assert last_checkpoint(week.log_of(week.day(2)))[1] == 1
