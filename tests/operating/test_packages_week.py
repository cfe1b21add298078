"""A week from packages, with an upgrade, a rollback, a firm that joins, one that leaves, a full disk, a lost host and a
restored backup. Stock engines trade each day. Both sides are told of every trade, and the audit finds each day whole."""

import shutil
from collections.abc import Iterator
from contextlib import ExitStack
from dataclasses import replace
from datetime import datetime, timedelta, timezone
from pathlib import Path

import pytest

from tests.gateway.stage import Stage, Tools
from tests.gateway.wait import LONG, until
from tests.harness.clock import Clock
from tests.operating.built_packages import NEWER, PACKAGES, VERSION, Packages
from tests.operating.debian_system import set_hours
from tests.operating.packaged_week import BACKUP, GATEWAY, HOURS, LOGS, OPENS, Week
from tests.operating.test_machine import UPGRADE

pytestmark = [pytest.mark.long, pytest.mark.root]

VENUE = "etc/mireseason/venue.toml"
JOINS = """
[[dealer]]
name = "DLR2"
traders = ["T2"]
quotes = 4096
exposure = 250000000
"""
OTHERS = {"DLR2": "T2"}
HALF_AN_HOUR = 1800  # seconds, which a request is open


@pytest.fixture
def week(packages: Packages, newer: Packages, tools: Tools, place: Path) -> Iterator[Week]:
    """A machine with all packages, whose gateway waits for Monday."""
    for name in ("clock", "firms"):
        (place / name).mkdir()
    clock = Clock(tools.shim, place / "clock")
    stage = Stage(replace(tools, player=place / "player"), place / "firms")
    today = datetime.now(timezone.utc).date()
    monday = today + timedelta(days=7 - today.weekday())
    with ExitStack() as machines:
        made = Week(stage, clock, place, tools.player, machines, monday)
        made.new_machine("first", packages)
        made.machine.bring(newer)
        made.configure()
        for name in ("DLR1", "INV1"):
            made.passwords[name] = made.machine.run("mireseason-credentials", name)
        made.set_clock(0, OPENS, -7200)
        made.machine.run("systemctl", "enable", "--now", GATEWAY)
        made.machine.wait_status(GATEWAY, "closed")
        yield made
        for firm in made.all_firms:
            if firm.process:
                firm.kill()


def join(week: Week) -> None:
    """A firm joins: from tomorrow on."""
    since = len(week.journal())
    with (week.machine.root / VENUE).open("a") as file:
        file.write(JOINS)
    week.passwords["DLR2"] = week.machine.run("mireseason-credentials", "DLR2")
    week.wait_told("configuration changed: it is right, and applies from", since)


def upgrade(week: Week, version: str, *words: str) -> None:
    """Forth or back, on the open day: the firms come back by themselves, and trade on what was asked before."""
    request = week.stage.ask(dealers=[week.stage.dealer])
    done = week.machine.apt(*UPGRADE, *words, "./mireseason*.deb", folder="/root/" + version)
    assert done.returncode == 0, done.stdout + done.stderr
    assert week.machine.versions() == dict.fromkeys(PACKAGES, version)
    week.wait_back()
    week.hit_quote_of(request)


def leave(week: Week, day: int) -> None:
    """A firm leaves: tomorrow. Today it trades, after a restart too."""
    week.machine.run("mireseason-credentials", "--last", week.name_of(day), "DLR2")
    file = week.machine.root / VENUE
    since = len(week.journal())
    file.write_text(file.read_text().replace(JOINS, ""))
    week.wait_told("configuration changed: it is right, and applies from", since)
    week.machine.run("systemctl", "restart", GATEWAY)
    week.wait_back()
    week.auction()


def is_refused(week: Week, day: int) -> None:
    """The firm that has left tries to log on."""
    since, gone = len(week.journal()), week.firm(day, "DLR2", "T2")
    gone.start()
    week.wait_told('refused what="unknown name"', since)
    gone.kill()


def fill_the_disk(week: Week) -> None:
    """Another program leaves no byte of it: no request is taken, a dealer takes back what it has, and with room it goes on by itself."""
    since = len(week.journal())
    week.machine.called("dd", "if=/dev/zero", "of=%s/filler" % LOGS, "bs=64K")
    week.wait_told("no request and no quote is taken", since)
    week.stage.ping(week.stage.dealer)
    week.machine.run("rm", LOGS + "/filler")
    week.wait_told("there is room on the log's disk again", since)
    week.auction()


def lose_the_host(week: Week, packages: Packages) -> None:
    """A request is open; the host is gone. The backup is restored on another one, and the firms trade on what was asked before."""
    request = week.stage.ask(HALF_AN_HOUR, dealers=[week.stage.dealer])
    backup = week.back_up()
    week.lose_machine()
    week.new_machine("second", packages)
    set_hours(week.machine.root, HOURS)
    shutil.copytree(backup, week.machine.root / BACKUP[1:])
    week.machine.shell("tar -C /etc -xf %s/etc.tar" % BACKUP)
    week.machine.shell(
        "install -m 0644 /etc/mireseason/keys/gateway.pub /etc/mireseason-keeper/keys"
    )
    said = week.machine.run("mireseason-restore", BACKUP + "/now.tar")
    assert "this machine has no checkpoint of that day" in said
    accept(week, "the host is gone")
    week.stage.log_on(*week.all_firms)
    week.admin("resume")
    week.hit_quote_of(request)
    week.auction()


def accept(week: Week, why: str) -> None:
    """The gateway waits for the operator, who accepts that the log ends here, and opens the day halted."""
    since = len(week.journal())
    week.machine.run("systemctl", "enable", "--now", GATEWAY)
    week.wait_told("waits for the operator", since)
    week.admin("log", "accept-loss", "--halt", "--because", why)
    week.machine.wait_status(GATEWAY, "ready: ")


def restore_the_backup(week: Week) -> None:
    """The log is gone from this host's disk. Engines that have seen the later numbers of the venue are let in with empty stores."""
    shutil.rmtree(week.place / "backup")
    week.back_up()
    week.machine.run("systemctl", "stop", GATEWAY)
    for firm in week.all_firms:
        firm.kill()
        shutil.rmtree(firm.places.folder / firm.name)
    week.machine.shell("rm %s/day-*.db*" % LOGS)
    said = week.machine.run("mireseason-restore", BACKUP + "/now.tar")
    assert "no entry that was signed is missing, but what sessions did" in said
    accept(week, "the disk failed")
    for firm in week.all_firms:
        week.admin("reset-session", firm.name, "--because", "restored")
    week.stage.log_on(*week.all_firms)
    week.admin("resume")
    week.auction()


def test_a_week(week: Week, packages: Packages) -> None:
    """From Monday to the Monday after the weekend."""
    week.open(0)
    join(week)
    week.end(0)

    week.open(1, OTHERS)
    upgrade(week, NEWER)
    week.auction()
    week.end(1)

    week.open(2, OTHERS)
    upgrade(week, VERSION, "--allow-downgrades")
    leave(week, 2)
    week.end(2)

    week.open(3)
    is_refused(week, 3)
    fill_the_disk(week)
    week.end(3)

    week.open(4)
    lose_the_host(week, packages)
    week.end(4)

    week.open(7)
    restore_the_backup(week)
    week.end(7)
