"""A week of a venue that was installed from packages, on machines with systemd. The test moves all clocks together, the firms'
too, by drop-ins of the units. It gives the operator's commands of docs/OPERATING.md, and starts the keeper's timer itself."""

import json
import os
import shutil
import signal
from contextlib import ExitStack
from dataclasses import dataclass, field
from datetime import date, datetime, time, timedelta, timezone
from pathlib import Path

from tests.gateway.firm import Firm, Received
from tests.gateway.stage import Stage
from tests.gateway.wait import LONG, until
from tests.harness.clock import Clock
from tests.operating.booted import Booted, booted
from tests.operating.built_packages import PACKAGES, Packages
from tests.operating.debian_system import fresh_debian, set_hours
from tests.operating.test_fresh_system import firm_of

GATEWAY, PORT = "mireseason-gateway", 9878
OPENS, ENDS = time(8, 0), time(8, 55)
HOURS = {
    "opens": '"08:00"',
    "ends": '"08:55"',
    "weekdays": '["Mon", "Tue", "Wed", "Thu", "Fri"]',
}
SHIM, CLOCK = "usr/local/lib/mireseason-clock.so", "srv/clock"
LOGS, COPIES, BACKUP = "/var/lib/mireseason", "/srv/mireseason-copies", "/srv/backup"
KEEPERS = "/var/lib/mireseason-keeper/copies"
CLOCKS = """[Service]
Environment=LD_PRELOAD=/%s CLOCK_STEP=/%s/step CLOCK_PASSED=/%s/passed
""" % (
    SHIM,
    CLOCK,
    CLOCK,
)
# A day has fewer seconds than the first number. They may pass at once while the venue has something to answer.
MORE = (
    """
[limits]
venue_seconds = 3600
[copies]
folder = "%s"
"""
    % COPIES
)
DISK, RESERVE = 192 << 20, 64 << 20  # bytes of the disk of the logs, and of its reserve
PLAYER = """#!/bin/sh
exec nsenter --target %d --net -- %s "$@"
"""


def trades_of(firm: Firm) -> set[str]:
    """The names of the trades that a firm was told of."""
    names = (message.value(1003) for message in firm.looked())
    return {name.decode() for name in names if name is not None}


@dataclass
class Week:
    """The machine, its firms, and the day that goes on."""

    stage: Stage
    clock: Clock
    place: Path
    player: Path  # a stock engine
    machines: ExitStack
    monday: date
    machine: Booted = field(init=False)
    passwords: dict[str, str] = field(default_factory=dict)  # as mireseason-credentials printed
    begins: int | None = None  # so many seconds after the machine's date
    firms: list[Firm] = field(default_factory=list)  # of the day, without the investor
    trades: int = 0  # of the day, that were made here

    # ------------------------------------------------------------ machines

    def new_machine(self, name: str, packages: Packages) -> None:
        """A fresh one, with all packages and a small disk for the logs; the firms' engines reach it and no other from now on."""
        root = self.place / name / "root"
        root.parent.mkdir()
        fresh_debian(root)
        (root / "etc/apt/sources.list").unlink()
        self.put_clock(root)
        self.machine = self.machines.enter_context(booted(root, self.place / name / "console"))
        files = " ".join("./%s_*.deb" % each for each in PACKAGES)
        done = self.machine.apt("install", files, folder=self.machine.bring(packages))
        assert done.returncode == 0, done.stdout + done.stderr
        mount = "mount -t tmpfs -o size=%d,mode=0750,uid=$(id -u mireseason),gid=$(id -g mireseason) logs %s"
        self.machine.shell(mount % (DISK, LOGS))
        self.machine.shell("install -d -m 2750 -o mireseason -g mireseason-keeper " + COPIES)
        (self.place / "player").write_text(PLAYER % (self.machine.leader, self.player))
        (self.place / "player").chmod(0o755)

    def put_clock(self, root: Path) -> None:
        """One clock for all machines and firms; the drop-ins are the test's, and the one for copies is as the page has it."""
        shutil.copy2(self.stage.tools.shim, root / SHIM)
        (root / CLOCK).mkdir(parents=True)
        for name in ("step", "passed"):
            os.link(self.place / "clock" / name, root / CLOCK / name)
        for unit in (GATEWAY, "mireseason-keeper"):
            folder = root / ("etc/systemd/system/%s.service.d" % unit)
            folder.mkdir(parents=True)
            (folder / "test.conf").write_text(CLOCKS)
        gateways = root / ("etc/systemd/system/%s.service.d/copies.conf" % GATEWAY)
        gateways.write_text("[Service]\nReadWritePaths=-%s\n" % COPIES)

    def configure(self) -> None:
        """What an operator sets before the first start."""
        machine = self.machine
        set_hours(machine.root, HOURS)
        reserve = "reserve = %d" % RESERVE
        machine.edit("etc/mireseason/gateway.toml", "# reserve = 268435456", reserve)
        with (machine.root / "etc/mireseason/gateway.toml").open("a") as file:
            file.write(MORE)
        machine.shell(
            "install -m 0644 /etc/mireseason/keys/gateway.pub /etc/mireseason-keeper/keys"
        )

    def lose_machine(self) -> None:
        """All of its processes end at once, and nobody has a file of it again."""
        os.kill(self.machine.leader, signal.SIGKILL)
        for firm in self.all_firms:
            firm.kill()  # they had its network

    # ------------------------------------------------------------ days

    def set_clock(self, day: int, at: time, seconds: float = 0) -> None:
        """It is set once, before the gateway starts, and then time passes: a clock that is set takes no request."""
        wanted = datetime.combine(self.monday + timedelta(days=day), at, timezone.utc)
        wanted += timedelta(seconds=seconds)
        ahead = round((wanted - datetime.now(timezone.utc)).total_seconds())
        if self.begins is None:
            self.begins = ahead
            self.clock.set(ahead)
        else:
            self.clock.has_passed(ahead - self.begins)
        self.stage.ahead = self.begins + self.clock.passed

    def name_of(self, day: int) -> str:
        return (self.monday + timedelta(days=day)).strftime("%Y%m%d")

    def open(self, day: int, others: dict[str, str] | None = None) -> None:
        """The gateway opens the day by itself, and the firms log on: DLR1, INV1, and dealers that are named with a trader."""
        self.set_clock(day, OPENS, -2)
        self.machine.wait_status(GATEWAY, "ready: " + self.name_of(day))
        self.trades = 0
        self.stage.investor = self.firm(day, "INV1", "T8")
        dealers = {"DLR1": "T1", **(others or {})}
        self.firms = [self.firm(day, name, trader) for name, trader in dealers.items()]
        self.stage.dealer = self.firms[0]
        self.stage.log_on(*self.all_firms)
        self.auction()

    def firm(self, day: int, name: str, trader: str) -> Firm:
        """A firm's engine, whose numbers begin anew with the day."""
        firm = firm_of(self.stage, self.passwords[name], trader, PORT)
        firm.places.folder = self.stage.folder / self.name_of(day)
        firm.places.folder.mkdir(exist_ok=True)
        firm.environment = self.clock.environment
        return firm

    @property
    def all_firms(self) -> list[Firm]:
        return [*self.firms, self.stage.investor]

    def auction(self) -> None:
        self.stage.auction(self.firms)
        self.trades += 1

    def hit_quote_of(self, request: bytes) -> None:
        """Of a request that was asked before; the answer is a trade."""
        self.stage.quote(self.stage.dealer, request)
        quote = self.stage.answer(self.stage.investor, "a quote", self.is_quote)
        assert self.stage.hit(quote.given(117)).value(297) == b"0"
        self.trades += 1
        until(
            "the dealer is told of the trade",
            LONG,
            lambda: sum(len(trades_of(firm)) for firm in self.firms) == self.trades,
        )

    def is_quote(self, message: Received) -> bool:
        return message.kind == b"S" and message.value(131) == self.stage.asked

    def end(self, day: int) -> None:
        """The day ends by itself; the gateway copies it, the keeper seals it, the audit finds it whole, and both sides know of each
        trade that it has."""
        told = [trades_of(firm) for firm in self.firms]
        self.set_clock(day, ENDS, -1)
        self.machine.wait_status(GATEWAY, "closed")
        for firm in self.all_firms:
            firm.kill()
        name = self.name_of(day)
        copy = self.machine.root / COPIES[1:] / name
        until("the day is copied", LONG, copy.exists)
        self.machine.run("systemctl", "start", "mireseason-keeper.service")
        log = "%s/%s/day-%s.db" % (KEEPERS, name, name)
        keys = ["--key", "/etc/mireseason-keeper/seal.pub"]
        keys += ["--gateway-key", "/etc/mireseason/keys/gateway.pub"]
        self.machine.run("mireseason-audit", "check", *keys, "--seal", log + ".seal", log)
        rows = json.loads(self.machine.run("mireseason-audit", "trades", "--json", log))
        recorded = {row["trade"] for row in rows}
        assert len(recorded) == self.trades
        assert trades_of(self.stage.investor) == recorded
        assert set().union(*told) == recorded and sum(map(len, told)) == self.trades

    # ------------------------------------------------------------ an operator

    def journal(self) -> str:
        return self.machine.run("journalctl", "-u", GATEWAY, "-o", "cat")

    def wait_told(self, text: str, since: int = 0) -> None:
        until("the journal has %r" % text, LONG, lambda: text in self.journal()[since:])

    def admin(self, *words: str) -> str:
        return self.machine.run("mireseason-admin", *words)

    def wait_back(self) -> None:
        until("all are back", LONG, lambda: all(firm.logged_on() for firm in self.all_firms))

    def back_up(self) -> Path:
        """The open day and the configuration, on another machine: this one."""
        self.machine.shell("install -d -m 0700 " + BACKUP)
        self.machine.shell("mireseason-admin backup >%s/now.tar" % BACKUP)
        self.machine.shell("tar -C /etc -cf %s/etc.tar mireseason" % BACKUP)
        return Path(shutil.copytree(self.machine.root / BACKUP[1:], self.place / "backup"))
