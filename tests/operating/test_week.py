"""A week of one gateway that nobody touches, from Friday to Friday. The test moves all clocks together, the firms' too."""

import json
import os
import shlex
import shutil
import subprocess
from dataclasses import dataclass
from datetime import date, datetime, time, timedelta, timezone
from pathlib import Path
from zoneinfo import ZoneInfo

import pytest

from tests.admin.operator import did, rows
from tests.gateway.door import Programs
from tests.gateway.firm import Firm
from tests.gateway.ledger import read_ledger
from tests.gateway.stage import DEALER, INVESTOR, OTHER, Stage
from tests.gateway.wait import LONG, until
from tests.harness.clock import Clock
from tests.harness.options import ROOT
from tests.operating.test_configuration import VENUE

ZONE = ZoneInfo("America/New_York")
OPENS, NOON, ENDS = time(8, 0), time(8, 20), time(8, 55)
LONGEST_SILENCE = 3600  # seconds: a day has fewer, and they may pass at once while the venue has something to answer
RULES = """[day]
zone = "America/New_York"
opens = "08:00"
ends = "08:55"
weekdays = ["Mon", "Tue", "Wed", "Thu", "Fri"]
holidays = "holidays"
"""
MORE_BONDS = VENUE.replace("[[dealer]]", '[[bond]]\nid = "BONDB0000002"\ngrid = 32\n[[dealer]]', 1)
FAULTY = VENUE.replace("exposure", "exposre")


@dataclass
class Week:
    stage: Stage
    clock: Clock
    friday: date
    begins: int | None = None  # so many seconds after the machine's date

    def __post_init__(self) -> None:
        self.stage.door.limits |= {"venue_seconds": LONGEST_SILENCE}

    def day(self, number: int) -> date:
        """From the first Friday on, the weekend left out."""
        return self.friday + timedelta(days=[0, 3, 4, 5, 6, 7][number])

    def write(self) -> None:
        """The gateway's files: a log a day, the days' hours, and a holiday in the middle of the week."""
        (self.stage.folder / "venue.toml").write_text(VENUE)
        self.stage.door.write()
        file = self.stage.folder / "gateway.toml"
        file.write_text(file.read_text().replace("day-{date}.db", "{date}.db") + RULES)
        (self.stage.folder / "holidays").write_text("%s  # of the test\n" % self.day(3).isoformat())

    def set_clock(self, day: date, at: time, seconds: float = 0) -> None:
        """To so many seconds after a time of day in the venue's zone. It is set once, before the gateway starts, and then time
        passes: a clock that is set takes no request."""
        wanted = datetime.combine(day, at, ZONE) + timedelta(seconds=seconds)
        ahead = round((wanted - datetime.now(timezone.utc)).total_seconds())
        if self.begins is None:
            self.begins = ahead
            self.clock.set(ahead)
        else:
            self.clock.has_passed(ahead - self.begins)
        self.stage.ahead = self.begins + self.clock.passed

    def told(self) -> str:
        return self.stage.door.told.read_text(errors="replace")

    def wait_told(self, text: str, since: str = "") -> None:
        until("the gateway says %r" % text, LONG, lambda: text in self.told()[len(since) :])

    def log_of(self, day: date) -> Path:
        """By the day's date in UTC."""
        return self.stage.folder / (
            datetime.combine(day, OPENS, ZONE).astimezone(timezone.utc).strftime("%Y%m%d") + ".db"
        )

    def open_day(self, number: int) -> None:
        """The clock comes to the day, the gateway opens by itself, and firms log on whose numbers begin anew."""
        day = self.day(number)
        self.set_clock(day, OPENS, -2)
        self.stage.door.wait_open()
        self.bring_firms(day.isoformat())

    def bring_firms(self, name: str) -> None:
        """The firms' initiators, whose numbers begin anew in a folder of this name."""
        self.stage.dealer, self.stage.other, self.stage.investor = [
            self.stage.firm(who) for who in (DEALER, OTHER, INVESTOR)
        ]
        for firm in self.stage.firms:
            self.place(firm, name)
        self.stage.log_on(*self.stage.firms)

    def place(self, firm: Firm, name: str) -> None:
        """A firm's store, whose clock is the venue's, is in a folder of this name."""
        firm.places.folder = self.stage.folder / name
        firm.places.folder.mkdir(exist_ok=True)
        firm.environment = self.clock.environment

    def audited(self, command: str, log: Path, *words: str) -> str:
        """What the audit says of a log, whose day has to be as it should be."""
        call = [str(ROOT / "audit" / "mireseason-audit"), command, str(log), *words]
        call += ["--venue", shlex.join(self.stage.door.programs.venue)]
        path = {**os.environ, "PATH": "/usr/bin:/bin"}
        found = subprocess.run(
            call, env=path, capture_output=True, text=True, timeout=LONG, check=False
        )
        assert found.returncode == 0, found.stdout + found.stderr
        return found.stdout

    def check_log(self, number: int) -> None:
        """The audit finds the closed day's log whole."""
        self.audited("check", self.log_of(self.day(number)))

    def acts(self, number: int) -> list[str]:
        """What operators did on a day, as the audit has it."""
        found = json.loads(self.audited("acts", self.log_of(self.day(number)), "--json"))
        return [row["act"] for row in found]

    def check_copy(self, number: int, key: Path) -> None:
        """A day has a copy, which is whole, and is sealed there by somebody else."""
        log = self.log_of(self.day(number))
        copy = self.stage.folder / "copies" / log.stem
        until("the day is copied", LONG, copy.exists)
        sums = ["sha256sum", "--check", "--strict", "SHA256SUMS"]
        subprocess.run(sums, cwd=copy, check=True, capture_output=True)
        self.audited("seal", copy / log.name, "--key", str(key))
        assert (copy / (log.name + ".seal")).exists()

    def end_day(self, number: int) -> None:
        """The clock comes to the day's end: the gateway logs all out and waits for the next day; the log is whole."""
        before = self.told()
        self.set_clock(self.day(number), ENDS, -1)
        self.wait_told('stop cause="the day has ended"', before)
        self.wait_told("closed until=", before)
        for firm in self.stage.firms:
            firm.kill()
        self.check_log(number)

    def change_venue(self, text: str, expected: str) -> None:
        """The operator writes another configuration of the venue, and is told of it at once."""
        before = self.told()
        (self.stage.folder / "venue.toml").write_text(text)
        self.wait_told(expected, before)


def first_friday() -> date:
    today = datetime.now(timezone.utc).date()
    return today + timedelta(days=(4 - today.weekday()) % 7 + 7)


@pytest.fixture
def week(stage: Stage, clock: Clock) -> Week:
    return Week(stage, clock, first_friday())


def trade_of(stage: Stage) -> str:
    """The name of the day's first trade, as the dealer was told it."""
    return next(
        message.given(1003).decode()
        for message in stage.dealer.looked()
        if message.value(694) == b"1"
    )


def set_limits(stage: Stage) -> list[str]:
    """What an operator has set for a firm, beside its configuration."""
    return [row["limit"] for row in rows(stage, "limit", "DLR1") if row["set"]]


def come_back(week: Week, number: int, at: time) -> None:
    """The firms log off, and log on again once it is this time of the day."""
    week.stage.log_off(*week.stage.firms)
    week.set_clock(week.day(number), at)
    week.stage.log_on(*week.stage.firms)


def order_until_night(stage: Stage) -> list[str]:
    """A suspension, a halt, a limit and a void that nobody takes back; the acts."""
    acts = ["bust " + trade_of(stage), "suspend DLR2", "halt", "limit DLR1 day_bytes=100000000"]
    for act in acts:
        did(stage, *act.split(), "--because", "by phone")
    until("it is logged out", LONG, lambda: not stage.other.logged_on())
    assert set_limits(stage) == ["day_bytes"]
    return acts


def lose_a_store(week: Week) -> None:
    """A dealer's engine has lost its store, and begins anew after the operator's word."""
    stage = week.stage
    stage.dealer.kill()
    did(stage, "reset-session", "DLR1", "--because", "their disk is gone")
    stage.dealer = stage.firm(DEALER)
    week.place(stage.dealer, "new-disk")
    stage.log_on(stage.dealer)


def upgrade(week: Week) -> None:
    """Another program of the venue takes the place of the one that is stopped, with a request open; nothing of it is lost."""
    stage = week.stage
    request = stage.ask(dealers=[stage.dealer])
    assert stage.door.stop() == 0, stage.door.last_words()
    venue = stage.door.programs.venue
    if len(venue) == 1:  # else it is a program of an interpreter
        newer = stage.folder / "newer" / Path(venue[0]).name
        newer.parent.mkdir()
        shutil.copy2(venue[0], newer)
        with newer.open("ab") as file:
            file.write(b"\n")
        config = stage.folder / "gateway.toml"
        config.write_text(config.read_text().replace(venue[0], str(newer)))
        stage.door.programs = Programs(stage.door.programs.gateway, (str(newer),))
    start_again(week)
    stage.quote(stage.dealer, request)
    quote = stage.answer(
        stage.investor,
        "a quote",
        lambda message: message.kind == b"S" and message.value(131) == stage.asked,
    )
    assert stage.hit(quote.given(117)).value(297) == b"0"


def start_again(week: Week) -> None:
    week.stage.door.start()
    week.stage.door.wait_open()
    until("all are back", LONG, lambda: all(firm.logged_on() for firm in week.stage.firms))


def test_a_week_from_friday_to_friday(week: Week) -> None:
    """Five trading days, a weekend, a holiday, a change, a fault that is mended and one that is not, a gateway that is killed and
    one that is upgraded. What an operator ordered is over with its day, and not with its gateway.
    """
    stage = week.stage
    stage.door.operators = ""
    week.write()
    (stage.folder / "copies").mkdir()
    with (stage.folder / "gateway.toml").open("a") as file:
        file.write('[copies]\nfolder = "copies"\n')
    week.set_clock(week.day(0), OPENS, -30)
    stage.door.start()
    week.wait_told("closed until=")

    week.open_day(0)
    stage.auction()
    come_back(week, 0, NOON)
    stage.auction()
    ordered = order_until_night(stage)
    week.end_day(0)
    assert week.acts(0) == ordered

    # The suspended firm logs on, the halted venue takes a request, and the limit is the configured one.
    week.open_day(1)
    assert set_limits(stage) == []
    lose_a_store(week)
    stage.auction()
    week.change_venue(FAULTY, "line 12: dealer DLR1: exposre is no key of a dealer; exposure?")
    week.change_venue(MORE_BONDS, "configuration changed: it is right, and applies from")
    stage.auction()
    week.end_day(1)
    assert week.acts(1) == ["reset-session DLR1"]

    week.open_day(2)
    stage.auction()
    week.change_venue(FAULTY, "opens with the one in force")
    week.end_day(2)
    assert not week.log_of(week.day(3)).exists()

    # The holiday is passed over, and the day opens with what was right last.
    week.open_day(4)
    assert b"BONDB0000002" in read_ledger(week.log_of(week.day(4))).entries[0].line
    stage.auction()
    week.change_venue(MORE_BONDS, "configuration is again the one in force")
    upgrade(week)
    stage.auction()
    week.end_day(4)
    assert not week.log_of(week.day(3)).exists()

    week.open_day(5)
    stage.auction()
    did(stage, "suspend", "DLR2", "--because", "by phone")
    until("it is logged out", LONG, lambda: not stage.other.logged_on())
    stage.door.kill()
    before = week.told()
    stage.door.start()
    week.wait_told('refused what="suspended" firm=DLR2', before)
    did(stage, "resume", "DLR2")
    until("all are back", LONG, lambda: all(firm.logged_on() for firm in stage.firms))
    stage.auction()
    week.end_day(5)

    key = stage.folder / "supervisor.pem"
    words = ["openssl", "genpkey", "-algorithm", "ed25519", "-out", str(key)]
    subprocess.run(words, check=True, capture_output=True)
    for number in (0, 1, 2, 4, 5):
        week.check_copy(number, key)
