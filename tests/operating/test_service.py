"""The gateway as a service: what it tells systemd, and what /health and /ready say."""

import errno
import fcntl
import os
import shutil
import signal
import socket
import subprocess
import urllib.error
import urllib.request
from collections.abc import Callable, Iterator
from contextlib import contextmanager
from dataclasses import dataclass, field
from datetime import datetime, timedelta, timezone
from http.client import HTTPConnection
from pathlib import Path

import pytest

from tests.gateway.door import Door
from tests.gateway.stage import DEALER, Stage
from tests.gateway.test_logon import context, with_tls
from tests.gateway.test_reasons import behind
from tests.gateway.wait import LONG, until
from tests.harness.clock import Clock
from tests.limits.flood import logged_on
from tests.operating.test_configuration import VENUE
from tests.operating.test_week import ENDS, OPENS, Week, first_friday

DAY = 86_400  # seconds from midnight to midnight in UTC
SILENCE = 15  # seconds after which a part that does not work is told of (gateway/README.md)

# The venue's program. It reads no firm's message as long as there is a pipe `may-read` beside it, which somebody holds.
WAITING = r"""#!/bin/sh
case " $* " in *" live "*) ;; *) exec "$@" ;; esac
while IFS= read -r line; do
    case $line in hex*) [ ! -p "${0%/*}/may-read" ] || read -r _ <"${0%/*}/may-read" ;; esac
    printf '%s\n' "$line"
done | "$@"
"""


@dataclass
class Systemd:
    """What a service says at the socket that systemd gives it."""

    place: Path
    ears: socket.socket = field(init=False)
    heard: list[str] = field(default_factory=list)

    def __post_init__(self) -> None:
        self.ears = socket.socket(socket.AF_UNIX, socket.SOCK_DGRAM)
        self.ears.bind(str(self.place))
        self.ears.setblocking(False)

    def listen(self) -> list[str]:
        while True:
            try:
                self.heard += self.ears.recv(4096).decode().splitlines()
            except BlockingIOError:
                return self.heard

    def count(self, line: str) -> int:
        return self.listen().count(line)

    def says(self, start: str) -> bool:
        return any(line.startswith(start) for line in self.listen())


@pytest.fixture
def systemd(place: Path) -> Iterator[Systemd]:
    listening = Systemd(place / "notify")
    yield listening
    listening.ears.close()


def watched(stage: Stage, systemd: Systemd, seconds: int) -> None:
    """The gateway's next start is one of a unit with Type=notify and WatchdogSec=seconds."""
    stage.door.environment |= {
        "NOTIFY_SOCKET": str(systemd.place),
        "WATCHDOG_USEC": str(seconds * 1_000_000),
    }


def asked(door: Door, path: str) -> tuple[int, str]:
    """The status and the line of an answer."""
    try:
        with urllib.request.urlopen(
            "http://127.0.0.1:%d%s" % (door.metrics, path), timeout=LONG
        ) as answer:
            return answer.status, answer.read().decode()
    except urllib.error.HTTPError as answer:
        return answer.code, answer.read().decode()


@contextmanager
def hanging_venue(stage: Stage) -> Iterator[None]:
    """The venue's process stands still, and has a message to answer."""
    venues = stage.door.venues()
    assert venues, "there is no venue"
    for pid in venues:
        os.kill(pid, signal.SIGSTOP)
    try:
        stage.say(stage.dealer, "Z", [(298, b"5"), (117, b"none")])
        yield
    finally:
        for pid in venues:
            os.kill(pid, signal.SIGCONT)


def test_systemd_is_told(stage: Stage, systemd: Systemd) -> None:
    """Ready once firms may log on, and not before; its state in words; alive again and again; and its end."""
    watched(stage, systemd, 4)
    stage.door.write()
    stage.door.start()
    until("it is ready", LONG, lambda: systemd.says("READY=1"))
    assert stage.door.is_open(), "READY=1 came before the gateway took connections"
    before = systemd.heard[: systemd.heard.index("READY=1")]
    assert "WATCHDOG=1" not in before
    until("its state is told", LONG, lambda: systemd.says("STATUS=ready: "))
    alive = systemd.count("WATCHDOG=1")
    until("it is alive again and again", LONG, lambda: systemd.count("WATCHDOG=1") >= alive + 3)
    assert stage.door.stop() == 0
    assert systemd.says("STOPPING=1")
    assert systemd.count("READY=1") == 1


def test_the_venue_does_not_speak_for_the_service(stage: Stage, systemd: Systemd) -> None:
    """Its process knows nothing of the socket."""
    watched(stage, systemd, 60)
    stage.open()
    found = stage.door.venues()
    assert found
    for pid in found:
        assert b"NOTIFY_SOCKET" not in Path("/proc/%d/environ" % pid).read_bytes()


def test_the_watchdog_sees_a_venue_that_hangs(stage: Stage, systemd: Systemd) -> None:
    """As long as it answers nothing the gateway gives no sign of life; and then again."""
    stage.limits["venue_seconds"] = 600
    watched(stage, systemd, 8)
    stage.open(stage.dealer)
    with hanging_venue(stage):
        until(
            "it is told",
            LONG,
            lambda: "venue does not answer" in stage.door.told.read_text(errors="replace"),
        )
        alive = systemd.count("WATCHDOG=1")
        until("/health says it", LONG, lambda: asked(stage.door, "/health")[0] == 503)
        assert systemd.count("WATCHDOG=1") == alive
        status, line = asked(stage.door, "/health")
        assert status == 503 and line.startswith("the venue has not worked for "), line
        assert asked(stage.door, "/ready")[0] == 503
        assert stage.counters()["mireseason_healthy"] == 0
    until("it is healthy again", LONG, lambda: asked(stage.door, "/health")[0] == 200)
    until("it is alive again", LONG, lambda: systemd.count("WATCHDOG=1") > alive)


def test_a_day_that_has_not_opened(stage: Stage, systemd: Systemd) -> None:
    """The service has started and is well, and nobody may log on: /ready says when they may."""
    tomorrow = datetime.now(timezone.utc) + timedelta(days=1)
    days = '[day]\nweekdays = ["%s"]\n' % tomorrow.strftime("%a")
    (stage.folder / "venue.toml").write_text(VENUE)
    watched(stage, systemd, 60)
    stage.door.write()
    file = stage.folder / "gateway.toml"
    file.write_text(file.read_text() + days)
    stage.door.start()
    until("it has started", LONG, lambda: systemd.says("READY=1"))
    words = "closed: %s, %sT00:00:00Z to " % (
        tomorrow.strftime("%Y%m%d"),
        tomorrow.strftime("%Y-%m-%d"),
    )
    until("its state is told", LONG, lambda: systemd.says("STATUS=" + words))
    assert asked(stage.door, "/health")[0] == 200
    status, line = asked(stage.door, "/ready")
    assert status == 503 and line.startswith(words), line
    assert stage.counters()["mireseason_ready"] == 0
    opens = tomorrow.replace(hour=0, minute=0, second=0, microsecond=0).timestamp()
    assert stage.counters()["mireseason_day_opens_timestamp_seconds"] == opens
    assert stage.counters()["mireseason_day_ends_timestamp_seconds"] == opens + DAY
    assert stage.counters()["mireseason_sessions"] == 0
    assert stage.door.stop() == 0


def test_a_change_for_tomorrow(stage_of_log: Stage) -> None:
    """A gateway that is killed after it comes back today, with the configuration that the day began with."""
    stage = stage_of_log
    (stage.folder / "venue.toml").write_text(VENUE)
    stage.open(*stage.firms)
    stage.auction()
    (stage.folder / "venue.toml").write_text(
        VENUE.replace("[[dealer]]", '[[bond]]\nid = "BONDB0000002"\ngrid = 32\n[[dealer]]', 1)
    )
    until(
        "it is told",
        LONG,
        lambda: "it is right, and applies from" in stage.door.told.read_text(errors="replace"),
    )
    stage.door.kill()
    stage.door.start()
    stage.door.wait_open()
    assert "the day goes on with the configuration that it began with" in stage.door.told.read_text(
        errors="replace"
    )
    until("all are back", LONG, lambda: all(firm.logged_on() for firm in stage.firms))
    stage.auction()
    assert b"BONDB0000002" not in stage.door.ledger().entries[0].line


def is_of_yesterday(file: Path) -> None:
    yesterday = datetime.now(timezone.utc) - timedelta(days=1)
    file.write_text('date = "%s"\n%s' % (yesterday.strftime("%Y%m%d"), VENUE))


def becomes_a_folder(file: Path) -> None:
    file.unlink()
    file.mkdir()


FILES_OF_TOMORROW: dict[str, Callable[[Path], object]] = {
    "missing": Path.unlink,
    "a folder": becomes_a_folder,
    "of yesterday": is_of_yesterday,
    "without a firm": lambda file: file.write_text(VENUE.replace("INV1", "INV9")),
}


@pytest.mark.parametrize("which", FILES_OF_TOMORROW)
def test_a_file_for_tomorrow_keeps_nobody_from_today(stage: Stage, which: str) -> None:
    """A gateway that is killed comes back with what entry 0 has, whatever venue.toml is by now: also where a firm was taken out of it
    whose credentials are still there."""
    file = stage.folder / "venue.toml"
    file.write_text(VENUE)
    stage.open(*stage.firms)
    stage.auction()
    stage.door.kill()
    FILES_OF_TOMORROW[which](file)
    stage.door.start()
    stage.door.wait_open()
    until("all are back", LONG, lambda: all(firm.logged_on() for firm in stage.firms))
    stage.auction()


def test_each_day_needs_a_log_of_its_own(stage: Stage) -> None:
    """A log's name without {date} is a fault at the first look, and no log is begun. With a date in venue.toml there is that day
    alone, and the name will do."""
    (stage.folder / "venue.toml").write_text(VENUE)
    stage.door.write()
    file = stage.folder / "gateway.toml"
    file.write_text(file.read_text().replace("day-{date}.db", "day.db"))
    stage.door.start()
    assert stage.door.wait_end() == 1
    words = stage.door.last_words()
    assert "gateway.toml: line" in words and "sqlite" in words and "has no {date}" in words, words
    assert not (stage.folder / "day.db").exists()


def test_a_fault_for_tomorrow(stage_of_log: Stage) -> None:
    """It keeps nobody from today: a gateway that is killed comes back, tells the fault, and takes the file once it is right."""
    stage = stage_of_log
    file = stage.folder / "venue.toml"
    file.write_text(VENUE)
    stage.open(*stage.firms)
    stage.auction()
    stage.door.kill()
    file.write_text(VENUE.replace("exposure", "exposre"))
    stage.door.start()
    stage.door.wait_open()
    until("all are back", LONG, lambda: all(firm.logged_on() for firm in stage.firms))
    stage.auction()

    def told(text: str) -> bool:
        return text in stage.door.told.read_text(errors="replace")

    until("the fault is told", LONG, lambda: told("line 12: dealer DLR1: exposre is no key"))
    faulty = "mireseason_next_configuration_faulty"
    until("it is counted", LONG, lambda: stage.counters()[faulty] == 1)
    file.write_text(VENUE.replace("60000000", "70000000"))
    until("it is right", LONG, lambda: told("configuration changed: it is right"))
    until("it is counted", LONG, lambda: stage.counters()[faulty] == 0)
    assert b"60000000" in stage.door.ledger().entries[0].line


def wrong_zone(folder: Path) -> Callable[[], object]:
    file = folder / "gateway.toml"
    text = file.read_text()
    file.write_text(text + '[day]\nzone = "Amerika"\n')
    return lambda: file.write_text(text)


def credentials_that_others_read(folder: Path) -> Callable[[], object]:
    file = folder / "credentials.toml"
    file.chmod(0o644)
    return lambda: file.chmod(0o640)


def log_that_others_read(folder: Path) -> Callable[[], object]:
    tomorrow = datetime.now(timezone.utc) + timedelta(days=1)
    file = folder / tomorrow.strftime("day-%Y%m%d.db")
    file.touch()
    file.chmod(0o644)
    return file.unlink


def key_that_is_away(folder: Path) -> Callable[[], object]:
    file = folder / "keys" / "seal.key"
    away = file.rename(folder / "seal.key")
    return lambda: away.rename(file)


Fault = Callable[[Path], Callable[[], object]]
FAULTS_OF_FILES: dict[str, tuple[Fault, str]] = {
    "a zone that there is not": (
        wrong_zone,
        'gateway.toml: line %d: [day] zone = "Amerika": the tz database has no such zone',
    ),
    "credentials": (credentials_that_others_read, "credentials.toml: has the mode 0644"),
    "log": (log_that_others_read, ".db: has the mode 0644"),
    "key": (key_that_is_away, "keys/seal.key: No such file or directory"),
}


@pytest.mark.parametrize("name", FAULTS_OF_FILES)
def test_the_day_goes_on(stage: Stage, name: str) -> None:
    """Whatever is wrong with the files by now: it is told once something changes, and taken once it is right."""
    file = stage.folder / "venue.toml"
    file.write_text(VENUE)
    stage.open(*stage.firms)
    stage.auction()

    def told(text: str) -> bool:
        return text in stage.door.told.read_text(errors="replace")

    fault, expected = FAULTS_OF_FILES[name]
    mend = fault(stage.folder)
    file.write_text(VENUE.replace("60000000", "70000000"))
    if "%d" in expected:
        expected %= len((stage.folder / "gateway.toml").read_text().splitlines())
    until("the fault is told", LONG, lambda: told(expected))
    assert not told("configuration changed")
    stage.auction()
    mend()
    file.write_text(VENUE.replace("60000000", "80000000"))
    until("it is right", LONG, lambda: told("configuration changed: it is right"))
    stage.auction()
    assert stage.door.stop() == 0, stage.door.last_words()


def shown_certificate(stage: Stage) -> bytes:
    """Whoever connects is shown it."""
    with (
        socket.create_connection(("127.0.0.1", stage.door.port), timeout=LONG) as plain,
        context(stage.folder, DEALER.name).wrap_socket(plain) as talk,
    ):
        found = talk.getpeercert(binary_form=True)
    assert found is not None
    return found


def test_files_that_are_gone_when_the_next_day_opens(stage: Stage, clock: Clock) -> None:
    """A certificate and its key, and the key for reports: a gateway that runs opens the day with what they were last."""
    with_tls(stage)
    week = Week(stage, clock, first_friday())
    week.write()
    report_key = stage.folder / "report.pub"
    shutil.copy(stage.door.keys / "gateway.pub", report_key)
    file = stage.folder / "gateway.toml"
    file.write_text(file.read_text().replace("[fix]\n", '[fix]\nreport_key = "report.pub"\n'))
    week.set_clock(week.day(0), OPENS, -30)
    stage.door.start()
    week.wait_told("closed until=")
    week.set_clock(week.day(0), OPENS, -2)
    week.wait_told("ready address=")
    before, shown = week.told(), shown_certificate(stage)
    week.set_clock(week.day(0), ENDS, -1)
    week.wait_told("closed until=", before)
    for name in ("certificate", "key"):
        (stage.folder / stage.door.tls[name].strip('"')).unlink()
    report_key.unlink()
    before = week.told()
    week.set_clock(week.day(1), OPENS, -2)
    week.wait_told("ready address=", before)
    assert shown_certificate(stage) == shown


def test_a_journal_that_takes_nothing(stage: Stage) -> None:
    """Nobody reads what the gateway says, and a pipe holds little: firms log on and off all the same. Once somebody reads, it says how
    many events were left out."""
    stage.door.write()
    reading, writing = os.pipe()
    fcntl.fcntl(writing, fcntl.F_SETPIPE_SZ, 4096)
    stage.door.process = subprocess.Popen(
        [stage.door.programs.gateway, stage.folder / "gateway.toml"],
        stdin=subprocess.DEVNULL,
        stderr=writing,
        env={**os.environ, **stage.door.environment},
    )
    os.close(writing)
    stage.door.wait_open()
    number = 1
    for _ in range(40):
        with logged_on(stage, DEALER, number=number) as wire:
            number = wire.number
    os.set_blocking(reading, False)
    with open(reading, "rb", buffering=0) as told:
        heard = told.read(65536) or b""
        assert b"were left out" not in heard, heard
        with logged_on(stage, DEALER, number=number):
            rest = bytearray()

            def is_told() -> bool:
                rest.extend(told.read(65536) or b"")
                return b" events were left out: standard error took none\n" in rest

            until("it says how many", LONG, is_told)


@dataclass
class Gate:
    """A pipe at which the venue waits, until it is open."""

    pipe: Path
    held: int | None = None

    def is_reached(self) -> bool:
        """Whether the venue reads; it is held from then on."""
        try:
            self.held = os.open(self.pipe, os.O_WRONLY | os.O_NONBLOCK)
        except OSError as fault:
            assert fault.errno == errno.ENXIO, fault  # nobody reads
        return self.held is not None

    def open(self) -> None:
        held = os.open(self.pipe, os.O_RDWR) if self.held is None else self.held
        self.pipe.unlink()
        os.close(held)


def test_ready(stage: Stage) -> None:
    """Once the venue has read the log, and not before: only then may firms log on."""
    stage.door.programs = behind(WAITING, stage.folder, stage.tools).programs
    stage.open(stage.dealer)
    stage.ping(stage.dealer)
    assert stage.door.stop() == 0, stage.door.last_words()
    gate = Gate(stage.folder / "program" / "may-read")
    os.mkfifo(gate.pipe)
    try:
        stage.door.start()
        until("the venue has the first message", LONG, gate.is_reached)
        status, line = asked(stage.door, "/ready")
        assert status == 503 and not line.startswith("ready"), line
    finally:
        gate.open()
    stage.door.wait_open()
    until("it is ready", LONG, lambda: asked(stage.door, "/ready")[0] == 200)
    assert asked(stage.door, "/ready")[1].startswith("ready: ")
    assert asked(stage.door, "/health")[0] == 200
    assert stage.counters()["mireseason_ready"] == 1
    assert stage.counters()["mireseason_healthy"] == 1


def test_who_may_ask(stage: Stage) -> None:
    """Pages of other sites, which a browser on this machine may show, read nothing; and nobody changes anything."""
    stage.open()
    for method, path, host, expected in (
        ("GET", "/", "evil.example", 403),
        ("GET", "/metrics", "evil.example:%d" % stage.door.metrics, 403),
        ("GET", "/", "127.0.0.1:%d" % stage.door.metrics, 200),
        ("POST", "/", "127.0.0.1:%d" % stage.door.metrics, 403),
        ("GET", "/../gateway.toml", "127.0.0.1:%d" % stage.door.metrics, 404),
    ):
        line = HTTPConnection("127.0.0.1", stage.door.metrics, timeout=LONG)
        line.request(method, path, headers={"Host": host})
        answer = line.getresponse()
        assert answer.status == expected, (method, path, host)
        assert answer.getheader("X-Frame-Options") == "DENY"
        line.close()
