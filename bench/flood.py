#!/usr/bin/env python3
"""How long the other firms wait for their answers while one firm floods, and what the flood leaves behind.

usage: flood.py GATEWAY [--seconds N] [--log sqlite|postgres|both] -- VENUE WORDS ..

Two firms send a message at a time, twenty a second each, and measure the time to its answer: a dealer that replaces its
quote, and an investor that hits a quote that nobody has. Three times as long as N: alone; beside a dealer that sends
small cancels at the rate of a firm; and beside one that sends them as fast as it can, is logged out for it every five
seconds, and comes again. For each are printed the median and the 99th percentile, and their ratio to those of the time
alone; the aim is 1.5 and 3. Beside them: the flood's messages in the log, and how many the rate allows; and what log and
memory grew by. Status 1 where the aim is missed, or the flood has more in the log than its rate.
"""

# @figure how long other firms wait while one floods for a minute; what log and memory grow by | the median at most 1.5 times that alone, the 99th percentile 3 times; no message in the log above the rate | met: [below](#one-firm-floods)

import argparse
import multiprocessing
import statistics
import subprocess
import sys
import tempfile
import time
from collections.abc import Iterator
from contextlib import contextmanager
from dataclasses import dataclass
from multiprocessing.queues import Queue
from multiprocessing.synchronize import Event
from pathlib import Path

from tests.gateway.door import Door, Programs, programs_of
from tests.gateway.firm import Identity
from tests.gateway.ledger import PostgresLog
from tests.gateway.market import BOND, moment_in
from tests.gateway.wait import LONG
from tests.gateway.wire import Fields, Wire, framed, now
from tests.harness import postgres

FLOODER = Identity("DLR1", "T1", "dealer-1-secret")
DEALER = Identity("DLR2", "T2", "dealer-2-secret")
INVESTOR = Identity("INV1", "V1", "investor-1-secret")
RATE, BURST = (
    2000,
    10000,
)  # messages of a firm, as the gateway has them without a word of its configuration
READ_AT_ONCE = 1000  # messages: what is read of a socket before any of it is counted
MEDIAN, SLOWEST = 1.5, 3.0  # the aim: times those of the time alone
PAUSE = 0.05  # seconds from one message of a firm that measures to its next
REQUEST = b"R1"


@dataclass(frozen=True)
class Grown:
    """What there was at a moment."""

    flood: int  # messages of the flood in the log
    log: int  # bytes
    gateway: int  # resident bytes
    venue: int

    def since(self, before: "Grown") -> "Grown":
        return Grown(
            self.flood - before.flood,
            self.log - before.log,
            self.gateway - before.gateway,
            self.venue - before.venue,
        )


@dataclass(frozen=True)
class Phase:
    """One time of the run."""

    name: str
    seconds: float
    times: list[float]  # to each answer, in milliseconds
    grown: Grown

    @property
    def median(self) -> float:
        return statistics.median(self.times)

    @property
    def slowest(self) -> float:
        return statistics.quantiles(self.times, n=100)[98]


# ------------------------------------------------------------ firms that measure


def logged_on(port: int, who: Identity, number: int = 1) -> Wire:
    wire = Wire(port)
    wire.number = number
    assert wire.logon(who.name.encode(), who.password.encode())
    assert wire.read_kind(b"A") is not None, "%s is not let in" % who.name
    assert wire.read_kind(b"1") is not None  # reading answers it
    return wire


def quote(at: int) -> tuple[bytes, int, bytes, Fields]:
    name = b"q%d" % at
    return (
        b"S",
        117,
        name,
        [(50, b"T2"), (117, name), (131, REQUEST), (48, BOND), (22, b"4"), (133, b"99.5")],
    )


def hit(at: int) -> tuple[bytes, int, bytes, Fields]:
    name = b"h%d" % at
    return b"AJ", 693, name, [(50, b"V1"), (693, name), (694, b"1"), (117, b"Q4000000")]


def measured(wire: Wire, kind: str, first: int, seconds: float) -> list[float]:
    """The milliseconds to each answer, one message at a time."""
    message_of = quote if kind == "quote" else hit
    times: list[float] = []
    end = time.perf_counter() + seconds
    while (begin := time.perf_counter()) < end:
        type_, tag, name, fields = message_of(first + len(times))
        assert wire.raw(wire.message(type_, wire.name, fields))
        assert wire.read_until(lambda message: message.value(tag) == name) is not None, "no answer"
        times.append((time.perf_counter() - begin) * 1000)
        time.sleep(max(0.0, begin + PAUSE - time.perf_counter()))
    return times


def measure(
    port: int,
    who: Identity,
    number: int,
    kind: str,
    orders: "Queue[float]",
    answers: "Queue[list[float]]",
) -> None:
    """A process: measures for as long as each order says, until one says 0."""
    wire, count = logged_on(port, who, number), 0
    answers.put([])
    while seconds := orders.get():
        times = measured(wire, kind, count, seconds)
        count += len(times)
        answers.put(times)


class Measuring:
    """A firm that measures, in a process of its own."""

    def __init__(self, port: int, who: Identity, kind: str, number: int = 1) -> None:
        self._orders: Queue[float] = multiprocessing.Queue()
        self._answers: Queue[list[float]] = multiprocessing.Queue()
        words = (port, who, number, kind, self._orders, self._answers)
        self._process = multiprocessing.Process(target=measure, args=words, daemon=True)
        self._process.start()
        self._answers.get(timeout=LONG)

    def begin(self, seconds: float) -> None:
        self._orders.put(seconds)

    def times(self, seconds: float) -> list[float]:
        return self._answers.get(timeout=seconds + LONG)

    def end(self) -> None:
        self._orders.put(0)
        self._process.join(LONG)


# ------------------------------------------------------------ the firm that floods


class Flood:
    """Small cancels of the flooding dealer, which comes again where it was logged out."""

    def __init__(self, port: int, a_second: float | None) -> None:
        self._port, self._a_second = port, a_second
        self._next = 1  # its session's next number

    def run(self, over: Event) -> None:
        self._next = expected_number(self._port, over)
        while not over.is_set():
            with again(self._port, self._next) as wire:
                self._send(wire, over)
                self._next = wire.number

    def _send(self, wire: Wire, over: Event) -> None:
        """Until it is over, or the connection is."""
        began, sent, waiting = time.perf_counter(), 0, b""
        wire.socket.setblocking(False)
        while not over.is_set() and not wire.is_over:
            if not waiting and self._may_send(sent, time.perf_counter() - began):
                waiting = b"".join(cancel(wire.number + at) for at in range(50))
                wire.number += 50
                sent += 50
            waiting = waiting[sent_of(wire, waiting) :]
            wire._more(0 if not waiting else 0.001)
            wire.waiting = wire.waiting[-256:]  # nobody reads its answers
            if not waiting:
                time.sleep(0.001)

    def _may_send(self, sent: int, seconds: float) -> bool:
        return self._a_second is None or sent < seconds * self._a_second


def sent_of(wire: Wire, data: bytes) -> int:
    """How many bytes the connection takes now."""
    try:
        return wire.socket.send(data) if data else 0
    except BlockingIOError:
        return 0
    except OSError:
        wire.is_over = True
        return 0


def cancel(number: int) -> bytes:
    """A cancel of no quote: the smallest message of the application."""
    head = b"35=Z\x0149=DLR1\x0156=VENUE\x0134=%d\x0152=%s\x0150=T1\x01" % (number, now())
    return framed(head + b"298=5\x01117=x\x01")


def expected_number(port: int, over: Event) -> int:
    """The number that the gateway expects of the flooding dealer next: it asks for what it misses."""
    high = 100_000_000 + int(time.time()) % 100_000_000
    while not over.is_set():
        wire = Wire(port)
        with wire:
            wire.number = high
            wire.logon(FLOODER.name.encode(), FLOODER.password.encode())
            asked = wire.read_kind(b"2", 10)
            if asked is not None:
                return int(asked.given(7))
        time.sleep(0.2)
    return 1


@contextmanager
def again(port: int, number: int) -> Iterator[Wire]:
    """A session that goes on where the gateway's ended: its Logon is far ahead, and the gap is filled."""
    wire = Wire(port)
    with wire:
        high = number + 1_000_000
        wire.number = high
        wire.logon(FLOODER.name.encode(), FLOODER.password.encode())
        asked = wire.read_kind(b"2", 10)
        if asked is None:
            yield wire
            return
        first = int(asked.given(7))
        fill = [(43, b"Y"), (122, now()), (123, b"Y"), (36, b"%d" % (high + 1))]
        wire.raw(wire.message(b"4", wire.name, fill, number=first))
        wire.number = high + 1
        wire.read_kind(b"1", 2)
        yield wire


def flood(port: int, a_second: float | None, over: Event) -> None:
    """A process."""
    Flood(port, a_second).run(over)


@contextmanager
def flooding(port: int, a_second: float | None) -> Iterator[None]:
    over = multiprocessing.Event()
    process = multiprocessing.Process(target=flood, args=(port, a_second, over), daemon=True)
    process.start()
    try:
        yield
    finally:
        over.set()
        process.join(LONG)


# ------------------------------------------------------------ a run


class Run:
    """One gateway, with its log in one database, over three times."""

    def __init__(self, programs: Programs, folder: Path, log: PostgresLog | None) -> None:
        self.log = log
        self.door = Door(programs, folder, [FLOODER, DEALER], [INVESTOR], postgres=log)

    def phases(self, seconds: float) -> list[Phase]:
        self.door.write()
        self.door.start()
        try:
            self.door.wait_open()
            number = self._ask()
            firms = [
                Measuring(self.door.port, DEALER, "quote"),
                Measuring(self.door.port, INVESTOR, "hit", number),
            ]
            self._phase("warm", firms, min(seconds, 5))
            found = [self._phase("alone", firms, seconds)]
            for name, a_second in (("at its limit", float(RATE)), ("above it", None)):
                with flooding(self.door.port, a_second):
                    found.append(self._phase(name, firms, seconds))
            for firm in firms:
                firm.end()
            return found
        finally:
            self.door.close()

    def _ask(self) -> int:
        """A request that is open all the time; the next number of the investor's session."""
        fields: Fields = [
            (50, b"V1"),
            (131, b"A"),
            (146, b"1"),
            (55, b"[N/A]"),
            (48, BOND),
            (22, b"4"),
            (54, b"1"),
            (38, b"2000000"),
        ]
        fields += [(126, moment_in(7200)), (453, b"1"), (448, b"DLR2"), (447, b"D"), (452, b"35")]
        with logged_on(self.door.port, INVESTOR) as wire:
            assert wire.raw(wire.message(b"R", wire.name, fields))
            assert wire.read_until(lambda message: message.value(131) == b"A") is not None
            return wire.number

    def _phase(self, name: str, firms: list[Measuring], seconds: float) -> Phase:
        before, began = self._grown(), time.perf_counter()
        for firm in firms:
            firm.begin(seconds)
        times = [each for firm in firms for each in firm.times(seconds)]
        took = time.perf_counter() - began
        return Phase(name, took, times, self._grown().since(before))

    def _grown(self) -> Grown:
        venue = self.door.venues()
        return Grown(
            self._flood(), self._bytes(), resident(self.door.running.pid), sum(map(resident, venue))
        )

    def _flood(self) -> int:
        return int(self._asked("SELECT count(*) FROM entry WHERE firm = 'DLR1'"))

    def _bytes(self) -> int:
        if self.log is not None:
            tables = ("entry", "sent", "seal", "checkpoint", "connection")
            return sum(
                int(self._asked("SELECT pg_total_relation_size('%s')" % name)) for name in tables
            )
        files = self.door.folder.glob("day.db*")
        return sum(file.stat().st_size for file in files)

    def _asked(self, query: str) -> str:
        if self.log is not None:
            return self.log.rows(query)[0][0]
        words = ["sqlite3", "-readonly", "-cmd", ".timeout 60000", str(self.door.database), query]
        return subprocess.run(words, capture_output=True, text=True, check=True).stdout.strip()


def resident(pid: int) -> int:
    """Bytes."""
    try:
        lines = Path("/proc/%d/status" % pid).read_text().splitlines()
    except OSError:
        return 0
    return next((int(line.split()[1]) * 1024 for line in lines if line.startswith("VmRSS:")), 0)


# ------------------------------------------------------------ what it came to


def allowed(phase: Phase) -> float:
    """The messages of a flood that may be in the log of one time; 0 of the time alone."""
    return 0 if phase.name == "alone" else BURST + RATE * phase.seconds + READ_AT_ONCE


def faults(phases: list[Phase]) -> Iterator[str]:
    alone = phases[0]
    for phase in phases:
        if phase.median > MEDIAN * alone.median:
            yield "%s: the median is %.2f times that alone" % (
                phase.name,
                phase.median / alone.median,
            )
        if phase.slowest > SLOWEST * alone.slowest:
            yield "%s: the 99th percentile is %.2f times that alone" % (
                phase.name,
                phase.slowest / alone.slowest,
            )
        if phase.grown.flood > allowed(phase):
            yield "%s: %d messages of the flood are in the log, and the rate allows %d" % (
                phase.name,
                phase.grown.flood,
                allowed(phase),
            )


def table(log: str, phases: list[Phase]) -> Iterator[str]:
    """Rows for README.md."""
    alone = phases[0]
    for phase in phases:
        grown = phase.grown
        yield "| %s | %s | %d | %.2f | %.2f | %.2f | %.2f | %d of %d | %.1f | %.1f | %.1f |" % (
            log,
            phase.name,
            len(phase.times),
            phase.median,
            phase.median / alone.median,
            phase.slowest,
            phase.slowest / alone.slowest,
            grown.flood,
            allowed(phase),
            grown.log / 1e6,
            grown.gateway / 1e6,
            grown.venue / 1e6,
        )


HEAD = """| log | the flood | answers | median, ms | times | 99th percentile, ms | times | its messages in the log, of | log, MB | gateway, MB | venue, MB |
|---|---|---|---|---|---|---|---|---|---|---|"""


@contextmanager
def places(kind: str) -> Iterator[PostgresLog | None]:
    """Where the log is: None for a file of SQLite."""
    if kind == "sqlite":
        yield None
        return
    programs = postgres.programs()
    if programs is None:
        raise RuntimeError("PostgreSQL is not installed")
    with tempfile.TemporaryDirectory(prefix="mrp") as name:
        Path(name).chmod(0o755)
        with postgres.running(programs, Path(name) / "server") as server:
            yield PostgresLog(server.fresh(), "day")


def main() -> int:
    parser = argparse.ArgumentParser(usage=__doc__)
    parser.add_argument("gateway", type=Path)
    parser.add_argument("--seconds", type=float, default=60)
    parser.add_argument("--log", choices=("sqlite", "postgres", "both"), default="both")
    parser.add_argument("venue", nargs="+")
    words = parser.parse_args()
    programs, wrong = programs_of(words.gateway, words.venue), []
    print(HEAD, flush=True)
    for kind in ("sqlite", "postgres") if words.log == "both" else (words.log,):
        with places(kind) as log, tempfile.TemporaryDirectory(prefix="mrf") as name:
            Path(name).chmod(0o755)
            phases = Run(programs, Path(name), log).phases(words.seconds)
        print("\n".join(table(kind, phases)), flush=True)
        wrong += ["%s, %s" % (kind, each) for each in faults(phases)]
    print("\n".join(wrong) if wrong else "the aim is met")
    return 1 if wrong else 0


if __name__ == "__main__":
    sys.exit(main())
