#!/usr/bin/env python3
"""The time from a quote to its 297=0 through TCP, the gateway's log and the venue, beside the least that it could be.

usage: gateway.py GATEWAY LOAD [--bare BARE] [--one-by-one N] [--burst N] [--rounds N] -- VENUE WORDS ..

The least is a bare QuickFIX echo, which puts each message into a file, with an fdatasync, and answers it; the gateway
commits it to SQLite and has the venue answer it. With BARE, made of bare.cpp, the log is in PostgreSQL with one
synchronous standby on this machine, and the least is a bare INSERT with its commit there. Both take turns. Of each round
the two are printed, and behind all the median of each figure and of the rounds' ratios. Then stands what a quote's way is
made up of, by the gateway's own histograms in one more round: medians, in microseconds, each read off between two bounds;
and how many bytes the gateway had the disk write for a quote. The venue answers while the quote is committed: what it takes
stands beside the parts, and is one of them only as far as it is longer than sealing and commit.
"""

import argparse
import contextlib
import os
import statistics
import subprocess
import tempfile
import urllib.request
from collections.abc import Iterator, Sequence
from dataclasses import dataclass, replace
from pathlib import Path

from bench.replicated import replicated
from bench.taken import written_bytes
from tests.gateway.door import Door, Port, Programs, programs_of
from tests.gateway.firm import Identity, Places, settings_text
from tests.gateway.ledger import PostgresLog
from tests.gateway.market import moment_in
from tests.harness.postgres import Server

ROOT = Path(__file__).resolve().parent.parent
DEALER, INVESTOR = Identity("DLR1", "T1", "dealer-1-secret"), Identity(
    "INV1", "V1", "investor-1-secret"
)
DICTIONARIES = (ROOT / "fix" / "FIXT11.xml", ROOT / "fix" / "MIRESEASON.xml")


@dataclass(frozen=True)
class Figures:
    median: float  # microseconds
    slowest: float  # the 99th percentile
    burst: float  # messages a second


@dataclass(frozen=True)
class Bench:
    programs: Programs
    load: Path
    one_by_one: int
    burst: int
    bare: Path | None = None

    def settings(self, folder: Path, who: Identity, port: int) -> Path:
        places = Places(self.load, folder, DICTIONARIES, port)
        file = folder / (who.name + ".cfg")
        file.write_text(settings_text(places, who, {}))
        return file

    def measured(self, folder: Path, port: int, *request: str) -> Figures:
        words = [
            "dealer",
            str(self.settings(folder, DEALER, port)),
            DEALER.name,
            DEALER.password,
            str(self.one_by_one),
            str(self.burst),
        ]
        run = subprocess.run(
            [str(self.load), *words, *request], stdout=subprocess.PIPE, text=True, check=True
        )
        return Figures(*map(float, run.stdout.split()))

    def least(self, server: Server | None) -> Figures:
        return self.echo() if server is None else self.insert(server)

    def insert(self, server: Server) -> Figures:
        words = [str(self.bare), "insert", server.connection("postgres"), str(self.one_by_one)]
        run = subprocess.run(words, stdout=subprocess.PIPE, text=True, check=True)
        median, slowest = map(float, run.stdout.split())
        return Figures(median, slowest, 0.0)

    def echo(self) -> Figures:
        with tempfile.TemporaryDirectory() as name:
            folder, port = Path(name), Port()
            settings = folder / "echo.cfg"
            settings.write_text(echo_settings(folder, port.number))
            with started([self.load, "echo", settings, folder / "echo.log"], "ready"):
                return self.measured(folder, port.number, "R1")

    def gateway(self, server: Server | None) -> Figures:
        return self.through_gateway(server).figures

    def through_gateway(self, server: Server | None) -> "Way":
        with tempfile.TemporaryDirectory() as name:
            folder = Path(name)
            log = PostgresLog(server.fresh(), "log") if server else None
            door = Door(self.programs, folder, [DEALER], [INVESTOR], postgres=log)
            door.write()
            door.start()
            try:
                door.wait_open()
                settings = self.settings(folder, INVESTOR, door.port)
                words = [
                    "investor",
                    str(settings),
                    INVESTOR.name,
                    INVESTOR.password,
                    moment_in(3600).decode(),
                ]
                with started([self.load, *words], "asked"):
                    before, written = counters(door), written_bytes(door.running.pid)
                    figures = self.measured(folder, door.port)
                    written = written_bytes(door.running.pid) - written
                    each = written / (self.one_by_one + self.burst)
                    return Way(figures, Medians.between(before, counters(door)), each)
            finally:
                door.close()

    def way(self, server: Server | None) -> "Way":
        """Of quotes one by one: in a burst they wait for one another."""
        return replace(self, burst=1).through_gateway(server)


@dataclass(frozen=True)
class Medians:
    """Of each histogram of the gateway the median of what it was given, in microseconds."""

    seal: float
    commit: float
    logged: float  # from the receipt of a message to the end of its commit
    answered: float  # and to the venue's answer, which may come before that

    @staticmethod
    def between(before: dict[str, float], after: dict[str, float]) -> "Medians":
        given = {name: value - before.get(name, 0.0) for name, value in after.items()}
        names = ("seal", "commit", "logged", "answered")
        return Medians(*(median_of("mireseason_%s_seconds" % name, given) for name in names))


def median_of(name: str, given: dict[str, float]) -> float:
    """Between the two bounds of a histogram that it lies between, as if all there were spread evenly."""
    half, low, below = given[name + "_count"] / 2, 0.0, 0.0
    begin, end = name + '_bucket{le="', '"}'
    counts = [(key[len(begin) : -len(end)], given[key]) for key in given if key.startswith(begin)]
    for bound, count in sorted((float(bound), count) for bound, count in counts):
        if count >= half > 0 and bound < float("inf"):
            return (low + (bound - low) * (half - below) / (count - below)) * 1e6
        low, below = min(bound, 1.0), count
    return low * 1e6


@dataclass(frozen=True)
class Way:
    """A quote's way to its answer, and what it is made up of."""

    figures: Figures
    medians: Medians
    written: float  # bytes a message

    def parts(self) -> list[tuple[str, float]]:
        one = self.medians
        late = max(0.0, one.answered - one.logged)
        return [
            ("read, session, a place in the log, the venue's line", self.before()),
            ("sealing", one.seal),
            ("commit, with its sync", one.commit),
            ("the venue, behind the commit", late),
            (
                "the answer's write, TCP and the stock engine: the rest",
                self.figures.median - one.logged - late,
            ),
        ]

    def before(self) -> float:
        return self.medians.logged - self.medians.commit - self.medians.seal

    def venue(self) -> float:
        """From its line to its answer with what the session does with that, beside sealing and commit."""
        return self.medians.answered - self.before()


def counters(door: Door) -> dict[str, float]:
    """What the gateway counts, by name."""
    with urllib.request.urlopen("http://127.0.0.1:%d/metrics" % door.metrics, timeout=60) as page:
        lines = page.read().decode().splitlines()
    pairs = (line.rsplit(" ", 1) for line in lines if line and line[0] != "#")
    return {name: float(value) for name, value in pairs}


def echo_settings(folder: Path, port: int) -> str:
    transport, messages = DICTIONARIES
    values = {
        "ConnectionType": "acceptor",
        "BeginString": "FIXT.1.1",
        "DefaultApplVerID": "9",
        "SenderCompID": "VENUE",
        "TargetCompID": DEALER.name,
        "SocketAcceptPort": str(port),
        "SocketReuseAddress": "Y",
        "SocketNodelay": "Y",
        "StartTime": "00:00:00",
        "EndTime": "23:59:59",
        "FileStorePath": str(folder / "echo"),
        "UseDataDictionary": "Y",
        "TransportDataDictionary": str(transport),
        "AppDataDictionary": str(messages),
    }
    return "[DEFAULT]\n" + "".join("%s=%s\n" % item for item in values.items()) + "[SESSION]\n"


@contextlib.contextmanager
def started(words: Sequence[str | Path], ready: str) -> Iterator[None]:
    """A process that has said that it is ready, and that ends with its input."""
    process = subprocess.Popen(words, stdin=subprocess.PIPE, stdout=subprocess.PIPE, text=True)
    assert process.stdin is not None and process.stdout is not None
    try:
        if process.stdout.readline().strip() != ready:
            raise RuntimeError("%s did not begin" % words[1])
        yield
    finally:
        process.stdin.close()
        process.wait(30)
        process.stdout.close()


def middle(rounds: list[Figures]) -> Figures:
    return Figures(
        statistics.median(one.median for one in rounds),
        statistics.median(one.slowest for one in rounds),
        statistics.median(one.burst for one in rounds),
    )


def line_of(name: str, one: Figures) -> str:
    text = "%-8s median %6.0f us, 99th percentile %6.0f us" % (name, one.median, one.slowest)
    return text + (", burst %6.0f messages a second" % one.burst if one.burst else "")


def tell(least: list[Figures], gateway: list[Figures]) -> None:
    pairs = list(zip(least, gateway, strict=True))
    for low, high in pairs:
        print("%s\n%s" % (line_of("least", low), line_of("gateway", high)))
    medians = sorted(high.median / low.median for low, high in pairs)
    slowest = sorted(high.slowest / low.slowest for low, high in pairs)
    print("of %d rounds, which took turns:" % len(pairs))
    print("%s\n%s" % (line_of("least", middle(least)), line_of("gateway", middle(gateway))))
    for name, ratios in (("median", medians), ("99th percentile", slowest)):
        text = " ".join("%.2f" % ratio for ratio in ratios)
        print("gateway / least, %s: %.2f (%s)" % (name, statistics.median(ratios), text))


def measure(bench: Bench, rounds: int, server: Server | None) -> None:
    pairs = [(bench.least(server), bench.gateway(server)) for _ in range(rounds)]
    tell([pair[0] for pair in pairs], [pair[1] for pair in pairs])
    way = bench.way(server)
    print("what a quote's way is made up of, whose median is %.0f us here:" % way.figures.median)
    for part, microseconds in way.parts():
        print("%8.1f us  %s" % (microseconds, part))
    print(
        "beside sealing and commit: %.1f us  the venue, and the session with its answer"
        % way.venue()
    )
    if server is None:
        print("%.0f bytes to the disk for a quote" % way.written)
    print("load %.1f" % os.getloadavg()[0])


def main() -> None:
    parser = argparse.ArgumentParser()
    parser.add_argument("gateway", type=Path)
    parser.add_argument("load", type=Path)
    parser.add_argument("--bare", type=Path)
    for name, usual in (("--one-by-one", 500), ("--burst", 3000), ("--rounds", 5)):
        parser.add_argument(name, type=int, default=usual)
    parser.add_argument("venue", nargs="+")
    words = parser.parse_args()
    programs = programs_of(words.gateway, words.venue)
    load, bare = words.load.resolve(), words.bare and words.bare.resolve()
    bench = Bench(programs, load, words.one_by_one, words.burst, bare)
    if bare is None:
        measure(bench, words.rounds, None)
        return
    with tempfile.TemporaryDirectory() as name, replicated(Path(name)) as server:
        measure(bench, words.rounds, server)


if __name__ == "__main__":
    main()
