#!/usr/bin/env python3
"""All that a day of a venue accepts, by 64 firms at once: how many messages a second a gateway answers, and how soon.

usage: python3 -m bench.firms GATEWAY MAKE [--log sqlite|replicated] [--venues N] [--part N] [--folder FOLDER] -- VENUE WORDS ..

MAKE is where firms.sh has made its programs. 32 investors ask four dealers of 32 each, 128 times; each of them quotes four
times, and the last quote is hit: 73,728 messages. `--part N` plays an Nth of the auctions. `--log replicated` has the log in
PostgreSQL with one synchronous standby on this machine, and `--venues N` has N venues behind the gateway, each with firms,
a log and auctions of its own.

Prints messages a second of all venues together, the 99th percentile of the time to an answer, the processor time of a message
by process, and what the disk was given. Beside it stand `live --marks` by pipes with the same lines or, of a replicated log,
one writer that copies the same batches.
"""

import argparse
import contextlib
import os
import socket
import sqlite3
import subprocess
import tempfile
import time
from collections.abc import Iterator
from dataclasses import dataclass, field
from pathlib import Path

from bench.replicated import replicated
from bench.taken import children, most_memory, processor_seconds, written_bytes
from tests.gateway.door import Port, Programs, hash_of, programs_of, quoted, seal_text, today
from tests.gateway.market import moment_in
from tests.gateway.wait import LONG, until
from tests.harness.postgres import Server

DEALERS, INVESTORS, AUCTIONS, ASKED, QUOTES = 32, 32, 128, 4, 4


def venue_text() -> str:
    text = 'version = 1\ndate = "%s"\n[[bond]]\nid = "BONDA0000001"\n' % today()
    for number in range(1, DEALERS + 1):
        text += (
            '[[dealer]]\nname = "DLR%d"\ntraders = ["T1"]\nquotes = %d\nexposure = 1000000000000\n'
            % (
                number,
                INVESTORS * AUCTIONS * ASKED * QUOTES // DEALERS,
            )
        )
    for number in range(1, INVESTORS + 1):
        text += (
            '[[investor]]\nname = "INV%d"\ntraders = ["V1"]\nrequests = %d\nopen = %d\nquantity = 5000000\n'
            % (number, AUCTIONS, AUCTIONS)
        )
    return text


@dataclass(frozen=True)
class Played:
    """What the firms of one venue measured."""

    messages: int
    seconds: float
    median: float  # microseconds
    slowest: float  # the 99th percentile
    processor: float  # seconds


@dataclass
class Bench:
    programs: Programs
    make: Path
    folder: Path
    venues: list[str]
    auctions: int
    server: Server | None = None
    _port: Port = field(default_factory=Port)

    def write(self) -> Path:
        text = ""
        for name in self.venues:
            head = "[venue.%s]" % name if self.is_one_of_several else "[venue]"
            command = quoted((*self.programs.venue, "live", "--frames", "--marks"))
            text += '%s\ncommand = %s\nconfiguration = "venue.toml"\n' % (head, command)
        text += "[log]\n" + self.log_text() + seal_text(self.programs.gateway, self.folder)
        text += '[fix]\nport = %d\ncredentials = "credentials.toml"\n' % self._port.number
        (self.folder / "venue.toml").write_text(venue_text())
        credentials = self.folder / "credentials.toml"
        credentials.write_text("".join(map(self.credentials_of, all_firms())))
        credentials.chmod(0o600)
        (self.folder / "gateway.toml").write_text(text)
        return self.folder / "gateway.toml"

    @property
    def is_one_of_several(self) -> bool:
        return len(self.venues) > 1

    def log_text(self) -> str:
        if self.server is None:
            return 'sqlite = "%s.db"\n' % ("{venue}" if self.is_one_of_several else self.venues[0])
        schema = "log_{venue}" if self.is_one_of_several else "log"
        return 'postgres = "%s"\nschema = "%s"\n' % (self.connection, schema)

    @property
    def connection(self) -> str:
        assert self.server is not None
        return self.server.connection("postgres")

    def credentials_of(self, name: str) -> str:
        hashed = hash_of(self.programs.gateway, "secret")
        return '[%s]\nusername = "%s"\npassword = "%s"\n' % (name, name, hashed)

    def firms_of(self, name: str) -> "subprocess.Popen[str]":
        words = [self._port.number, name if self.is_one_of_several else "-", DEALERS, INVESTORS]
        words += [self.auctions, ASKED, QUOTES, moment_in(3600).decode()]
        return subprocess.Popen(
            [str(self.make / "firms"), *map(str, words)],
            text=True,
            stdin=subprocess.PIPE,
            stdout=subprocess.PIPE,
        )

    @contextlib.contextmanager
    def gateway(self) -> Iterator[int]:
        """Its process, once it takes connections."""
        port = self._port.number
        with (self.folder / "told").open("w+") as told:
            process = subprocess.Popen(
                [self.programs.gateway, self.write()], stdout=told, stderr=told
            )
            try:
                until(
                    "the gateway takes connections",
                    LONG,
                    lambda: is_open(port) or process.poll() is not None,
                )
                if process.poll() is not None:
                    raise RuntimeError((self.folder / "told").read_text()[-2000:])
                yield process.pid
            finally:
                process.terminate()
                process.wait(LONG)

    def play(self) -> None:
        with self.gateway() as gateway:
            drivers = [self.firms_of(name) for name in self.venues]
            for driver in drivers:
                assert driver.stdout is not None and driver.stdin is not None
                if driver.stdout.readline().strip() != "ready":
                    raise RuntimeError("firms did not begin")
            venues = children(gateway)
            before = self.taken(gateway, venues)
            for driver in drivers:
                driver.stdin.write("\n")  # type: ignore[union-attr]
                driver.stdin.flush()  # type: ignore[union-attr]
            played = [played_of(driver) for driver in drivers]
            after = self.taken(gateway, venues)
            memory = most_memory(gateway), sum(map(most_memory, venues))
        tell(played, [late - early for early, late in zip(before, after)])
        logs = sum(file.stat().st_size for file in self.folder.glob("v?.db*"))
        print(
            "memory: gateway %.1f MB, venues %.1f MB; logs in files %.1f MB"
            % (memory[0] / 1e6, memory[1] / 1e6, logs / 1e6)
        )

    def taken(self, gateway: int, venues: list[int]) -> list[float]:
        """Seconds of the gateway and of its venues, and bytes written by it."""
        own = processor_seconds(gateway)
        return [own, sum(map(processor_seconds, venues)), written_bytes(gateway)]

    def lines(self) -> bytes:
        """What the first venue was fed, as `live` reads it."""
        with contextlib.closing(sqlite3.connect(self.folder / (self.venues[0] + ".db"))) as log:
            rows = log.execute("SELECT line FROM entry WHERE place > 0 ORDER BY place")
            entries = b"".join(bytes(line) + b"\n" for (line,) in rows)
        return venue_text().encode() + b"%%\n#\n" + entries

    def live(self) -> float:
        """The seconds that the venue's program takes for the same lines between two pipes."""
        day = self.folder / "lines"
        day.write_bytes(self.lines())
        words = [*self.programs.venue, "live", "--frames", "--marks", "--notes"]
        with subprocess.Popen(["cat", str(day)], stdout=subprocess.PIPE) as writer:
            began = time.monotonic()
            program = subprocess.Popen(words, stdin=writer.stdout, stdout=subprocess.PIPE)
            with subprocess.Popen(["cat"], stdin=program.stdout, stdout=subprocess.DEVNULL):
                for pipe in (writer.stdout, program.stdout):
                    assert pipe is not None
                    pipe.close()
                program.wait()
        return time.monotonic() - began


def is_open(port: int) -> bool:
    with socket.socket() as probe:
        return probe.connect_ex(("127.0.0.1", port)) == 0


def all_firms() -> list[str]:
    dealers = ["DLR%d" % number for number in range(1, DEALERS + 1)]
    return dealers + ["INV%d" % number for number in range(1, INVESTORS + 1)]


def played_of(driver: "subprocess.Popen[str]") -> Played:
    words = driver.communicate()[0].split()
    if driver.returncode != 0:
        raise RuntimeError("firms ended with status %d" % driver.returncode)
    return Played(int(words[0]), *map(float, words[1:]))


def tell(played: list[Played], taken: list[float]) -> None:
    messages = sum(one.messages for one in played)
    seconds = max(one.seconds for one in played)
    print(
        "%d venues, %d messages: %.0f a second, median %.1f ms, 99th percentile %.1f ms"
        % (
            len(played),
            messages,
            messages / seconds,
            max(one.median for one in played) / 1e3,
            max(one.slowest for one in played) / 1e3,
        )
    )
    gateway, venue, written = taken
    each = [gateway, venue, sum(one.processor for one in played)]
    print(
        "us of a processor a message: gateway %.1f, venue %.1f, firms %.1f; %.0f bytes to the disk; load %.1f"
        % (*(1e6 * one / messages for one in each), written / messages, os.getloadavg()[0]),
        flush=True,
    )


def run(bench: Bench) -> None:
    bench.play()
    if bench.server is None:
        count = bench.lines().count(b"\nhex ")
        print("`live --marks` by pipes: %.0f a second" % (count / bench.live()))
        return
    schema = "log_" + bench.venues[0] if bench.is_one_of_several else "log"
    words = [str(bench.make / "bare"), "copy", bench.connection, schema]
    rate, slowest = subprocess.run(words, capture_output=True, text=True, check=True).stdout.split()
    print(
        "one writer of the same batches: %s a second, 99th percentile of a batch %.1f ms"
        % (rate, float(slowest) / 1e3)
    )


def main() -> None:
    parser = argparse.ArgumentParser()
    parser.add_argument("gateway", type=Path)
    parser.add_argument("make", type=Path)
    parser.add_argument("--log", choices=("sqlite", "replicated"), default="sqlite")
    parser.add_argument("--venues", type=int, default=1)
    parser.add_argument("--part", type=int, default=1)
    parser.add_argument("--folder", type=Path)
    parser.add_argument("venue", nargs="+")
    words = parser.parse_args()
    with contextlib.ExitStack() as stack:
        folder = Path(stack.enter_context(tempfile.TemporaryDirectory(dir=words.folder)))
        server = stack.enter_context(replicated(folder)) if words.log == "replicated" else None
        programs = programs_of(words.gateway, words.venue)
        names = ["v%d" % number for number in range(words.venues)]
        run(Bench(programs, words.make.resolve(), folder, names, AUCTIONS // words.part, server))


if __name__ == "__main__":
    main()
