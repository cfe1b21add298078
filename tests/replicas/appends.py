#!/usr/bin/env python3
"""Tries terms on three database hosts, and measures how fast logs take messages there.

usage: appends.py OUT [--seconds N] [--images FOLDER]

It runs terms_test, log_test and connection_log_test of OUT, the folder in which the gateway was built,
on a gateway's host. The primary lets them in as it does the host's gateway, the owner of the logs makes
their tables, and they may do no more than a gateway. Then it runs log_bench with one, two and four logs.
"""

import argparse
import os
import signal
import subprocess
import sys
import tempfile
from collections.abc import Sequence
from dataclasses import dataclass
from pathlib import Path

from tests.lab.machine import Machine, site_here

TESTS = ("terms_test", "log_test", "connection_log_test")
BENCH = "log_bench"
LIMIT = 600.0  # seconds of a test, and of a measurement beyond its own
TRIES = 3  # on a busy machine the primary becomes another one without a damage
# A gateway that is not answered within two seconds tries again; these programs do not.
PATIENT = " connect_timeout=60 tcp_user_timeout=60000"


@dataclass(frozen=True)
class Load:
    """What a measurement puts on the database: so many logs, each with so many threads that append."""

    logs: int
    threads: int


LOADS = (Load(1, 1), Load(1, 8), Load(1, 32), Load(2, 32), Load(4, 32))


@dataclass(frozen=True)
class Bench:
    """The programs of a build, on the first gateway's host of a machine whose databases are up."""

    machine: Machine
    out: Path

    def begin(self) -> None:
        """The host gets what configure.py writes for it."""
        self.machine.gateways[0].make_known()

    @property
    def connection(self) -> str:
        return self.machine.gateways[0].connection + PATIENT

    def failures(self) -> list[str]:
        """Runs the tests; what those that failed said."""
        return list(filter(None, map(self._failure, TESTS)))

    def _failure(self, test: str) -> str:
        """What a test said, where it failed."""
        done = self._run([self.out / test], LIMIT)
        print("%s: %s" % (test, "failed" if done.returncode else "passed"), flush=True)
        return "%s: %s" % (test, done.stdout) if done.returncode else ""

    def measure(self, load: Load, seconds: int) -> str:
        """How many messages a second logs take, and how long one waits, in a line of words."""
        words = [self.out / BENCH, self.connection, load.logs, load.threads, seconds]
        done = self._run(words, LIMIT + seconds)
        if done.returncode != 0:
            raise RuntimeError("%s: %s" % (BENCH, done.stdout))
        return done.stdout.strip()

    def _run(self, words: Sequence[object], limit: float) -> subprocess.CompletedProcess[str]:
        """Again where it failed and the primary has become another one meanwhile."""
        for _ in range(TRIES - 1):
            before = self._timeline()
            done = self._run_once(words, limit)
            if done.returncode == 0 or (before and self._timeline() == before):
                return done
            self.machine.cluster.wait_ready()
        return self._run_once(words, limit)

    def _timeline(self) -> str:
        """Which primary it is, and of which promotion; nothing where there is none just now."""
        primary = self.machine.cluster.primary()
        place = primary.asked("SELECT pg_walfile_name(pg_current_wal_lsn())") if primary else None
        return "%s %s" % (primary.name, place[:8]) if primary and place else ""

    def _run_once(self, words: Sequence[object], limit: float) -> subprocess.CompletedProcess[str]:
        gateway = self.machine.gateways[0]
        return subprocess.run(
            [*self.machine.network.words(gateway.name), *map(str, words)],
            cwd=gateway.own,
            env={**os.environ, "TEST_POSTGRES": self.connection},
            stdout=subprocess.PIPE,
            stderr=subprocess.STDOUT,
            text=True,
            timeout=limit,
            check=False,
        )


def tried(bench: Bench, seconds: int) -> int:
    """Runs the tests and the measurements; how many tests failed."""
    bench.begin()
    failures = bench.failures()
    print("\n".join(failures))
    for load in LOADS:
        print(bench.measure(load, seconds), flush=True)
    print("load %.0f" % os.getloadavg()[0])
    return len(failures)


def main() -> None:
    parser = argparse.ArgumentParser()
    parser.add_argument("out", type=Path)
    parser.add_argument("--seconds", type=int, default=10)
    parser.add_argument("--images", type=Path, default=Path("/dev/shm/mireseason"))
    words = parser.parse_args()
    # Hosts are taken away also where it is interrupted.
    signal.signal(signal.SIGTERM, lambda *_: sys.exit(143))
    with tempfile.TemporaryDirectory(prefix="mrt") as name:
        folder = Path(name)
        folder.chmod(0o755)
        images = words.images / folder.name
        machine = Machine(folder, images, words.out, site_here(()), folder.name)
        try:
            machine.bring_up_databases()
            failed = tried(Bench(machine, words.out.resolve()), words.seconds)
        finally:
            machine.down()
    print("%d passed, %d failed" % (len(TESTS) - failed, failed))
    sys.exit(1 if failed else 0)


if __name__ == "__main__":
    main()
