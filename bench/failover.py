#!/usr/bin/env python3
"""How long firms have no venue when a gateway is gone that has a long day in PostgreSQL, and another takes over.

usage: failover.py GATEWAY [--blocks N] [--block N] [--times N] [--folder FOLDER] -- VENUE WORDS ..

64 dealers and 64 investors play the day of long_day.py at the first of two gateways, six blocks of 50,000 entries unless
--blocks and --block say otherwise, with a synchronous standby on this machine, while the other gateway follows. Then the one
that speaks is killed, three times unless --times says otherwise, and started again to follow: the seconds until the other has
raised the term, and from then to the answer of the first Logon. The term is looked at every two milliseconds.
"""

# @figure a failover on a day of 300,000 entries in PostgreSQL with its standby: from the SIGKILL to the raised term, and from there to the first Logon answered | 2 s from the raised term | load 5: 0.06 s to the raised term (0.04 to 0.06), 0.07 s from there (0.06 to 0.11)

import argparse
import contextlib
import os
import shutil
import statistics
import tempfile
import threading
import time
from collections.abc import Iterator
from pathlib import Path

import psycopg2

from bench.crowd import DEALERS, INVESTORS, let_in, venue_text
from bench.long_day import BLOCK, BLOCKS, Day
from bench.replicated import replicated
from tests.gateway.door import Door, Programs, programs_of
from tests.gateway.ledger import PostgresLog
from tests.gateway.wait import LONG, until

LOOK = 0.002  # seconds


class Terms:
    """When each term was raised, by this process's clock."""

    def __init__(self, log: PostgresLog) -> None:
        self.raised: dict[int, float] = {}
        self._log, self._ends = log, threading.Event()
        self._thread = threading.Thread(target=self._look)

    def __enter__(self) -> "Terms":
        self._thread.start()
        return self

    def __exit__(self, *_: object) -> None:
        self._ends.set()
        self._thread.join()

    @property
    def last(self) -> int:
        return max(self.raised)

    def _look(self) -> None:
        with contextlib.closing(psycopg2.connect(self._log.connection)) as opened:
            opened.autocommit = True
            with opened.cursor() as cursor:
                while not self._ends.wait(LOOK):
                    cursor.execute("SELECT term FROM %s.speaker" % self._log.schema)
                    found = cursor.fetchone()
                    if found is not None:
                        self.raised.setdefault(found[0], time.perf_counter())


def stands_by(door: Door) -> int:
    """How often it has said that it follows another."""
    return door.told.read_text(errors="replace").count("stands by") if door.told.exists() else 0


def follow(door: Door) -> None:
    before = stands_by(door)
    door.start()
    until("it stands by", LONG, lambda: stands_by(door) > before or door.has_ended())
    assert not door.has_ended(), door.last_words()


def play(first: Door, second: Door, words: argparse.Namespace) -> int:
    """The day; the number of the first dealer's next message."""
    first.start()
    first.wait_open()
    day = Day(first, words.block)
    follow(second)
    began = time.perf_counter()
    for _ in range(words.blocks):
        day.play()
    print("%d entries in %.0f s" % (day.entries(), time.perf_counter() - began), flush=True)
    day.crowd.log_off()
    return day.dealers[0].number


def fail_over(gone: Door, other: Door, terms: Terms, number: int) -> tuple[float, float, int]:
    """The seconds to the raised term, those from there to the answered Logon, and the number of the firm's next message."""
    before, began = terms.last, time.perf_counter()
    gone.running.kill()
    wire = let_in(other, DEALERS[0], number)
    answered = time.perf_counter()
    assert wire.read_kind(b"1") is not None
    until("the term is seen", LONG, lambda: terms.last > before)
    raised = terms.raised[terms.last]
    return raised - began, answered - raised, wire.number


def measure(doors: list[Door], terms: Terms, number: int, times: int) -> None:
    took = []
    for _ in range(times):
        to_term, to_logon, number = fail_over(doors[0], doors[1], terms, number)
        print("%.2f s to the raised term, %.2f s from there" % (to_term, to_logon), flush=True)
        took.append((to_term, to_logon))
        doors[0].running.wait()
        doors.reverse()
        began = time.perf_counter()
        follow(doors[1])
        print("the other follows again after %.1f s" % (time.perf_counter() - began), flush=True)
    medians = [statistics.median(each) for each in zip(*took)]
    print("the median of %d: %.2f s, %.2f s from there" % (times, *medians))


@contextlib.contextmanager
def both(programs: Programs, folder: Path, log: PostgresLog) -> Iterator[list[Door]]:
    doors: list[Door] = []
    for name in ("first", "second"):
        (folder / name).mkdir()
        door = Door(programs, folder / name, DEALERS, INVESTORS, postgres=log)
        (door.folder / "venue.toml").write_text(venue_text())
        if doors:
            shutil.copytree(doors[0].keys, door.keys)
        door.write()
        doors.append(door)
    try:
        yield doors
    finally:
        for door in doors:
            door.close()


def main() -> None:
    parser = argparse.ArgumentParser(usage=__doc__)
    parser.add_argument("gateway", type=Path)
    parser.add_argument("--blocks", type=int, default=BLOCKS)
    parser.add_argument("--block", type=int, default=BLOCK)
    parser.add_argument("--times", type=int, default=3)
    parser.add_argument("--folder", type=Path)
    parser.add_argument("venue", nargs="+")
    words = parser.parse_args()
    programs = programs_of(words.gateway, words.venue)
    with contextlib.ExitStack() as stack:
        folder = Path(
            stack.enter_context(tempfile.TemporaryDirectory(prefix="mrf", dir=words.folder))
        )
        server = stack.enter_context(replicated(folder))
        log = PostgresLog(server.fresh(), "day")
        doors = stack.enter_context(both(programs, folder, log))
        number = play(doors[0], doors[1], words)
        with Terms(log) as terms:
            until("the term is seen", LONG, lambda: len(terms.raised) > 0)
            measure(doors, terms, number, words.times)
    print("load %.1f, %d processors" % (os.getloadavg()[0], len(os.sched_getaffinity(0))))


if __name__ == "__main__":
    main()
