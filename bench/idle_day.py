#!/usr/bin/env python3
"""How a log grows while all firms of a venue are logged on and say nothing, and what a start on such a day takes.

usage: idle_day.py GATEWAY [--seconds N] [--notes N] [--starts N] [--folder FOLDER] -- VENUE WORDS ..

64 dealers and 64 investors are logged on, with HeartBtInt 30 for N seconds (300 unless told otherwise), and with HeartBtInt 1
for a fifth of that: the notes, seals and bytes by which the log (SQLite) grows, as counted and for 24 hours. Then the firms ask
TestRequests, nine a second each, until the log has as many notes as it gets in 24 hours at HeartBtInt 30: each answer has the
same kind of note as a Heartbeat. (How many share a seal is printed: on a busy machine more than of Heartbeats, of which most
have one of their own.) The gateway is stopped and started: the seconds from its process to the answer of the first Logon, its
processors' seconds, and the most memory until then. Takes some twelve minutes.
"""

# @figure how the log grows with 128 idle sessions, HeartBtInt 30 s and one second; a start on such a day | none | at 30 s 209 bytes a note, 77 MB in 24 hours; at one second 148 bytes, 1.5 GB (load 30, three notes a seal; with one each 2.2 GB). A start on 368,777 notes in 53,962 seals 6 to 22 s, 47 MB

import argparse
import os
import statistics
import tempfile
import time
from collections.abc import Iterator
from contextlib import contextmanager
from dataclasses import dataclass
from pathlib import Path

from bench.crowd import (
    DEALERS,
    INVESTORS,
    Crowd,
    Line,
    first_logon,
    log_bytes,
    logged_on,
    processor,
    resident,
    venue_text,
)
from tests.gateway.door import Door, programs_of
from tests.gateway.ledger import rows
from tests.gateway.wire import now

DAY = 86_400  # seconds
USUAL, SHORTEST = 30, 1  # HeartBtInt
ASKED = 9  # TestRequests of a firm in a second: it may ask ten


@dataclass(frozen=True)
class Grown:
    """What a log has."""

    notes: int
    seals: int
    checkpoints: int
    size: int  # bytes

    @staticmethod
    def of(database: Path) -> "Grown":
        notes = "SELECT sum(length(notes) - length(replace(CAST(notes AS TEXT), char(10), '')))"
        query = notes + ", count(*), (SELECT count(*) FROM checkpoint) FROM seal"
        ((count, seals, checkpoints),) = rows(database, query)
        return Grown(int(count), int(seals), int(checkpoints), log_bytes(database))

    def since(self, before: "Grown") -> "Grown":
        return Grown(
            self.notes - before.notes,
            self.seals - before.seals,
            self.checkpoints - before.checkpoints,
            self.size - before.size,
        )


class Firms:
    """All firms, which go on with their numbers on their next connections."""

    def __init__(self, door: Door) -> None:
        self.door, self.numbers = door, {who.name: 1 for who in DEALERS + INVESTORS}

    @contextmanager
    def on(self, heartbeat: int) -> Iterator[Crowd]:
        """Logged on, one after the other over the time of a Heartbeat, so that theirs are not all at once."""
        crowd, began = Crowd([]), time.monotonic()
        for at, who in enumerate(DEALERS + INVESTORS):
            due = began + heartbeat * at / len(self.numbers)
            crowd.turn(0)  # also where this one is late
            crowd.run(lambda: time.monotonic() >= due)
            wire = logged_on(self.door, who, self.numbers[who.name], heartbeat)
            crowd.add(Line(wire, heartbeat))
        yield crowd
        crowd.log_off()
        for line in crowd.lines:
            self.numbers[line.name.decode()] = line.number


def counted(what: str, grown: Grown, seconds: float) -> str:
    text = "%s, %.0f s: %d notes in %d seals, %d checkpoints, %.0f bytes a note"
    size = grown.size / max(grown.notes, 1)
    return text % (what, seconds, grown.notes, grown.seals, grown.checkpoints, size)


def in_a_day(grown: Grown, seconds: float) -> str:
    times = DAY / seconds
    notes, seals, size = grown.notes * times, grown.seals * times, grown.size * times / 1e6
    return "in 24 hours %.0f notes, %.0f seals, %.1f MB" % (notes, seals, size)


def idle(firms: Firms, heartbeat: int, seconds: float) -> None:
    """Nothing but Heartbeats."""
    with firms.on(heartbeat) as crowd:
        before, began = Grown.of(firms.door.database), time.monotonic()
        crowd.run(lambda: time.monotonic() - began >= seconds, 2 * seconds)
        grown, took = Grown.of(firms.door.database).since(before), time.monotonic() - began
        text = counted("HeartBtInt %d" % heartbeat, grown, took)
        print("%s; %s" % (text, in_a_day(grown, took)), flush=True)


def asked(firms: Firms, notes: int) -> None:
    """TestRequests, in turns, until the log has so many notes."""
    with firms.on(USUAL) as crowd:
        before, began, said = Grown.of(firms.door.database), time.monotonic(), 0
        count = notes - before.notes
        while said < count:
            due = (time.monotonic() - began) * ASKED * len(crowd.lines)
            while said < min(due, count):
                crowd.lines[said % len(crowd.lines)].say(b"1", b"112=x\x01", now())
                said += 1
            crowd.turn(0.001)
        crowd.run(lambda: Grown.of(firms.door.database).notes >= notes)
        grown = Grown.of(firms.door.database).since(before)
        print(counted("TestRequests", grown, time.monotonic() - began), flush=True)


def starts(firms: Firms, count: int) -> None:
    door, took, number = firms.door, [], firms.numbers[DEALERS[0].name]
    for _ in range(count):
        door.stop(120)
        seconds, number = first_logon(door, DEALERS[0], number)
        took.append(seconds)
        of_gateway = processor(door.running.pid), resident(door.running.pid, "VmHWM") / 1e6
        text = "a start: %.2f s to the first Logon; gateway %.2f s of processors, %.1f MB at most"
        print(text % (seconds, *of_gateway), flush=True)
    log = Grown.of(door.database)
    print(
        "the median of %d starts: %.2f s; the log has %d notes in %d seals, %.1f MB"
        % (count, statistics.median(took), log.notes, log.seals, log.size / 1e6)
    )


def main() -> None:
    parser = argparse.ArgumentParser(usage=__doc__)
    parser.add_argument("gateway", type=Path)
    parser.add_argument("--seconds", type=float, default=300)
    parser.add_argument("--notes", type=int, default=DAY // USUAL * len(DEALERS + INVESTORS))
    parser.add_argument("--starts", type=int, default=5)
    parser.add_argument("--folder", type=Path)
    parser.add_argument("venue", nargs="+")
    words = parser.parse_args()
    programs = programs_of(words.gateway, words.venue)
    with tempfile.TemporaryDirectory(prefix="mri", dir=words.folder) as name:
        door = Door(programs, Path(name), DEALERS, INVESTORS)
        (door.folder / "venue.toml").write_text(venue_text())
        door.write()
        door.start()
        try:
            door.wait_open()
            firms = Firms(door)
            idle(firms, USUAL, words.seconds)
            idle(firms, SHORTEST, words.seconds / 5)
            asked(firms, words.notes)
            starts(firms, words.starts)
        finally:
            door.close()
    print("load %.1f, %d processors" % (os.getloadavg()[0], len(os.sched_getaffinity(0))))


if __name__ == "__main__":
    main()
