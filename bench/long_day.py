#!/usr/bin/env python3
"""How long a gateway takes to start on a long day, and how much memory it has meanwhile.

usage: long_day.py GATEWAY [--blocks N] [--block N] [--starts N] [--folder FOLDER] -- VENUE WORDS ..

64 dealers and 64 investors play a day in blocks of 50,000 entries in SQLite, six unless --blocks says otherwise: in each block
every investor asks four dealers ten times, each dealer has 170 quotes accepted, which is all that a venue may have in a day, and
each request is hit. The other messages are refused: cancels of no quote, and quotes on no request. After each block, once all is
answered: the memory of the gateway and of the venue, and the log. Then the gateway is stopped and started, and once killed
and started: the seconds from its process to the answer of the first Logon, and the most memory until then. Beside it the same
day alone by `replay --live`, and by `live` as the gateway runs it. Takes two minutes on an idle machine.
"""

# @figure a gateway's start on a day of 300,000 entries, from its process to the first Logon answered, beside `replay --live` of it; the gateway's memory with 128 sessions as the day grows | twice; flat | load 5: 2.47 s (2.31 to 2.73; three starts, one of them behind a SIGKILL), 1.52 times the replay's 1.63; of a processor 3.9 s the gateway's, 1.7 the venue's; 52 MB at most. With 128 sessions 77, 81, 81, 85, 88 and 88 MB after each 50,000 entries (the venue 35 to 182, the log 37 to 221), played beside other work

import argparse
import os
import re
import sqlite3
import statistics
import tempfile
import time
from collections.abc import Sequence
from pathlib import Path
from typing import Any

from bench.crowd import (
    DEALERS,
    INVESTORS,
    REQUESTS,
    QUOTES,
    SIDE,
    Crowd,
    Line,
    alone,
    first_logon,
    log_bytes,
    logged_on,
    processor,
    resident,
    venue_text,
)
from tests.gateway.door import Door, Programs, programs_of
from tests.gateway.ledger import rows
from tests.gateway.market import moment_in
from tests.gateway.wire import now

BLOCKS, BLOCK = 6, 50_000  # entries
ASKED, OF = 10, 4  # requests of an investor in a block, each of so many dealers
QUOTED = 170  # quotes of a dealer in a block
SHOWN = ASKED * OF  # requests that a dealer is shown in a block
PLACES = b"55=[N/A]\x0148=BONDA0000001\x0122=4\x01"
ASKED_FOR = b"\x0135=R\x01"
QUOTE = re.compile(rb"\x0135=S\x01.*?\x01131=([^\x01]*)\x01117=([^\x01]*)")


def found(door: Door, query: str) -> Sequence[Sequence[Any]]:
    """Rows of its log, wherever that is."""
    if door.postgres is None:
        return rows(door.database, query)
    return door.postgres.rows(query)


class Day:
    """The firms of a gateway that is open, and what they do."""

    def __init__(self, door: Door, block: int) -> None:
        self.door, self.block, self.blocks = door, block, 0
        self._entries, self._place, self._looks_from = 0, -1, 0.0
        self.dealers = [Line(logged_on(door, who), 30) for who in DEALERS]
        self.investors = [Line(logged_on(door, who), 30) for who in INVESTORS]
        self.crowd = Crowd([*self.dealers, *self.investors])
        for dealer in self.dealers:
            dealer.wants = lambda message: ASKED_FOR in message
        for investor in self.investors:
            investor.wants = lambda message: QUOTE.search(message) is not None

    def play(self) -> None:
        """A block."""
        asked, before = SIDE * ASKED, self.entries()
        left = self.block - 2 * asked
        said = [left // SIDE + (at < left % SIDE) for at in range(SIDE)]
        self._ask()
        self._quote(said)
        self.crowd.run(lambda: self.entries() == before + asked + left)
        hits = self._hit()
        self.crowd.run(lambda: self.entries() == before + asked + left + hits)
        self.blocks += 1

    def entries(self) -> int:
        """Those that firms have made, as they were a tenth of a second ago."""
        if time.monotonic() >= self._looks_from:
            query = "SELECT coalesce(max(place), %d), count(number) FROM entry WHERE place > %d"
            ((place, count),) = found(self.door, query % (self._place, self._place))
            self._place, self._entries = int(place), self._entries + int(count)
            self._looks_from = time.monotonic() + 0.1
        return self._entries

    def _ask(self) -> None:
        moment, deadline = now(), moment_in(7200)
        for at, investor in enumerate(self.investors):
            for number in range(ASKED):
                asked = [(at + number + SIDE // OF * each) % SIDE for each in range(OF)]
                fields = b"50=V1\x01131=A%d.%d\x01146=1\x01" % (self.blocks, number) + PLACES
                fields += b"54=1\x0138=1000\x01126=%s\x01453=%d\x01" % (deadline, OF)
                for each in asked:
                    fields += b"448=%s\x01447=D\x01452=35\x01" % DEALERS[each].name.encode()
                investor.say(b"R", fields, moment)
        self.crowd.run(lambda: all(len(each.kept) == SHOWN for each in self.dealers))
        self._forget()

    def _quote(self, said: list[int]) -> None:
        """What a dealer has to say in a block; every fourth message is a quote that is accepted."""
        for dealer, count in zip(self.dealers, said):
            quotes = min(QUOTED, count // 4)
            for at in range(count):
                self._say(dealer, at, at % 4 == 0 and at // 4 < quotes)
        shown = sum(min(QUOTED, count // 4) for count in said)
        self.crowd.run(lambda: sum(len(each.kept) for each in self.investors) == shown)

    def _say(self, dealer: Line, at: int, is_right: bool) -> None:
        """A quote on a request that is open, or else a cancel of no quote, or a quote on no request."""
        name = b"%d.%d" % (self.blocks, at)
        if at % 2:
            dealer.say(b"Z", b"50=T1\x01298=5\x01117=x%s\x01" % name, now())
            return
        request = b"R%d" % (self.blocks * SHOWN + at // 4 % SHOWN + 1) if is_right else b"R9999"
        fields = b"50=T1\x01117=a%s\x01131=%s\x0148=BONDA0000001\x0122=4\x01133=99.5\x01"
        dealer.say(b"S", fields % (name, request), now())

    def _hit(self) -> int:
        """Hits the quote that an investor was shown last on each request that has one; how many."""
        hits = 0
        for investor in self.investors:
            found = [quote for quote in map(QUOTE.search, investor.kept) if quote]
            last = {quote[1]: quote[2] for quote in found}
            for number, quote in enumerate(last.values()):
                name = b"h%d.%d" % (self.blocks, number)
                investor.say(
                    b"AJ", b"50=V1\x01693=%s\x01694=1\x01117=%s\x01" % (name, quote), now()
                )
            hits += len(last)
        self._forget()
        return hits

    def _forget(self) -> None:
        for line in self.crowd.lines:
            line.kept.clear()


def written(database: Path, day: Path) -> None:
    """The day as the venue reads it."""
    with sqlite3.connect("file:%s?mode=ro" % database, uri=True) as log, day.open("wb") as out:
        lines = log.execute("SELECT line FROM entry ORDER BY place")
        (first,) = next(lines)
        out.write(bytes(first).split(b"%%\n", 1)[1].rstrip(b"\n") + b"\n%%\n")
        out.writelines(bytes(line) + b"\n" for (line,) in lines)


def play(door: Door, words: argparse.Namespace) -> int:
    """The day, block by block; the number of the first dealer's next message."""
    (door.folder / "venue.toml").write_text(venue_text())
    door.write()
    door.start()
    door.wait_open()
    day = Day(door, words.block)
    for _ in range(words.blocks):
        day.play()
        (venue,) = door.venues()
        sizes = resident(door.running.pid), resident(venue), log_bytes(door.database)
        print(
            "%d entries: gateway %.1f MB, venue %.1f MB, log %.1f MB"
            % (day.entries(), *(each / 1e6 for each in sizes)),
            flush=True,
        )
    day.crowd.log_off()
    return day.dealers[0].number


def starts(door: Door, number: int, count: int) -> None:
    took = []
    for at in range(count):
        if at == 0:
            door.kill()
        else:
            door.stop(120)
        seconds, number = first_logon(door, DEALERS[0], number)
        took.append(seconds)
        (venue,) = door.venues()
        print(
            "a start %s: %.2f s to the first Logon; gateway %.2f s of processors, %.1f MB at most; venue %.2f s, %.1f MB"
            % (
                "after SIGKILL" if at == 0 else "after SIGTERM",
                seconds,
                processor(door.running.pid),
                resident(door.running.pid, "VmHWM") / 1e6,
                processor(venue),
                resident(venue, "VmHWM") / 1e6,
            ),
            flush=True,
        )
    print("the median of %d starts: %.2f s" % (count, statistics.median(took)))
    door.stop(120)


def beside(programs: Programs, database: Path, count: int) -> None:
    """The same day by the venue's program alone."""
    day = database.with_name("day.txt")
    written(database, day)
    for words in (["replay", "--live"], ["live", "--frames", "--marks", "--notes"]):
        runs = [alone([*programs.venue, *words], day) for _ in range(count)]
        print(
            "`%s`: the median of %d runs %.2f s, of a processor %.2f s; %.1f MB"
            % (
                " ".join(words),
                count,
                statistics.median(run.seconds for run in runs),
                statistics.median(run.processor for run in runs),
                runs[-1].memory / 1e6,
            ),
            flush=True,
        )


def main() -> None:
    parser = argparse.ArgumentParser(usage=__doc__)
    parser.add_argument("gateway", type=Path)
    parser.add_argument("--blocks", type=int, default=BLOCKS)
    parser.add_argument("--block", type=int, default=BLOCK)
    parser.add_argument("--starts", type=int, default=5)
    parser.add_argument("--folder", type=Path)
    parser.add_argument("venue", nargs="+")
    words = parser.parse_args()
    assert words.blocks * ASKED <= REQUESTS and words.blocks * QUOTED <= QUOTES, "too many blocks"
    programs = programs_of(words.gateway, words.venue)
    with tempfile.TemporaryDirectory(prefix="mrl", dir=words.folder) as name:
        door = Door(programs, Path(name), DEALERS, INVESTORS)
        try:
            number = play(door, words)
            starts(door, number, words.starts)
        finally:
            door.close()
        beside(programs, door.database, words.starts)
    print("load %.1f, %d processors" % (os.getloadavg()[0], len(os.sched_getaffinity(0))))


if __name__ == "__main__":
    main()
