"""A long day: how long `check` and `page` take, and how much memory the audit's own processes."""

import os
import re
import shlex
import subprocess
import threading
import time
import unittest
from dataclasses import dataclass, field
from pathlib import Path

from tests.audit.common import AUDIT, IS_SHORT, folder, venue_words
from tests.audit.test_commands import day_text

FRAMES = 3000 if IS_SHORT else 300_000
TIMES, PAGE_SECONDS, MEGABYTES = 8, 120, 200
LOOK = 0.02  # seconds from one look at the processes to the next


@dataclass
class Watch:
    """The most memory that a process took, or one of those that it started, while it runs."""

    process: int
    most: int = 0  # kilobytes
    over: threading.Event = field(default_factory=threading.Event)

    def look(self) -> None:
        own = Path("/proc/%d" % self.process)
        while not self.over.wait(LOOK):
            try:
                started = (own / "task" / own.name / "children").read_text().split()
            except OSError:
                continue
            for path in [own, *(Path("/proc") / number for number in started)]:
                self.most = max(self.most, self.memory(path))

    def memory(self, path: Path) -> int:
        try:
            if AUDIT.name.encode() not in (path / "cmdline").read_bytes():
                return 0
            found = re.search(r"VmHWM:\s+([0-9]+) kB", (path / "status").read_text())
            return int(found[1]) if found else 0
        except OSError:
            return 0


def timed(words: list[str], input_: Path | None = None) -> tuple[float, int]:
    """Runs a command; the seconds that it took, and the most memory of the audit's processes."""
    began = time.monotonic()
    with open(input_ or os.devnull, "rb") as file:
        process = subprocess.Popen(words, stdin=file, stdout=subprocess.DEVNULL)
    watch = Watch(process.pid)
    thread = threading.Thread(target=watch.look)
    thread.start()
    try:
        status = process.wait()
        took = time.monotonic() - began
    finally:
        watch.over.set()
        thread.join()
    if status != 0:
        raise RuntimeError("%s ends with status %d" % (words[:2], status))
    return took, watch.most


def best(times: int, *commands: tuple[list[str], Path | None]) -> list[tuple[float, int]]:
    """Of each command, with its input, the shortest of some runs, and the most memory of any. They
    take turns, so that a machine that is busy for a while is so for all."""
    rounds = [[timed(*command) for command in commands] for _ in range(times)]
    return [(min(took for took, _ in runs), max(most for _, most in runs)) for runs in zip(*rounds)]


class LongDay(unittest.TestCase):
    def test_times_and_memory(self) -> None:
        with folder() as name:
            place = Path(name)
            log, day = place / "day.db", place / "day.live"
            words = ["/usr/bin/python3", "-m", "tests.audit.long_day", str(log), str(FRAMES), "--"]
            subprocess.run([*words, *venue_words()], check=True)
            day.write_bytes(day_text(log))
            venue = ["--venue", shlex.join(venue_words())]
            replayed = [*venue_words(), "replay", "--live", "--frames"]
            checked = [str(AUDIT), "check", str(log), *venue]
            (replay, _), (check, memory) = best(3, (replayed, day), (checked, None))
            page, more = timed([str(AUDIT), "page", str(log), str(place / "pages"), *venue])
            load = os.getloadavg()[0]
            text = "%d messages: replay --live %.2f s; check %.2f s, %d MB; page %.1f s, %d MB"
            sizes = (FRAMES, replay, check, memory // 1000, page, more // 1000)
            print((text + "; load %.1f") % (*sizes, load))
            self.assertLess(max(memory, more), MEGABYTES * 1000)
            if FRAMES >= 100_000:  # of a shorter day the processes that are started are the most
                busy = "at a load of %.1f" % load  # the times are those of a machine that is free
                self.assertLess(check, TIMES * replay, busy)
                self.assertLess(page, PAGE_SECONDS, busy)


if __name__ == "__main__":
    unittest.main()
