#!/usr/bin/env python3
"""How many messages of firms a second `live --marks` answers over pipes, and `replay` beside it.

usage: pipes.py PROGRAM DAY

DAY is a day as venue.cpp prints it: each message with a turn behind it, which `live` is not given.
Both are run in turns, between two processes that write and read, and of each the best run counts:
by the clock, and by the processor's time of the program itself (its own and the system's for it),
which says more on a machine that others use.
"""

import os
import subprocess
import sys
import tempfile
import time
from collections.abc import Iterable
from dataclasses import dataclass
from pathlib import Path

RUNS = 15


@dataclass(frozen=True)
class Took:
    """Seconds."""

    clock: float
    processor: float


def run(words: list[str], day: Path) -> Took:
    """The program between two pipes."""
    with subprocess.Popen(["cat", str(day)], stdout=subprocess.PIPE) as writer:
        began = time.monotonic()
        program = subprocess.Popen(words, stdin=writer.stdout, stdout=subprocess.PIPE)
        with subprocess.Popen(["cat"], stdin=program.stdout, stdout=subprocess.DEVNULL):
            for pipe in (writer.stdout, program.stdout):
                if pipe is not None:
                    pipe.close()
            _, status, usage = os.wait4(program.pid, 0)
    program.returncode = os.waitstatus_to_exitcode(status)
    if program.returncode != 0:
        raise RuntimeError("%s ends with status %d" % (" ".join(words), program.returncode))
    return Took(time.monotonic() - began, usage.ru_utime + usage.ru_stime)


def best(runs: Iterable[Took]) -> Took:
    taken = list(runs)
    return Took(min(one.clock for one in taken), min(one.processor for one in taken))


def main() -> None:
    program, day = sys.argv[1], Path(sys.argv[2])
    lines = day.read_bytes().splitlines(keepends=True)
    with tempfile.NamedTemporaryFile() as file:
        file.writelines(line for line in lines if not line.startswith(b"turn "))
        file.flush()
        ways = {
            "replay": ([program, "replay"], day),
            "live --marks": ([program, "live", "--marks"], Path(file.name)),
        }
        taken: dict[str, list[Took]] = {name: [] for name in ways}
        for name in list(ways) * RUNS:
            taken[name].append(run(*ways[name]))
    count = sum(line.startswith(b"say ") for line in lines)
    for name, runs in taken.items():
        took = best(runs)
        text = "%d messages over pipes: %-12s %7.0f a second by the clock, %7.0f by its processor"
        print(text % (count, name, count / took.clock, count / took.processor))
    print("load %.1f" % os.getloadavg()[0])


if __name__ == "__main__":
    main()
