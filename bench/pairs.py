#!/usr/bin/env python3
"""What a day of 16 pairs of an investor and a dealer takes on threads, beside a replay of what came.

usage: pairs.py PROGRAM [--pairs N] [--runs N]

An investor asks its dealer 250 times, and the dealer quotes 40 times on each of these requests, round by round; each firm is
a thread of `day`, and does the duties of its messages itself. A quote that overtakes its request is refused, and so is one
past the dealer's 4,000th: most pairs reach that. `replay` is given the messages in an order in which they came: at each
dealer's desk that of the fastest run of `day`, by what the dealer was sent in it, and of the pairs each in turn. Both then
send the dealers the same, which is looked at.

By the clock, the best of several runs: the whole; the same lines with one of no form behind them, which are read and nothing
else is done; and `replay` of a dealer to which nothing comes, which prints nothing. What is left of each where reading and
printing are taken off is the day itself; `day` prints for the same messages what `replay` prints. In further runs of `day`
the number of its threads is looked at all the time: while there is more than one the sessions run, and the rest is what is
done before and behind them. Takes a minute at most.
"""

# @figure the wall clock of `day`, 16 pairs of an investor and a dealer on threads, beside `replay` of the same 164,000 messages, reading and printing taken off | 0.5 times, on four processors | 0.35 times (0.21 s and 0.58); the sessions alone 0.17

import argparse
import os
import subprocess
import tempfile
import time
from collections.abc import Iterator
from dataclasses import dataclass
from pathlib import Path

REQUESTS, ROUNDS, ACCEPTED = 250, 40, 4_000
IDLE = "DLR0"
NO_FORM = "no form\n"
LIMIT = 20.0  # seconds, for one run of the program


@dataclass(frozen=True)
class Ran:
    seconds: float
    processors: float
    text: bytes


def configuration(pairs: int) -> str:
    text = 'version = 1\ndate = "20250314"\n[[bond]]\nid = "BONDA0000001"\n'
    for number in range(pairs + 1):
        quotes = ACCEPTED if number else 1
        text += (
            '[[dealer]]\nname = "DLR%d"\ntraders = ["T1"]\nquotes = %d\nexposure = 1000000000000000\n'
            % (number, quotes)
        )
    for number in range(1, pairs + 1):
        text += (
            '[[investor]]\nname = "INV%d"\ntraders = ["T1"]\nrequests = %d\nopen = 1024\nquantity = 5000000\n'
            % (number, REQUESTS)
        )
    return text + "%%\n"


def request(pair: int, number: int) -> str:
    return (
        "say INV%d T1 09:00:00 R 131=q%d|146=1|48=BONDA0000001|22=4|54=1|38=1000|126=20250314-17:00:00|453=1"
        "|448=DLR%d|447=D|452=35\n" % (pair, number, pair)
    )


def quotes(pair: int) -> Iterator[str]:
    for turn in range(1, ROUNDS + 1):
        for number in range(1, REQUESTS + 1):
            yield "say DLR%d T1 09:00:10 S 117=a%d.%d|131=R%d|48=BONDA0000001|22=4|133=99.5\n" % (
                pair,
                turn,
                number,
                number,
            )


def on_threads(pairs: int) -> str:
    text = "".join(
        request(pair, number) for number in range(1, REQUESTS + 1) for pair in range(1, pairs + 1)
    )
    return text + "".join("".join(quotes(pair)) for pair in range(1, pairs + 1))


def lines_to_dealers(text: bytes) -> list[bytes]:
    return [line for line in text.splitlines() if line.startswith(b"DLR")]


def steps_at(pair: int, sent: list[bytes]) -> Iterator[str]:
    """The steps of a pair in the order in which its dealer was sent these lines for them."""
    own, number = quotes(pair), 0
    for line in sent:
        if b" R " in line:
            number += 1
            yield request(pair, number) + "turn INV%d 3\n" % pair
        else:
            yield next(own) + ("turn DLR%d 2\n" % pair if b"|297=0" in line else "")


def as_it_came(pairs: int, text: bytes) -> str:
    """The steps of a day that sent this text: of the pairs each in turn."""
    sent: dict[bytes, list[bytes]] = {b"DLR%d" % pair: [] for pair in range(1, pairs + 1)}
    for line in lines_to_dealers(text):
        sent[line.split(b" ", 1)[0]].append(line)
    each = [list(steps_at(pair, sent[b"DLR%d" % pair])) for pair in range(1, pairs + 1)]
    return "".join("".join(steps) for steps in zip(*each, strict=True))


def run(program: Path, words: list[str], day: Path) -> Ran:
    with day.open("rb") as lines, tempfile.TemporaryFile() as out:
        began = time.monotonic()
        running = subprocess.Popen(
            [program, *words], stdin=lines, stdout=out, stderr=subprocess.DEVNULL
        )
        _, status, usage = os.wait4(running.pid, 0)
        took = time.monotonic() - began
        running.returncode = os.waitstatus_to_exitcode(status)
        if took > LIMIT:
            raise RuntimeError("%s takes %.0f seconds" % (words, took))
        out.seek(0)
        return Ran(took, usage.ru_utime + usage.ru_stime, out.read())


def best(program: Path, words: list[str], text: str, runs: int, folder: Path) -> Ran:
    day = folder / "day"
    day.write_text(text)
    return min((run(program, words, day) for _ in range(runs)), key=lambda one: one.seconds)


def sessions_take(program: Path, day: Path) -> float:
    """How long a run of `day` has more than one thread."""
    with day.open("rb") as lines:
        running = subprocess.Popen([program, "day"], stdin=lines, stdout=subprocess.DEVNULL)
        tasks, first, last = Path("/proc/%d/task" % running.pid), 0.0, 0.0
        while running.poll() is None:
            now = time.monotonic()
            if len(os.listdir(tasks)) > 1:
                first, last = first or now, now
            time.sleep(0.0005)
    return last - first


def measure(program: Path, pairs: int, runs: int, folder: Path) -> None:
    head, came = configuration(pairs), on_threads(pairs)
    day = best(program, ["day"], head + came, runs, folder)
    sessions = min(sessions_take(program, folder / "day") for _ in range(runs))
    read = best(program, ["day"], head + came + NO_FORM, runs, folder)
    steps = head + as_it_came(pairs, day.text)
    replay = best(program, ["replay"], steps, runs, folder)
    if lines_to_dealers(replay.text) != lines_to_dealers(day.text):
        raise RuntimeError("`replay` sends the dealers something else than `day`")
    silent = best(program, ["replay", IDLE], steps, runs, folder)
    replay_read = best(program, ["replay"], steps + NO_FORM, runs, folder)
    printing = replay.seconds - silent.seconds
    own, replayed = day.seconds - read.seconds - printing, silent.seconds - replay_read.seconds
    accepted = sum(b"|297=0" in line for line in lines_to_dealers(day.text))
    print(
        "%d pairs, %d messages, %d quotes of %d accepted: `replay` %.3f s (reading %.3f, the day %.3f, printing %.3f),"
        " of processors %.3f"
        % (
            pairs,
            came.count("\n"),
            accepted,
            pairs * ACCEPTED,
            replay.seconds,
            replay_read.seconds,
            replayed,
            printing,
            replay.processors,
        )
    )
    print(
        "`day` %.3f s (reading %.3f, the sessions %.3f, before and behind them %.3f, printing %.3f), of processors %.3f"
        % (day.seconds, read.seconds, sessions, own - sessions, printing, day.processors)
    )
    print(
        "`day` is %.2f of `replay`, reading and printing taken off, the sessions alone %.2f; %d processors, load %.1f"
        % (own / replayed, sessions / replayed, len(os.sched_getaffinity(0)), os.getloadavg()[0])
    )


def main() -> None:
    parser = argparse.ArgumentParser()
    parser.add_argument("program", type=Path)
    parser.add_argument("--pairs", type=int, default=16)
    parser.add_argument("--runs", type=int, default=5)
    words = parser.parse_args()
    with tempfile.TemporaryDirectory() as name:
        measure(words.program.resolve(), words.pairs, words.runs, Path(name))


if __name__ == "__main__":
    main()
