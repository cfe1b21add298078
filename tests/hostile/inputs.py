"""Inputs that nobody would send: each command has to answer with a status and a line of its table.

It takes lawful inputs of every command, flips bytes, and cuts, doubles, swaps and mixes lines; and it fills 16 MiB with
each kind of line. Each run has 400 MB of memory and ten seconds of a processor. It has to end with status 0 and nothing
on standard error (`live` tells of lines at fault there and goes on), or with status 1 and one line of the table of
faults (docs/PROGRAM.md) that an input can cause: none of `day` and of `weave`, which are faults of the venue. Inputs of a
usual size are never refused for memory.
"""

from __future__ import annotations

import os
import random
import re
import resource
import signal
import subprocess
from dataclasses import dataclass
from random import Random

from tests.isolation.dealer_days import Day, Story

ROOT = os.path.dirname(os.path.dirname(os.path.dirname(os.path.abspath(__file__))))
MEMORY = 400_000_000
SECONDS = 10  # of a processor
PATIENCE = 600  # seconds of the clock, on a machine that has much else to do
MOST_INPUT = 16_777_216
LINE = rb"line [1-9][0-9]*: (form|unknown firm|unknown room|stream)"
FAULT = re.compile(
    rb"(config: (Toml|Missing|Name|Twice|Limit)|firm: .*|parts|input|memory|" + LINE + rb")\n"
)
LIVE = re.compile(rb"(" + LINE + rb"\n)*")


def limited() -> None:
    resource.setrlimit(resource.RLIMIT_AS, (MEMORY, MEMORY))
    resource.setrlimit(resource.RLIMIT_CPU, (SECONDS, SECONDS + 1))


def answered(program: list[str], words: list[str], text: bytes) -> tuple[str | None, str | None]:
    """Runs the program; answers what became of it in a word, or ends with what went wrong."""
    try:
        run = subprocess.run(
            [*program, *words],
            input=text,
            capture_output=True,
            timeout=PATIENCE,
            preexec_fn=limited,
        )
    except subprocess.TimeoutExpired:
        return None, "no end after %d seconds" % PATIENCE
    if run.returncode == -signal.SIGXCPU:
        return None, "no end after %d seconds of a processor" % SECONDS
    told = run.stderr
    if run.returncode == 0 and (told == b"" or words[0] == "live" and LIVE.fullmatch(told)):
        return "done", None
    if run.returncode == 1 and FAULT.fullmatch(told):
        if told == b"memory\n" and len(text) < 1_000_000:
            return None, "memory"
        return (
            told.split(b":")[-1].decode().strip()
            if told.startswith(b"line")
            else told.split(b":")[0].decode().strip(),
            None,
        )
    return None, "status %d, %r" % (run.returncode, told[-200:])


def days(draw: Random) -> tuple[str, str]:
    """A day of a whole venue: its configuration, and its steps."""
    told = Day(Story(random.Random(draw.randrange(2**40))), draw)
    return told.configuration(), told.text()


def without_turns(steps: str) -> str:
    return "\n".join(line for line in steps.split("\n") if not line.startswith("turn"))


def lawful(program: list[str], draw: Random) -> tuple[list[str], bytes]:
    """A lawful input and the words of a command that reads it."""
    what = draw.choice(["alone", "replay", "due", "dues", "compare", "blotter", "day", "live"])
    frames: list[str] = draw.choice([[], ["--frames"]])
    configuration, steps = days(draw)
    text = configuration + "\n%%\n" + steps + "\n"
    if what == "alone":
        due = subprocess.run([*program, "due", "DLR1"], input=text.encode(), capture_output=True)
        return ["alone"] + frames, due.stdout
    if what == "compare":
        return ["compare", "DLR1"], (text + "%%\n" + "\n%%\n".join(days(draw)) + "\n").encode()
    if what in ("day", "live"):
        flags = frames + (["--woven"] if what == "day" else [])
        return [what] + flags, (configuration + "\n%%\n" + without_turns(steps) + "\n").encode()
    if what == "replay":
        firm: list[str] = draw.choice([[], ["DLR1"], ["INV1"]])
        return ["replay"] + firm + frames, text.encode()
    if what == "dues":
        return [what], text.encode()
    return [what, draw.choice(["DLR1", "DLR2", "INV1"])], text.encode()


def spoil(draw: Random, text: bytes) -> bytes:
    """One of the things that can happen to a text on its way."""
    what = draw.randrange(6)
    if what == 0:
        spoilt = bytearray(text)
        for _ in range(draw.randrange(1, 6)):
            spoilt[draw.randrange(len(spoilt))] ^= 1 << draw.randrange(8)
        return bytes(spoilt)
    if what == 1:
        return text[: draw.randrange(len(text))]
    lines = text.split(b"\n")
    here, there = draw.randrange(len(lines)), draw.randrange(len(lines))
    if what == 2:
        del lines[here]
    elif what == 3:
        lines.insert(there, lines[here])
    elif what == 4:
        lines[here], lines[there] = lines[there], lines[here]
    else:
        cut = draw.randrange(len(lines[here]) + 1)
        lines[here] = lines[here][:cut] + lines[there][draw.randrange(len(lines[there]) + 1) :]
    return b"\n".join(lines)


def spoilt(work: tuple[list[str], int]) -> tuple[int, list[str], str | None, str | None]:
    program, seed = work
    draw = random.Random(seed)
    words, text = lawful(program, draw)
    for _ in range(draw.randrange(1, 4)):
        text = spoil(draw, text) or b"\n"
    answer, wrong = answered(program, words, text)
    return seed, words, answer, wrong


def filled(head: str, line: str) -> bytes:
    """A text of at most 16 MiB: the head, and then this line with its number, as often as it fits."""
    parts, size, number = [head], len(head), 1
    while True:
        next_line = (line % number if "%d" in line else line) + "\n"
        if size + len(next_line) > MOST_INPUT:
            return "".join(parts).encode()
        parts.append(next_line)
        size += len(next_line)
        number += 1


VENUE = open(os.path.join(ROOT, "examples", "auction.venue")).read().split("%%")[0] + "%%\n"
DUE = "date 20250314\ndealer DLR1 4096 1000000000000000 T1\n"
ASK = "R 131=q%d|146=1|48=BONDA0000001|22=4|54=1|38=2000000|126=20250314-09:05:00|453=1|448=DLR1|447=D|452=35"
QUOTE = "117=a%d|131=R1|48=BONDA0000001|22=4|133=99.5"
STEPS = {
    "say of an investor": "say INV1 T8 09:00:00 " + ASK,
    "say of a dealer": "say DLR1 T1 09:00:00 S " + QUOTE,
    "in": "in DLR1 09:00:00 8=FIXT.1.1|9=5|35=S|10=%d|",
    "in, long": "in DLR1 09:00:00 " + "8=FIXT.1.1|9=4000|35=S|" + "58=x|" * 800,
    "piece": "piece DLR1 09:00:00 8=FIXT.1.1|9=5|35=S|10=000|",
    "piece, no end": "piece DLR1 09:00:00 8=FIXT.1.1|9=4000|",
    "turn": "turn INV1 1",
    "turn, a thousand": "turn INV1 1000",
    "expire": "expire INV1 1 09:06:00",
    "remark": "# remark",
    "empty line": "",
    "unknown word": "x %d",
}
DUES = {
    "say": "say T1 09:00:00 S " + QUOTE,
    "own": "own 09:00:00 8=FIXT.1.1|9=5|35=S|10=%d|",
    "shown": "shown INV1 BONDA0000001 1 2000000 09:05:00 09:00:00",
    "lifted": "lifted %d",
    "closed": "closed 1 1 09:00:50",
    "drop": "drop 4 09:00:50",
    "remark": "# remark",
}


@dataclass(frozen=True)
class Large:
    """An input as long as one may be: a head, and one line again and again; without a line a byte too much."""

    name: str
    words: list[str]
    head: str
    line: str | None

    def text(self) -> bytes:
        return b"x" * (MOST_INPUT + 1) if self.line is None else filled(self.head, self.line)


def large_cases() -> list[Large]:
    cases = [Large("replay, " + kind, ["replay"], VENUE, line) for kind, line in STEPS.items()]
    cases += [Large("alone, " + kind, ["alone"], DUE, line) for kind, line in DUES.items()]
    without = [kind for kind in STEPS if not kind.startswith("turn")]
    cases += [Large("live, " + kind, ["live"], VENUE, STEPS[kind]) for kind in without]
    cases += [Large("day, " + kind, ["day"], VENUE, STEPS[kind]) for kind in without]
    return cases + [
        Large("bonds", ["replay"], "", '[[bond]]\nid = "BONDA0000001"'),
        Large("traders", ["replay"], "version = 1\n", "x%d = [1, 2, 3]"),
        Large("one line", ["replay"], "", "x" * (MOST_INPUT - 1)),
        Large(
            "one step line",
            ["replay"],
            VENUE,
            "say DLR1 T1 09:00:00 S 58=" + "x" * (MOST_INPUT - len(VENUE) - 40),
        ),
        Large("a byte too much", ["replay"], "", None),
    ]
