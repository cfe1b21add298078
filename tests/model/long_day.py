#!/usr/bin/env python3
"""Compares `replay --live` with `live` on one long day, with pieces of streams, hexadecimal lines and faulty lines.

usage: long_day.py PROGRAM [MEGABYTES [SEED]]

Each firm's messages have to be the same, line for line; each line has one mark. It prints the most memory that either
run took. Frames are lawful and numbered, so that most messages come to the checks of the market.
"""

import hashlib
import os
import random
import subprocess
import sys
import tempfile
from collections.abc import Iterator
from dataclasses import dataclass, field
from pathlib import Path
from typing import IO

from .frames import SOH, moment_text, time_text, write_frame
from .venue_command import words_of

DATE = b"20250314"
DEALERS, INVESTORS = [b"DLR%d" % n for n in range(1, 9)], [b"INV%d" % n for n in range(1, 5)]
FAULTY = [
    b"turn DLR1 1",
    b"%%",
    b"say NOBODY T1 09:00:00 Z 298=4",
    b"hex DLR1 09:00:00 0",
    b"expire DLR1 1 09:00:00",
    b"",
    b"# a comment",
    b"\xff",
]


def configuration() -> bytes:
    text = 'version = 1\ndate = "20250314"\n[[bond]]\nid = "BONDA0000001"\n'
    for name in DEALERS:
        text += (
            '[[dealer]]\nname = "%s"\ntraders = ["T1"]\nquotes = 4096\nexposure = 1000000000000\n'
            % name.decode()
        )
    for name in INVESTORS:
        text += (
            '[[investor]]\nname = "%s"\ntraders = ["T1"]\nrequests = 1024\nopen = 1024\nquantity = 5000000\n'
            % name.decode()
        )
    return text.encode() + b"%%\n"


@dataclass
class Writer:
    """Draws the lines of the day, and counts the numbers of each firm."""

    draw: random.Random
    numbers: dict[bytes, int] = field(default_factory=dict)
    waiting: dict[bytes, bytes] = field(
        default_factory=dict
    )  # bytes of a firm's stream that are not said yet
    asked: int = 0
    quoted: int = 0
    moment: int = 28_800_000

    def frame(self, firm: bytes, kind: bytes, fields: list[tuple[int, bytes]]) -> bytes:
        self.numbers[firm] = self.numbers.get(firm, 0) + 1
        head = [
            (35, kind),
            (49, firm),
            (56, b"VENUE"),
            (34, b"%d" % self.numbers[firm]),
            (52, moment_text(DATE, self.moment)),
            (50, b"T1"),
        ]
        return write_frame(head + fields)

    def message(self) -> tuple[bytes, bytes]:
        draw, what = self.draw, self.draw.random()
        if what < 0.08:
            return self.ask(draw.choice(INVESTORS))
        if what < 0.16:
            firm = draw.choice(INVESTORS)
            return firm, self.frame(
                firm,
                b"AJ",
                [(693, b"h"), (694, b"1"), (117, b"Q%d" % draw.randint(1, self.quoted // 3 + 1))],
            )
        firm = draw.choice(DEALERS)
        if what < 0.75:
            self.quoted += 1
            fields = [
                (117, b"q%d" % self.quoted),
                (131, b"R%d" % draw.randint(1, self.asked // 3 + 1)),
                (48, b"BONDA0000001"),
                (22, b"4"),
                (133, b"99.5"),
            ]
            return firm, self.frame(firm, b"S", fields)
        if what < 0.97:
            return firm, self.frame(
                firm, b"Z", [(298, b"5"), (117, b"q%d" % draw.randint(1, self.quoted + 1))]
            )
        return firm, self.frame(firm, b"Z", [(298, b"4")])

    def ask(self, firm: bytes) -> tuple[bytes, bytes]:
        self.asked += 1
        dealers = self.draw.sample(DEALERS, 3)
        fields = [
            (131, b"A%d" % self.asked),
            (146, b"1"),
            (48, b"BONDA0000001"),
            (22, b"4"),
            (54, b"1"),
            (38, b"1000000"),
        ]
        fields += [
            (126, moment_text(DATE, self.moment + self.draw.choice([2_000, 60_000, 600_000]))),
            (453, b"3"),
        ]
        for dealer in dealers:
            fields += [(448, dealer), (447, b"D"), (452, b"35")]
        return firm, self.frame(firm, b"R", fields)

    def lines(self) -> Iterator[bytes]:
        """Some lines more."""
        draw = self.draw
        self.moment = min(86_000_000, self.moment + draw.choice([0, 0, 1, 200]))
        time, what = time_text(self.moment), draw.random()
        if what < 0.05:
            yield draw.choice(FAULTY)
        elif what < 0.07:
            yield b"clock " + time
        else:
            firm, data = self.message()
            yield from self.said(firm, time, data)

    def said(self, firm: bytes, time: bytes, data: bytes) -> Iterator[bytes]:
        """A firm's frame: once it has said pieces, in pieces, since each of its numbers waits for the one before."""
        if firm[-1:] in b"12":
            data = self.waiting.pop(firm, b"") + data
            size = len(data) if self.draw.random() < 0.5 else self.draw.randrange(1, len(data))
            self.waiting[firm] = data[size:]
            yield b"piece %s %s %s" % (firm, time, data[:size].replace(SOH, b"|"))
        elif firm[-1:] in b"3456":
            yield b"hex %s %s %s" % (firm, time, data.hex().encode())
        else:
            yield b"in %s %s %s" % (firm, time, data.replace(SOH, b"|"))


def write_day(file: IO[bytes], size: int, seed: int) -> int:
    """Writes a day of this many bytes; how many lines it has behind its configuration."""
    writer, written, count = Writer(random.Random(seed)), 0, 0
    file.write(configuration())
    while written < size:
        for line in writer.lines():
            written += file.write(line + b"\n")
            count += 1
    file.flush()
    return count


@dataclass
class Told:
    """What one run printed: of each firm how many messages and their hash, and how many marks."""

    hashes: dict[bytes, "hashlib._Hash"] = field(default_factory=dict)
    counts: dict[bytes, int] = field(default_factory=dict)
    marks: int = 0
    memory: int = 0  # kilobytes
    status: int = 0

    def take(self, line: bytes) -> None:
        word = line.split(b" ", 1)[0]
        if word in (b"done", b"fault"):
            self.marks += 1
            return
        self.hashes.setdefault(word, hashlib.sha256()).update(line)
        self.counts[word] = self.counts.get(word, 0) + 1

    def messages(self) -> dict[bytes, tuple[int, str]]:
        return {firm: (self.counts[firm], self.hashes[firm].hexdigest()) for firm in self.counts}


def run(words: list[str], day: Path) -> Told:
    told = Told()
    with day.open("rb") as file, subprocess.Popen(
        words, stdin=file, stdout=subprocess.PIPE, stderr=subprocess.DEVNULL
    ) as process:
        assert process.stdout is not None
        for line in process.stdout:
            told.take(line)
        _, status, usage = os.wait4(process.pid, 0)
        process.returncode = os.waitstatus_to_exitcode(status)
    told.status, told.memory = process.returncode, usage.ru_maxrss
    return told


def main() -> None:
    program = words_of(sys.argv[1])
    megabytes, seed = [int(word) for word in (sys.argv[2:] + ["100", "1"][len(sys.argv) - 2 :])]
    with tempfile.NamedTemporaryFile() as file:
        count = write_day(file, megabytes * 1_000_000, seed)
        live = run([*program, "live", "--frames", "--marks"], Path(file.name))
        replay = run([*program, "replay", "--live", "--frames"], Path(file.name))
    sent = sum(live.counts.values())
    print(
        "%d lines, %d messages to %d firms; live took %d MB, replay --live %d MB, %d bytes a message"
        % (
            count,
            sent,
            len(live.counts),
            live.memory // 1000,
            replay.memory // 1000,
            (replay.memory - live.memory) * 1000 // max(1, sent),
        )
    )
    passed = [
        live.status == replay.status == 0,
        live.marks == count,
        replay.marks == 0,
        live.messages() == replay.messages(),
    ]
    print("%d passed, %d failed" % (sum(passed), len(passed) - sum(passed)))
    sys.exit(0 if all(passed) else 1)


if __name__ == "__main__":
    main()
