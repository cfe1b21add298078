#!/usr/bin/env python3
"""How much memory a long day takes, in bytes a frame that comes or is sent.

usage: memory.py PROGRAM

Four investors ask two dealers each 1,024 times, as often as a venue's investors may in all; each dealer quotes twice on each
request, and the last quote is hit: 24,576 messages that come, 65,536 that are sent. What a run of this day takes at most, less
what one of its first half takes, of `replay`, of `replay --live` on the same messages, and of `live`, which keeps no text.
Takes a few seconds.
"""

# @figure bytes a frame that comes or is sent, on a day of as many requests as a venue may have: of `replay`; of `replay --live` and `live` on the same messages | 350 of `replay`; 250 of `live` | 362; 413; 347 ([where they go](#bytes-a-frame)). On a day of 100 MB with many lines at fault 233 of `replay --live` and 179 of `live`

import os
import subprocess
import sys
import tempfile
from collections.abc import Iterator
from dataclasses import dataclass
from pathlib import Path

INVESTORS, REQUESTS, DEALERS = 4, 1024, 2
PRICES = ("99.5", "99.4375")


@dataclass(frozen=True)
class Taken:
    """What a run takes at most, in bytes, and how many lines it prints."""

    memory: int
    lines: int


def configuration() -> str:
    text = 'version = 1\ndate = "20250314"\n[[bond]]\nid = "BONDA0000001"\n'
    for dealer in range(1, INVESTORS * DEALERS + 1):
        text += (
            '[[dealer]]\nname = "DLR%d"\ntraders = ["T1"]\nquotes = %d\nexposure = 1000000000000\n'
            % (dealer, REQUESTS * len(PRICES))
        )
    for investor in range(1, INVESTORS + 1):
        text += (
            '[[investor]]\nname = "INV%d"\ntraders = ["T8"]\nrequests = %d\nopen = 1024\nquantity = 5000000\n'
            % (investor, REQUESTS)
        )
    return text + "%%\n"


def auction(investor: int, number: int) -> Iterator[tuple[str, str]]:
    """The messages of an auction, each with the turns behind it."""
    dealers = [DEALERS * (investor - 1) + dealer for dealer in range(1, DEALERS + 1)]
    parties = "".join("|448=DLR%d|447=D|452=35" % dealer for dealer in dealers)
    turns = "turn INV%d 4\n" % investor
    yield (
        "say INV%d T8 09:00:10 R 131=q%d|146=1|48=BONDA0000001|22=4|54=1|38=2000000|126=20250314-17:00:00|453=%d%s\n"
        % (investor, number, DEALERS, parties),
        turns,
    )
    for dealer in dealers:
        for place, price in enumerate(PRICES):
            yield (
                "say DLR%d T1 09:00:10 S 117=a%d|131=R%d|48=BONDA0000001|22=4|133=%s\n"
                % (dealer, len(PRICES) * (number - 1) + place, number, price),
                "turn DLR%d 2\n" % dealer,
            )
    yield "say INV%d T8 09:00:10 AJ 693=h%d|694=1|117=Q%d\n" % (
        investor,
        number,
        DEALERS * len(PRICES) * number,
    ), turns


def write_day(requests: int, with_turns: bool, day: Path) -> int:
    """Writes a day of so many requests of each investor, and says how many messages come."""
    count = 0
    with day.open("w") as lines:
        lines.write(configuration())
        for number in range(1, requests + 1):
            for investor in range(1, INVESTORS + 1):
                for said, turns in auction(investor, number):
                    lines.write(said + turns if with_turns else said)
                    count += 1
    return count


def taken(words: list[str | Path], day: Path) -> Taken:
    """What a run takes. What a child took as this script, before it was the program, counts too, so this stays small."""
    with day.open("rb") as lines, tempfile.TemporaryFile() as out:
        running = subprocess.Popen(words, stdin=lines, stdout=out)
        _, status, usage = os.wait4(running.pid, 0)
        running.returncode = os.waitstatus_to_exitcode(status)
        if running.returncode != 0:
            raise RuntimeError("%s ends with status %d" % (words, running.returncode))
        out.seek(0)
        return Taken(usage.ru_maxrss * 1024, sum(1 for _ in out))


def main() -> None:
    program = Path(sys.argv[1]).resolve()
    with tempfile.TemporaryDirectory() as name:
        day = Path(name) / "day"
        for words in (["replay"], ["replay", "--live"], ["live"]):
            turns = words == ["replay"]
            half = write_day(REQUESTS // 2, turns, day)
            of_half = taken([program, *words], day)
            come = write_day(REQUESTS, turns, day)
            of_all = taken([program, *words], day)
            more = of_all.memory - of_half.memory
            print(
                "`%s`: %d messages that come, %d that are sent, %.1f MB in all: %.0f bytes each"
                % (
                    " ".join(words),
                    come,
                    of_all.lines,
                    of_all.memory / 1e6,
                    more / (come - half + of_all.lines - of_half.lines),
                )
            )


if __name__ == "__main__":
    main()
