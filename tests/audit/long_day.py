#!/usr/bin/python3
"""Writes the log of a long day: so many messages of four dealers and four investors.

usage: long_day.py LOG FRAMES -- VENUE WORDS ..

It draws messages without waiting for an answer, and counts names as the venue counts them. Most messages
change nothing (cancels of quotes that are gone, prices off the grid, hits of old quotes), as on a long
day of a market that programs quote. The venue's program says in one run of `live` what is sent for them.
"""

import random
import subprocess
import sys
import tempfile
from collections.abc import Iterator
from dataclasses import dataclass, field
from pathlib import Path

from tests.audit.ledger import Fields, Ledger, frame, time_text

DATE, BOND = "20261125", "US91282CAA18"
DEALERS = ["DLR%d" % n for n in range(1, 5)]
INVESTORS = ["INV%d" % n for n in range(1, 5)]
OPENING, CLOSING = 8 * 3_600_000, 17 * 3_600_000
FRAMES_A_REQUEST = 73
MOST_REQUESTS = 1024  # of an investor
DEADLINE = 120_000


def requests_of(frames: int) -> int:
    """How many requests an investor has on a day of so many messages."""
    return min(MOST_REQUESTS, max(2, frames // FRAMES_A_REQUEST // len(INVESTORS)))


def configuration(requests: int) -> bytes:
    text = 'version = 2\ndate = "%s"\n[[bond]]\nid = "%s"\ngrid = 64\n' % (DATE, BOND)
    for name in DEALERS:
        text += '[[dealer]]\nname = "%s"\ntraders = ["T1"]\nquotes = 4096\n' % name
        text += "exposure = 1000000000000\n"
    for name in INVESTORS:
        text += '[[investor]]\nname = "%s"\ntraders = ["T1"]\nrequests = %d\n' % (name, requests)
        text += "open = 64\nquantity = 5000000\n"
    return text.encode()


@dataclass
class Writer:
    """Draws the messages of the day."""

    draw: random.Random
    frames: int
    numbers: dict[str, int] = field(default_factory=dict)
    asked: int = 0
    quoted: int = 0
    now: int = OPENING
    deadlines: list[int] = field(default_factory=list)

    def frame(self, firm: str, kind: str, body: Fields) -> bytes:
        self.numbers[firm] = self.numbers.get(firm, 0) + 1
        head = [("35", kind), ("34", str(self.numbers[firm])), ("49", firm), ("50", "T1")]
        return frame(head + [("52", "%s-%s" % (DATE, time_text(self.now))), ("56", "VENUE")] + body)

    def ask(self) -> tuple[str, bytes]:
        firm = INVESTORS[self.asked % len(INVESTORS)]
        self.asked += 1
        until = "%s-%s" % (DATE, time_text(self.now + DEADLINE))
        self.deadlines.append(self.now + DEADLINE)
        body = [("131", "A%d" % self.asked), ("146", "1"), ("48", BOND), ("22", "4"), ("54", "1")]
        body += [("38", "1000000"), ("126", until), ("453", str(len(DEALERS)))]
        for dealer in DEALERS:
            body += [("448", dealer), ("447", "D"), ("452", "35")]
        return firm, self.frame(firm, "R", body)

    def message(self) -> tuple[str, bytes]:
        draw, what = self.draw, self.draw.random()
        if what < 0.06:
            firm = draw.choice(INVESTORS)
            quote = "Q%d" % max(1, self.quoted // len(INVESTORS) - draw.randrange(6))
            return firm, self.frame(firm, "AJ", [("693", "h"), ("694", "1"), ("117", quote)])
        firm = draw.choice(DEALERS)
        request = "R%d" % max(1, self.asked - draw.randrange(3))
        if what < 0.11:
            self.quoted += 1
            price = "%.8f" % (99 + draw.randrange(64) / 64)
        elif what < 0.6:
            price = "99.501"
        else:
            body = [("298", "5"), ("117", "q%d" % max(1, self.quoted - draw.randrange(30)))]
            return firm, self.frame(firm, "Z", body)
        body = [("117", "q%d" % self.quoted), ("131", request), ("48", BOND), ("22", "4")]
        return firm, self.frame(firm, "S", body + [("133", price.rstrip("0"))])

    def lines(self) -> Iterator[tuple[str | None, int, bytes]]:
        """The entries of the day: whose, when, and the line."""
        requests = requests_of(self.frames) * len(INVESTORS)
        every = self.frames // requests
        for number in range(self.frames):
            self.now = OPENING + (CLOSING - OPENING) * number // self.frames
            while self.deadlines and self.deadlines[0] <= self.now:
                due = self.deadlines.pop(0)
                yield None, due, b"clock " + time_text(due).encode()
            first = number % every == 0 and self.asked < requests
            firm, data = self.ask() if first else self.message()
            time = time_text(self.now)
            yield firm, self.now, ("hex %s %s %s" % (firm, time, data.hex().upper())).encode()


def write(path: Path, frames: int, venue: list[str]) -> None:
    head = configuration(requests_of(frames))
    ledger = Ledger(path, DATE, head)
    for firm in DEALERS + INVESTORS:
        ledger.log_on(firm, OPENING)
    moments: list[int] = [OPENING]
    answered: list[int | None] = [None]
    with tempfile.NamedTemporaryFile() as day:
        day.write(head + b"%%\n")
        for speaker, moment, line in Writer(random.Random(1), frames).lines():
            day.write(line + b"\n")
            moments.append(moment)
            if speaker is not None:
                ledger.sessions[speaker].came += 1
            number = None if speaker is None else ledger.sessions[speaker].came
            answered.append(number)
            received = "" if speaker is None else ledger.received_by(speaker, moment)
            ledger.entry(time_text(moment), speaker, number, line, received)
        day.flush()
        with open(day.name, "rb") as file:
            words = [*venue, "live", "--frames", "--marks"]
            run = subprocess.Popen(words, stdin=file, stdout=subprocess.PIPE)
        assert run.stdout is not None
        place = 1
        for line in run.stdout:
            if line.startswith((b"done ", b"fault ")):
                place += 1
                continue
            word, _, text = line.rstrip(b"\n").partition(b" ")
            data = text.replace(b"|", b"\x01")
            ledger.given(word.decode(), data, place, moments[place], answered[place])
        if run.wait() != 0:
            raise RuntimeError("the venue ends with status %d" % run.returncode)
    for firm in DEALERS + INVESTORS:
        ledger.log_off(firm, CLOSING)
    ledger.close()


def main() -> None:
    path, frames, _, *venue = sys.argv[1:]
    Path(path).unlink(missing_ok=True)
    write(Path(path), int(frames), venue)


if __name__ == "__main__":
    main()
