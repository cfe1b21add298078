"""Compares pairs of days that agree on what is due to one investor, and on nothing else.

It draws two days of one story (investor_days.py). If by the second implementation one list was due to
INV1 in both, `PROGRAM replay INV1` has to print the same bytes for both: those of the view of that
list. `PROGRAM compare --investor INV1` has to say where the lists and the messages differ.
"""

import random
import subprocess
from typing import NamedTuple

from tests.isolation.investor_days import Day, Story
from tests.isolation.pairs import difference
from tests.model.lines import message_line  # of tests/model, as investor_days has it
from tests.model.replay import investor_alone, seen_by


class Compared(NamedTuple):
    """A pair: whether its lists are one, the messages of INV1, the input, and what is wrong."""

    seed: int
    equal: bool
    messages: int
    size: int
    fault: str


def printed(program: list[str], day: Day) -> bytes:
    """What the program prints of INV1; RuntimeError where it tells a fault."""
    words = [*program, "replay", "INV1", "--frames"]
    run = subprocess.run(words, input=day.text().encode(), capture_output=True, timeout=120)
    if run.returncode != 0:
        raise RuntimeError("status %d: %s" % (run.returncode, run.stderr.decode()))
    return run.stdout


def told(program: list[str], one: Day, other: Day) -> bytes:
    """What the program says of the two days, for INV1."""
    words = [*program, "compare", "--investor", "INV1"]
    both = one.text() + "%%\n" + other.text()
    return subprocess.run(words, input=both.encode(), capture_output=True, timeout=120).stdout


def viewed(day: Day) -> bytes:
    """The view of INV1's list, as the program prints it."""
    desk = investor_alone(seen_by(day.configuration, day.one), day.venue.due[day.one])
    return b"".join(message_line(b"INV1", fields, True) + b"\n" for fields in desk.sent)


def compared(work: tuple[list[str], int]) -> Compared:
    program, seed = work
    days = [Day(Story(random.Random(seed)), random.Random("%d/%d" % (seed, n))) for n in (1, 2)]
    one, other = days
    lists = [day.venue.due[day.one] for day in days]
    seen = [seen_by(day.configuration, day.one) for day in days]
    outs = [printed(program, day) for day in days]
    fault = ""
    if one.head == other.head or one.lines == other.lines:
        fault = "the days are one"
    elif seen[0] != seen[1]:
        fault = "the markets differ"
    elif lists[0] == lists[1] and outs[0] != outs[1]:
        fault = "one list, and other messages"
    elif outs != [viewed(day) for day in days]:
        fault = "other messages than the view of the list"
    else:
        due = difference(b"due equal", b"due differs", *lists)
        lines = [out.splitlines() for out in outs]
        sent = difference(b"messages equal", b"messages differ", *lines)
        if told(program, one, other) != b"row equal\n" + due + sent:
            fault = "another comparison"
    size = sum(len(day.text()) for day in days)
    return Compared(seed, lists[0] == lists[1], outs[0].count(b"\n"), size, fault)
