"""Compares pairs of days that agree on what is due to one dealer, and on nothing else.

It draws two days of one story (dealer_days.py). If by the second implementation one list was due to
DLR1 in both, `PROGRAM replay DLR1` has to print the same bytes for both: those of the view of that
list. `PROGRAM compare DLR1` has to say where the lists and the messages differ.
"""

import itertools
import random
import subprocess
from collections.abc import Sequence
from typing import Any, NamedTuple

from tests.isolation.dealer_days import Day, Story
from tests.model.configuration import Dealer, read_configuration
from tests.model.lines import StepReader, message_line
from tests.model.replay import Item, Venue, alone


class Whole(NamedTuple):
    """A day's text, and by the second implementation DLR1's date and row, and its list."""

    head: str
    lines: str
    row: tuple[bytes, Dealer]
    due: list[Item]

    def text(self) -> bytes:
        return (self.head + "\n%%\n" + self.lines + "\n").encode()


class Compared(NamedTuple):
    """A pair: whether its lists are one, the messages of DLR1, the input, and what is wrong."""

    seed: int
    equal: bool
    messages: int
    size: int
    fault: str


def whole(day: Day) -> Whole:
    head, lines = day.configuration(), day.text()
    configuration = read_configuration(head.encode())
    venue, reader = Venue(configuration), StepReader(configuration)
    for line in lines.split("\n"):
        for kind, *step in reader.steps(line.encode()):
            take(venue, kind, *step)
    one = configuration.firm(b"DLR1")
    assert one is not None
    row = configuration.date, configuration.dealer(one)
    return Whole(head, lines, row, venue.due[one])


def take(venue: Venue, kind: str, *step: Any) -> None:
    """A step of the day; turns go on until the actor has no duty."""
    if kind != "turn":
        getattr(venue, kind)(*step)
        return
    actor, times = step
    while times > 0 and venue.turn(actor):
        times -= 1


def printed(program: list[str], day: Whole) -> bytes:
    """What the program prints of DLR1; RuntimeError where it tells a fault."""
    words = [*program, "replay", "DLR1", "--frames"]
    run = subprocess.run(words, input=day.text(), capture_output=True, timeout=120)
    if run.returncode != 0:
        raise RuntimeError("status %d: %s" % (run.returncode, run.stderr.decode()))
    return run.stdout


def told(program: list[str], one: Whole, other: Whole) -> bytes:
    """What the program says of the two days, for DLR1."""
    both = one.text() + b"%%\n" + other.text()
    words = [*program, "compare", "DLR1"]
    return subprocess.run(words, input=both, capture_output=True, timeout=120).stdout


def difference(same: bytes, differ: bytes, one: Sequence[object], other: Sequence[object]) -> bytes:
    """The line on two lists: they are one, or differ first at a position, from 1."""
    for place, (mine, theirs) in enumerate(itertools.zip_longest(one, other), 1):
        if mine != theirs:
            return b"%s at %d\n" % (differ, place)
    return same + b"\n"


def viewed(day: Whole) -> bytes:
    """The view of DLR1's list, as the program prints it."""
    sent = alone(*day.row, day.due).sent
    return b"".join(message_line(b"DLR1", fields, True) + b"\n" for fields in sent)


def fault_of(program: list[str], days: Sequence[Whole], outs: Sequence[bytes]) -> str:
    """What is wrong with a pair and what was printed of each; empty where nothing is."""
    one, other = days
    if one.head == other.head or one.lines == other.lines:
        return "the days are one"
    if one.row != other.row:
        return "the rows differ"
    if one.due == other.due and outs[0] != outs[1]:
        return "one list, and other messages"
    if list(outs) != [viewed(day) for day in days]:
        return "other messages than the view of the list"
    due = difference(b"due equal", b"due differs", one.due, other.due)
    lines = [out.splitlines() for out in outs]
    sent = difference(b"messages equal", b"messages differ", *lines)
    return "" if told(program, one, other) == b"row equal\n" + due + sent else "another comparison"


def compared(work: tuple[list[str], int]) -> Compared:
    program, seed = work
    drawn = (Day(Story(random.Random(seed)), random.Random("%d/%d" % (seed, n))) for n in (1, 2))
    days = [whole(day) for day in drawn]
    outs = [printed(program, day) for day in days]
    one, other = days
    size = len(one.text()) + len(other.text())
    fault = fault_of(program, days, outs)
    return Compared(seed, one.due == other.due, outs[0].count(b"\n"), size, fault)
