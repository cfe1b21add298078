"""Waits until a day is still, ends the gateway, and says what is wrong with what its firms have."""

import sys
import time
from collections.abc import Iterator
from pathlib import Path

from tests.gateway.door import Door
from tests.gateway.firm import Firm
from tests.gateway.held import altered, clock_faults, count_of, differences, unkept, unlogged
from tests.gateway.ledger import Ledger, answers, answers_to, marks, told_over
from tests.gateway.wait import LONG, until, within

MODEL = [sys.executable, str(Path(__file__).resolve().parent.parent / "model" / "program.py")]
LOOKS = 30  # how often a day is looked at until no deadline comes after its last message: more than there are of a minute


def wait_all_on(door: Door, firms: list[Firm], limit: float = 2 * LONG) -> None:
    def all_on() -> bool:
        if door.has_ended():
            raise RuntimeError("the gateway ended: %s" % door.last_words())
        return all([firm.logged_on() for firm in firms])

    until("all firms are logged on", limit, all_on)


def wait_still(door: Door, seconds: float) -> None:
    """Waits until the log has had no new entry for so long, if that comes about soon."""
    seen = [0, time.monotonic()]

    def still() -> bool:
        count = len(door.ledger().entries)
        if count != seen[0]:
            seen[:] = [count, time.monotonic()]
        return time.monotonic() - seen[1] > seconds

    within(seconds + LONG, still)


def settled(door: Door, firms: list[Firm], still: float = 0.3) -> list[str]:
    """The faults of a day, whose gateway has ended after this, and whose firms' messages were all waited for."""
    for _ in range(LOOKS):
        wait_all_on(door, firms)
        within(LONG, lambda: not any(True for firm in firms for _ in unlogged(firm, door.ledger())))
        wait_still(door, still)
        before = door.ledger()
        wanted = answers(list(door.programs.venue), before.day())
        within(LONG, lambda: all([has_all(firm, wanted) for firm in firms]))
        status, ledger = door.stop(), door.ledger()
        if len(ledger.entries) == len(before.entries):
            return list(faults(door, firms, status, ledger))
        door.start()  # a deadline came in the meantime
    return ["the log is never still"]


def has_all(firm: Firm, wanted: dict[str, list[bytes]]) -> bool:
    firm.look()
    return count_of(firm) >= len(wanted.get(firm.name, []))


def faults(door: Door, firms: list[Firm], status: int, ledger: Ledger) -> Iterator[str]:
    program, day = list(door.programs.venue), ledger.day()
    wanted = answers(program, day)
    if status != 0:
        yield "the gateway ended with status %d" % status
    if wanted != answers(MODEL, day):
        yield "the second implementation of the venue gives something else for the log"
    told = told_over(MODEL, ledger)
    for firm in firms:
        firm.look()
        yield from differences(
            firm, answers_to(program, day, firm.name), ledger, told.get(firm.name, {})
        )
        yield from unlogged(firm, ledger)
        yield from altered(firm, ledger)
    yield from unkept(ledger, wanted)
    yield from clock_faults(ledger, marks(program, day))
