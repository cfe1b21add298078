#!/usr/bin/env python3
"""Waits for the next day if too little of this one is left: a gateway's day ends at midnight in UTC.

usage: midnight.py    waits, if less of the day is left than a test may take
"""

import sys
import time
from collections.abc import Callable

from tests.gateway.wait import LONG, until

DAY = 86_400.0  # seconds
TEST = 1200.0  # seconds of one day that a test, or a day of few messages, has at most with all that it waits for


def left_of_day(now: float) -> float:
    """The seconds until midnight in UTC at a moment of POSIX time, whose days have no leap seconds."""
    return DAY - now % DAY


def wait_for_room(
    what: str, needs: float = TEST, now: Callable[[], float] = time.time, slack: float = LONG
) -> None:
    """Waits for the next day in UTC where less than `needs` is left of this one, and says so; TooLong where it does not come
    within `slack` of its time."""
    if not 0 < needs <= DAY:
        raise ValueError("%s can't have %g s of one day" % (what, needs))
    left = left_of_day(now())
    if left >= needs:
        return
    print(
        "%s waits %.0f s for midnight in UTC: it may take %.0f s of one day" % (what, left, needs),
        file=sys.stderr,
        flush=True,
    )
    until("the next day in UTC", left + slack, lambda: left_of_day(now()) >= needs)


if __name__ == "__main__":
    wait_for_room("a test")
