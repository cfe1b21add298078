"""Waits for a condition, and never longer than a limit."""

import os
import time
from collections.abc import Callable

STEP = 0.01
# Seconds: the limit of what comes about soon, on a machine of two slow processors that has much else to do.
# PATIENCE has fewer where a wrong body is waited for, which never comes.
LONG = float(os.environ.get("PATIENCE", "180"))


def at_this_load(seconds: float) -> float:
    """How long a machine may take for what a free one does in so many seconds: as its processors have more to do."""
    return seconds * max(1.0, os.getloadavg()[0] / (os.cpu_count() or 1))


class TooLong(Exception):
    """A condition did not come about within its limit."""


def until(what: str, limit: float, holds: Callable[[], bool]) -> None:
    """Waits until the condition holds; TooLong with what was waited for."""
    end = time.monotonic() + limit
    while not holds():
        if time.monotonic() > end:
            raise TooLong("%s: not within %g s" % (what, limit))
        time.sleep(STEP)


def within(limit: float, holds: Callable[[], bool]) -> bool:
    """Whether the condition comes about within this time."""
    try:
        until("", limit, holds)
    except TooLong:
        return False
    return True
