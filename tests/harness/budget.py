"""Promises in seconds, and how a test measures the machine's clock against them."""

import math
import time
from collections.abc import Callable
from dataclasses import dataclass

from tests.gateway.wait import within

TRIES = 3  # a machine with other work is late now and then; a wrong body is late each time


@dataclass(frozen=True)
class Budget:
    """What is promised, how soon it comes, and how much later a busy machine may see it."""

    promise: str
    most: float  # seconds: that it takes no more is promised
    least: float = 0.0  # seconds: it may not come before
    slack: float = 10.0  # seconds beyond `most` for a machine of two slow processors

    @property
    def limit(self) -> float:
        """Seconds after which nobody need wait any more."""
        return self.most + self.slack

    def hold(self, measure: Callable[[], float]) -> None:
        """Measures until it comes in time, at most TRIES times; it is never too early."""
        took: list[float] = []
        for _ in range(TRIES):
            took.append(measure())
            assert took[-1] >= self.least, "%s: after %.2f s already, and not before %g s" % (
                self.promise,
                took[-1],
                self.least,
            )
            if took[-1] <= self.limit:
                return
        listed = ", ".join("%.1f" % each for each in took)
        raise AssertionError(
            "%s: after %s s, and %g s are promised" % (self.promise, listed, self.most)
        )


def seconds_until(holds: Callable[[], object], limit: float) -> float:
    """How long it takes until something holds; infinite where it does not within the limit."""
    began = time.monotonic()
    return time.monotonic() - began if within(limit, lambda: bool(holds())) else math.inf


def seconds_of(act: Callable[[], object]) -> float:
    """How long something takes."""
    began = time.monotonic()
    act()
    return time.monotonic() - began
