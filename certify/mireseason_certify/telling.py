"""Tells the developer what to do, and takes the developer's answers: on the terminal and on a page.

A program that drives a desk by itself reads the same as JSON (`/now.json`).
"""

from __future__ import annotations

import sys
import threading
import time
from collections.abc import Callable, Mapping
from dataclasses import asdict, dataclass, field

MOST_ANSWER = 64  # characters of an answer
REFUSED = "refused"  # the answer of a developer whose desk does not send such a thing


@dataclass(frozen=True)
class Task:
    """One thing that the desk has to do."""

    number: int  # of the task, from 1: it rises
    case: str
    text: str
    act: Mapping[str, str]  # the same for a program: `do` and what it needs
    asks: bool  # whether an answer is to be entered
    may_refuse: bool  # whether the desk may refuse it by itself, which is entered then


@dataclass
class Line:
    """One case as the page shows it."""

    name: str
    title: str
    outcome: str = "waits"
    why: str = ""


@dataclass
class Telling:
    """Shared by the cases, the page and the terminal."""

    lines: list[Line] = field(default_factory=list)
    heading: str = ""
    settings: Mapping[str, str] = field(default_factory=dict)  # none before the venue has started
    market: str = ""  # what the venue's operator hands out to the firm
    quiet: bool = False  # says nothing on the terminal
    _task: Task | None = None
    _number: int = 0
    _answer: str | None = None
    _changed: threading.Condition = field(default_factory=threading.Condition)

    def begin(self, lines: list[Line], settings: Mapping[str, str], market: str) -> None:
        """The venue has started: all that a desk needs is there at once."""
        with self._changed:
            self.lines, self.settings, self.market = lines, settings, market

    def say(
        self,
        case: str,
        text: str,
        act: Mapping[str, str],
        asks: bool = False,
        may_refuse: bool = False,
    ) -> None:
        """The next thing to do."""
        with self._changed:
            self._number += 1
            self._task = Task(self._number, case, text, act, asks, may_refuse)
            self._answer = None
        self.print("  -> " + text)

    def print(self, text: str) -> None:
        """A line on the terminal."""
        if not self.quiet:
            print(text, flush=True)

    def done(self) -> None:
        """Nothing is to be done."""
        with self._changed:
            self._task = None

    def now(self) -> dict[str, object]:
        """What `/now.json` has."""
        with self._changed:
            task = asdict(self._task) if self._task else None
            return {
                "heading": self.heading,
                "settings": dict(self.settings),
                "task": task,
                "cases": [asdict(line) for line in self.lines],
            }

    def enter(self, number: int, text: str) -> bool:
        """The developer's answer to a task; whether that task waits for one."""
        with self._changed:
            answer = text[:MOST_ANSWER].strip()
            if self._task is None or self._task.number != number:
                return False
            if not self._task.asks and not (self._task.may_refuse and answer == REFUSED):
                return False
            self._answer = answer
            self._changed.notify_all()
            return True

    def has_refused(self) -> bool:
        """Whether the desk refuses the task by itself."""
        with self._changed:
            return self._answer == REFUSED

    def answer(self, seconds: float, is_over: Callable[[], bool] = lambda: False) -> str | None:
        """What is entered; None where nothing is in time."""
        until = time.monotonic() + seconds
        with self._changed:
            while self._answer is None and time.monotonic() < until and not is_over():
                self._changed.wait(0.2)
            return self._answer


def read_terminal(telling: Telling) -> None:
    """Takes lines of the terminal as answers, until its end."""
    for line in sys.stdin:
        task = telling.now()["task"]
        if isinstance(task, dict):
            telling.enter(int(task["number"]), line)
