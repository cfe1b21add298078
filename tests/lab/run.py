"""Commands, and waits on a condition."""

import subprocess
import time
from collections.abc import Callable, Iterable
from pathlib import Path
from typing import TypeVar

from parts.command import run
from parts.fault import Fault

__all__ = ["Fault", "found_in", "run", "tried", "until", "whole_paths"]

STEP = 0.05
Found = TypeVar("Found")


def tried(*words: str) -> bool:
    """Whether a command ends well."""
    return subprocess.run(words, capture_output=True, check=False).returncode == 0


def until(what: str, limit: float, holds: Callable[[], bool]) -> None:
    """Waits until the condition holds; Fault with what was waited for."""
    found_in(what, limit, lambda: True if holds() else None)


def found_in(what: str, limit: float, look: Callable[[], Found | None]) -> Found:
    """What a look finds, once there is something; Fault with what was waited for."""
    end = time.monotonic() + limit
    while (found := look()) is None:
        if time.monotonic() > end:
            raise Fault("%s: not within %g s" % (what, limit))
        time.sleep(STEP)
    return found


def whole_paths(words: Iterable[str]) -> tuple[str, ...]:
    """The words of a program that is started in another folder: those that are files whole."""
    return tuple(str(Path(word).resolve()) if Path(word).exists() else word for word in words)
