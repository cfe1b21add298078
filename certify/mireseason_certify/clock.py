"""A clock that can be moved to the next day, for the venue, this program, and a desk that is started with the same words.

The library of tests/gateway/clock.cpp, loaded before all others, adds to a process's clocks the seconds that a file has.
"""

from __future__ import annotations

import os
import struct
import sys
import tempfile
import time
from collections.abc import Iterator
from contextlib import contextmanager
from pathlib import Path

DAY = 86_400
LIBRARY, PASSED = "LD_PRELOAD", "CLOCK_PASSED"


class MovedClock:
    """The clock that this process has been started with."""

    def __init__(self) -> None:
        self._file = Path(os.environ[PASSED])
        self._passed = 0

    def words(self) -> dict[str, str]:
        """What has to stand in a desk's environment."""
        return {name: os.environ[name] for name in (LIBRARY, PASSED)}

    def to_next_day(self) -> None:
        """Lets so much time pass that the next day in UTC has begun."""
        self._passed += int(DAY - time.time() % DAY) + 1
        with self._file.open("r+b") as file:
            file.write(struct.pack("=q", self._passed))


@contextmanager
def moved_by(library: Path | None) -> Iterator[MovedClock | None]:
    """The clock of this library, with which the program starts itself anew where it has to."""
    if library is None:
        yield None
        return
    if PASSED not in os.environ:
        _start_anew(library)
    try:
        yield MovedClock()
    finally:
        Path(os.environ[PASSED]).unlink(missing_ok=True)


def _start_anew(library: Path) -> None:
    """In the place of this process, which had no such clock. Raises OSError where there is no such library."""
    library.open("rb").close()
    descriptor, name = tempfile.mkstemp(prefix="mireseason-certify-clock-")
    os.write(descriptor, struct.pack("=q", 0))
    os.close(descriptor)
    os.environ |= {LIBRARY: str(library.resolve()), PASSED: name}
    os.execv(sys.executable, sys.orig_argv)
