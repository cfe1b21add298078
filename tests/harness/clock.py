"""Clocks of programs under test: they go like the machine's, and a test moves them from outside."""

import struct
from pathlib import Path


class Clock:
    """Whoever is started with `environment` has the machine's clocks, but for what `set` and `has_passed` say."""

    def __init__(self, shim: Path, folder: Path) -> None:
        self.passed = 0  # seconds
        self._step, self._passed = folder / "step", folder / "passed"
        for file in (self._step, self._passed):
            file.write_bytes(struct.pack("=q", 0))
        self.environment = {
            "LD_PRELOAD": str(shim),
            "CLOCK_STEP": str(self._step),
            "CLOCK_PASSED": str(self._passed),
        }

    def set(self, seconds: int) -> None:
        """The date and the time of day differ by so many seconds from the machine's: the clock was set."""
        put(self._step, seconds)

    def has_passed(self, seconds: int) -> None:
        """So many seconds have passed beside those of the machine since the clock was made, and no fewer than before. All move
        together: the date and the time of day, the time since boot, and the waits of whoever waits until a moment of them.
        """
        self.passed = max(self.passed, seconds)
        put(self._passed, self.passed)


def put(file: Path, seconds: int) -> None:
    with file.open("r+b") as opened:
        opened.write(struct.pack("=q", seconds))
