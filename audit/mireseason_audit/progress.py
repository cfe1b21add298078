"""Shows how far a command has come: a bar, if somebody looks at it."""

import sys
from collections.abc import Callable
from typing import TextIO

Step = Callable[[int], None]  # told how many rows were done
WIDTH = 40


def quiet(rows: int) -> None:
    """Is told, and draws nothing: in a process that nobody looks at."""


class Progress:
    """A bar on a terminal; nothing elsewhere."""

    def __init__(self, stream: TextIO = sys.stderr) -> None:
        self._stream = stream
        self._shown = stream.isatty()
        self._words, self._total, self._done, self._last = "", 1, 0, ""

    def begin(self, words: str, total: int) -> None:
        """A new part of the work, of so many rows."""
        self._words, self._total, self._done = words, max(total, 1), 0
        self._draw()

    def step(self, rows: int) -> None:
        """So many rows more."""
        before = self._done * 100 // self._total
        self._done += rows
        if self._done * 100 // self._total != before:
            self._draw()

    def stand(self, rows: int) -> None:
        """So many rows in all."""
        self.step(rows - self._done)

    def end(self) -> None:
        """Takes the bar away."""
        if self._shown and self._last:
            self._stream.write("\r\x1b[K")
            self._stream.flush()
            self._last = ""

    def _draw(self) -> None:
        if not self._shown:
            return
        part = min(1.0, self._done / self._total)
        full = int(part * WIDTH)
        bar = "#" * full + "." * (WIDTH - full)
        text = "\r%-9s [%s] %3d %%" % (self._words, bar, int(part * 100))
        if text != self._last:
            self._stream.write(text)
            self._stream.flush()
            self._last = text
