"""Looks at hosts on a thread of its own, so that nobody who sends messages waits for that."""

import threading
from collections.abc import Callable
from types import TracebackType

STEP = 0.5


class Watch:
    """Looks until it is well for once."""

    def __init__(self, is_well: Callable[[], bool]) -> None:
        self._is_well, self._ending, self._well = is_well, threading.Event(), threading.Event()
        self._thread = threading.Thread(target=self._run, daemon=True)

    @property
    def well(self) -> bool:
        return self._well.is_set()

    def _run(self) -> None:
        while not self._ending.is_set():
            if self._is_well():
                self._well.set()
                return
            self._ending.wait(STEP)

    def __enter__(self) -> "Watch":
        self._thread.start()
        return self

    def __exit__(
        self,
        kind: type[BaseException] | None,
        fault: BaseException | None,
        trace: TracebackType | None,
    ) -> None:
        self._ending.set()
        self._thread.join()
