"""Starts processes that end with the one that began them, however that one ends."""

import ctypes
import os
import signal
from collections.abc import Callable

DEATH_SIGNAL = 1  # PR_SET_PDEATHSIG of prctl(2): the signal when the parent ends
LIBC = ctypes.CDLL(None)


def is_bound(parent: int, number: signal.Signals) -> bool:
    """From now on this process is sent the signal when its parent ends; answers whether that is
    this one still.
    """
    LIBC.prctl(DEATH_SIGNAL, number)
    return os.getppid() == parent


def bound_to(parent: int) -> Callable[[], None]:
    """What a program does before it begins, so that it is killed when its parent ends. A process
    may be told to end while it starts one, and then nobody else knows of that.
    """

    def begin() -> None:
        if not is_bound(parent, signal.SIGKILL):
            os._exit(1)

    return begin
