"""Holds ports of the loopback, so that no other program gets them."""

from __future__ import annotations

import random
import socket
from collections.abc import Sequence
from pathlib import Path

HOST = "127.0.0.1"
KERNEL_GIVES = Path("/proc/sys/net/ipv4/ip_local_port_range")
USUAL = (32_768, 65_535)  # what a kernel gives that doesn't say so there
LOWEST, HIGHEST = 10_000, 65_535  # those of well-known services are below
TRIES = 1000


def given_by_kernel() -> range:
    """The ports that the kernel gives to who names none: to each connection, and to a server at port 0."""
    try:
        first, last = map(int, KERNEL_GIVES.read_text().split())
    except (OSError, ValueError):
        first, last = USUAL
    return range(first, last + 1)


def to_be_drawn() -> Sequence[int]:
    """The ports that the kernel gives nobody; all, where it gives all."""
    given, known = given_by_kernel(), range(LOWEST, HIGHEST + 1)
    return [one for one in known if one not in given] or known


class Port:
    """The port of this number; where it is 0, one that is drawn and held until it is closed. Nobody else is given a port
    that is held, though a server may ask for it by its number: the one that it is held for.

    The kernel's own ports would not do. Whoever lets go of one, as a server that is started again, has it no more: the
    next connection of any program may be given it.
    """

    def __init__(self, number: int = 0) -> None:
        self.number, self._held = number, socket.socket()
        if number == 0:
            self.number = self._drawn()
            # Behind the bind, which so shares the port with no other socket; from now on a server may share it.
            self._held.setsockopt(socket.SOL_SOCKET, socket.SO_REUSEADDR, 1)

    def close(self) -> None:
        self._held.close()

    def _drawn(self) -> int:
        """Not by the run's seed: two runs of one seed would draw the same."""
        draw, ports = random.SystemRandom(), to_be_drawn()
        for number in (draw.choice(ports) for _ in range(TRIES)):
            try:
                self._held.bind((HOST, number))
            except OSError:
                continue
            return number
        raise OSError("%s has no port that is free" % HOST)
