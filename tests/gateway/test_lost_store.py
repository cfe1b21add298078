"""What a stock engine that has lost its store makes of a Logout that it can't place: so the gateway says nothing to it if it
misses messages. A script plays the gateway here, since that never sends such a Logout."""

import socket
from collections.abc import Iterator
from contextlib import contextmanager

import pytest

from tests.gateway.firm import Received, received_of
from tests.gateway.stage import DEALER, Stage
from tests.gateway.wait import LONG
from tests.gateway.wire import Fields, framed, now

NEXT = 40  # the venue's next number: it has sent the firm 39 messages on this day
REASON = (58, b"MsgSeqNum too low, expecting 17")


class Peer:
    """One connection of the engine, as the venue has it."""

    def __init__(self, connection: socket.socket) -> None:
        self.connection, self.waiting = connection, b""
        connection.settimeout(LONG)

    def read(self) -> Received | None:
        """The next message; None where the connection has ended."""
        while True:
            end = self.waiting.find(b"\x01", self.waiting.find(b"\x0110=") + 1)
            if b"\x0110=" in self.waiting and end > 0:
                raw, self.waiting = self.waiting[: end + 1], self.waiting[end + 1 :]
                return received_of(raw)
            data = self.connection.recv(65536)
            if not data:
                return None
            self.waiting += data

    def got(self, kind: bytes) -> Received:
        """The next message of this kind."""
        while (message := self.read()) is not None:
            if message.kind == kind:
                return message
        raise AssertionError("the engine has ended the connection without a %r" % kind)

    def send(self, kind: bytes, number: int, fields: Fields) -> None:
        header: Fields = [(35, kind), (49, b"VENUE"), (56, DEALER.name.encode())]
        header += [(34, b"%d" % number), (52, now())]
        self.connection.sendall(framed(b"".join(b"%d=%s\x01" % one for one in header + fields)))


@contextmanager
def engine(stage: Stage) -> Iterator[socket.socket]:
    """A stock engine with an empty store, and the port that it connects to."""
    with socket.socket() as listening:
        listening.setsockopt(socket.SOL_SOCKET, socket.SO_REUSEADDR, 1)
        listening.bind(("127.0.0.1", stage.door.port))
        listening.listen()
        listening.settimeout(LONG)
        stage.dealer.start()
        yield listening


def refused(listening: socket.socket, number: int | None) -> None:
    """The engine's Logon is refused: by a Logout of this number, or by a disconnect alone."""
    with listening.accept()[0] as connection:
        peer = Peer(connection)
        peer.got(b"A")
        if number is not None:
            peer.send(b"5", number, [REASON])
            peer.got(b"5")  # its own, which it numbers


def first_missing(listening: socket.socket) -> int:
    """Its Logon is accepted: from which number on it asks for what it misses."""
    with listening.accept()[0] as connection:
        peer = Peer(connection)
        peer.got(b"A")
        peer.send(b"A", NEXT + 5, [(98, b"0"), (108, b"10"), (1137, b"9")])
        return int(peer.got(b"2").given(7))


@pytest.mark.parametrize("logouts", [0, 1, 2, 3])
def test_what_a_stock_engine_makes_of_a_logout(stage: Stage, logouts: int) -> None:
    """It counts each one, whatever its number, in the place of the first message that it misses: it never asks for that again. After
    disconnects alone it asks for all. So only a disconnect is safe to an engine that misses something.
    """
    with engine(stage) as listening:
        for at in range(3):
            refused(listening, NEXT + at if at < logouts else None)
        assert first_missing(listening) == 1 + logouts
