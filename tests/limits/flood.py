"""A firm that sends as much as it can, on a connection of its own."""

import signal
import threading
from types import TracebackType

from tests.gateway.firm import Identity
from tests.gateway.stage import Stage
from tests.gateway.wait import LONG, until
from tests.gateway.wire import Fields, Wire, framed, now


def logged_on(
    stage: Stage, who: Identity, heartbeat: bytes = b"30", settles: bool = True, number: int = 1
) -> Wire:
    """A connection of this firm, whose Logon was answered; its TestRequest too, if it settles. `number` is its Logon's."""
    before = stage.counters()["mireseason_logons_total"]
    wire = Wire(stage.door.port)
    wire.number = number
    assert wire.logon(who.name.encode(), who.password.encode(), heartbeat=heartbeat)
    until(
        "%s is logged on" % who.name,
        LONG,
        lambda: stage.counters()["mireseason_logons_total"] > before,
    )
    if settles:
        # Reading answers it.
        assert wire.read_kind(b"1") is not None
    return wire


def not_taken(wire: Wire, kind: bytes, fields: Fields, reason: bytes, text: bytes) -> None:
    """Sends a quote or a request that is counted and not taken: a BusinessMessageReject names it, and the session goes on."""
    number, names = wire.number, dict(fields)
    assert wire.raw(wire.message(kind, wire.name, fields))
    reject = wire.got(b"j")
    assert reject.value(1181) is None, "it is of the venue: %r" % reject.raw
    found = [reject.value(tag) for tag in (45, 372, 379, 380)]
    wanted = [b"%d" % number, kind, names[117 if kind == b"S" else 131], reason]
    assert found == wanted and text in (reject.value(58) or b""), "it is %r" % reject.raw
    wire.ask()


def response(wire: Wire, fields: Fields) -> bytes:
    """A QuoteResponse of the investor, in its session's next number."""
    return wire.message(b"AJ", wire.name, [(50, b"V1"), *fields])


def responded(wire: Wire, fields: Fields) -> bytes | None:
    """Sends one; the 297 of its answer."""
    assert wire.raw(response(wire, fields))
    name = dict(fields)[693]
    return wire.got_until(lambda message: message.value(693) == name).value(297)


def hang_up(stage: Stage) -> None:
    """Has the gateway read its credentials and certificates again."""
    process = stage.door.process
    assert process is not None
    process.send_signal(signal.SIGHUP)


def cancel(wire: Wire, number: int, name: bytes = b"x") -> bytes:
    """A cancel of no quote: the smallest message of the application."""
    trader = {b"DLR1": b"T1", b"DLR2": b"T2"}[wire.name]
    head = b"35=Z\x0149=%s\x0156=VENUE\x0134=%d\x0152=%s\x0150=%s\x01" % (
        wire.name,
        number,
        now(),
        trader,
    )
    body = head + b"298=5\x01117=%s\x01" % name
    return framed(body)


class Flood:
    """Sends cancels without end, in pieces of so many, and reads what comes, until it is over or the connection ends."""

    def __init__(self, wire: Wire, piece: int = 200) -> None:
        self.wire, self.sent, self.came = wire, 0, b""
        self.over = threading.Event()
        wire.socket.settimeout(0.5)
        self._threads = [
            threading.Thread(target=self._send, args=(piece,)),
            threading.Thread(target=self._read),
        ]

    def __enter__(self) -> "Flood":
        for thread in self._threads:
            thread.start()
        return self

    def __exit__(
        self,
        kind: type[BaseException] | None,
        fault: BaseException | None,
        trace: TracebackType | None,
    ) -> None:
        self.over.set()
        for thread in self._threads:
            thread.join()

    def has_ended(self) -> bool:
        return self.over.is_set()

    def _send(self, piece: int) -> None:
        waiting = b""
        while not self.over.is_set():
            if not waiting:
                waiting = b"".join(cancel(self.wire, self.wire.number + at) for at in range(piece))
                self.wire.number += piece
                self.sent += piece
            try:
                waiting = waiting[self.wire.socket.send(waiting) :]
            except TimeoutError:
                continue
            except OSError:
                return

    def _read(self) -> None:
        while not self.over.is_set():
            try:
                data = self.wire.socket.recv(65536)
            except TimeoutError:
                continue
            except OSError:
                data = b""
            self.came = (self.came + data)[-65536:]
            if not data:
                self.over.set()
