"""A connection that speaks FIX as a test wants it, if a stock engine would not."""

import select
import socket
import ssl
import time
from collections.abc import Callable
from datetime import datetime, timedelta, timezone

from tests.gateway.firm import Received, received_of
from tests.gateway.wait import LONG
from tests.model.frames import checksum

Fields = list[tuple[int, bytes]]


def now() -> bytes:
    return datetime.now(timezone.utc).strftime("%Y%m%d-%H:%M:%S.%f")[:-3].encode()


def seconds_ago(seconds: float) -> bytes:
    """A moment that has passed, as a 52."""
    return (
        (datetime.now(timezone.utc) - timedelta(seconds=seconds))
        .strftime("%Y%m%d-%H:%M:%S.000")
        .encode()
    )


def a_while_ago() -> bytes:
    """A moment that is too long ago for a 52."""
    return seconds_ago(150)


def framed(body: bytes) -> bytes:
    """A frame of any bytes as its body, with the length and the sum that belong to them."""
    head = b"8=FIXT.1.1\x019=%d\x01" % len(body) + body
    return head + b"10=" + checksum(head) + b"\x01"


class Wire:
    def __init__(
        self,
        port: int,
        context: ssl.SSLContext | None = None,
        begun: ssl.SSLSession | None = None,
        source: str = "127.0.0.1",
    ) -> None:
        """`begun` is a session of TLS that it would resume, `source` the address of the loopback that it comes from."""
        # Of sendall() this is the limit for all bytes together.
        plain = socket.create_connection(
            ("127.0.0.1", port), timeout=2 * LONG, source_address=(source, 0)
        )
        plain.setsockopt(socket.IPPROTO_TCP, socket.TCP_NODELAY, 1)
        self.socket = (
            context.wrap_socket(plain, server_hostname="localhost", session=begun)
            if context
            else plain
        )
        self.name, self.number, self.waiting, self.is_over = b"", 1, b"", False
        self.answers = True  # TestRequests, on the way

    def __enter__(self) -> "Wire":
        return self

    def __exit__(self, *_: object) -> None:
        self.socket.close()

    def raw(self, data: bytes) -> bool:
        """Sends bytes as they are; whether the other side still takes them."""
        try:
            self.socket.sendall(data)
            return True
        except OSError:
            return False

    def message(
        self,
        kind: bytes,
        name: bytes,
        fields: Fields,
        sending: bytes | None = None,
        number: int | None = None,
        tail: bytes = b"",
    ) -> bytes:
        """A message in the session's next number; `tail` is bytes after the fields, as they are."""
        if number is None:
            number, self.number = self.number, self.number + 1
        head = [
            (35, kind),
            (49, name),
            (56, b"VENUE"),
            (34, b"%d" % number),
            (52, sending or now()),
        ]
        return framed(b"".join(b"%d=%s\x01" % item for item in head + fields) + tail)

    def logon(
        self,
        name: bytes,
        password: bytes | None,
        user: bytes | None = None,
        more: Fields | None = None,
        heartbeat: bytes = b"30",
        sending: bytes | None = None,
    ) -> bool:
        self.name, fields = name, [(98, b"0"), (108, heartbeat), *(more or [])]
        if password is not None:
            fields += [(553, name if user is None else user), (554, password)]
        return self.raw(self.message(b"A", name, fields + [(1137, b"9")], sending))

    def read(self, limit: float = LONG) -> Received | None:
        """The next message; None where the connection has ended or nothing came within the limit.

        A TestRequest is answered on the way, unless `answers` is false.
        """
        until = time.monotonic() + limit
        while (end := self._first_end()) is None:
            if self.is_over or not self._more(until - time.monotonic()):
                return None
        data, self.waiting = self.waiting[:end], self.waiting[end:]
        message = received_of(data)
        if message.kind == b"1" and self.answers:
            self.heartbeat(message)
        return message

    def heartbeat(self, question: Received) -> bool:
        """The answer to a TestRequest."""
        return self.raw(self.message(b"0", self.name, [(112, question.value(112) or b"")]))

    def ask(self) -> None:
        """A TestRequest, and its answer: what was said before it is taken, and what was to come before it has come."""
        name = b"asked-%d" % self.number
        assert self.raw(self.message(b"1", self.name, [(112, name)])), "the connection has ended"
        self.got_until(lambda message: message.kind == b"0" and message.value(112) == name)

    def _first_end(self) -> int | None:
        """Where the first message that came ends, if all of it came."""
        at = self.waiting.find(b"\x0110=")
        end = at + len("\x0110=000\x01")
        return end if at >= 0 and len(self.waiting) >= end else None

    def read_until(self, fits: Callable[[Received], bool], limit: float = LONG) -> Received | None:
        """The next message that fits; others are passed over."""
        until = time.monotonic() + limit
        while (message := self.read(max(0.0, until - time.monotonic()))) is not None:
            if fits(message):
                return message
        return None

    def got(self, kind: bytes, limit: float = LONG) -> Received:
        """The next message of this kind, which has to come."""
        return self.got_until(lambda message: message.kind == kind, limit)

    def got_until(self, fits: Callable[[Received], bool], limit: float = LONG) -> Received:
        """The next message that fits, which has to come."""
        message = self.read_until(fits, limit)
        assert message is not None, "no message comes that fits; left is %r" % self.waiting
        return message

    def read_kind(self, kind: bytes, limit: float = LONG) -> Received | None:
        """The next message of this kind."""
        return self.read_until(lambda message: message.kind == kind, limit)

    def closed_within(self, limit: float) -> bool:
        """Whether the other side ends the connection within this time; what it still says is kept."""
        end = time.monotonic() + limit
        while not self.is_over and time.monotonic() < end:
            self._more(end - time.monotonic())
        return self.is_over

    def _more(self, limit: float) -> bool:
        """Waits for bytes and keeps them; False where none came or the connection has ended."""
        pending = isinstance(self.socket, ssl.SSLSocket) and self.socket.pending() > 0
        if not pending and not select.select([self.socket], [], [], max(0.0, limit))[0]:
            return False
        try:
            data = self.socket.recv(65536)
        except TimeoutError:
            return False
        except OSError:
            data = b""
        self.is_over = not data
        self.waiting += data
        return bool(data)
