"""A firm's FIX engine that is fast, in plain Python: it keeps its session as a stock engine does, and all that came to it.

What it has sent it keeps under its number, and sends it again (43=Y) when it is asked; in the place of its own messages it sends a
gap fill. What it misses it asks for, and drops what came ahead of it. Nothing is judged on the way: each message that came is
there in the end, as it came.
"""

import socket
from collections.abc import Callable
from dataclasses import dataclass

from tests.gateway.firm import Identity
from tests.gateway.wire import framed, now
from tests.model.frames import SOH

AT_ONCE = 1 << 18  # bytes that are read
HEARTBEAT = b"30"
END = b"\x0110="
TRAILER = len("\x0110=000\x01")


@dataclass(frozen=True)
class Stored:
    """A message of the firm, as its engine keeps it: what stands behind the session's header."""

    kind: bytes
    fields: bytes
    sending: bytes


@dataclass(frozen=True)
class Came:
    """A message under its number, with all of its bytes."""

    number: int
    kind: bytes
    is_again: bool
    raw: bytes


# Is given each message that is no session's own, in the order of the numbers and once.
Take = Callable[["Engine", Came], None]


def value(raw: bytes, tag: bytes) -> bytes | None:
    """Of the first field with this tag."""
    begin = raw.find(SOH + tag + b"=")
    if begin < 0:
        return None
    begin += len(tag) + 2
    return raw[begin : raw.index(SOH, begin)]


def came_of(raw: bytes) -> Came:
    """The venue writes 8, 9, 35, 49, 56, 34 and, where it sends something again, 43 in this order."""
    parts = raw.split(SOH, 7)
    return Came(int(parts[5][3:]), parts[2][3:], parts[6] == b"43=Y", raw)


class Engine:
    def __init__(self, who: Identity, source: str) -> None:
        """`source` is the address of the loopback that it comes from."""
        self.who, self.source, self.name = who, source, who.name.encode()
        self.next, self.expected = 1, 1  # numbers: of its next message, and of the venue's
        self.highest = 0  # that came ahead of the expected one; 0 where nothing is missing
        self.store: dict[int, Stored] = {}  # by number; the engine's own messages are not kept
        self.came: list[Came] = []
        self.low: list[Came] = []  # new ones under a number that it had already
        self.logouts: list[bytes] = []
        self.answered: set[bytes] = set()  # its own TestRequests
        self.is_on = False
        self.socket: socket.socket | None = None
        self._out, self._waiting = bytearray(), b""

    # ------------------------------------------------------------ the connection

    def connect(self, port: int) -> bool:
        """Connects and sends a Logon; False where nobody listens."""
        try:
            self.socket = socket.create_connection(("127.0.0.1", port), 10, (self.source, 0))
        except OSError:
            return False
        self.socket.setsockopt(socket.IPPROTO_TCP, socket.TCP_NODELAY, 1)
        self.socket.setblocking(False)
        login = (self.name, self.who.password.encode())
        self._put(b"A", b"98=0\x01108=%s\x01553=%s\x01554=%s\x011137=9\x01" % (HEARTBEAT, *login))
        self.flush()
        return True

    def lose(self) -> None:
        """The connection has ended: what was not written yet is in the store alone."""
        if self.socket is not None:
            self.socket.close()
        self.socket, self.is_on, self.highest = None, False, 0
        self._out.clear()
        self._waiting = b""

    def flush(self) -> None:
        """Writes what waits, as far as the other side takes it. Where it takes nothing any more, reading finds the end."""
        if self._out and self.socket is not None:
            try:
                del self._out[: self.socket.send(self._out)]
            except OSError:
                pass

    def read(self, take: Take) -> None:
        """Takes what has come, and ends the connection where that has ended."""
        if self.socket is None:
            return
        try:
            data = self.socket.recv(AT_ONCE)
        except BlockingIOError:
            return
        except OSError:
            data = b""
        if not data:
            self.lose()
            return
        self._waiting += data
        begin = 0
        while (end := self._waiting.find(END, begin)) >= 0:
            end += TRAILER
            if end > len(self._waiting):
                break
            self._take(came_of(self._waiting[begin:end]), take)
            begin = end
        self._waiting = self._waiting[begin:]

    def read_to_the_end(self, take: Take) -> None:
        """Of a gateway that has ended."""
        while self.socket is not None:
            self.socket.setblocking(True)
            self.read(take)

    # ------------------------------------------------------------ messages

    def say(self, kind: bytes, fields: bytes) -> int:
        """A message of the firm; its number. While it is not logged on, it waits until it is asked for."""
        sending = now()
        number = self._put(kind, fields, sending, leaves=self.is_on)
        self.store[number] = Stored(kind, fields, sending)
        return number

    def test(self, name: bytes) -> None:
        """A TestRequest; without a name one that the session has to reject."""
        self._put(b"1", b"112=%s\x01" % name if name else b"")

    def ask_for_all(self) -> None:
        self._put(b"2", b"7=1\x0116=0\x01")

    def _put(self, kind: bytes, fields: bytes, sending: bytes = b"", leaves: bool = True) -> int:
        number, self.next = self.next, self.next + 1
        if leaves:
            self._write(kind, number, b"52=%s\x01" % (sending or now()) + fields)
        return number

    def _write(self, kind: bytes, number: int, rest: bytes) -> None:
        head = b"35=%s\x0149=%s\x0156=VENUE\x0134=%d\x01" % (kind, self.name, number)
        self._out += framed(head + rest)

    def _take(self, came: Came, take: Take) -> None:
        self.came.append(came)
        self.is_on = self.is_on or came.kind == b"A"
        if came.kind == b"2":
            self._send_again(int(value(came.raw, b"7") or 0))
        elif came.kind == b"5":
            self.logouts.append(value(came.raw, b"58") or b"")
        if came.number < self.expected:
            self.low += [] if came.is_again else [came]
            return
        if came.number > self.expected:
            self._miss(came.number)
            return
        self.expected += 1
        if came.kind == b"4":
            self.expected = int(value(came.raw, b"36") or 0)
        elif came.kind == b"1":
            self._put(b"0", b"112=%s\x01" % (value(came.raw, b"112") or b""))
        elif came.kind == b"0":
            self.answered.add(value(came.raw, b"112") or b"")
        elif came.kind not in (b"2", b"5", b"A"):
            take(self, came)
        if self.expected > self.highest:
            self.highest = 0

    def _miss(self, number: int) -> None:
        """It asks once for all from the expected number on: what it drops until then comes with it."""
        if self.highest == 0:
            self._put(b"2", b"7=%d\x0116=0\x01" % self.expected)
        self.highest = max(self.highest, number)

    def _send_again(self, first: int) -> None:
        """All from a number on: the firm's messages, and gap fills between."""
        filled, moment = first, now()
        for number in range(first, self.next):
            if number in self.store:
                self._fill(filled, number, moment)
                self._send_one_again(number, moment)
                filled = number + 1
        self._fill(filled, self.next, moment)

    def _send_one_again(self, number: int, moment: bytes) -> None:
        kept = self.store[number]
        times = b"43=Y\x0152=%s\x01122=%s\x01" % (moment, kept.sending)
        self._write(kept.kind, number, times + kept.fields)

    def _fill(self, first: int, behind: int, moment: bytes) -> None:
        if first < behind:
            times = b"43=Y\x0152=%s\x01122=%s\x01" % (moment, moment)
            self._write(b"4", first, times + b"123=Y\x0136=%d\x01" % behind)
