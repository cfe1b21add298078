"""As many firms as a venue may have, each on a connection of its own to one gateway: what they send waits here, and what comes is
counted.
"""

import os
import re
import selectors
import subprocess
import time
from collections.abc import Callable, Iterable
from dataclasses import dataclass
from pathlib import Path

from tests.gateway.door import Door, today
from tests.gateway.firm import Identity
from tests.gateway.ledger import rows
from tests.gateway.wait import LONG
from tests.gateway.wire import Wire, now

SIDE = 64  # dealers, and as many investors
REQUESTS, QUOTES = 64, 1024  # of each investor and of each dealer: all that a venue may have
SECRET = "a-secret-of-all"  # one for all: to hash a password takes its time
DEALERS = [Identity("DLR%d" % at, "T1", SECRET) for at in range(1, SIDE + 1)]
INVESTORS = [Identity("INV%d" % at, "V1", SECRET) for at in range(1, SIDE + 1)]
END_OF_MESSAGE = re.compile(rb"\x0110=\d\d\d\x01")
QUESTION = re.compile(rb"\x0135=1\x01.*\x01112=([^\x01]*)")


def venue_text() -> str:
    text = 'version = 1\ndate = "%s"\n[[bond]]\nid = "BONDA0000001"\n' % today()
    for who in DEALERS:
        text += '[[dealer]]\nname = "%s"\ntraders = ["%s"]\nquotes = %d\nexposure = %d\n' % (
            who.name,
            who.trader,
            QUOTES,
            10**15,
        )
    for who in INVESTORS:
        text += '[[investor]]\nname = "%s"\ntraders = ["%s"]\nrequests = %d\n' % (
            who.name,
            who.trader,
            REQUESTS,
        )
        text += "open = %d\nquantity = 5000000\n" % REQUESTS
    return text


def framed(body: bytes) -> bytes:
    head = b"8=FIXT.1.1\x019=%d\x01%s" % (len(body), body)
    return b"%s10=%03d\x01" % (head, sum(head) % 256)


class Line:
    """A firm's connection."""

    def __init__(self, wire: Wire, heartbeat: float) -> None:
        wire.socket.setblocking(False)
        self.socket, self.name, self.number = wire.socket, wire.name, wire.number
        self.came = 0  # messages
        self.logs_off = self.is_over = False
        self.kept: list[bytes] = []  # those that somebody wants
        self.wants: Callable[[bytes], bool] = lambda _: False
        self.waiting, self._rest = bytearray(), wire.waiting
        self._heartbeat, self._spoke = heartbeat, time.monotonic()

    def say(self, kind: bytes, fields: bytes, moment: bytes) -> None:
        """Puts a message in the session's next number behind what waits."""
        head = b"35=%s\x0149=%s\x0156=VENUE\x0134=%d\x0152=%s\x01"
        self.waiting += framed(head % (kind, self.name, self.number, moment) + fields)
        self.number += 1

    def beat(self) -> None:
        """A Heartbeat, once it is due."""
        if time.monotonic() - self._spoke >= self._heartbeat and not self.logs_off:
            self.say(b"0", b"", now())

    def send(self) -> None:
        """What the connection takes now."""
        if self.waiting:
            try:
                del self.waiting[: self.socket.send(self.waiting[: 1 << 16])]
            except BlockingIOError:
                return
            self._spoke = time.monotonic()

    def read(self) -> None:
        """What has come by now."""
        try:
            data = self.socket.recv(1 << 20)
        except BlockingIOError:
            return
        self.is_over = not data
        assert data or self.logs_off, "%r was disconnected: %r" % (self.name, self._rest[-400:])
        *messages, self._rest = END_OF_MESSAGE.split(self._rest + data)
        self.came += len(messages)
        for message in messages:
            question = QUESTION.search(message) if b"\x0135=1\x01" in message else None
            if question:
                self.say(b"0", b"112=%s\x01" % question[1], now())
            if self.wants(message):
                self.kept.append(message)


class Crowd:
    """All lines of a gateway."""

    def __init__(self, lines: Iterable[Line]) -> None:
        self.lines: list[Line] = []
        self._selector = selectors.DefaultSelector()
        for line in lines:
            self.add(line)

    def add(self, line: Line) -> None:
        self.lines.append(line)
        self._selector.register(line.socket, selectors.EVENT_READ, line)

    def run(self, is_done: Callable[[], bool], seconds: float = 20 * LONG) -> None:
        """Sends what waits and reads what comes, until so; it has to be within these seconds."""
        end = time.monotonic() + seconds
        while not is_done():
            assert time.monotonic() < end, "not done in %.0f s" % seconds
            self.turn(0.005)

    def turn(self, wait: float) -> None:
        for line in self.lines:
            line.beat()
            line.send()
        for key, _ in self._selector.select(wait):
            key.data.read()
            if key.data.is_over:
                self._selector.unregister(key.fileobj)

    def log_off(self) -> None:
        """All at once; what they have said is taken by then."""
        for line in self.lines:
            line.say(b"5", b"", now())
            line.logs_off = True
        self.run(lambda: all(line.is_over for line in self.lines))
        self._selector.close()
        for line in self.lines:
            line.socket.close()


# ------------------------------------------------------------ a gateway


def logged_on(door: Door, who: Identity, number: int = 1, heartbeat: int = 30) -> Wire:
    """A session whose Logon was answered, and that has said that it misses nothing."""
    wire = Wire(door.port)
    wire.number = number
    assert wire.logon(who.name.encode(), who.password.encode(), heartbeat=b"%d" % heartbeat)
    assert wire.read_kind(b"A") is not None, "%s is not let in" % who.name
    assert wire.read_kind(b"1") is not None  # reading answers it
    return wire


def resident(pid: int, key: str = "VmRSS") -> int:
    """Bytes of a process; VmHWM are the most that it had."""
    lines = Path("/proc/%d/status" % pid).read_text().splitlines()
    return next(int(line.split()[1]) * 1024 for line in lines if line.startswith(key + ":"))


def processor(pid: int) -> float:
    """The processor's seconds of a process until now."""
    words = Path("/proc/%d/stat" % pid).read_text().rsplit(")", 1)[1].split()
    return (int(words[11]) + int(words[12])) / os.sysconf("SC_CLK_TCK")


def log_bytes(database: Path) -> int:
    """The bytes of the log, with what of it is in the write-ahead log alone."""
    ((size,),) = rows(
        database, "SELECT page_count * page_size FROM pragma_page_count(), pragma_page_size()"
    )
    return int(size)


def first_logon(door: Door, who: Identity, number: int) -> tuple[float, int]:
    """Starts the gateway: the seconds until a firm's Logon is answered, and the number of its next message."""
    began = time.perf_counter()
    door.start()
    wire = let_in(door, who, number)
    took = time.perf_counter() - began
    assert wire.read_kind(b"1") is not None
    return took, wire.number


def let_in(door: Door, who: Identity, number: int) -> Wire:
    """A session whose Logon was answered just now, by a gateway that opens."""
    while not door.is_open():
        assert not door.has_ended(), door.last_words()
        time.sleep(0.002)
    wire = Wire(door.port)
    wire.number = number
    assert wire.logon(who.name.encode(), who.password.encode())
    assert wire.read_kind(b"A", 10 * LONG) is not None, "it is not let in"
    return wire


@dataclass(frozen=True)
class Took:
    """A run of a program."""

    seconds: float
    processor: float  # seconds
    memory: int  # bytes, the most


def alone(words: list[str], day: Path) -> Took:
    """What a program takes over a day, whatever it prints thrown away."""
    with day.open("rb") as lines:
        began = time.perf_counter()
        running = subprocess.Popen(words, stdin=lines, stdout=subprocess.DEVNULL)
        _, status, usage = os.wait4(running.pid, 0)
        took, running.returncode = time.perf_counter() - began, os.waitstatus_to_exitcode(status)
    assert running.returncode == 0, "%s ends with status %d" % (words, running.returncode)
    return Took(took, usage.ru_utime + usage.ru_stime, usage.ru_maxrss * 1024)
