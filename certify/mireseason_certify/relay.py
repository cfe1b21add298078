"""Stands between the desk and the gateway: passes on each message, keeps what was said, and makes the faults of a case.

It changes no byte. A fault is a message that it loses on the way, a line that it cuts, or a line that can't be had.
"""

from __future__ import annotations

import selectors
import socket
import threading
import time
from collections.abc import Callable
from dataclasses import dataclass, field, replace
from enum import Enum

from .frames import FrameStream, Message, NoFrame
from .ports import HOST, Port

READ = 1 << 16  # bytes at once
MOST_LINES = 16  # connections of a desk at one time
MOST_SEEN = 200_000  # messages that are kept
TICK = 0.05  # seconds between two looks at whether it is to end
STALLED = 10.0  # seconds that a peer may read nothing

Fits = Callable[[Message], bool]


class By(Enum):
    """Who sent a message."""

    DESK = "desk"
    VENUE = "venue"


@dataclass(frozen=True)
class Seen:
    """A message on its way."""

    by: By
    message: Message
    moment: float  # seconds of the monotonic clock
    line: int  # which connection of the desk, from 1
    is_lost: bool = False  # by a fault of the case

    @property
    def is_logon(self) -> bool:
        return self.message.kind == "A"


@dataclass
class Loss:
    """A fault that waits for its message."""

    by: By
    fits: Fits

    def awaits(self, seen: Seen) -> bool:
        return self.by is seen.by and self.fits(seen.message)


@dataclass
class Line:
    """A connection of the desk, with the gateway's end of it."""

    number: int
    desk: socket.socket
    venue: socket.socket
    streams: dict[By, FrameStream] = field(
        default_factory=lambda: {By.DESK: FrameStream(), By.VENUE: FrameStream()}
    )
    held: bytes = b""  # what the venue said while it is held back

    def end(self, by: By) -> socket.socket:
        """The socket of this side."""
        return self.desk if by is By.DESK else self.venue

    def close(self) -> None:
        self.desk.close()
        self.venue.close()


class Relay:
    """Runs until it is closed. Any thread may ask what was seen."""

    def __init__(self, port: int, gateway: int) -> None:
        self._gateway = gateway
        self._port = Port(port)
        self._listener = socket.create_server((HOST, self._port.number))
        self._lines: list[Line] = []
        self._ended: dict[int, float] = {}  # by the number of a line: the moment of its end
        self._count = 0
        self._seen: list[Seen] = []
        self._losses: list[Loss] = []
        self._refuses = False
        self._pauses = False
        self._holds = False
        self._cuts = False
        self._ends = False
        self._changed = threading.Condition()
        self._thread = threading.Thread(target=self._run, name="relay", daemon=True)
        self._thread.start()

    @property
    def port(self) -> int:
        return self._port.number

    def close(self) -> None:
        self._ends = True
        self._thread.join()
        self._listener.close()
        self._port.close()

    # What a case asks.

    def count(self) -> int:
        """How many messages were seen."""
        with self._changed:
            return len(self._seen)

    def since(self, place: int) -> list[Seen]:
        """Those that were seen from this place on."""
        with self._changed:
            return self._seen[place:]

    def wait(self, by: By, fits: Fits, place: int, seconds: float) -> Seen | None:
        """The first message from a place on that fits; None where none comes in time. What was lost on
        its way to the desk has not come.
        """
        until = time.monotonic() + seconds
        with self._changed:
            while True:
                for at in range(place, len(self._seen)):
                    one = self._seen[at]
                    has_come = by is By.DESK or not one.is_lost
                    if one.by is by and has_come and fits(one.message):
                        return one
                place = len(self._seen)
                if (left := until - time.monotonic()) <= 0:
                    return None
                self._changed.wait(left)

    def has_line(self, number: int = 0) -> bool:
        """Whether the desk is connected, by the connection of this number where one is named."""
        with self._changed:
            return any(number in (0, line.number) for line in self._lines)

    def pauses(self, place: int) -> list[float]:
        """Seconds from the end of each line to the next Logon, of those that were seen from a place on."""
        with self._changed:
            logons = [one for one in self._seen[place:] if one.by is By.DESK and one.is_logon]
            again = [one for one in logons if one.line - 1 in self._ended]
            return [one.moment - self._ended[one.line - 1] for one in again]

    # The faults.

    def lose(self, by: By, fits: Fits) -> None:
        """The next message of this side that fits is lost."""
        with self._changed:
            self._losses.append(Loss(by, fits))

    def has_lost(self) -> bool:
        """Whether every message that was to be lost is."""
        with self._changed:
            return not self._losses

    def forget_losses(self) -> None:
        with self._changed:
            self._losses.clear()

    def cut(self) -> None:
        """Ends every connection that there is: a desk may have a new one at once."""
        with self._changed:
            old = {line.number for line in self._lines}
            self._cuts = bool(old)
            while old.intersection(line.number for line in self._lines):
                self._changed.wait(TICK)

    def refuse(self, refuses: bool) -> None:
        """Whether a new connection is closed at once."""
        with self._changed:
            self._refuses = refuses

    def pause(self, pauses: bool) -> None:
        """Whether a new connection waits to be taken: what it says is read then."""
        with self._changed:
            self._pauses = pauses

    def hold(self) -> None:
        """What the venue says is held back."""
        with self._changed:
            self._holds = True

    def let_go(self) -> None:
        """What was held back goes on, and all that follows."""
        with self._changed:
            self._holds = False

    # The thread.

    def _run(self) -> None:
        with selectors.DefaultSelector() as selector:
            selector.register(self._listener, selectors.EVENT_READ, None)
            while not self._ends:
                for key, _ in selector.select(TICK):
                    if key.data is None:
                        self._accept(selector)
                    else:
                        self._pass(selector, *key.data)
                if self._cuts:
                    self._drop_all(selector)
                if not self._holds:
                    self._give_held(selector)
            self._drop_all(selector)

    def _accept(self, selector: selectors.BaseSelector) -> None:
        if self._pauses:
            time.sleep(TICK)
            return
        desk, _ = self._listener.accept()
        if self._refuses or len(self._lines) >= MOST_LINES:
            desk.close()
            return
        try:
            venue = socket.create_connection((HOST, self._gateway), STALLED)
        except OSError:  # the gateway is being started again
            desk.close()
            return
        for end in (desk, venue):
            end.settimeout(STALLED)
            end.setsockopt(socket.IPPROTO_TCP, socket.TCP_NODELAY, 1)
        with self._changed:
            self._count += 1
            line = Line(self._count, desk, venue)
            self._lines.append(line)
        for by in By:
            selector.register(line.end(by), selectors.EVENT_READ, (line, by))

    def _pass(self, selector: selectors.BaseSelector, line: Line, by: By) -> None:
        """Reads from one side, and writes to the other."""
        if line not in self._lines:
            return
        try:
            data = line.end(by).recv(READ)
        except OSError:
            data = b""
        if not data:
            self._drop(selector, line)
        elif by is By.VENUE and (self._holds or line.held):
            line.held += data
        else:
            self._give(selector, line, by, data)

    def _give(self, selector: selectors.BaseSelector, line: Line, by: By, data: bytes) -> None:
        """Gives one side what the other said."""
        other = line.end(By.VENUE if by is By.DESK else By.DESK)
        messages, rest = taken(line.streams[by], data)
        try:
            for message in messages:
                self._give_one(other, Seen(by, message, time.monotonic(), line.number))
            other.sendall(rest)
        except OSError:
            self._drop(selector, line)

    def _give_one(self, other: socket.socket, seen: Seen) -> None:
        """Gives and notes one message, or notes that it is lost; for whoever asks at one moment: what is noted has been
        given, and of what was given nothing can come that is there before it is noted.
        """
        with self._changed:
            loss = next((it for it in self._losses if it.awaits(seen)), None)
            try:
                if loss:
                    self._losses.remove(loss)
                else:
                    other.sendall(seen.message.raw)
            finally:
                self._note(replace(seen, is_lost=loss is not None))

    def _note(self, seen: Seen) -> None:
        if len(self._seen) < MOST_SEEN:
            self._seen.append(seen)
        self._changed.notify_all()

    def _give_held(self, selector: selectors.BaseSelector) -> None:
        for line in list(self._lines):
            held, line.held = line.held, b""
            if held:
                self._give(selector, line, By.VENUE, held)

    def _drop(self, selector: selectors.BaseSelector, line: Line) -> None:
        ended = time.monotonic()
        for by in By:
            selector.unregister(line.end(by))
        line.close()
        with self._changed:
            self._ended[line.number] = ended
            self._lines.remove(line)
            self._changed.notify_all()

    def _drop_all(self, selector: selectors.BaseSelector) -> None:
        for line in list(self._lines):
            self._drop(selector, line)
        self._cuts = False


def taken(stream: FrameStream, data: bytes) -> tuple[list[Message], bytes]:
    """The messages that are whole with these bytes; and bytes that begin none."""
    try:
        return stream.take(data), b""
    except NoFrame:
        return [], stream.rest()
