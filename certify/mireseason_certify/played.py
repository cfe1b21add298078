"""Plays a firm: its FIX session is kept simple, since nothing on its line is lost."""

from __future__ import annotations

import socket
import threading
import time
from collections.abc import Callable
from dataclasses import dataclass

from .frames import Fields, FrameStream, Message, now, written

HEARTBEAT = 5  # HeartBtInt (108), seconds
READ = 1 << 16  # bytes at once
LOGON = 60.0  # seconds that a Logon may take, with what is sent again, or with the begin of a day


class NotAnswered(Exception):
    """The venue did not say to a played firm what it has to say: a fault of this program's own venue."""


@dataclass(frozen=True)
class Identity:
    """Who a firm is to the gateway."""

    name: str  # SenderCompID (49) and Username (553)
    trader: str  # SenderSubID (50)
    password: str  # Password (554)


class PlayedFirm:
    """One firm, logged on or not. Its messages are counted over all its connections."""

    def __init__(self, who: Identity, port: int) -> None:
        self.who, self._port = who, port
        self._next = 1  # of what it sends
        self._expected = 1  # of what it is sent
        self._got: list[Message] = []
        self._given = 0  # ApplSeqNum (1181) of the last message that it has
        self._socket: socket.socket | None = None
        self._stream = FrameStream()
        self._thread: threading.Thread | None = None
        self._ends = False
        self._is_on = False
        self._changed = threading.Condition()

    def log_on(self) -> None:
        """Connects until a Logon is accepted: the gateway may be about to start."""
        until = time.monotonic() + LOGON
        while not self._tries_once():
            if time.monotonic() > until:
                raise NotAnswered("%s can't log on to the venue" % self.who.name)
            time.sleep(0.2)

    def begins_day(self) -> None:
        """Its numbers begin anew."""
        self._next = self._expected = 1
        self._given = 0

    def log_out(self) -> None:
        """Ends the connection."""
        self._ends = True
        if self._socket:
            with self._changed:
                self._put("5", [])
            self._socket.close()
        if self._thread:
            self._thread.join()
        self._socket, self._thread = None, None

    def send(self, kind: str, fields: Fields) -> None:
        """A message of its trader."""
        with self._changed:
            self._put(kind, [(50, self.who.trader), *fields])

    def count(self) -> int:
        """How many messages of the venue it has."""
        with self._changed:
            return len(self._got)

    def wait(
        self, what: str, fits: Callable[[Message], bool], place: int = 0, seconds: float = 20.0
    ) -> Message:
        """The first message of the venue from a place on that fits."""
        until = time.monotonic() + seconds
        with self._changed:
            while True:
                found = next((one for one in self._got[place:] if fits(one)), None)
                if found:
                    return found
                if (left := until - time.monotonic()) <= 0:
                    raise NotAnswered("%s is not sent %s" % (self.who.name, what))
                self._changed.wait(left)

    def _tries_once(self) -> bool:
        self._ends = False
        self._stream = FrameStream()
        try:
            self._socket = socket.create_connection(("127.0.0.1", self._port), 2.0)
        except OSError:
            return False
        self._socket.setsockopt(socket.IPPROTO_TCP, socket.TCP_NODELAY, 1)
        self._socket.settimeout(0.1)
        logon = [(98, "0"), (108, str(HEARTBEAT)), (553, self.who.name), (554, self.who.password)]
        with self._changed:
            self._put("A", [*logon, (1137, "9")])
            self._is_on = False
        self._thread = threading.Thread(target=self._run, name=self.who.name, daemon=True)
        self._thread.start()
        with self._changed:
            self._changed.wait_for(lambda: self._is_on or self._ends, LOGON)
            return self._is_on

    def _put(self, kind: str, fields: Fields, number: int = 0, again: Fields = ()) -> None:
        """Sends one message, under its next number if no other is named."""
        if not self._socket:
            raise NotAnswered("%s is not logged on" % self.who.name)
        data = written(kind, self.who.name, number or self._next, fields, again)
        self._next += 0 if number else 1
        try:
            self._socket.sendall(data)
        except OSError:
            self._ends = True

    def _run(self) -> None:
        """Reads until the connection ends, and says that it is there."""
        assert self._socket
        said = time.monotonic()
        while not self._ends:
            try:
                data = self._socket.recv(READ)
            except TimeoutError:
                data = None
            except OSError:
                data = b""
            with self._changed:
                if data == b"":
                    self._ends = True
                for message in self._stream.take(data or b""):
                    self._take(message)
                if time.monotonic() - said > HEARTBEAT * 0.8 and not self._ends:
                    self._put("0", [])
                    said = time.monotonic()
                self._changed.notify_all()

    def _take(self, message: Message) -> None:
        """By FIX's session, of which it needs little: nothing is lost on its line."""
        if message.kind == "A":
            self._is_on = True
        if message.number > self._expected:
            if message.kind in "A1":
                self._put("2", [(7, str(self._expected)), (16, "0")])
        else:
            self._count(message)
        if message.kind == "1":
            self._put("0", [(112, message.get(112))])
        elif message.kind == "2":
            # What the venue lacks of it is a session's own: each message of a case was answered.
            begin = int(message.get(7))
            self._put("4", [(123, "Y"), (36, str(self._next))], begin, [(43, "Y"), (122, now())])

    def _count(self, message: Message) -> None:
        if message.kind == "4":
            self._expected = max(self._expected, int(message.get(36) or 0))
        elif message.number == self._expected:
            self._expected += 1
        given = int(message.get(1181) or 0)
        if given > self._given:
            self._given = given
            self._got.append(message)
