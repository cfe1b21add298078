"""A firm of a test: its stock QuickFIX initiator, which can be ended and started again, and what it was sent."""

import os
import subprocess
from collections import deque
from dataclasses import dataclass, field
from pathlib import Path
from typing import IO

from tests.gateway.wait import LONG, until
from tests.model.frames import SOH, read_fields

SESSION_TAGS = (8, 9, 10, 35, 49, 56, 34, 52, 43, 97, 122)  # of the frame and the session's header
VENUE_NUMBER, VENUE_MOMENT = 1181, 60

Fields = list[tuple[int, bytes]]


@dataclass(frozen=True)
class Identity:
    """Who a firm is to the gateway."""

    name: str
    trader: str
    password: str


@dataclass(frozen=True)
class Received:
    """A message of the venue as its firm got it."""

    raw: bytes
    fields: tuple[tuple[int, bytes], ...]
    moment: int  # nanoseconds of the machine's monotonic clock

    def value(self, tag: int) -> bytes | None:
        return next((value for other, value in self.fields if other == tag), None)

    def given(self, tag: int) -> bytes:
        """The value of a field that it has to have."""
        value = self.value(tag)
        assert value is not None, "there is no %d in %r" % (tag, self.raw)
        return value

    @property
    def kind(self) -> bytes:
        return self.value(35) or b""

    @property
    def session_number(self) -> int:
        return int(self.value(34) or 0)

    @property
    def venue_number(self) -> int:
        return int(self.value(VENUE_NUMBER) or 0)

    @property
    def body(self) -> tuple[tuple[int, bytes], ...]:
        """The venue's own fields, in their order."""
        return tuple(
            item
            for item in self.fields
            if item[0] not in SESSION_TAGS + (VENUE_NUMBER, VENUE_MOMENT)
        )


def received_of(raw: bytes, moment: int = 0) -> Received:
    fields = []
    for part in raw.removesuffix(SOH).split(SOH):
        tag, _, value = part.partition(b"=")
        fields.append((int(tag), value))
    return Received(raw, tuple(fields), moment)


def read_received(line: bytes) -> Received:
    """A line of a player's file."""
    moment, digits = line.split(b" ")
    return received_of(bytes.fromhex(digits.decode()), int(moment))


def frame(kind: str, fields: Fields) -> bytes:
    """Bytes of a message that a player reads; the engine puts its own header and trailer."""
    body = b"".join(b"%d=%s\x01" % item for item in fields)
    head = b"35=%s\x0149=X\x0156=Y\x0134=1\x0152=20250314-09:00:00\x01" % kind.encode()
    text = b"8=FIXT.1.1\x019=%d\x01" % (len(head) + len(body)) + head + body
    return text + b"10=%03d\x01" % (sum(text) % 256)


def pipe(end: IO[bytes] | None) -> IO[bytes]:
    """An end of a pipe that a process was started with."""
    assert end is not None
    return end


@dataclass
class Places:
    """Where a test's files are."""

    player: Path
    folder: Path
    dictionaries: tuple[Path, Path]  # of the transport, of the messages
    port: int


def settings_text(places: Places, who: Identity, more: dict[str, str]) -> str:
    transport, messages = places.dictionaries
    values = {
        "ConnectionType": "initiator",
        "BeginString": "FIXT.1.1",
        "DefaultApplVerID": "9",
        "SenderCompID": who.name,
        "TargetCompID": "VENUE",
        "SocketConnectHost": "127.0.0.1",
        "SocketConnectPort": str(places.port),
        "SocketNodelay": "Y",
        "HeartBtInt": "10",
        "ReconnectInterval": "1",
        "StartTime": "00:00:00",
        "EndTime": "23:59:59",
        "FileStorePath": str(places.folder / who.name),
        "UseDataDictionary": "Y",
        "TransportDataDictionary": str(transport),
        "AppDataDictionary": str(messages),
        **more,
    }
    return "[DEFAULT]\n" + "".join("%s=%s\n" % item for item in values.items()) + "[SESSION]\n"


@dataclass
class Firm:
    places: Places
    who: Identity
    more: dict[str, str] = field(
        default_factory=dict
    )  # settings of the engine beside the usual ones
    tls: bool = False
    environment: dict[str, str] = field(default_factory=dict)
    received: list[Received] = field(default_factory=list)  # each message that came, also again
    told: dict[str, Fields] = field(
        default_factory=dict
    )  # what it was told to send under a name, with 35
    sent: dict[str, int] = field(
        default_factory=dict
    )  # the session number under which a named message is in the store
    refused: dict[str, str] = field(default_factory=dict)
    admin: list[Received] = field(default_factory=list)  # the engine's own Rejects and Logouts
    is_on: bool = False
    times_on: int = 0
    process: subprocess.Popen[bytes] | None = None
    _read: int = 0
    _printed: bytes = b""
    _fresh: deque[Received] = field(default_factory=deque)

    @property
    def name(self) -> str:
        return self.who.name

    @property
    def running(self) -> subprocess.Popen[bytes]:
        """Its initiator's process, which was started."""
        assert self.process is not None, "%s is not started" % self.name
        return self.process

    @property
    def file(self) -> Path:
        return self.places.folder / (self.name + ".received")

    def start(self) -> None:
        settings = self.places.folder / (self.name + ".cfg")
        settings.write_text(settings_text(self.places, self.who, self.more))
        words = [
            str(self.places.player),
            str(settings),
            str(self.file),
            self.name,
            self.who.password,
        ]
        self.process = subprocess.Popen(
            words + ["tls"] * self.tls,
            stdin=subprocess.PIPE,
            stdout=subprocess.PIPE,
            stderr=(self.places.folder / (self.name + ".told")).open("ab"),
            env={**os.environ, **self.environment},
        )
        os.set_blocking(pipe(self.process.stdout).fileno(), False)
        self.is_on, self._printed = False, b""

    def order(self, line: str) -> None:
        try:
            pipe(self.running.stdin).write(line.encode() + b"\n")
            pipe(self.running.stdin).flush()
        except BrokenPipeError:
            pass  # it was ended; what it was told is not done

    def send(self, name: str, kind: str, fields: Fields) -> None:
        self.told[name] = [(35, kind.encode()), *fields]
        self.order("send %s %s" % (name, frame(kind, fields).hex()))

    def look(self) -> None:
        """Takes what the player printed and put into its file since the last look."""
        self._look_at_output()
        if not self.file.exists():
            return
        with self.file.open("rb") as file:
            file.seek(self._read)
            data = file.read()
        whole = data[: data.rfind(b"\n") + 1]
        self._read += len(whole)
        for line in whole.splitlines():
            message = read_received(line)
            self.received.append(message)
            self._fresh.append(message)

    def looked(self) -> list[Received]:
        """Each message that has come by now."""
        self.look()
        return self.received

    def fresh(self) -> list[Received]:
        """The messages since the last call."""
        self.look()
        found = list(self._fresh)
        self._fresh.clear()
        return found

    def _look_at_output(self) -> None:
        while self.process and (data := pipe(self.process.stdout).read()):
            self._printed += data
        *lines, self._printed = self._printed.split(b"\n")
        for line in lines:
            self._take(line.decode().split(" ", 2))

    def _take(self, words: list[str]) -> None:
        if words[0] in ("on", "off"):
            self.is_on = words[0] == "on"
            self.times_on += self.is_on
        elif words[0] == "sent":
            self.sent[words[1]] = int(words[2])
        elif words[0] == "refused":
            self.refused[words[1]] = words[2]
        elif words[0] == "admin":
            self.admin.append(received_of(bytes.fromhex(words[1])))

    def logged_on(self) -> bool:
        self.look()
        return self.is_on

    def wait_on(self, limit: float = LONG) -> None:
        until("%s logs on" % self.name, limit, self.logged_on)

    def wait_sent(self, name: str, limit: float = LONG) -> int:
        def done() -> bool:
            self.look()
            return name in self.sent or name in self.refused

        until("%s has sent %s" % (self.name, name), limit, done)
        return self.sent.get(name, 0)

    def kill(self) -> None:
        """Ends the initiator by SIGKILL, and takes what it had printed and put down."""
        self.running.kill()
        self.running.wait()
        self.look()
        self._close()

    def stop(self, limit: float = LONG) -> None:
        self.order("quit")
        self.running.wait(limit)
        self.look()
        self._close()

    def _close(self) -> None:
        pipe(self.running.stdin).close()
        pipe(self.running.stdout).close()
        self.process, self.is_on = None, False


def of_bars(text: str) -> list[tuple[int, bytes]]:
    """Fields written with bars between them."""
    fields = read_fields(text.encode() + b"|", b"|")
    assert fields is not None, text
    return fields
