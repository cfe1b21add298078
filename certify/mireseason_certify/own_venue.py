"""The venue that a desk is certified on: a gateway and the venue's program, in a folder of their own."""

from __future__ import annotations

import json
import secrets
import subprocess
import time
from collections.abc import Sequence
from dataclasses import dataclass, field
from decimal import Decimal
from pathlib import Path

from .played import Identity
from .ports import HOST, Port

START = 60.0  # seconds until the gateway is ready
READY = " ready address=%s:%d "  # its event
LOOK = 0.05  # seconds between two looks at what it says
MOST_TOLD = 1000  # characters of it, where it does not start
END = 30.0  # seconds in which it ends
DEALER_ROW = "quotes = 4096\nexposure = %d\n"
INVESTOR_ROW = "requests = 1024\nopen = 64\nquantity = %d\n"


class NoVenue(Exception):
    """The venue can't be started, or an operator's command was refused; the text says why."""


@dataclass(frozen=True)
class Bond:
    """A bond of this venue. Its grid is how many steps a point of its price has: 32, 64, 128 or 256; low and high are
    the ends of its band."""

    id: str
    grid: int
    low: Decimal = Decimal(80)
    high: Decimal = Decimal(120)


@dataclass(frozen=True)
class Cast:
    """Who and what is on this venue: the desk under test is one of the firms."""

    desk: Identity
    role: str  # dealer or investor
    dealers: Sequence[Identity]  # with the desk, if it is one
    investors: Sequence[Identity]
    bonds: Sequence[Bond]
    exposure: int  # of the desk's row, if it is a dealer; others have a thousand times as much
    quantity: int  # of an investor's row


@dataclass
class Programs:
    """What runs the venue."""

    gateway: Path
    admin: Path
    venue: Sequence[str]  # the words of the program

    def versions(self) -> dict[str, str]:
        """What each says of itself."""
        words = {"gateway": [str(self.gateway), "--version"], "program": [*self.venue, "--version"]}
        return {name: said_by(asked) for name, asked in words.items()}


def said_by(words: Sequence[str]) -> str:
    try:
        run = subprocess.run(words, capture_output=True, text=True, timeout=30, check=False)
    except (OSError, subprocess.TimeoutExpired):
        return "unknown"
    return (run.stdout.strip().splitlines() or ["unknown"])[0]


@dataclass
class OwnVenue:
    """One gateway with its day, started and ended by the cases. Its port is held until it is closed."""

    programs: Programs
    folder: Path
    cast: Cast
    _port: Port = field(default_factory=Port)
    _process: subprocess.Popen[bytes] | None = None

    @property
    def port(self) -> int:
        return self._port.number

    def write(self) -> None:
        """All its files. The passwords' hashes are made by the gateway."""
        keys = self.folder / "keys"
        run([self.programs.gateway, "--make-keys", keys], "the gateway makes no keys")
        (self.folder / "gateway.toml").write_text(self._gateway_text())
        (self.folder / "venue.toml").write_text(self._venue_text())
        credentials = self.folder / "credentials.toml"
        credentials.touch(0o600)
        credentials.write_text("".join(map(self._credentials_of, self._firms())))

    def start(self) -> None:
        """Returns once the gateway says that it is ready: at its port somebody else might answer."""
        words = [self.programs.gateway, self.folder / "gateway.toml"]
        with self._told.open("ab") as told:
            place = told.tell()
            self._process = subprocess.Popen(
                words, stdin=subprocess.DEVNULL, stdout=told, stderr=subprocess.STDOUT
            )
        until, ready = time.monotonic() + START, READY % (HOST, self.port)
        while ready not in self._told_since(place):
            if self._process.poll() is not None or time.monotonic() > until:
                self.kill()
                text = "the gateway does not start: %s"
                raise NoVenue(text % self._told_since(place)[-MOST_TOLD:])
            time.sleep(LOOK)

    def kill(self) -> None:
        """As a power cut ends it."""
        if self._process:
            self._process.kill()
            self._process.wait(END)
            self._process = None

    def stop(self) -> None:
        """As an operator ends it."""
        if self._process:
            self._process.terminate()
            try:
                self._process.wait(END)
            except subprocess.TimeoutExpired:
                self.kill()
            self._process = None

    def close(self) -> None:
        """Ends it for good, with its port."""
        self.stop()
        self._port.close()

    def order(self, *words: str) -> str:
        """What an operator's command answers."""
        socket_path = self.folder / "admin.sock"
        asked = [str(self.programs.admin), "--socket", str(socket_path), *words]
        return run(asked, "an operator's %s is refused" % words[0])

    def _firms(self) -> list[Identity]:
        return [*self.cast.dealers, *self.cast.investors]

    def _gateway_text(self) -> str:
        command = json.dumps([*self.programs.venue, "live", "--frames", "--marks"])
        return (
            '[venue]\ncommand = %s\nconfiguration = "venue.toml"\n'
            '[log]\nsqlite = "day-{date}.db"\n'
            '[seal]\nkey = "keys/seal.key"\nsigning_key = "keys/gateway.pem"\n'
            'gateways = ["keys/gateway.pub"]\ncheckpoints = "checkpoints"\n'
            '[fix]\nlisten = "%s"\nport = %d\ncredentials = "credentials.toml"\n'
            '[operator]\nsocket = "admin.sock"\n' % (command, HOST, self.port)
        )

    def _venue_text(self) -> str:
        text = "version = 3\n"
        for bond in self.cast.bonds:
            text += '[[bond]]\nid = "%s"\ngrid = %d\n' % (bond.id, bond.grid)
            text += 'low = "%s"\nhigh = "%s"\n' % (format(bond.low, "f"), format(bond.high, "f"))
        for who in self.cast.dealers:
            is_desk = who == self.cast.desk
            exposure = self.cast.exposure * (1 if is_desk else 1000)
            text += row("dealer", who) + DEALER_ROW % exposure
        for who in self.cast.investors:
            text += row("investor", who) + INVESTOR_ROW % self.cast.quantity
        return text

    def _credentials_of(self, who: Identity) -> str:
        line = who.password.encode() + b"\n"
        hashed = run([self.programs.gateway, "--hash"], "the gateway makes no hash", line)
        return '[%s]\nusername = "%s"\npassword = "%s"\n' % (who.name, who.name, hashed.strip())

    @property
    def _told(self) -> Path:
        """What the gateway wrote, of all its starts."""
        return self.folder / "gateway.told"

    def _told_since(self, place: int) -> str:
        return self._told.read_bytes()[place:].decode(errors="replace")


def row(kind: str, who: Identity) -> str:
    return '[[%s]]\nname = "%s"\ntraders = ["%s"]\n' % (kind, who.name, who.trader)


def run(words: Sequence[object], fault: str, line: bytes = b"") -> str:
    """What a command prints."""
    asked = [str(word) for word in words]
    try:
        done = subprocess.run(asked, input=line, capture_output=True, timeout=60, check=False)
    except (OSError, subprocess.TimeoutExpired) as why:
        raise NoVenue("%s: %s" % (fault, why)) from None
    if done.returncode != 0:
        said = (done.stderr + done.stdout).decode(errors="replace").strip()
        raise NoVenue("%s: %s" % (fault, said))
    return done.stdout.decode(errors="replace")


def password() -> str:
    """One that nobody guesses."""
    return secrets.token_urlsafe(12)
