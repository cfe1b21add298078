"""The gateway of a test: its configuration, its process, and the process of the venue behind it."""

import json
import os
import random
import re
import signal
import socket
import subprocess
from dataclasses import dataclass, field
from datetime import datetime, timezone
from functools import cache
from pathlib import Path

from tests.gateway.firm import Identity
from tests.gateway.ledger import Ledger, PostgresLog, read_ledger
from tests.gateway.wait import LONG, until, within

PORTS = range(10_000, 32_768)
TRIES = 1000


@dataclass(frozen=True)
class Programs:
    """What is tried: the gateway, and the words of the venue's program."""

    gateway: Path
    venue: tuple[str, ...]


def programs_of(gateway: Path, venue: list[str]) -> Programs:
    """With whole paths: the gateway's configuration is in another folder."""
    words = [str(Path(word).resolve()) if Path(word).exists() else word for word in venue]
    return Programs(gateway.resolve(), tuple(words))


def drawn_port(_: int) -> int:
    """Not by the seed: two processes would draw the same."""
    return random.SystemRandom().randrange(PORTS.start, PORTS.stop)


def today() -> str:
    return datetime.now(timezone.utc).strftime("%Y%m%d")


class Port:
    """A port of the loopback. As long as this stands nobody else is given it, but for who asks for it by its number.

    It is none of those that the kernel gives (from 32768 on): these it gives also to a second server, while the one that is to
    have it is started again.
    """

    def __init__(self) -> None:
        self._held = socket.socket()
        self.number: int = next(filter(self._is_had, map(drawn_port, range(TRIES))))
        # After bind(), so that no other socket shares it: now one with the same option, as a server's, may have it too.
        self._held.setsockopt(socket.SOL_SOCKET, socket.SO_REUSEADDR, 1)

    def close(self) -> None:
        """Others may be given it from now on. As an object that is gone: hold it as long as a program has the port."""
        self._held.close()

    def _is_had(self, number: int) -> bool:
        try:
            self._held.bind(("127.0.0.1", number))
        except OSError:
            return False
        return True


def venue_text(dealers: list[Identity], investors: list[Identity]) -> str:
    text = 'version = 1\ndate = "%s"\n[[bond]]\nid = "BONDA0000001"\n' % today()
    for who in dealers:
        text += (
            '[[dealer]]\nname = "%s"\ntraders = ["%s"]\nquotes = 4096\nexposure = 60000000\n'
            % (who.name, who.trader)
        )
    for who in investors:
        text += (
            '[[investor]]\nname = "%s"\ntraders = ["%s"]\nrequests = 1024\nopen = 64\nquantity = 5000000\n'
            % (who.name, who.trader)
        )
    return text


def quoted(words: tuple[str, ...]) -> str:
    return json.dumps(words)  # texts of JSON are texts of TOML


def seal_text(gateway: Path, folder: Path) -> str:
    """The part [seal] of a gateway that is the only one of its log, with keys that are made where there are none."""
    if not (folder / "keys").exists():
        subprocess.run([gateway, "--make-keys", folder / "keys"], capture_output=True, check=True)
    names = (
        'key = "keys/seal.key"\nsigning_key = "keys/gateway.pem"\ngateways = ["keys/gateway.pub"]\n'
    )
    return "[seal]\n" + names + 'checkpoints = "checkpoints"\n'


@cache
def hash_of(gateway: Path, password: str) -> str:
    """The hash of a password, made once for all gateways of the tests: it takes as long as an attacker's guess."""
    words, line = [str(gateway), "--hash"], password.encode() + b"\n"
    run = subprocess.run(words, input=line, capture_output=True, check=True)
    return run.stdout.decode().strip()


@dataclass
class Door:
    programs: Programs
    folder: Path
    dealers: list[Identity]
    investors: list[Identity]
    limits: dict[str, int] = field(default_factory=dict)
    tls: dict[str, str] = field(default_factory=dict)
    environment: dict[str, str] = field(default_factory=dict)
    cancelled: dict[str, str] = field(
        default_factory=dict
    )  # of a dealer: the trader that cancels when it is gone
    postgres: PostgresLog | None = None  # the log, in the place of a file of SQLite
    sends: tuple[str, ...] = ()  # the program that is given each checkpoint, and its words
    operators: str | None = (
        None  # the group that may use the operator's socket, none where empty; None: no socket
    )
    process: subprocess.Popen[bytes] | None = None
    _hashes: dict[str, str] = field(default_factory=dict)
    _sessions_port: Port = field(default_factory=Port)
    _metrics_port: Port = field(default_factory=Port)

    @property
    def running(self) -> subprocess.Popen[bytes]:
        """The gateway's process, which was started."""
        assert self.process is not None, "the gateway is not started"
        return self.process

    @property
    def port(self) -> int:
        return self._sessions_port.number

    @property
    def metrics(self) -> int:
        return self._metrics_port.number

    @property
    def database(self) -> Path:
        """The log of today, where it is a file."""
        return self.folder / self.database_name.replace("{date}", today())

    @property
    def database_name(self) -> str:
        """Each day has a log of its own, unless the venue's configuration has a date."""
        venue = self.folder / "venue.toml"
        is_dated = not venue.exists() or re.search("^date = ", venue.read_text(), re.MULTILINE)
        return "day.db" if is_dated else "day-{date}.db"

    @property
    def told(self) -> Path:
        """What the gateway wrote to standard output and standard error, of all its starts."""
        return self.folder / "gateway.told"

    def write(self) -> None:
        """The gateway's configuration, the firms' credentials, and the venue's own configuration if there is none."""
        command = quoted((*self.programs.venue, "live", "--frames", "--marks"))
        text = '[venue]\ncommand = %s\nconfiguration = "venue.toml"\n' % command
        text += "[log]\n" + self.log_text() + self.seal_text()
        text += (
            '[fix]\nlisten = "127.0.0.1"\nport = %d\ncredentials = "credentials.toml"\n' % self.port
        )
        if self.tls:
            text += "[tls]\n" + "".join("%s = %s\n" % item for item in self.tls.items())
        text += "[limits]\n" + "".join("%s = %d\n" % item for item in self.limits.items())
        text += "[metrics]\nport = %d\n" % self.metrics
        if self.operators is not None:
            text += '[operator]\nsocket = "admin.sock"\n' + (
                'group = "%s"\n' % self.operators if self.operators else ""
            )
        (self.folder / "gateway.toml").write_text(text)
        venue = self.folder / "venue.toml"
        if not venue.exists():
            venue.write_text(venue_text(self.dealers, self.investors))
        self.write_credentials()

    def log_text(self) -> str:
        if self.postgres is None:
            return 'sqlite = "%s"\n' % self.database_name
        return "postgres = %s\nschema = %s\n" % (
            json.dumps(self.postgres.connection),
            json.dumps(self.postgres.schema.replace(today(), "{date}")),
        )

    @property
    def keys(self) -> Path:
        return self.folder / "keys"

    @property
    def kept(self) -> Path:
        """The last checkpoint of the log, which the gateway keeps outside of its database."""
        return self.folder / "checkpoints" / ("day-%s.checkpoint" % today())

    def seal_text(self) -> str:
        send = "send = %s\n" % quoted(self.sends) if self.sends else ""
        return seal_text(self.programs.gateway, self.folder) + send

    def write_credentials(self) -> None:
        text = ""
        for who in self.dealers + self.investors:
            if who.name not in self._hashes:
                self._hashes[who.name] = self.hashed(who.password)
            text += '[%s]\nusername = "%s"\npassword = "%s"\n' % (
                who.name,
                who.name,
                self._hashes[who.name],
            )
            if who.name in self.cancelled:
                text += 'cancel_on_disconnect = "%s"\n' % self.cancelled[who.name]
        file = self.folder / "credentials.toml"
        file.write_text(text)
        file.chmod(0o600)

    def hashed(self, password: str) -> str:
        return hash_of(self.programs.gateway, password)

    def start(self) -> None:
        self.process = subprocess.Popen(
            [self.programs.gateway, self.folder / "gateway.toml"],
            stdin=subprocess.DEVNULL,
            stdout=self.told.open("ab"),
            stderr=subprocess.STDOUT,
            env={**os.environ, **self.environment},
        )

    def is_open(self) -> bool:
        with socket.socket() as probe:
            return probe.connect_ex(("127.0.0.1", self.port)) == 0

    def wait_open(self, limit: float = LONG) -> None:
        until("the gateway takes connections", limit, lambda: self.is_open() or self.has_ended())
        if self.has_ended():
            raise RuntimeError("the gateway ended: %s" % self.last_words())

    def has_ended(self) -> bool:
        return self.process is not None and self.process.poll() is not None

    def wait_end(self, limit: float = LONG) -> int:
        """Its status, once it has ended by itself."""
        until("the gateway ends", limit, self.has_ended)
        return self.running.returncode

    def last_words(self) -> str:
        return self.told.read_text(errors="replace")[-2000:]

    def children(self) -> list[int]:
        """The processes that the gateway has started."""
        task = Path("/proc/%d/task/" % self.running.pid)
        found = []
        for file in task.glob("*/children"):
            try:
                found += [int(word) for word in file.read_text().split()]
            except (FileNotFoundError, ProcessLookupError):
                continue
        return found

    def venues(self) -> list[int]:
        """Those of them that are a venue: not one that is the gateway's own program still, or again. A leak checker looks
        at its process from such a one, and waits for its word for ever where that was ended."""
        own = program_of(self.running.pid)
        return [pid for pid in self.children() if program_of(pid) not in (None, own)]

    def kill(self) -> None:
        """Ends the gateway by SIGKILL; its venue has to end by itself."""
        started = self.children()
        self.running.kill()
        self.running.wait()
        until(
            "the venue of a gateway that is gone ends",
            LONG,
            lambda: not any(is_running(pid) for pid in started),
        )

    def kill_venue(self) -> bool:
        """Ends the venue by SIGKILL; whether there was one."""
        venues = self.venues()
        for pid in venues:
            try:
                os.kill(pid, signal.SIGKILL)
            except ProcessLookupError:
                pass
        return bool(venues)

    def stop(self, limit: float = LONG) -> int:
        self.running.terminate()
        return self.wait_end(limit)

    def close(self) -> None:
        """Ends what is still there."""
        if self.process and not self.has_ended():
            started = self.children()
            self.process.kill()
            self.process.wait()
            within(LONG, lambda: not any(is_running(pid) for pid in started))

    def ledger(self) -> Ledger:
        return read_ledger(self.postgres or self.database)


def program_of(pid: int) -> str | None:
    """The file that a process runs; None where it has ended."""
    try:
        return os.readlink("/proc/%d/exe" % pid)
    except (FileNotFoundError, ProcessLookupError):
        return None


def is_running(pid: int) -> bool:
    try:
        return Path("/proc/%d/stat" % pid).read_text().rsplit(")", 1)[1].split()[0] != "Z"
    except (FileNotFoundError, ProcessLookupError):
        return False


def stands_still(task: Path) -> bool:
    """A thread (its folder below /proc) that was stopped, or is gone."""
    try:
        return (task / "stat").read_text().rsplit(")", 1)[1].split()[0] in "TtXZ"
    except OSError:
        return True


def bring_to_a_stop(pid: int) -> None:
    """SIGSTOP, and a wait until it has worked: on a busy machine a thread goes on for a while."""
    os.kill(pid, signal.SIGSTOP)
    tasks = Path("/proc/%d/task" % pid)
    until("process %d stands still" % pid, LONG, lambda: all(map(stands_still, tasks.iterdir())))
