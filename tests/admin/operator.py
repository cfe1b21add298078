"""An operator of the gateway under test, who calls mireseason-admin."""

import json
import os
import re
import socket
import subprocess
from dataclasses import dataclass
from pathlib import Path
from typing import Any

from tests.gateway.stage import Stage
from tests.gateway.wait import LONG, until
from tests.harness.options import ROOT

NOTE = re.compile(rb"# (act|clock|gateway) [0-9:.]{12} [ -~]+")


@dataclass(frozen=True)
class Said:
    """What the program printed, and its status."""

    status: int
    out: str
    err: str

    @property
    def text(self) -> str:
        return self.out + self.err


def socket_of(stage: Stage) -> Path:
    return stage.folder / "admin.sock"


def admin(stage: Stage, *words: str, at: Path | None = None) -> Said:
    """One call, by the user of the tests."""
    program = stage.door.programs.gateway.parent / "mireseason-admin"
    command = [str(program), "--socket", str(at or socket_of(stage)), *words]
    done = subprocess.run(command, capture_output=True, timeout=LONG, check=False)
    return Said(
        done.returncode, done.stdout.decode(errors="replace"), done.stderr.decode(errors="replace")
    )


def did(stage: Stage, *words: str, at: Path | None = None) -> str:
    """The answer to a call that has to be done."""
    said = admin(stage, *words, at=at)
    assert said.status == 0, "%s: status %d, %s" % (" ".join(words), said.status, said.text)
    return said.out


def wait_open(stage: Stage) -> None:
    """Until the gateway takes an operator's commands too, which is some time after it takes connections."""
    stage.door.wait_open()
    until("it takes commands", LONG, lambda: admin(stage, "firms").status == 0)


def rows(stage: Stage, *words: str, at: Path | None = None) -> list[dict[str, Any]]:
    """The rows of an answer as JSON."""
    found: list[dict[str, Any]] = json.loads(did(stage, "--json", *words, at=at))["rows"]
    return found


def firm_row(stage: Stage, name: str) -> dict[str, Any]:
    return next(row for row in rows(stage, "firms") if row["firm"] == name)


def connected(path: Path) -> socket.socket:
    """A connection that says nothing yet."""
    made = socket.socket(socket.AF_UNIX, socket.SOCK_STREAM)
    made.connect(str(path))  # waits for room in its queue, which one with a limit of time does not
    made.settimeout(LONG)
    return made


def answer_to(path: Path, data: bytes) -> bytes:
    """What is answered to these bytes, whatever they are."""
    with connected(path) as connection:
        try:
            connection.sendall(data)
        except OSError:
            pass  # it was closed meanwhile, and the answer says why
        return rest_of(connection)


def rest_of(connection: socket.socket) -> bytes:
    """All that still comes on a connection, until it is closed."""
    answer = b""
    while True:
        try:
            data = connection.recv(65536)
        except ConnectionError:
            return answer
        if not data:
            return answer
        answer += data


def acts(stage: Stage) -> list[bytes]:
    """The lines of all acts in the log, which have to be lines of their own."""
    lines = [
        entry.line
        for entry in stage.door.ledger().entries[1:]
        if entry.firm is None and entry.line.startswith(b"#")
    ]
    for line in lines:
        assert NOTE.fullmatch(line) and len(line) <= 200, "a note is %r" % line
    return [line for line in lines if line.startswith(b"# act ")]


def audit(stage: Stage, *words: str) -> Said:
    """The audit of the log as it stands: a command and what stands behind the log."""
    door = stage.door
    log = (
        [str(door.database)]
        if door.postgres is None
        else ["postgres:" + door.postgres.connection, "--schema", door.postgres.schema]
    )
    command = [
        str(ROOT / "audit" / "mireseason-audit"),
        words[0],
        *log,
        "--venue",
        " ".join(stage.tools.programs.venue),
        *words[1:],
    ]
    done = subprocess.run(command, capture_output=True, text=True, timeout=LONG, check=False)
    return Said(done.returncode, done.stdout, done.stderr)


def is_root() -> bool:
    return os.geteuid() == 0


def said_as(user: str, group: str, path: Path, line: bytes, others: tuple[str, ...] = ()) -> str:
    """What another user, who is in these groups alone, is answered to a line; `no` and the reason where it can't connect."""
    script = (
        "import socket, sys\n"
        "s = socket.socket(socket.AF_UNIX)\n"
        "try:\n    s.connect(sys.argv[1])\nexcept OSError as fault:\n    print('no', fault.strerror); sys.exit()\n"
        "s.settimeout(60)\n"
        "try:\n    s.sendall(sys.stdin.buffer.read())\nexcept OSError:\n    pass\n"
        "try:\n    while data := s.recv(65536):\n        sys.stdout.buffer.write(data)\nexcept ConnectionError:\n    pass\n"
    )
    command = ["/usr/bin/python3", "-c", script, str(path)]
    done = subprocess.run(
        command,
        input=line,
        capture_output=True,
        user=user,
        group=group,
        extra_groups=others,
        cwd="/",
        timeout=LONG,
        check=True,
    )
    return done.stdout.decode()
