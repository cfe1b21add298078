"""The gateway of examples/gateway, for somebody who tries an engine against it: a firm that has lost its store gets in again by
what CONNECTING says."""

import json
import re
import shutil
import socket
import subprocess
from collections.abc import Iterator
from dataclasses import dataclass
from pathlib import Path

import pytest

from tests.gateway.door import Port, today
from tests.gateway.stage import Tools
from tests.gateway.wait import LONG, until
from tests.gateway.wire import Wire
from tests.harness.options import ROOT

EXAMPLE = ROOT / "examples" / "gateway"


@dataclass
class Example:
    folder: Path
    gateway: Path
    port: int

    def admin(self, *words: str) -> "subprocess.CompletedProcess[str]":
        program = self.gateway.parent / "mireseason-admin"
        command = [str(program), "--socket", str(self.folder / "admin.sock"), *words]
        return subprocess.run(command, capture_output=True, text=True, timeout=LONG, check=False)

    def is_open(self) -> bool:
        with socket.socket() as probe:
            return probe.connect_ex(("127.0.0.1", self.port)) == 0


@pytest.fixture
def example(tools: Tools, place: Path) -> Iterator[Example]:
    """As examples/gateway/run.sh makes it: today's date, ports that are free, and the venue's program that is tried."""
    for name in ("gateway.toml", "venue.toml", "credentials.toml"):
        shutil.copy(EXAMPLE / name, place / name)
    (place / "credentials.toml").chmod(0o600)
    port, metrics = Port(), Port()
    made = Example(place, tools.programs.gateway, port.number)
    command = json.dumps([*tools.programs.venue, "live", "--frames", "--marks"])
    file = place / "gateway.toml"
    text = re.sub("(?m)^command = .*", lambda _: "command = " + command, file.read_text())
    text = text.replace("port = 9878", "port = %d" % made.port)
    file.write_text(text.replace("port = 9879", "port = %d" % metrics.number))
    file = place / "venue.toml"
    file.write_text(re.sub("(?m)^date = .*", 'date = "%s"' % today(), file.read_text()))
    keys = [str(made.gateway), "--make-keys", str(place / "keys")]
    subprocess.run(keys, check=True, capture_output=True)
    with (place / "events").open("wb") as events:
        process = subprocess.Popen([made.gateway, file.parent / "gateway.toml"], stderr=events)
    try:
        until("it takes connections", LONG, lambda: made.is_open() or process.poll() is not None)
        assert process.poll() is None, (place / "events").read_text()
        yield made
    finally:
        process.terminate()
        process.wait(LONG)
        port.close()
        metrics.close()


def is_let_in(example: Example, number: int) -> bool:
    """Whether a Logon of DLR1 with this number is answered by one; nothing of a session follows where it is not."""
    with Wire(example.port) as wire:
        wire.number = number
        assert wire.logon(b"DLR1", b"dlr1-secret", user=b"desk-1")
        return wire.read_kind(b"A") is not None


@pytest.mark.parametrize("word", ["reset-session", "release"])
def test_a_store_that_is_lost(example: Example, word: str) -> None:
    """It is refused again and again, and let in once its operator has said the word: from 1 on, or with the numbers of its old
    store."""
    until("it is let in", LONG, lambda: is_let_in(example, 1))
    for _ in range(2):
        assert not is_let_in(example, 1), "an engine without its store is let in"
    assert not is_let_in(example, 2), "its climbing numbers let it in"
    done = example.admin(word, "DLR1")
    assert done.returncode == 0, done.stderr
    assert is_let_in(example, 1 if word == "reset-session" else 2)
