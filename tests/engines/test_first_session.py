"""The first session of docs/CONNECTING.md, word for word: its program and its settings, with another port and another password.
"""

import os
import re
import subprocess
from collections.abc import Iterator
from contextlib import contextmanager
from pathlib import Path

import pytest

from tests.gateway.stage import DEALER, Stage
from tests.gateway.wait import LONG, until
from tests.harness.options import ROOT

PAGE = (ROOT / "docs" / "CONNECTING.md").read_text()
BUILD = "g++ -std=c++14 -Wno-deprecated -o first first.cpp -lquickfix -lpthread"


def block(kind: str) -> str:
    """The only one of its kind on the page."""
    (found,) = re.findall(r"(?s)\n```%s\n(.*?)```\n" % kind, PAGE)
    return str(found)


@pytest.fixture
def folder(stage: Stage, place: Path) -> Path:
    """Where a developer of DLR1 has program, settings and dictionaries."""
    made = place / "developer"
    made.mkdir()
    (made / "fix").symlink_to(ROOT / "fix")
    (made / "first.cpp").write_text(block("cpp"))
    settings = block("ini").replace("Port=9878", "Port=%d" % stage.door.port)
    (made / "desk.cfg").write_text(settings.replace("=secret", "=" + DEALER.password))
    assert BUILD in PAGE
    subprocess.run(BUILD.split(), cwd=made, check=True, timeout=LONG)
    return made


@contextmanager
def running(folder: Path) -> Iterator["subprocess.Popen[bytes]"]:
    """The program, until Enter is pressed; what it prints is in the file `told`."""
    with (folder / "told").open("wb") as told:
        process = subprocess.Popen(["./first"], cwd=folder, stdin=subprocess.PIPE, stdout=told)
        try:
            yield process
            process.communicate(b"\n", timeout=LONG)
        finally:
            process.kill()
            process.wait()


def says(folder: Path, words: str) -> None:
    told = folder / "told"
    until("it prints %r" % words, LONG, lambda: words in told.read_text())


def test_it_logs_on_and_is_shown_a_request(stage: Stage, folder: Path) -> None:
    """And again with the store of the first time."""
    stage.open(stage.investor)
    with running(folder):
        says(folder, "logged on\n")
        stage.ask_of([stage.dealer])
        says(folder, "|35=R|")
    assert os.listdir(folder / "store")
    with running(folder):
        says(folder, "logged on\n")
        stage.ask_of([stage.dealer])
        says(folder, "|131=R2|")
