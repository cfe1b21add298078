"""The next day's Logon, under a clock that is moved for the tool, its venue and the desk."""

import json
import os
import re
import subprocess
import sys
from collections.abc import Callable, Iterator
from contextlib import contextmanager
from dataclasses import dataclass
from pathlib import Path

import pytest
from mireseason_certify.ports import Port

from tests.certify.own_desk import OwnDesk
from tests.gateway.stage import Tools
from tests.gateway.wait import LONG, at_this_load, until
from tests.harness.options import ROOT

COMMAND = [sys.executable, str(ROOT / "certify" / "mireseason-certify"), "TESTDESK"]
SETTING = re.compile(r"(?m)^(LD_PRELOAD|CLOCK_PASSED) +(\S+)$")
MOST = 300  # seconds of a run
PATIENCE, PATIENCE_OF_OWN = 8, 20  # seconds on a machine that is free


@dataclass
class Tool:
    """One run of the command, and what it prints."""

    told: Path
    process: "subprocess.Popen[bytes]"

    @property
    def settings(self) -> str:
        """All that it prints before it waits for the desk: the clock is the last of it."""
        until("it prints its settings", LONG, lambda: "CLOCK_PASSED" in self.told.read_text())
        return self.told.read_text()

    @property
    def page(self) -> int:
        found = re.search(r"http://127.0.0.1:([0-9]+)/", self.settings)
        assert found, self.settings
        return int(found[1])

    @property
    def clock(self) -> dict[str, str]:
        """What a desk has to be started with."""
        return dict(SETTING.findall(self.settings))

    def outcomes(self) -> dict[str, str]:
        """Once it has ended by itself: each case with what came of it, and why."""
        self.process.wait(at_this_load(MOST))
        assert not Path(self.clock["CLOCK_PASSED"]).exists(), "the clock's file is left"
        report = json.loads(self.told.with_name("certified-TESTDESK.json").read_text())
        assert "next day" not in report["not_tried"]
        return {one["name"]: (one["outcome"] + " " + one["why"]) for one in report["outcomes"]}


@pytest.fixture
def start(tools: Tools, tmp_path: Path) -> Iterator[Callable[[str, int], Tool]]:
    """start(role, patience). A desk asks for the tool's ports longer than the tool stands, which has to have them alone."""
    started: list[Tool] = []
    relay, page = Port(), Port()

    def run(role: str, patience: int) -> Tool:
        words = ["--role", role, "--only", "next-day"]
        words += ["--patience", "%.1f" % at_this_load(patience)]
        words += ["--port", str(relay.number), "--page", str(page.number)]
        words += ["--out", str(tmp_path), "--clock", str(tools.shim)]
        words += ["--gateway", str(tools.programs.gateway.parent)]
        words += ["--venue", *tools.programs.venue]
        with (tmp_path / "told").open("wb") as file:
            process = subprocess.Popen(
                [*COMMAND, *words], stdin=subprocess.DEVNULL, stdout=file, stderr=file
            )
        started.append(Tool(tmp_path / "told", process))
        return started[-1]

    yield run
    for tool in started:
        tool.process.terminate()
        tool.process.wait(LONG)
    for port in (relay, page):
        port.close()


@contextmanager
def desk_of(tool: Tool, kind: str) -> Iterator[None]:
    """A desk that is started as the tool says."""
    desk = subprocess.Popen(
        [sys.executable, "-m", "tests.certify.night_desk", str(tool.page), kind],
        cwd=ROOT,
        env={**os.environ, **tool.clock, "PYTHONPATH": str(ROOT / "certify")},
        stdin=subprocess.PIPE,
    )
    try:
        yield
    finally:
        desk.communicate(timeout=LONG)


@pytest.mark.parametrize("role", ["dealer", "investor"])
def test_a_right_desk_passes(start: Callable[[str, int], Tool], role: str) -> None:
    tool = start(role, PATIENCE)
    with desk_of(tool, "right"):
        outcomes = tool.outcomes()
    assert "next-day" in outcomes and set(outcomes.values()) == {"passed "}, outcomes


def test_numbers_of_yesterday(start: Callable[[str, int], Tool]) -> None:
    tool = start("investor", PATIENCE)
    with desk_of(tool, "keeps"):
        outcomes = tool.outcomes()
    last = outcomes.pop("next-day")
    assert last.startswith("failed the day's first Logon has number"), last
    assert set(outcomes.values()) == {"passed "}, outcomes


def test_the_desk_of_this_repository_passes(
    start: Callable[[str, int], Tool],
    desk_program: Path,
    tmp_path: Path,
    monkeypatch: pytest.MonkeyPatch,
) -> None:
    tool = start("dealer", PATIENCE_OF_OWN)
    for name, value in tool.clock.items():
        monkeypatch.setenv(name, value)
    folder = tmp_path / "desk"
    folder.mkdir()
    desk = OwnDesk(desk_program, folder, "dealer", tool.page)
    try:
        desk.start()
        outcomes = tool.outcomes()
    finally:
        fault = desk.close()
    assert "next-day" in outcomes and set(outcomes.values()) == {"passed "}, outcomes
    assert fault == ""
