"""A plugin of pytest (`-p tests.mutants.drawn.recorder`) that records through which lines each test passes.

Python: `recording/sitecustomize.py` marks them, in pytest's own process and in each program that it starts. What a fixture of a
module or a class does is recorded as the fixture's, and counts for each test that takes it. C++: a program of `together.py` marks
its functions in the same way. JavaScript: node itself records it.
"""

import hashlib
import json
import os
from collections.abc import Iterator
from contextlib import contextmanager
from pathlib import Path

import pytest
from _pytest.fixtures import FixtureDef

from tests.harness.durations import FILE, read_durations
from tests.harness.reports import without_group
from tests.mutants.drawn.recording.sitecustomize import CURRENT, FOLDER, Recording

HERE = Path(__file__).resolve().parent / "recording"
NODE = "NODE_V8_COVERAGE"  # in the environment, and the folder of a recording: where node writes what it ran
NOBODY = "nobody"  # whose lines those are that run before the first test


def marks_name(who: str) -> str:
    """The name of the file that has the marks of a test or a fixture."""
    return hashlib.sha256(who.encode()).hexdigest()[:32]


def pytest_addoption(parser: pytest.Parser) -> None:
    parser.addoption("--record", type=Path, help="the folder into which the lines are recorded")
    parser.addoption("--below", type=float, help="only tests that take less seconds")


class Recorder:
    """One process of pytest."""

    def __init__(self, folder: Path) -> None:
        self.folder = folder
        self.current = folder / ("current-%d" % os.getpid())
        self.who = NOBODY
        self.current.write_text(marks_name(self.who))
        os.environ[FOLDER], os.environ[CURRENT] = str(folder), str(self.current)
        self.own = Recording(folder)
        # The modules of this process keep their marks, whose lines go to whoever runs.
        self.own.marks = self.own.marks_of("process-%d" % os.getpid())
        self.own.begin()

    def switch(self, who: str) -> None:
        """From here on another test or fixture passes through lines; what was passed through is its predecessor's."""
        marks = self.own.marks_of(marks_name(self.who))
        at = self.own.marks.find(b"\1")
        while at >= 0:
            marks[at] = 1
            at = self.own.marks.find(b"\1", at + 1)
        marks.close()
        self.own.marks[:] = bytes(self.own.size)
        self.who = who
        self.current.write_text(marks_name(who))

    @contextmanager
    def during(self, who: str) -> Iterator[None]:
        before = self.who
        self.switch(who)
        try:
            yield
        finally:
            self.switch(before)

    @pytest.hookimpl(trylast=True)  # type: ignore[misc]
    def pytest_collection_modifyitems(
        self, config: pytest.Config, items: list[pytest.Item]
    ) -> None:
        longest, seconds = config.option.below, read_durations(FILE.read_text())
        if longest is not None:
            items[:] = [item for item in items if seconds.get(item.nodeid, 0.0) < longest]

    def pytest_collection_finish(self, session: pytest.Session) -> None:
        """Whose lines are a test's: its own, and those of the fixtures that it shares."""
        found = {name_of(item): [name_of(item), *shared_by(item)] for item in session.items}
        (self.folder / ("tests-%d.json" % os.getpid())).write_text(json.dumps(found))

    @pytest.hookimpl(tryfirst=True)  # type: ignore[misc]
    def pytest_runtest_setup(self, item: pytest.Item) -> None:
        self.switch(name_of(item))
        os.environ[NODE] = str(self.folder / NODE / marks_name(self.who))

    @pytest.hookimpl(hookwrapper=True)  # type: ignore[misc]
    def pytest_fixture_setup(
        self, fixturedef: FixtureDef[object], request: pytest.FixtureRequest
    ) -> Iterator[None]:
        if fixturedef.scope == "function":
            yield
            return
        with self.during(fixture_name(fixturedef)):
            yield

    def pytest_sessionfinish(self) -> None:
        self.switch(NOBODY)


def name_of(item: pytest.Item) -> str:
    return without_group(item.nodeid)


def fixture_name(definition: FixtureDef[object]) -> str:
    return "%s fixture %s" % (definition.baseid, definition.argname)


def shared_by(item: pytest.Item) -> list[str]:
    """The fixtures that a test takes together with others."""
    if not isinstance(item, pytest.Function):
        return []
    taken = (definitions[-1] for definitions in item._fixtureinfo.name2fixturedefs.values())
    return [fixture_name(each) for each in taken if each.scope != "function"]


@pytest.hookimpl(tryfirst=True)  # type: ignore[misc]
def pytest_load_initial_conftests(early_config: pytest.Config) -> None:
    """Before conftest.py, whose plugins import modules that may be recorded."""
    recorder = Recorder(early_config.known_args_namespace.record)
    early_config.pluginmanager.register(recorder, "recorder of lines")


def pytest_configure() -> None:
    """Plugins of conftest.py, which come later, are called before: PYTHONPATH for what the tests start is set."""
    os.environ["PYTHONPATH"] = os.pathsep.join([str(HERE), os.environ["PYTHONPATH"]])
