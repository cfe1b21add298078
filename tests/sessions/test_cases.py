"""Runs the gate's cases on the second implementation: of the session, row by row of docs/SESSIONS.md, and of messages
between the wire and the venue."""

import hashlib
from pathlib import Path

import pytest

from tests.harness import build
from tests.harness.options import ROOT
from tests.sessions.case_file import cases_of
from tests.sessions.crossing import REFUSED, Crossing
from tests.sessions.desk import Desk
from tests.sessions.second import HEADER, model_sources

CASES = ROOT / "crates" / "session_cases" / "data"
FORM = (
    "g++ -std=c++20 -O1 -Wall -Wextra -Werror -DSESSION_PREFIX=model_ -I %s -shared -fPIC"
    " -o {out} {sources}" % HEADER
)


def files_at(place: str) -> list[str]:
    """The names of the files whose cases drive this place."""
    line = "\nplace %s\n" % place
    return sorted(path.stem for path in CASES.glob("*.cases") if line in path.read_text())


@pytest.fixture(scope="session")
def library() -> Path:
    """The second implementation, as a library that a program opens."""
    header = hashlib.sha256((HEADER / "fix_sessions.h").read_bytes()).hexdigest()[:16]
    return build.compiled("session-model-%s.so" % header, FORM, model_sources())


@pytest.mark.parametrize("name", files_at("session"))
def test_cases(library: Path, name: str) -> None:
    """Each call gives what the case says, in words and bytes."""
    cases = cases_of(CASES / ("%s.cases" % name))
    assert cases
    for case in cases:
        desk = Desk(library)
        for step in case.steps:
            assert desk.call(step.call) == step.lines, (case.name, step.call)


def without_reason(line: str) -> str:
    """A line of the cases as C++ is told it."""
    return REFUSED if line.startswith(REFUSED + " ") else line


@pytest.mark.parametrize("name", files_at("wire"))
def test_wire_cases(library: Path, name: str) -> None:
    """Each message crosses, or is refused, as the case says."""
    cases = cases_of(CASES / ("%s.cases" % name))
    assert cases
    for case in cases:
        crossing = Crossing(library)
        for step in case.steps:
            expected = list(map(without_reason, step.lines))
            assert crossing.call(step.call) == expected, (case.name, step.call)
