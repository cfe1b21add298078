"""What tests/run.sh counts in reports as pytest and ctest write them: passed, failed, skipped with the reason, and unsteady.
And which of several workers tries what."""

import os
import subprocess
import sys
from pathlib import Path
from textwrap import indent

import pytest

from tests.harness.options import ROOT
from tests.harness.reports import counted
from tests.harness.side_by_side import longest_first

PYTEST = """<testsuites><testsuite>
<testcase classname="a" name="good"/>
<testcase classname="a" name="bad"><failure message="x">y</failure></testcase>
<testcase classname="a" name="broken"><error message="x">y</error></testcase>
<testcase classname="a" name="left"><skipped type="pytest.skip" message="of the long form alone">z</skipped></testcase>
<testcase classname="b" name="left"><skipped message="of the long form alone"/></testcase>
</testsuite></testsuites>"""
CTEST = """<testsuite>
<testcase name="reader" classname="reader" status="run"><system-out/></testcase>
<testcase name="door" classname="door" status="fail"><failure message="Failed"/></testcase>
<testcase name="off" classname="off" status="disabled"><skipped message="Disabled"/></testcase>
</testsuite>"""


def test_what_is_counted(place: Path) -> None:
    (place / "one.xml").write_text(PYTEST)
    (place / "two.xml").write_text(CTEST)
    count = counted([place / "one.xml", place / "two.xml"])
    assert count.lines() == [
        "2 3",
        "skipped 1: Disabled",
        "skipped 2: of the long form alone",
        "failed a::bad",
        "failed a::broken",
        "failed door::door",
    ]


# Each test leaves a file where it was: FIRST fails where there is none yet, ALWAYS each time.
FIRST = "def test_%s():\n    from pathlib import Path\n    been, mark = Path('%s').exists(), Path('%s').touch()\n    assert been\n"
ALWAYS = "def test_always():\n    assert False\n"
GOOD = "def test_good():\n    assert True\n"


# All tests of a file in one group, whose name the workers' plugin puts behind theirs.
GROUP = "import pytest\npytestmark = pytest.mark.xdist_group('together')\n"
SIDE_BY_SIDE = ("-n", "2", "--dist", "loadgroup")


def first(name: str) -> str:
    return FIRST % (name, name, name)


def of_a_class(test: str) -> str:
    return "class TestIt:\n" + indent(test.replace("()", "(self)", 1), "    ")


@pytest.mark.parametrize(
    ("tests", "status", "lines"),
    [
        (GOOD + first("a"), 0, ["1 0", "unsteady test_drawn::test_a"]),
        (GOOD + first("a") + first("b"), 0, ["1 0", "unsteady test_drawn::test_a", "unsteady test_drawn::test_b"]),
        (of_a_class(first("a")), 0, ["0 0", "unsteady test_drawn.TestIt::test_a"]),
        (ALWAYS, 1, ["0 1", "failed test_drawn::test_always"]),
        (first("a") + ALWAYS, 1, ["0 2", "failed test_drawn::test_a", "failed test_drawn::test_always"]),
        ("".join(first(name) for name in "abcd"), 1, ["0 4"] + ["failed test_drawn::test_%s" % name for name in "abcd"]),
        (GOOD, 0, ["1 0"]),
        ("", 5, ["0 0"]),
    ],
    ids=["one", "two", "one of a class", "twice", "one of two", "many", "none", "no test"],
)  # fmt: skip
def test_who_fails_once(place: Path, tests: str, status: int, lines: list[str]) -> None:
    """A few tests that fail are tried once more; where all of them pass then, they are unsteady, and else failed."""
    assert tried_twice(place, tests) == (status, lines)


def test_who_fails_once_among_others(place: Path) -> None:
    """What failed on one of several workers, in a group, is tried again under its own name."""
    tests = GROUP + first("a") + of_a_class(first("b"))
    unsteady = ["unsteady test_drawn.TestIt::test_b", "unsteady test_drawn::test_a"]
    assert tried_twice(place, tests, *SIDE_BY_SIDE) == (0, ["0 0", *unsteady])


@pytest.mark.parametrize(("names", "status"), [("abcd", 0), ("abcde", 1)])
def test_one_moment_breaks_a_test_of_each_worker(place: Path, names: str, status: int) -> None:
    """As many as there are workers are tried again."""
    tests = "".join(first(name) for name in names)
    ends, lines = tried_twice(place, tests, "-n", "2", "-n", "4", "--dist", "loadgroup")
    word = "failed" if status else "unsteady"
    assert (ends, lines[1:]) == (
        status,
        ["%s test_drawn::test_%s" % (word, name) for name in names],
    )


def tried_twice(place: Path, tests: str, *workers: str) -> tuple[int, list[str]]:
    """The status of twice.py, and what is counted of its report."""
    (place / "test_drawn.py").write_text(tests)
    report = place / "report.xml"
    done = run(place, "tests.harness.twice", "--junitxml", str(report), *workers)
    print(done.stdout)
    count, *lines = counted([report]).lines()
    return done.returncode, [count, *sorted(lines)]


def run(place: Path, module: str, *words: str) -> "subprocess.CompletedProcess[str]":
    """Tries test_drawn.py, without the settings of this tree."""
    usual = ["-c", os.devnull, "--rootdir", str(place), "-p", "no:cacheprovider"]
    return subprocess.run(
        [sys.executable, "-m", module, "test_drawn.py", *usual, *words]
        + ["-o", "junit_family=xunit1"],
        cwd=place,
        env={**os.environ, "PYTHONPATH": str(ROOT)},
        stdout=subprocess.PIPE,
        stderr=subprocess.STDOUT,
        text=True,
        check=False,
    )


MADE = """
import os, pytest

@pytest.fixture(scope="%s")
def made():
    open("made", "a").write("made\\n")

@pytest.mark.parametrize("number", range(6))
def test_it(made, number):
    assert "PYTEST_XDIST_WORKER" in os.environ
"""


@pytest.mark.parametrize(("scope", "times"), [("module", 1), ("session", 2)])
def test_a_fixture_of_a_module_is_made_once(place: Path, scope: str, times: int) -> None:
    """Its tests stay on one worker; those that take a fixture of the session are on all."""
    (place / "test_drawn.py").write_text(MADE % scope)
    done = run(place, "pytest", *SIDE_BY_SIDE, "-p", "tests.harness.side_by_side")
    assert "6 passed" in done.stdout, done.stdout
    assert (place / "made").read_text().count("made") == times


def test_the_longest_is_begun_first(request: pytest.FixtureRequest) -> None:
    """None is lost, and of the others each stays where it was."""
    items = request.session.items
    found = longest_first(items, {request.node.nodeid: 1e6})
    assert found[0] is request.node
    assert sorted(map(id, found)) == sorted(map(id, items))
