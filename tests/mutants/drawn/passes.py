"""Says which tests pass through a line, and how long each takes, by one recorded run of a part's tests."""

import ast
import json
import shutil
import subprocess
import sys
import xml.etree.ElementTree as xml
from collections.abc import Callable, Iterator
from dataclasses import dataclass, field
from pathlib import Path

from tests.harness.options import ROOT
from tests.harness.reports import is_failed, without_group
from tests.mutants.drawn.cpp_bodies import bodies
from tests.mutants.drawn.javascript_passes import javascript_lines
from tests.mutants.drawn.recorder import marks_name
from tests.mutants.drawn.recording.sitecustomize import CURRENT
from tests.mutants.drawn.recording.sitecustomize import FOLDER as RECORDED
from tests.mutants.drawn.units import Unit

FOLDER = ROOT / "tests" / "out" / "mutants" / "passes"
LIMIT = 4 * 3600  # seconds of one run
Lines = dict[str, dict[int, set[str]]]  # of a file, a line: the names of tests


@dataclass
class Passes:
    """Of each line the tests, and of each test its seconds. One that failed while it was recorded is in neither."""

    lines: Lines = field(default_factory=dict)
    seconds: dict[str, float] = field(default_factory=dict)

    def through(self, file: str, line: int) -> list[str]:
        """The tests that pass through a line, the fastest first."""
        names = self.lines.get(file, {}).get(line, set())
        known = [name for name in names if name in self.seconds]
        return sorted(known, key=lambda name: (self.seconds[name], name))

    def write(self, path: Path) -> None:
        lines = {
            file: {str(line): sorted(names) for line, names in of_file.items()}
            for file, of_file in self.lines.items()
        }
        path.write_text(json.dumps({"lines": lines, "seconds": self.seconds}))


def read_passes(path: Path) -> Passes:
    told = json.loads(path.read_text())
    lines = {
        file: {int(line): set(names) for line, names in of_file.items()}
        for file, of_file in told["lines"].items()
    }
    return Passes(lines, told["seconds"])


def record(name: str, files: list[str], modules: list[str], words: list[str]) -> Passes:
    """Runs these files of tests, and reads what they passed through of these files of Python and JavaScript."""
    folder, python = emptied(FOLDER / name), [file for file in files if is_python(ROOT / file)]
    prepare(folder, python)
    seconds = dict(seconds_of(run_recorded(ROOT, folder, modules, words)))
    scripts = javascript_lines(folder, [file for file in files if file.endswith(".js")], seconds)
    return Passes(python_lines(folder, python) | scripts, seconds)


def prepare(folder: Path, files: list[str]) -> None:
    """What `recording/sitecustomize.py` reads: the number of each file's first mark, and how many there are."""
    firsts, first = {}, 0
    for file in files:
        firsts[file] = first
        first += (ROOT / file).read_bytes().count(b"\n") + 2
    prepare_marks(folder, firsts)


def prepare_marks(folder: Path, firsts: dict[str, int]) -> None:
    for name in ("marks", "code"):
        (folder / name).mkdir()
        (folder / name).chmod(0o1777)
    lines = ["%d %s\n" % (first, ROOT / file) for file, first in firsts.items()]
    ends = [first + (ROOT / file).read_bytes().count(b"\n") + 2 for file, first in firsts.items()]
    (folder / "files").write_text("".join(lines))
    (folder / "size").write_text(str(max(ends, default=0) + 1))


def record_units(folder: Path, out: Path, units: list[Unit]) -> dict[str, float]:
    """Runs each program of unit tests, and gives the seconds of those that pass."""
    current, found = folder / "current-units", {}
    own = {RECORDED: str(folder), CURRENT: str(current)}
    for unit in units:
        current.write_text(marks_name(unit.name))
        seconds = unit.run(out, own)
        if seconds is not None:
            found[unit.name] = seconds
    (folder / "tests-units.json").write_text(json.dumps({name: [name] for name in found}))
    return found


def run_recorded(tree: Path, folder: Path, modules: list[str], words: list[str]) -> Path:
    """Runs these files of tests with the recorder, and gives pytest's report."""
    report = folder / "report.xml"
    recorded = ["-p", "tests.mutants.drawn.recorder", "--record", str(folder)]
    reported = ["--junitxml", str(report), "-o", "junit_family=xunit1", "-q"]
    command = [sys.executable, "-m", "pytest", *modules, *recorded, *reported, *words]
    subprocess.run(command, cwd=tree, timeout=LIMIT, check=False, stdout=subprocess.DEVNULL)
    return report


def emptied(folder: Path) -> Path:
    shutil.rmtree(folder, ignore_errors=True)
    folder.mkdir(parents=True)
    return folder


def is_python(path: Path) -> bool:
    return path.suffix == ".py" or path.read_bytes().startswith(b"#!/usr/bin/python3")


def marks_of(folder: Path) -> dict[str, list[bytes]]:
    """Of each test the marks that it set, and those of the fixtures that it shares."""
    tests: dict[str, list[str]] = {}
    for path in folder.glob("tests-*.json"):
        tests |= json.loads(path.read_text())
    marks = {path.name: path.read_bytes() for path in (folder / "marks").iterdir()}
    return {
        test: [marks.get(marks_name(who), b"") for who in whose] for test, whose in tests.items()
    }


def python_lines(folder: Path, files: list[str]) -> Lines:
    """The tests of each line, by the marks of its statement."""
    return marked_lines(folder, files, statements)


def cpp_lines(folder: Path, files: list[str]) -> Lines:
    """The tests of each line, by the marks of its function; of one outside, all tests of its file."""
    return marked_lines(folder, files, functions)


def marked_lines(
    folder: Path, files: list[str], starts: Callable[[bytes], dict[int, int | None]]
) -> Lines:
    passed = marks_of(folder)
    firsts = [int(line.split(" ")[0]) for line in (folder / "files").read_text().splitlines()]
    found: Lines = {}
    for file, first in zip(files, firsts, strict=True):
        text = (ROOT / file).read_bytes()
        ends = first + text.count(b"\n") + 2
        own = {test: merged([each[first:ends] for each in all_]) for test, all_ in passed.items()}
        own = {test: each for test, each in own.items() if any(each)}
        found[file] = {line: tests_at(own, start) for line, start in starts(text).items()}
    return found


def functions(text: bytes) -> dict[int, int | None]:
    """Of each line the line where the body of its function begins."""
    found: dict[int, int | None] = dict.fromkeys(range(1, text.count(b"\n") + 2))
    for body in bodies(text):
        found.update(dict.fromkeys(range(body.line, body.last + 1), body.line))
    return found


def merged(marks: list[bytes]) -> bytes:
    """What is marked in one of them."""
    whole = 0
    for each in marks:
        whole |= int.from_bytes(each, "little")
    return whole.to_bytes(max(map(len, marks)), "little")


def tests_at(marks: dict[str, bytes], start: int | None) -> set[str]:
    """Those that passed through a statement; all that passed through its file, where it runs at an import, which one makes for many."""
    return {test for test, each in marks.items() if start is None or each[start]}


def statements(text: bytes) -> dict[int, int | None]:
    """Of each line the line where its innermost statement begins, if that is within a function."""
    found: dict[int, int | None] = {}

    def read(node: ast.AST, inner: bool) -> None:
        for child in ast.iter_child_nodes(node):
            within = inner or isinstance(node, ast.FunctionDef) and child in node.body
            if isinstance(child, ast.stmt) and child.end_lineno is not None:
                lines = range(first_line(child), child.end_lineno + 1)
                found.update(dict.fromkeys(lines, child.lineno if within else None))
            read(child, within)

    read(ast.parse(text), False)
    return found


def first_line(node: ast.stmt) -> int:
    """A function begins with what decorates it."""
    decorators: list[ast.expr] = getattr(node, "decorator_list", [])
    return min([node.lineno, *(each.lineno for each in decorators)])


def seconds_of(report: Path) -> Iterator[tuple[str, float]]:
    """Each test that passed, by pytest's name of it."""
    for case in xml.parse(report).getroot().iter("testcase"):
        if is_failed(case) or case.find("skipped") is not None:
            continue
        yield node_of(case), float(case.get("time", "0"))


def node_of(case: xml.Element) -> str:
    """`tests.audit.test_x.TestY` and `test_z` in a report are `tests/audit/test_x.py::TestY::test_z`."""
    file, line = case.get("file"), case.get("classname", "")
    name = without_group(case.get("name", ""))
    if file is None:
        parts = line.split(".")
        at = next(index for index, part in enumerate(parts) if part.startswith("test_"))
        file, classes = "/".join(parts[: at + 1]) + ".py", parts[at + 1 :]
    else:
        classes = line.split(".")[len(file.removesuffix(".py").split("/")) :]
    return "::".join([file, *classes, name])
