"""Keeps in a small file of the tree what a recording found: for each function the tests that pass through it the fastest.

A landing tries mistakes of changed files without a recording of its own. Lines move with each change, so the file has
functions. It leaves out a test that is gone since, or has another name; the next recording finds what is new in a function.
"""

import ast
import json
from collections.abc import Iterable
from dataclasses import dataclass, field
from pathlib import Path

from tests.harness.options import ROOT
from tests.mutants.drawn.cpp_bodies import bodies
from tests.mutants.drawn.passes import Passes
from tests.mutants.drawn.units import UNIT

FOLDER = Path(__file__).with_name("remembered")
MOST = 6  # tests of a function
OUTSIDE = "-"  # the name of what is in no function


def functions(file: str, text: bytes) -> dict[int, str]:
    """Of each line the function that it is in."""
    return cpp_functions(text) if file.endswith(".cpp") else python_functions(text)


def cpp_functions(text: bytes) -> dict[int, str]:
    found: dict[int, str] = {}
    for body in bodies(text):
        found.update(dict.fromkeys(range(body.line, body.last + 1), body.name))
    return found


def python_functions(text: bytes) -> dict[int, str]:
    """By its name and those of the classes and functions around it."""
    found: dict[int, str] = {}
    try:
        tree = ast.parse(text)
    except SyntaxError:
        return found  # a mistake may leave no Python at all

    def read(node: ast.AST, names: tuple[str, ...]) -> None:
        for child in ast.iter_child_nodes(node):
            inner = names
            if isinstance(child, ast.FunctionDef | ast.ClassDef):
                inner = (*names, child.name)
            if isinstance(child, ast.FunctionDef) and child.end_lineno is not None:
                lines = range(child.body[0].lineno, child.end_lineno + 1)
                found.update(dict.fromkeys(lines, ".".join(inner)))
            read(child, inner)

    read(tree, ())
    return found


def summed(passes: Passes, root: Path = ROOT) -> dict[str, dict[str, list[str]]]:
    """Of each file and function the fastest tests that pass through one of its lines, those first that pass through most of them."""
    found: dict[str, dict[str, list[str]]] = {}
    for file, lines in passes.lines.items():
        of_line = functions(file, (root / file).read_bytes())
        counts: dict[str, dict[str, int]] = {}
        for line, tests in lines.items():
            of_function = counts.setdefault(of_line.get(line, OUTSIDE), {})
            # Which unit tests pass through a function is recorded each time.
            for test in {
                each for each in tests & passes.seconds.keys() if not each.startswith(UNIT)
            }:
                of_function[test] = of_function.get(test, 0) + 1
        found[file] = {
            name: fastest(count, passes.seconds) for name, count in sorted(counts.items()) if count
        }
    return found


def fastest(lines: dict[str, int], seconds: dict[str, float]) -> list[str]:
    """Half of them for their haste, and half for the lines that they pass through."""
    by_time = sorted(lines, key=lambda test: (seconds[test], test))
    by_lines = sorted(lines, key=lambda test: (-lines[test], seconds[test], test))
    mixed = [test for pair in zip(by_lines, by_time, strict=True) for test in pair]
    chosen = list(dict.fromkeys(mixed))[:MOST]
    return sorted(chosen, key=lambda test: (seconds[test], test))


def write_remembered(part: str, passes: Passes) -> None:
    """A line for each test, and for each function the numbers of its own."""
    of_files = summed(passes)
    tests = sorted({test for of in of_files.values() for own in of.values() for test in own})
    numbers = {test: number for number, test in enumerate(tests)}
    timed = [json.dumps([test, round(passes.seconds[test], 1)]) for test in tests]
    listed = [
        "%s:{\n%s\n}"
        % (
            json.dumps(file),
            entries((name, [numbers[test] for test in own]) for name, own in of.items()),
        )
        for file, of in sorted(of_files.items())
    ]
    FOLDER.mkdir(exist_ok=True)
    text = '{"tests":[\n%s\n],"files":{\n%s\n}}\n' % (",\n".join(timed), ",\n".join(listed))
    (FOLDER / (part + ".json")).write_text(text)


def entries(pairs: Iterable[tuple[str, list[int]]]) -> str:
    return ",\n".join("%s:%s" % (json.dumps(name), json.dumps(own)) for name, own in pairs)


@dataclass
class Remembered:
    """A part's file."""

    tests: list[tuple[str, float]] = field(default_factory=list)
    files: dict[str, dict[str, list[int]]] = field(default_factory=dict)

    def through(self, root: Path, file: str, line: int) -> list[str]:
        """The tests of the function that a line is in now, that are still there."""
        name = functions(file, (root / file).read_bytes()).get(line, OUTSIDE)
        own = [self.tests[number] for number in self.files[file].get(name, [])]
        return [test for test, _ in own if is_there(root, test)]

    @property
    def seconds(self) -> dict[str, float]:
        return dict(self.tests)


def is_there(root: Path, test: str) -> bool:
    path, _, inner = test.partition("::")
    name = inner.split("::")[-1].partition("[")[0]
    file = root / path
    return file.is_file() and "def %s(" % name in file.read_text()


def read_remembered(part: str) -> Remembered:
    """Nothing, where the tree has none of this part."""
    file = FOLDER / (part + ".json")
    if not file.exists():
        return Remembered()
    told = json.loads(file.read_text())
    return Remembered([(test, took) for test, took in told["tests"]], told["files"])
