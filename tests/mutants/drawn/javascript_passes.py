"""Reads what node records of each test: through which lines of JavaScript it passed.

Where NODE_V8_COVERAGE names a folder, each node that a test starts writes there at its end how often each part of a script ran.
What a browser runs is not recorded.
"""

import json
from collections import defaultdict
from collections.abc import Iterable, Iterator
from pathlib import Path

from tests.harness.options import ROOT
from tests.mutants.drawn.recorder import NODE, marks_name

Lines = dict[str, dict[int, set[str]]]


def javascript_lines(folder: Path, files: list[str], tests: Iterable[str]) -> Lines:
    """The tests of each line of these files, whatever folder they were copied to."""
    of_name = {Path(file).name: file for file in files}
    found: Lines = defaultdict(lambda: defaultdict(set))
    for test in tests:
        for name, ranges in recorded(folder / NODE / marks_name(test)):
            if name in of_name:
                file = of_name[name]
                for line in lines_run((ROOT / file).read_text(), ranges):
                    found[file][line].add(test)
    return {file: dict(lines) for file, lines in found.items()}


Ranges = list[tuple[int, int, int]]  # from, to, and how often


def recorded(folder: Path) -> Iterator[tuple[str, Ranges]]:
    """Of each script that a test's programs ran its name and the ranges of its text."""
    for path in sorted(folder.glob("*.json")):
        for script in json.loads(path.read_text())["result"]:
            parts = [part for function in script["functions"] for part in function["ranges"]]
            ranges = [(part["startOffset"], part["endOffset"], part["count"]) for part in parts]
            yield script["url"].rpartition("/")[2].partition("?")[0], ranges


def lines_run(text: str, ranges: Ranges) -> Iterator[int]:
    """Those whose first letter ran: the smallest range that it is in says how often."""
    counts = [0] * len(text)
    for start, end, count in sorted(ranges, key=lambda one: one[0] - one[1]):
        counts[start:end] = [count] * (min(end, len(text)) - start)
    at = 0
    for number, line in enumerate(text.splitlines(keepends=True), 1):
        first = at + len(line) - len(line.lstrip())
        if line.strip() and counts[first]:
            yield number
        at += len(line)
