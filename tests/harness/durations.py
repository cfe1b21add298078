"""Keeps how long tests take, from JUnit reports, so that long ones are begun first (`side_by_side.py`).

usage: durations.py REPORT ..    writes tests/durations anew

What the reports do not name stays as it was. Only the order of these numbers matters: it does no harm if they come from
another machine, and a name that no test has any more is never looked up.
"""

import sys
import xml.etree.ElementTree as xml
from pathlib import Path

from tests.harness.options import ROOT
from tests.harness.twice import place_of

FILE = ROOT / "tests" / "durations"
LEAST = 2.0  # seconds: what takes less is not kept
HEAD = "# Seconds of the tests that take longest, as tests/harness/durations.py found them in reports.\n"


def read_durations(text: str) -> dict[str, float]:
    """Lines `SECONDS NAME`; `#` begins a remark."""
    lines = (line for line in text.splitlines() if line and not line.startswith("#"))
    pairs = (line.split(" ", 1) for line in lines)
    return {name: float(seconds) for seconds, name in pairs}


def written_durations(seconds: dict[str, float]) -> str:
    """The longest first."""
    longest = sorted(seconds.items(), key=lambda item: (-round(item[1]), item[0]))
    return HEAD + "".join("%.0f %s\n" % (took, name) for name, took in longest if took >= LEAST)


def reported(file: Path) -> dict[str, float]:
    """What a report says of each test."""
    cases = xml.parse(file).getroot().iter("testcase")
    return {place_of(case): float(case.get("time", "0")) for case in cases}


def main(files: list[Path]) -> None:
    seconds = read_durations(FILE.read_text()) if FILE.exists() else {}
    for file in files:
        seconds |= reported(file)
    FILE.write_text(written_durations(seconds))


if __name__ == "__main__":
    main([Path(word) for word in sys.argv[1:]])
