#!/usr/bin/python3
"""Makes the table of what a conformance suite expects otherwise, from the definitions of tests/conformance.

    tools/conformance.py            writes the table that docs/FAULTS.md marks as made by it
    tools/conformance.py --check    says whether it is not as it would write it, and ends with 1 then

A definition says where the venue does something else than its source expects, in a line above its first conversation:

    # @differs WHAT THE SOURCE EXPECTS | WHAT THE VENUE DOES | WHY IT MAY
    # @differs as NAME: BEGIN                       the same as the line of the definition NAME that begins so
    # @differs in each definition, WHAT .. | .. | ..  what is so in many
"""

from __future__ import annotations

import argparse
import re
import sys
from collections.abc import Iterator
from dataclasses import dataclass, field
from pathlib import Path

from formats import rows
from made import filled, write

ROOT = Path(__file__).resolve().parent.parent
SCRIPT = "tools/conformance.py"
DEFINITIONS = "tests/conformance"
PAGES = ("docs/FAULTS.md",)
DIFFERS = "# @differs "
EACH = "in each definition, "  # before what is not of one alone
SAME = re.compile(r"as (\w+): (.+)")
NUMBER = re.compile(r"(\d+)([a-z]?)_")  # of a session test case of FIX, before its name


@dataclass
class Difference:
    """What the venue does otherwise than a definition's source, and the definitions that have it."""

    stem: str  # of the definition that says it
    texts: list[str]
    labels: list[str] = field(default_factory=list)


def label_of(path: Path) -> str:
    """What the table calls a definition: its number, or its name. One of the venue's own has its folder and name."""
    if path.parent.name == "venue":
        return "venue/" + path.stem
    found = NUMBER.match(path.stem)
    return found[1] + found[2] if found else path.stem


def rank(path: Path) -> tuple[int, str, str]:
    """Where a definition stands in the table: by its number, then those that have none."""
    found = NUMBER.match(path.stem)
    return (int(found[1]), found[2], path.stem) if found else (sys.maxsize, "", path.stem)


def said(root: Path) -> Iterator[tuple[Path, str]]:
    """Each difference that a definition tells, in the order of the definitions."""
    paths = (root / DEFINITIONS).glob("*/*.def")
    for path in sorted(paths, key=rank):
        for line in path.read_text(encoding="utf-8").splitlines():
            if line.startswith(DIFFERS):
                yield path, line.removeprefix(DIFFERS)


def differences(root: Path = ROOT) -> list[Difference]:
    """All of them, each once. One that names no other's line, or has not three parts, is a fault."""
    told = list(said(root))
    found = [
        Difference(path.stem, text.split(" | ")) for path, text in told if not SAME.fullmatch(text)
    ]
    for path, text in told:
        same = SAME.fullmatch(text)
        stem, begin = (same[1], same[2]) if same else (path.stem, text.split(" | ")[0])
        fits = [one for one in found if one.stem == stem and one.texts[0].startswith(begin)]
        if len(fits) != 1 or len(fits[0].texts) != 3:
            raise SystemExit("%s: no difference, or not one alone: %s" % (path.name, text))
        if label_of(path) not in fits[0].labels:
            fits[0].labels.append(label_of(path))
    return found


def line_of(one: Difference) -> list[str]:
    """A line of the table."""
    expected, *others = one.texts
    label = "each" if expected.startswith(EACH) else ", ".join(one.labels)
    return [label, expected.removeprefix(EACH), *others]


def table(root: Path = ROOT) -> str:
    """The table of the page, what is of each definition first."""
    lines = sorted(map(line_of, differences(root)), key=lambda line: line[0] != "each")
    return rows(["definition", "what a suite expects", "what the venue does", "why it may"], lines)


def made(root: Path = ROOT) -> dict[str, str]:
    """Each page with its table made anew."""
    texts = {file: (root / file).read_text(encoding="utf-8") for file in PAGES}
    return {file: filled(text, SCRIPT, lambda _: table(root)) for file, text in texts.items()}


def main() -> int:
    parser = argparse.ArgumentParser(
        description=__doc__, formatter_class=argparse.RawTextHelpFormatter
    )
    parser.add_argument("--check", action="store_true")
    return write(ROOT, made(), parser.parse_args().check)


if __name__ == "__main__":
    sys.exit(main())
