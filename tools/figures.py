#!/usr/bin/python3
"""Makes the table of the bench's scripts, from what each says at its head.

    tools/figures.py            writes the table that bench/README.md marks as made by it
    tools/figures.py --check    says whether it is not as it would write it, and ends with 1 then

A script has a line for each figure that it measures:

    # @figure WHAT | AIM | WHAT CAME OUT
"""

from __future__ import annotations

import argparse
import sys
from collections.abc import Iterator
from pathlib import Path

from formats import rows
from made import filled, write

ROOT = Path(__file__).resolve().parent.parent
SCRIPT = "tools/figures.py"
PAGE = "bench/README.md"
FIGURE = "# @figure "


def figures(root: Path = ROOT) -> Iterator[list[str]]:
    """A row for each figure, its script named in the first of each. One without three parts is a fault."""
    for path in sorted((root / "bench").iterdir()):
        if path.suffix not in (".sh", ".py"):
            continue
        name = "`bench/%s`" % path.name
        for line in path.read_text(encoding="utf-8").splitlines():
            if line.startswith(FIGURE):
                parts = line.removeprefix(FIGURE).split(" | ")
                if len(parts) != 3:
                    raise SystemExit("%s: no figure: %s" % (path.name, line))
                yield [name, *parts]
                name = ""


def made(root: Path = ROOT) -> dict[str, str]:
    """The page with its table made anew."""
    table = rows(["script", "what", "aim", "came out"], list(figures(root)))
    text = (root / PAGE).read_text(encoding="utf-8")
    return {PAGE: filled(text, SCRIPT, lambda _: table)}


def main() -> int:
    parser = argparse.ArgumentParser(
        description=__doc__, formatter_class=argparse.RawTextHelpFormatter
    )
    parser.add_argument("--check", action="store_true")
    return write(ROOT, made(), parser.parse_args().check)


if __name__ == "__main__":
    sys.exit(main())
