#!/usr/bin/env python3
"""Lists the files of crates/ in which a new duty, or a new event, needs a line of its own.

    tools/duty_lines.py       the files for each kind, and how many they are

A function that has a line for each duty of a kind leaves none of that kind to its line for all others, so a
new duty of the kind needs a line there, too. Read are the patterns of definitions and proofs (`duty.Open`),
and the variants that a file of code names (`Duty::Open`). The kinds of actions (`kind.Open`, `Kind::Open`)
have the duties' names, and are read the same way, as are the events in a room (`at_room.Open`).
"""

from __future__ import annotations

import re
import sys
from collections.abc import Iterator
from dataclasses import dataclass
from pathlib import Path

ROOT = Path(__file__).resolve().parent.parent

NAME = re.compile(r"[A-Za-z_][\w'-]*")


@dataclass(frozen=True)
class Kind:
    """Some of the variants of a type: as proofs name them, as code does, and the variants of the kind."""

    name: str
    in_proofs: str
    in_code: str
    variants: str


# A hit comes to a place of its own, so it is left out where a room is told of other duties.
KINDS = (
    Kind("a duty done in a room", "duty|kind", "Duty|Kind", "Open Ready Post Unpost Decline Pass"),
    Kind("a duty that leaves others", "duty|kind", "Duty|Kind", "Open Post Unpost Decline Pass"),
    Kind(
        "a duty done at an investor's desk",
        "duty|kind",
        "Duty|Kind",
        "Relay Gone Declined Answer Close",
    ),
    Kind(
        "an event in a room",
        "at_room|event",
        "RoomEvent",
        "Open Ready Post Unpost Decline Pass Expire",
    ),
)


def patterns_of(clause: str) -> list[str]:
    """The words of a clause up to its equals sign, each a word or what stands in brackets."""
    found, depth, start = [], 0, 0
    for at, letter in enumerate(clause + " "):
        depth += (letter in "({[") - (letter in ")}]")
        if letter == " " and depth == 0:
            found.append(clause[start:at])
            start = at + 1
    return [pattern for pattern in found if pattern]


def in_proofs(text: str, named: re.Pattern[str]) -> Iterator[set[str]]:
    """For each argument of each function the variants that have a line there."""
    lines = [line.partition("--")[0].strip() for line in text.splitlines()]
    found: dict[tuple[str, int], set[str]] = {}
    for at, line in enumerate(lines):
        if not (NAME.match(line) and named.search(line)):
            continue
        clause = " ".join(lines[at : at + 3]).partition(" =")[0]
        if ":" not in clause:
            name, *patterns = patterns_of(clause) or [""]
            for place, pattern in enumerate(patterns):
                found.setdefault((name, place), set()).update(named.findall(pattern))
    yield from found.values()


def goes_through(file: Path, kind: Kind) -> bool:
    """Whether something in the file has a line for each variant of the kind."""
    text = file.read_text(encoding="utf-8")
    if file.suffix == ".rt":
        named = re.findall(rf"\b(?:{kind.in_code})::([A-Z]\w*)", re.sub(r"//.*", "", text))
        return set(kind.variants.split()) <= set(named)
    pattern = re.compile(rf"\b(?:{kind.in_proofs})\.([A-Z]\w*)")
    return any(set(kind.variants.split()) <= some for some in in_proofs(text, pattern))


def files_for(kind: Kind, root: Path = ROOT) -> list[str]:
    """The files in which a new variant of the kind needs a line, each as CRATE/FOLDER/FILE."""
    crates = root / "crates"
    return [
        file.relative_to(crates).as_posix()
        for folder, ending in (("specs", "antt"), ("proofs", "antt"), ("src", "rt"))
        for file in sorted(crates.glob(f"*/{folder}/**/*.{ending}"))
        if goes_through(file, kind)
    ]


def main() -> int:
    for kind in KINDS:
        files = files_for(kind)
        print(f"{kind.name}: {len(files)} files", *files, sep="\n    ")
    return 0


if __name__ == "__main__":
    sys.exit(main())
