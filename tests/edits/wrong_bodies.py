"""Reads the wrong bodies of a crate from their file in this folder.

`CRATE.edits` has blocks, by name, with an empty line between two:

`CRATE.edits` has blocks, by name, with an empty line between two:

    [FUNCTION-what]
    gate                     only in one that each landing tries
    test: NAME               only in one that a test finds: the test of `day_tests` that fails,
    finds: WHAT              and how
    file: src/lib.rt         and then pairs, as an edit of the kit has them: each old text is one
    old: TEXT                line, and stands once in that file
    new: TEXT

    python3 -m tests.edits.wrong_bodies    prints how many of each kind a crate has
"""

from __future__ import annotations

import re
from collections.abc import Iterator
from dataclasses import dataclass, field
from pathlib import Path
from typing import NamedTuple

FOLDER = Path(__file__).resolve().parent
ENDING = ".edits"
NAME = re.compile(r"\[([A-Za-z_]\w*-\w+)\]")


class Unreadable(Exception):
    """A line that no wrong body has, with its place."""


class Change(NamedTuple):
    """One text of a file, and what stands there instead."""

    file: str
    old: str
    new: str


@dataclass
class WrongBody:
    """A wrong body: its name in its crate, who tries it, and the changes that make it."""

    crate: str
    name: str
    is_gate: bool = False
    test: str = ""
    finds: str = ""
    changes: list[Change] = field(default_factory=list)

    def __str__(self) -> str:
        return f"{self.crate}/{self.name}"

    def kit_text(self) -> str:
        """The text of a file of `must-fail`, from which `rt must-fail` takes it."""
        lines, file = [], ""
        for change in self.changes:
            if change.file != file:
                file = change.file
                lines.append(f"file: {file}\n")
            lines.append(f"old: {change.old}\nnew: {change.new}\n")
        return "".join(lines)


class Reader:
    """Reads a file line by line."""

    def __init__(self, crate: str) -> None:
        self.crate = crate
        self.bodies: list[WrongBody] = []
        self.file = ""
        self.old: str | None = None

    def end(self) -> None:
        """Ends the wrong body that was begun last."""
        if self.old is not None or (self.bodies and not self.bodies[-1].changes):
            raise Unreadable(f"{self.bodies[-1]} is not whole")

    def head(self, name: str) -> None:
        """Begins a wrong body."""
        self.end()
        if self.bodies and name <= self.bodies[-1].name:
            raise Unreadable(f"{name} stands behind {self.bodies[-1].name}")
        self.file = ""
        self.bodies.append(WrongBody(self.crate, name))

    def take(self, line: str) -> None:
        """Takes the next line, which is not empty."""
        head = NAME.fullmatch(line)
        key, _, value = line.partition(":")
        if (self.old is not None) != (key == "new"):
            raise Unreadable("each old: has its new: behind it")
        if head:
            self.head(head[1])
        elif not self.bodies:
            raise Unreadable("a wrong body begins with its [FUNCTION-what]")
        else:
            self.part(self.bodies[-1], key, value.removeprefix(" "))

    def part(self, body: WrongBody, key: str, value: str) -> None:
        """Takes a line of a wrong body."""
        if key == "gate":
            body.is_gate = True
        elif key in ("test", "finds") and value:
            setattr(body, key, value)
        elif key == "file" and value:
            self.file = value
        elif key == "old" and value and self.file:
            self.old = value
        elif key == "new" and self.old is not None:
            body.changes.append(Change(self.file, self.old, value))
            self.old = None
        else:
            raise Unreadable(f"no wrong body has such a line: {key}")


def read(path: Path) -> list[WrongBody]:
    """The wrong bodies of a file."""
    reader, number = Reader(path.stem), 0
    try:
        for number, line in enumerate(path.read_text(encoding="utf-8").split("\n"), 1):
            if line:
                reader.take(line)
        reader.end()
    except Unreadable as fault:
        raise Unreadable(f"{path}:{number}: {fault}") from None
    return reader.bodies


def crates(folder: Path = FOLDER) -> list[str]:
    """The crates that have wrong bodies."""
    return sorted(path.stem for path in folder.glob(f"*{ENDING}"))


def bodies_of(names: list[str], folder: Path = FOLDER) -> Iterator[WrongBody]:
    """The wrong bodies of these crates, or of all where none is named."""
    for name in names or crates(folder):
        yield from read(folder / f"{name}{ENDING}")


def put(bodies: list[WrongBody], crates_at: Path) -> None:
    """Writes wrong bodies as files of the kit, each into the `must-fail` of its crate."""
    for body in bodies:
        folder = crates_at / body.crate / "must-fail"
        folder.mkdir(exist_ok=True)
        (folder / f"{body.name}.edit").write_text(body.kit_text(), encoding="utf-8")


def main() -> None:
    for name in crates():
        bodies = read(FOLDER / f"{name}{ENDING}")
        gate = sum(body.is_gate for body in bodies)
        tested = sum(bool(body.test) for body in bodies)
        print(name, gate, len(bodies) - gate - tested, tested)


if __name__ == "__main__":
    main()
