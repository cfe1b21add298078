"""Reads a page: its lines, which of them stand in a block, and the spans in backticks outside
blocks.
"""

from __future__ import annotations

import re
import subprocess
from collections.abc import Iterator
from dataclasses import dataclass, field
from pathlib import Path

import made

FENCE = re.compile(r"^\s*```(.*)$")
SPAN = re.compile(r"(?<!`)`([^`\n]+)`(?!`)")


@dataclass
class Finding:
    """What is wrong with a page, and where."""

    page: str
    line: int
    text: str

    def __str__(self) -> str:
        return f"{self.page}:{self.line}: {self.text}"


@dataclass
class Checked:
    """How many things held, and what did not."""

    passed: int = 0
    findings: list[Finding] = field(default_factory=list)

    def note(self, page: str, line: int, fault: str | None) -> None:
        """Counts one thing that was looked at: no fault, or one."""
        if fault is None:
            self.passed += 1
        else:
            self.findings.append(Finding(page, line, fault))

    def add(self, other: Checked) -> None:
        """Counts what another check found too."""
        self.passed += other.passed
        self.findings += other.findings


@dataclass
class Block:
    """A fenced block: its kind (the word behind the fence), the number of its first line, all lines."""

    kind: str
    first: int
    lines: list[str]


@dataclass
class Page:
    """A page by its path from the top of the repository."""

    path: str
    lines: list[str]

    def prose(self) -> Iterator[tuple[int, str]]:
        """The lines outside fenced blocks, with their numbers."""
        inside = False
        for number, line in enumerate(self.lines, 1):
            if FENCE.match(line):
                inside = not inside
            elif not inside:
                yield number, line

    def spans(self) -> Iterator[tuple[int, str]]:
        """What stands in backticks, but for blocks, indented ones too."""
        for number, line in self.prose():
            if not is_indented(line):
                for span in SPAN.finditer(line):
                    yield number, span.group(1).replace("\\|", "|")

    def blocks(self) -> Iterator[Block]:
        """The fenced blocks in their order."""
        block: Block | None = None
        for number, line in enumerate(self.lines, 1):
            fence = FENCE.match(line)
            if fence is None:
                if block is not None:
                    block.lines.append(line)
            elif block is None:
                block = Block(fence.group(1).strip(), number + 1, [])
            else:
                yield block
                block = None

    def count(self) -> tuple[int, int]:
        """How many words it has outside of blocks: those that people wrote, and those that scripts made.
        A word has a letter or a digit."""
        written, by_script, inside = 0, 0, False
        for _, line in self.prose():
            if made.FIRST.fullmatch(line):
                inside = True
            elif line == made.LAST:
                inside = False
            elif inside:
                by_script += words_of(line)
            else:
                written += words_of(line)
        return written, by_script

    def words(self) -> int:
        """How many words people wrote."""
        return self.count()[0]


def words_of(line: str) -> int:
    """How many words a line outside of fenced blocks has."""
    if is_indented(line):
        return 0
    return sum(1 for word in line.split() if any(map(str.isalnum, word)))


def is_indented(line: str) -> bool:
    """Whether a line is one of an indented block. (No list of these pages is nested so deep.)"""
    return line.startswith("    ")


def tracked(root: Path) -> list[str]:
    """The files that the repository has, those that are new and not ignored too."""
    listed = subprocess.run(
        ["git", "ls-files", "--cached", "--others", "--exclude-standard"],
        cwd=root,
        capture_output=True,
        text=True,
        check=True,
    )
    paths = sorted(set(listed.stdout.split("\n")))
    return [path for path in paths if path and (root / path).exists()]


def pages_of(root: Path, files: list[str]) -> list[Page]:
    """The pages of the repository."""
    return [
        Page(path, (root / path).read_text(encoding="utf-8").split("\n"))
        for path in files
        if path.endswith(".md")
    ]
