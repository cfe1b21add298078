"""Reads files of cases, in the form of crates/all_cases/README.md."""

from collections.abc import Iterator
from dataclasses import dataclass, field
from pathlib import Path


@dataclass
class Step:
    """A call, and the lines that it has to give."""

    call: str
    lines: list[str] = field(default_factory=list)


@dataclass
class Case:
    name: str
    steps: list[Step]


def paragraphs(text: str) -> Iterator[list[str]]:
    """The lines between two empty lines, without remarks."""
    lines: list[str] = []
    for line in [*text.splitlines(), ""]:
        if line:
            lines += [] if line.startswith("#") else [line]
        elif lines:
            yield lines
            lines = []


def steps_of(lines: list[str]) -> list[Step]:
    steps: list[Step] = []
    for line in lines:
        if line == ">" or line.startswith("> "):
            steps[-1].lines.append(line[2:])
        else:
            steps.append(Step(line))
    return steps


def cases_of(path: Path) -> list[Case]:
    words: dict[str, str] = {}  # `let`
    blocks: dict[str, list[str]] = {}

    def whole(line: str) -> list[str]:
        for name, text in words.items():
            line = line.replace(name, text)
        return blocks[line[3:]] if line.startswith("<< ") else [line]

    cases = []
    for first, *rest in paragraphs(path.read_text()):
        kind, _, name = first.partition(" ")
        lines = [line for told in rest for line in whole(told)]
        if kind == "block":
            blocks[name] = lines
        elif kind == "case":
            cases.append(Case(name, steps_of(lines)))
        else:
            for line in [first, *rest]:
                kind, _, text = line.partition(" ")
                if kind == "let":
                    word, _, meaning = text.partition(" ")
                    words[word] = meaning
    return cases


def bytes_of(text: str) -> bytes:
    """A bar is SOH, `\\xHH` any byte, `\\\\` a backslash."""
    parts = text.replace("|", "\x01").split("\\\\")
    return b"\\".join(part.encode().decode("unicode_escape").encode("latin-1") for part in parts)
