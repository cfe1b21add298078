#!/usr/bin/env python3
"""Lists what has to be read to judge a law: the files of definitions on which it rests, by the `use`
lines from the law's own file downwards, and the types that these are about. It leaves out proofs: those
are the prover's to judge. With no name it lists the headline.

    tools/reading_list.py [LAW..]

A line counts that is not blank, no comment, no attribute and no `use`.
"""

from __future__ import annotations

import re
import sys
from dataclasses import dataclass
from functools import cache
from pathlib import Path

HEADLINE = ("dealers_are_sent_their_view", "dealers_are_isolated")

USE = re.compile(
    r"^\s*(?:ghost |pub )?use Rattle\.(\w+)\.specs\.(\w+)(?:\.\{([^}]*)\}| as (\w+))?", re.MULTILINE
)
DECLARED = re.compile(
    r"^\s*(?:ghost |pub )?use Rattle\.(\w+)\.specs\.declared\.((?:[a-z]\w*\.)+)"
    r"(\w+)((?:\.\w+)*)(?:\.\{([^}]*)\}| as \w+)?",
    re.MULTILINE,
)
Definitions = tuple[str, str]  # a crate, and a file of its specs/


@dataclass(frozen=True)
class Law:
    """A function that does nothing, and whose contract is the law."""

    name: str
    file: Path
    text: str
    contract: str


@dataclass(frozen=True)
class Declared:
    """A type, or some constants, of a crate's code, of which definitions speak."""

    crate: str
    file: str
    name: str


@cache
def laws_of(root: Path) -> dict[str, Law]:
    """Each public function without arguments and result that has a contract, by its name."""
    found: dict[str, Law] = {}
    for file in sorted((root / "crates").glob("*/src/**/*.rt")):
        text = file.read_text(encoding="utf-8")
        for match in re.finditer(r"^pub fn (\w+)\(\)\n(    ensures.*?)^\{", text, re.M | re.S):
            found[match.group(1)] = Law(match.group(1), file, text, match.group(2))
    return found


def law_named(root: Path, name: str) -> Law:
    law = laws_of(root).get(name)
    if law is None:
        raise SystemExit(f"no crate has a law {name}")
    return law


def cited_by(text: str, clauses: str) -> list[Definitions]:
    """The files of definitions from which clauses take a name."""
    words = set(re.findall(r"\w+", clauses))
    cited: list[Definitions] = []
    for crate, file, names, alias in USE.findall(text):
        if words & set(re.findall(r"\w+", names or alias)):
            cited.append((crate, file))
    return cited


@cache
def read_once(path: Path) -> str:
    """The text of a file."""
    return path.read_text(encoding="utf-8")


@cache
def text_of(root: Path, one: Definitions) -> str | None:
    """A file of definitions, or none where there is no such file: std's, and what code declares."""
    path = root / "crates" / one[0] / "specs" / f"{one[1]}.antt"
    return read_once(path) if path.exists() else None


@cache
def used_by(text: str) -> list[Definitions]:
    """The files of definitions that one of them uses."""
    return [(crate, file) for crate, file, _, _ in USE.findall(text)]


def below(root: Path, cited: list[Definitions]) -> dict[Definitions, str]:
    """These files and all that they use, with their texts. What code declares, and std, are none."""
    found: dict[Definitions, str] = {}
    left = list(cited)
    while left:
        one = left.pop()
        text = None if one in found else text_of(root, one)
        if text is not None:
            found[one] = text
            left += used_by(text)
    return found


@cache
def named_in(text: str) -> frozenset[Declared]:
    """The types and constants that a file of definitions names."""
    found: set[Declared] = set()
    for crate, modules, name, owner, names in DECLARED.findall(text):
        file = modules.rstrip(".").replace(".", "/")
        if name != "TheConstants":
            found.add(Declared(crate, file, name))
            continue
        constants = re.findall(r"(\w+)(?: as \w+)?", names) or re.findall(r"\w+", owner)
        found |= {Declared(crate, file, constant) for constant in constants}
    return frozenset(found)


def declared_in(texts: list[str]) -> set[Declared]:
    """The types and constants that definitions name."""
    return {one for text in texts for one in named_in(text)}


@cache
def lines_of(text: str) -> int:
    """How many lines of definitions a text has."""
    others = ("use ", "pub use ", "--", "//", "#[")
    return sum(
        1 for line in text.split("\n") if line.strip() and not line.strip().startswith(others)
    )


@cache
def lines_declared(root: Path, declared: Declared) -> int:
    """How many lines a type, or a constant, of the code has; none where it is std's."""
    source = root / "crates" / declared.crate / "src"
    path = next(
        (p for p in (source / f"{declared.file}.rt", source / "lib.rt") if p.exists()), None
    )
    if path is None:
        return 0
    text = read_once(path)
    kind = r"^(?:pub(?:\([\w ]+\))? )?(?:struct|enum) " + declared.name + r"\b.*?(?:;$|^\})"
    found = re.search(kind, text, re.MULTILINE | re.DOTALL)
    if found is not None:
        return lines_of(found.group(0))
    return 1 if re.search(r"\bconst " + declared.name + r"\b", text) else 0


def row_of(crate: str, files: dict[str, int], types: dict[str, int]) -> str:
    """A crate's line of the table."""
    named = [f"`{file}` {count}" for file, count in files.items()]
    if types:
        named.append(f"{len(types)} of `src/` {sum(types.values())}")
    return f"| `{crate}` | {', '.join(named)} | {sum(files.values()) + sum(types.values())} |"


@dataclass(frozen=True)
class Read:
    """What is read of a crate: the lines of its files of definitions, and of types and constants."""

    crate: str
    files: dict[str, int]
    types: dict[str, int]

    def lines(self) -> int:
        """How many lines."""
        return sum(self.files.values()) + sum(self.types.values())


def definitions_for(
    root: Path, names: tuple[str, ...]
) -> tuple[dict[Definitions, str], set[Declared]]:
    """The files of definitions that are read to judge some laws, and the types and constants."""
    laws = [law_named(root, name) for name in names]
    files = below(root, [file for law in laws for file in cited_by(law.text, law.contract)])
    return files, declared_in(list(files.values()))


def read_for(root: Path, names: tuple[str, ...]) -> list[Read]:
    """What is read of each crate to judge some laws, the highest crate first."""
    files, types_named = definitions_for(root, names)
    declared = sorted(types_named, key=lambda d: (d.file, d.name))
    listed = read_once(root / "crates.txt").split("\n")
    crates = [line.split(":")[0].split()[0] for line in listed if ":" in line and line[0] != "#"]
    found: list[Read] = []
    for crate in reversed(crates):
        counts = {
            file: lines_of(text) for (one, file), text in sorted(files.items()) if one == crate
        }
        types = {one.name: lines_declared(root, one) for one in declared if one.crate == crate}
        types = {name: count for name, count in types.items() if count}
        if counts or types:
            found.append(Read(crate, counts, types))
    return found


def lines_to_read(root: Path, names: tuple[str, ...]) -> int:
    """How many lines are read to judge some laws."""
    files, declared = definitions_for(root, names)
    of_types = sum(lines_declared(root, one) for one in declared)
    return sum(map(lines_of, files.values())) + of_types


def reading_list(root: Path, names: tuple[str, ...] = HEADLINE) -> str:
    """The list of some laws as a table, a line a crate, the highest first."""
    read = read_for(root, names)
    head = [
        "| crate | files of `specs/` and types and constants of `src/`, with their lines | lines |",
        "|---|---|---|",
    ]
    rows = [row_of(one.crate, one.files, one.types) for one in read]
    files, total = sum(len(one.files) for one in read), sum(one.lines() for one in read)
    return "\n".join([*head, *rows, f"| | {files} files | {total} |"]) + "\n"


def main() -> int:
    """Prints the list."""
    if any(name.startswith("-") for name in sys.argv[1:]):
        print(__doc__, file=sys.stderr)
        return 2
    root = Path(__file__).resolve().parent.parent
    print(reading_list(root, tuple(sys.argv[1:]) or HEADLINE), end="")
    return 0


if __name__ == "__main__":
    sys.exit(main())
