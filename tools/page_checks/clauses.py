"""Checks that each clause named by the tables of docs/PROOFS.md is one of that function, in the
crate that gives it out.

A row names clauses as `CRATE::FUNCTION` (`CLAUSE`, `CLAUSE`), or `CRATE::TYPE::FUNCTION` for a
method. If no names stand in parentheses, the function has at least one clause that ensures
something. A star at the end of a name stands for every function that the crate gives out whose name
begins so, and names in braces, `CRATE::TYPE::{FUNCTION, FUNCTION}`, for each of them. In a table
with the head HEAD, which may have more columns, the second cell says what carries the first:
clauses, or words.
"""

from __future__ import annotations

import fnmatch
import re
from pathlib import Path

from promises import FileReader, exported

from .page import Checked

PAGE = "docs/PROOFS.md"
HEAD = "| what is promised | what carries it |"

LAST = r"\w+|\w*\*|\{\w+\*?(?:, \w+\*?)*\}"
NAMED = re.compile(r"`(\w+)((?:::\w+)*::(?:" + LAST + r"))`(?: \((`\w+`(?:, `\w+`)*)\))?")
Clauses = dict[str, set[str]]  # of a function by its name: what its clauses are called


def clauses_of(crate: Path) -> Clauses:
    """The clauses of each function that a crate gives out: none has the name of none."""
    names = exported((crate / "src" / "lib.rt").read_text(encoding="utf-8"))
    found: Clauses = {}
    for path in sorted((crate / "src").glob("*.rt")):
        for promise in FileReader(path.read_text(encoding="utf-8").split("\n")).read():
            if promise.name.split("::")[0] in names:
                ensured = [
                    clause.name
                    for clause in promise.clauses
                    if not clause.name.startswith("requires")
                ]
                found.setdefault(promise.name, set()).update(ensured)
    return found


class Crates:
    """The crates of a repository, each read once."""

    def __init__(self, root: Path) -> None:
        self.root = root
        self.read: dict[str, Clauses | None] = {}

    def clauses(self, crate: str) -> Clauses | None:
        """The clauses of a crate's functions, or none where there is no such library."""
        if crate not in self.read:
            folder = self.root / "crates" / crate
            is_there = (folder / "src" / "lib.rt").exists()
            self.read[crate] = clauses_of(folder) if is_there else None
        return self.read[crate]

    def fault_of(self, crate: str, function: str, clauses: list[str]) -> str | None:
        """Why a function, with clauses of these names, is not one of a crate's, if it is not."""
        known = self.clauses(crate)
        if known is None:
            return f"there is no crate {crate}"
        named = fnmatch.filter(known, function)
        if not named:
            return f"{crate} gives out no {function}"
        for name in named:
            if not known[name]:
                return f"{crate}::{name} ensures nothing"
            for clause in clauses:
                if clause not in known[name]:
                    return f"{crate}::{name} has no clause {clause}"
        return None


def each_of(name: str) -> list[str]:
    """The functions that a name stands for: those in its braces, or itself."""
    front, brace, inside = name.removeprefix("::").partition("{")
    return [front + each for each in inside.rstrip("}").split(", ")] if brace else [front]


def rows_of(text: str) -> list[tuple[int, str, bool]]:
    """Each row of a table: its line's number, and whether the table's head is HEAD."""
    rows: list[tuple[int, str, bool]] = []
    inside, promises = False, False
    for number, line in enumerate(text.split("\n"), 1):
        if line.startswith("|") and not inside:
            promises = line.startswith(HEAD)
        elif line.startswith("| "):
            rows.append((number, line, promises))
        inside = line.startswith("|")
    return rows


def check_clauses(root: Path) -> Checked:
    """Each function of each row, with its clauses; and that no promise is without what carries it."""
    checked = Checked()
    crates = Crates(root)
    text = (root / PAGE).read_text(encoding="utf-8")
    for number, row, promises in rows_of(text):
        if promises:
            cells = row.strip("| ").split(" | ")
            is_carried = len(cells) > 1 and cells[1].strip(" |")
            checked.note(PAGE, number, None if is_carried else "nothing carries this sentence")
        for crate, names, clauses in NAMED.findall(row):
            for name in each_of(names):
                fault = crates.fault_of(crate, name, re.findall(r"\w+", clauses))
                checked.note(PAGE, number, fault)
    return checked
