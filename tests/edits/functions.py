"""Finds the functions of a crate in its sources: where each stands, and how a check calls it."""

from __future__ import annotations

import re
from dataclasses import dataclass
from pathlib import Path

FUNCTION = re.compile(
    r"^( *)(?:pub(?:\([a-z]+\))? )?(?:const )?(?:extern \"C\" )?fn (\w+)", re.MULTILINE
)
OWNER = re.compile(r"^impl\b(?:<(?:[^<>]|<[^<>]*>)*>)? *(.*?) *\{$", re.MULTILINE)
ABOVE = re.compile(r" *(///|//|#\[)")


@dataclass
class Function:
    """A function of a crate: the modules and the type that it is in, its name, and its place."""

    within: list[str]
    name: str
    begins: int
    ends: int

    def asked(self, name: str) -> str:
        """The path by which a check is asked for it, where it is called so."""
        return "::".join([*self.within, name])

    def proofs(self, crate: Path, name: str) -> Path:
        """Where its proof files stand, where it is called so."""
        return crate.joinpath("proofs", *self.within, name)


def module_of(crate: Path, file: Path) -> list[str]:
    """The module that a source file is, by its path."""
    parts = list(file.relative_to(crate / "src").with_suffix("").parts)
    if parts[-1] in ("lib", "main", "mod"):
        parts.pop()
    return parts


def path_of_type(crate: Path, name: str) -> list[str]:
    """The path of a type: a method has it, also where its impl stands in another file."""
    declared = re.compile(rf"^(?:pub(?:\([a-z]+\))? )?(?:struct|enum) {name}\b", re.MULTILINE)
    for file in sorted((crate / "src").rglob("*.rt")):
        if declared.search(file.read_text(encoding="utf-8")):
            return [*module_of(crate, file), name]
    return [name]


def begin_of(text: str, at: int) -> int:
    """Where the comment and the attributes above a line begin."""
    while at > 0:
        above = text.rfind("\n", 0, at - 1) + 1
        if not ABOVE.match(text[above:at]):
            break
        at = above
    return at


def function_at(crate: Path, file: str, text: str, at: int) -> Function | None:
    """The function that holds this place of a file, unless it is a method of a trait."""
    for found in FUNCTION.finditer(text):
        end = re.compile(rf"^{found[1]}(\}}|\{{\}})\n", re.MULTILINE).search(text, found.end())
        begins = begin_of(text, found.start())
        if end is None or not begins <= at < end.end():
            continue
        owner = ""
        for one in OWNER.finditer(text, 0, found.start()) if found[1] else ():
            owner = one[1]
        if " for " in f" {owner} ":
            return None
        owner = re.split(r"[<\s]", owner)[0]
        within = path_of_type(crate, owner) if owner else module_of(crate, crate / file)
        return Function(within, found[2], begins, end.end())
    return None
