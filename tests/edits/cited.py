#!/usr/bin/env python3
"""Finds wrong bodies that a proof may refuse only for a missing name, which shows nothing: they take away a
name that the function's proof files cite.

    python3 -m tests.edits.cited [CRATE..]    looks at the wrong bodies of these crates, or of all

It proves nothing, so it looks at all of them in a second; `rt must-fail` and run.sh say the same of one that
they try. A proof file cites a variable or a call of the code by a path from `c`, `l` or `goal`:
`c.in_ok-row.result` of a variable, `c.push-2.ensures` of the second call of `push`, and `c.len-most.result`
of the call whose value `most` gets.
"""

from __future__ import annotations

import re
import sys
from collections import Counter
from dataclasses import dataclass
from pathlib import Path

from tests.edits.functions import Function, function_at
from tests.edits.wrong_bodies import WrongBody, bodies_of

ROOT = Path(__file__).resolve().parents[2]
NOTE = re.compile(r'//.*|"(?:[^"\\]|\\.)*"')
WORD = re.compile(r"[A-Za-z_]\w*")
PROOF_NOTE = re.compile(r"^use .*|--.*", re.MULTILINE)
PATH = re.compile(r"\b(?:c|l|goal)\.((?:(?:loop|args)[\w-]*\.)?[A-Za-z_][\w-]*)")
PART = re.compile(r"([A-Za-z_]\w*)(?:-(\d+))?")
LET = re.compile(r"\blet ([^=;]+)=([^;]*);")
CALL = re.compile(r"(\w+)\(")
DECLARED = re.compile(r"^ *(?:(?:pub|abbrev|unfoldable|data|record) )*([^\s:(]+) .*:", re.MULTILINE)


@dataclass
class Finding:
    """A wrong body, and what proof files cite of what it takes away."""

    body: WrongBody
    names: tuple[str, ...]

    def __str__(self) -> str:
        return f"{self.body}: proof files cite {', '.join(self.names)}"


class Misfit(Exception):
    """A wrong body that does not fit the file which it changes."""


def made_of(crate: Path, body: WrongBody) -> dict[str, tuple[str, str]]:
    """The files that a wrong body changes, as they are and as it makes them."""
    files: dict[str, tuple[str, str]] = {}
    for file, old, new in body.changes:
        text = (crate / file).read_text(encoding="utf-8")
        was, now = files.get(file, (text, text))
        if now.count(old) != 1:
            raise Misfit(f"{body}: {now.count(old)} times in {file}: {old}")
        files[file] = (was, now.replace(old, new))
    return files


def functions_of(crate: Path, body: WrongBody, file: str, text: str) -> list[Function]:
    """The functions of a file that a wrong body changes."""
    places = [text.find(old) for of, old, _ in body.changes if of == file]
    found = [function_at(crate, file, text, at) for at in places if at >= 0]
    return list({one.begins: one for one in found if one is not None}.values())


def cited_of(crate: Path, function: Function) -> set[str]:
    """The paths by which the proof files of a function cite its code."""
    found = set()
    for path in sorted(function.proofs(crate, function.name).glob("*.antt")):
        text = PROOF_NOTE.sub("", path.read_text(encoding="utf-8"))
        found |= set(PATH.findall(text))
    return found


def names_of(path: str) -> set[str]:
    """What a path names: each variable and call, the call with its number where it is not the first,
    or with the variable behind it."""
    parts = PART.findall(path)
    ones = {name if int(number or 1) == 1 else f"{name}-{number}" for name, number in parts}
    return ones | {f"{one}-{other}" for (one, _), (other, _) in zip(parts, parts[1:])}


def had_by(text: str) -> set[str]:
    """What the code of a function has of such names, without comments and strings."""
    text = NOTE.sub("", text)
    words = Counter(WORD.findall(text))
    ones = {
        name if at == 1 else f"{name}-{at}" for name in words for at in range(1, words[name] + 1)
    }
    lets = [(WORD.findall(names), CALL.findall(value)) for names, value in LET.findall(text)]
    return ones | {f"{call}-{name}" for names, calls in lets for name in names for call in calls}


def gone_of(crate: Path, body: WrongBody, function: Function, text: str) -> set[str]:
    """What a function no longer has of what its proof files cite."""
    own = made = text[function.begins : function.ends]
    for _, old, new in body.changes:
        made = made.replace(old, new)
    cited = {name for path in cited_of(crate, function) for name in names_of(path)}
    return cited & had_by(own) - had_by(made)


def undeclared_of(crate: Path, was: str, now: str) -> set[str]:
    """What a file of definitions no longer declares of what the crate's proof files name."""
    gone = set(DECLARED.findall(was)) - set(DECLARED.findall(now))
    if not gone:
        return gone
    texts = [path.read_text(encoding="utf-8") for path in (crate / "proofs").rglob("*.antt")]
    return {name for name in gone if any(name in text for text in texts)}


def findings(names: list[str]) -> tuple[int, list[Finding]]:
    """How many wrong bodies were looked at, and what was found."""
    bodies, found = [body for body in bodies_of(names) if not body.test], []
    for body in bodies:
        crate = ROOT / "crates" / body.crate
        gone: set[str] = set()
        for file, (was, now) in made_of(crate, body).items():
            if not file.startswith("src/"):
                gone |= undeclared_of(crate, was, now)
                continue
            for function in functions_of(crate, body, file, was):
                gone |= gone_of(crate, body, function, was)
        if gone:
            found.append(Finding(body, tuple(sorted(gone))))
    return len(bodies), found


def main() -> int:
    looked, found = findings(sys.argv[1:])
    for one in found:
        print(one)
    print(f"{looked} wrong bodies, {len(found)} of which take away what a proof file cites")
    return 1 if found else 0


if __name__ == "__main__":
    sys.exit(main())
