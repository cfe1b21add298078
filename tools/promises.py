#!/usr/bin/env python3
"""Prints a page of promises: for each crate what its definitions are about, and each clause of its
public functions with what it says, from the comments and the contracts in crates/*/src and specs.

    tools/promises.py [CRATE..]    of these crates, or of all
"""

from __future__ import annotations

import re
import sys
from dataclasses import dataclass, field
from pathlib import Path

HEAD = """# Promises

Of each crate, what every public function requires of its caller and ensures, in the words of its own
comments and clauses. Each clause is proved, for every input; the crate's `specs/` has the definitions
of which clauses are made. A function's first row has its comment, and the rows below have its clauses,
each with its name and its comment where it has them. What a clause `requires` the caller has to see
to. A law is a function that does nothing. After the tables stands one caller of the crate, as it is
proved.
"""

# A function that calls each crate, from a crate above: where it stands, and its name.
CALLERS = {
    "fix_fields": ("quote_messages/src/arrivals.rt", "receive_dealer"),
    "bond_prices": ("dealer_desk/src/rules.rt", "if_on_grid"),
    "venue_rows": ("input_lines/src/line_steps.rt", "push_sweeps"),
    "venue_config": ("input_lines/src/venue_parts.rt", "read_venue"),
    "market_terms": ("investor_desk/src/rules.rt", "asked_dealers"),
    "quote_messages": ("dealer_desk/src/rules.rt", "dealer_verdict"),
    "quote_word": ("venue_steps/src/words.rt", "settle"),
    "dealer_desk": ("venue_steps/src/dealers.rt", "own_dealer"),
    "request_room": ("venue_steps/src/ends.rt", "do_hit"),
    "investor_desk": ("venue_steps/src/investors.rt", "do_relay"),
    "venue_steps": ("step_replay/src/hits.rt", "hit"),
    "step_replay": ("venue_text/src/alone_command.rt", "alone_text"),
    "recorded_days": ("day_weaving/src/day_form.rt", "has_more_rooms"),
    "day_weaving": ("venue_commands/src/days.rt", "count_woven"),
    "input_lines": ("venue_text/src/day_arguments.rt", "read_open_day"),
    "live_runs": ("venue_commands/src/program.rt", "run_command"),
    "command_arguments": ("venue_commands/src/program.rt", "run_program"),
    "venue_text": ("live_runs/src/stages.rt", "answer_step"),
    "venue_commands": ("rfq_venue/src/main.rt", "main"),
    "blotter": ("venue_text/src/blotter_command.rt", "lines_text"),
    "session_worker": ("venue_commands/src/days.rt", "day_text"),
    "day_checks": ("session_worker/src/days.rt", "recorded"),
}

COMMENT = re.compile(r"^\s*// ?(?!/)(.*)$")
DOC = re.compile(r"^\s*/// ?(.*)$")
FUNCTION = re.compile(r'^(\s*)(pub )?(?:const |unsafe |extern "C" )*fn (\w+)')
OWNER = re.compile(r"^(?:pub )?(impl|trait)\b(?:<(?:[^<>]|<[^<>]*>)*>)?\s*(.*?)\s*\{$")
GHOST_LAW = re.compile(r"^    ghost (\w+): \{(.*)$")
INVARIANT = re.compile(r"^    ghost invariant = \{(.*)$")
CLAUSE = re.compile(r"^\s*(ensures|requires)\s*(\w*)\s*\{(.*)$")
EXPORT = re.compile(r"^pub use (?:[\w:]+::)?(?:\{(.*?)\}|(\w+));", re.MULTILINE | re.DOTALL)
LINK = re.compile(r"\[(`[^`]*`)\](?:\([^)]*\))?")


@dataclass
class Clause:
    """A clause with its name (or none), its text, and the comment that stands above it."""

    name: str
    text: str
    comment: str


@dataclass
class Promise:
    """A public function, a trait or a type, with what its comment says and its clauses."""

    name: str
    says: str
    clauses: list[Clause] = field(default_factory=list)


def depth_of(text: str) -> int:
    """How many braces a text opens and does not close."""
    return text.count("{") - text.count("}")


def braced(lines: list[str], at: int, first: str) -> tuple[str, int]:
    """The text up to the brace that closes, and the line behind it. `first` stands behind the brace
    that opens."""
    text, depth = first, 1 + depth_of(first)
    while depth > 0 and at + 1 < len(lines):
        at += 1
        depth += depth_of(lines[at])
        text += " " + lines[at].strip()
    return " ".join(text.rpartition("}")[0].split()), at + 1


def plain(doc: list[str]) -> str:
    """A comment in one line, without links and without blocks of code."""
    kept: list[str] = []
    inside = False
    for line in doc:
        if line.startswith("```"):
            inside = not inside
        elif not inside:
            kept.append(line.strip())
    return LINK.sub(r"\1", " ".join(kept)).strip()


@dataclass
class Owner:
    """The type or trait whose block is open. In a trait's, and in a type's impl of one, every function
    is public."""

    name: str
    is_of_trait: bool


def owner_at(line: str) -> Owner | None:
    """The owner whose block a line opens."""
    opened = OWNER.match(line)
    if opened is None:
        return None
    name = re.split(r"[<:\s]", opened.group(2).split(" for ")[-1])[0]
    return Owner(name, opened.group(1) == "trait" or " for " in opened.group(2))


def clauses_at(lines: list[str], at: int, indent: str) -> tuple[list[Clause], int]:
    """The clauses of the function whose head begins here, and the line behind its head."""
    clauses: list[Clause] = []
    comment: list[str] = []
    while at < len(lines):
        line = lines[at]
        clause, said = CLAUSE.match(line), COMMENT.match(line)
        at += 1
        if clause:
            text, at = braced(lines, at - 1, clause.group(3))
            words = ["requires" if clause.group(1) == "requires" else "", clause.group(2)]
            clauses.append(Clause(" ".join(word for word in words if word), text, plain(comment)))
            comment = []
            if lines[at - 1].endswith(";"):
                break
        elif said:
            comment.append(said.group(1))
        elif line in (indent + "{", indent + "{}") or line.endswith((";", "{", "{}")):
            break
    return clauses, at


class FileReader:
    """Goes over the lines of a file, and finds what it promises."""

    def __init__(self, lines: list[str]) -> None:
        self.lines = lines
        self.at = 0
        self.owner: Owner | None = None
        self.doc: list[str] = []
        self.found: list[Promise] = []

    def read(self) -> list[Promise]:
        """All promises of the file, in its order."""
        while self.at < len(self.lines):
            line = self.lines[self.at]
            self.at += 1
            said = DOC.match(line)
            if said:
                self.doc.append(said.group(1))
                continue
            self.read_line(line)
            if line.strip() and not line.strip().startswith(("#[", "//")):
                self.doc = []
        return self.found

    def read_line(self, line: str) -> None:
        """A line that is no comment of an item."""
        opened = owner_at(line)
        if opened is not None or line == "}":
            self.owner = opened
        head, law, invariant = FUNCTION.match(line), GHOST_LAW.match(line), INVARIANT.match(line)
        if head:
            self.read_function(head)
        elif self.owner and law:
            self.read_law(self.owner.name, law.group(1), law.group(2))
        elif self.owner and invariant:
            text, self.at = braced(self.lines, self.at - 1, invariant.group(1))
            self.add(
                self.owner.name,
                "What every value of this type keeps.",
                Clause("invariant", text, ""),
            )

    def read_function(self, head: re.Match[str]) -> None:
        """A function, with its clauses where it is public."""
        clauses, self.at = clauses_at(self.lines, self.at - 1, head.group(1))
        inside = self.owner if head.group(1) else None
        name = f"{inside.name}::{head.group(3)}" if inside else head.group(3)
        if head.group(2) or (inside and inside.is_of_trait and clauses):
            self.found.append(Promise(name, plain(self.doc), clauses))

    def read_law(self, owner: str, name: str, first: str) -> None:
        """A law of a trait; what only gives the type of a ghost says nothing."""
        text, self.at = braced(self.lines, self.at - 1, first)
        if "≡" in text:
            self.add(owner, "What every one of these keeps.", Clause(name, text, plain(self.doc)))

    def add(self, name: str, says: str, clause: Clause) -> None:
        """Puts a clause to the last promise where that has the name, else makes one."""
        if not self.found or self.found[-1].name != name:
            self.found.append(Promise(name, says))
        self.found[-1].clauses.append(clause)


def exported(root: str) -> set[str]:
    """The names that a crate gives out, by its root file."""
    names = set(re.findall(r'^pub (?:extern "C" )?fn (\w+)', root, re.MULTILINE))
    for several, one in EXPORT.findall(root):
        names.update(re.findall(r"\w+", several or one))
    return names


def head_of(path: Path) -> str:
    """The comment at the head of a file of definitions, in one line."""
    lines: list[str] = []
    for line in path.read_text(encoding="utf-8").split("\n"):
        if not line.startswith("--"):
            break
        lines.append(line[2:].strip())
    return " ".join(lines)


def in_cell(text: str) -> str:
    """A text as a cell of a table may have it."""
    return text.replace("|", "\\|")


def definition_lines(crate: Path) -> list[str]:
    """A table of the crate's files of definitions."""
    files = sorted(path for path in (crate / "specs").glob("*.antt") if path.stem != "Lib")
    if not files:
        return []
    return [
        "| definitions | what they say |",
        "|---|---|",
        *(f"| `{path.stem}` | {in_cell(head_of(path))} |" for path in files),
        "",
    ]


def promise_lines(promises: list[Promise]) -> list[str]:
    """A table of promises."""
    lines = ["| function | clause | what it says |", "|---|---|---|"]
    for promise in promises:
        lines.append(f"| `{promise.name}` | | {in_cell(promise.says)} |")
        for clause in promise.clauses:
            comment = in_cell(clause.comment) + " " if clause.comment else ""
            name = f"`{clause.name}`" if clause.name else ""
            lines.append(f"| | {name} | {comment}`{in_cell(clause.text)}` |")
    return [*lines, ""]


def caller_lines(crate: Path) -> list[str]:
    """A caller of the crate with its contract and its body."""
    if crate.name not in CALLERS:
        return []
    path, name = CALLERS[crate.name]
    lines = (crate.parent / path).read_text(encoding="utf-8").split("\n")
    head = re.compile(rf"\s*(?:pub(?:\(crate\))? )?fn {name}\b")
    heads = [at for at, line in enumerate(lines) if head.match(line)]
    if not heads:
        raise LookupError(
            f"{path} has no {name}, which calls {crate.name}: name another in CALLERS"
        )
    indent = " " * (len(lines[heads[0]]) - len(lines[heads[0]].lstrip()))
    end = lines.index(indent + "}", heads[0])
    body = [line.removeprefix(indent) for line in lines[heads[0] : end + 1]]
    return [f"`{name}` (`{path}`) calls it:", "", "```rust", *body, "```", ""]


def bare_lines(promises: list[Promise]) -> list[str]:
    """The public functions that have no clause, or ensure nothing: they are safe and no more."""
    bare = [f"`{promise.name}`" for promise in promises if not promise.clauses]
    asking = [
        f"`{promise.name}`"
        for promise in promises
        if promise.clauses and all(clause.name.startswith("requires") for clause in promise.clauses)
    ]
    lines = [f"Without a clause: {', '.join(bare)}.", ""] if bare else []
    return lines + ([f"Ensure nothing: {', '.join(asking)}.", ""] if asking else [])


def crate_lines(crate: Path) -> list[str]:
    """The part of one crate: none where no public function of it has a clause."""
    root = crate / "src" / "lib.rt"
    if not root.exists():
        return []
    names = exported(root.read_text(encoding="utf-8"))
    promises = [
        promise
        for path in sorted((crate / "src").glob("*.rt"))
        for promise in FileReader(path.read_text(encoding="utf-8").split("\n")).read()
        if promise.name.split("::")[0] in names
    ]
    if not any(promise.clauses for promise in promises):
        return []
    return [
        f"## {crate.name}",
        "",
        *definition_lines(crate),
        *promise_lines([promise for promise in promises if promise.clauses]),
        *bare_lines(promises),
        *caller_lines(crate),
    ]


def crates_of(root: Path) -> list[str]:
    """All crates, in the order of crates.txt."""
    lines = (root / "crates.txt").read_text(encoding="utf-8").split("\n")
    return [re.split(r"[\s:]", line)[0] for line in lines if ":" in line and line[0] != "#"]


def page_text(root: Path, crates: list[str]) -> str:
    """The page of these crates, in their order."""
    lines = [line for crate in crates for line in crate_lines(root / "crates" / crate)]
    told = [line[3:] for line in lines if line.startswith("## ")]
    contents = [f"- [{crate}](#{crate})" for crate in told]
    return "\n".join([HEAD, *contents, "", *lines]).rstrip("\n") + "\n"


def main() -> int:
    """Prints the page, or says which of the crates there is not."""
    root = Path(__file__).resolve().parent.parent
    crates = crates_of(root)
    asked = sys.argv[1:] or crates
    foreign = [name for name in asked if name not in crates]
    if foreign:
        print(f"there is no crate {foreign[0]}", file=sys.stderr)
        print(__doc__, file=sys.stderr)
        return 2
    print(page_text(root, asked), end="")
    return 0


if __name__ == "__main__":
    sys.exit(main())
