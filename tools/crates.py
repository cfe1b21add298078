#!/usr/bin/env python3
"""Makes what pages say of crates, from the crates themselves.

    tools/crates.py            writes the list in crates/README.md, the first lines of each crate's page, and the
                               texts of a Logout in docs/SESSIONS.md
    tools/crates.py --check    says which of these are not as it would write them, and ends with 1

A crate's first lines are the first paragraph of the comment at the head of its `src`. The texts of a
Logout stand in a definition, the reasons for them in the comments of an enum.
"""

from __future__ import annotations

import argparse
import re
import sys
from collections.abc import Iterator
from pathlib import Path

from made import filled, write
from promises import LINK

ROOT = Path(__file__).resolve().parent.parent
SCRIPT = "tools/crates.py"
LIST = "crates/README.md"
SESSIONS = "docs/SESSIONS.md"
REASONS = "crates/fix_sessions/src/turns.rt"  # the enum Why
TEXTS = "crates/fix_sessions/specs/Written.antt"  # why_text

GROUP = re.compile(r"^# (\w[\w ]*): (.+)$")
CRATE = re.compile(r"^(\w+)\b[^:]*:")
WHY = re.compile(r"^pub enum Why \{\n(.*?)^\}", re.MULTILINE | re.DOTALL)
REASON = re.compile(r"^    /// (.+)\.\n    ([A-Z]\w*)\b", re.MULTILINE)
TEXT = re.compile(
    r'^why_text (?:why\.(\w+)|\(why\.(\w+) \w+\)) = codes "(.+?)"( \+\+ decimal \w+)?$',
    re.MULTILINE,
)


def head_of(root: Path, crate: str) -> str:
    """The first paragraph of a crate's head."""
    source = root / "crates" / crate / "src"
    file = next(each for each in (source / "lib.rt", source / "main.rt") if each.exists())
    lines = []
    for line in file.read_text(encoding="utf-8").split("\n"):
        if line == "//!" or not line.startswith("//!"):
            break
        lines.append(line.removeprefix("//! "))
    return LINK.sub(r"\1", " ".join(lines))


def groups(root: Path) -> Iterator[tuple[str, list[str]]]:
    """The headings of crates.txt, what stands behind each, and the crates below it."""
    said = ""
    crates: list[str] = []
    for line in (root / "crates.txt").read_text(encoding="utf-8").split("\n"):
        heading, crate = GROUP.match(line), CRATE.match(line)
        if heading:
            if crates:
                yield said, crates
            said, crates = f"{heading[1]}: {heading[2]}", []
        elif crate and said:
            crates.append(crate[1])
    yield said, crates


def page_of(root: Path, crate: str) -> str:
    """Where a crate's page stands, or its head where it has none, from the list."""
    places = (f"{crate}/README.md", f"{crate}/src/lib.rt", f"{crate}/src/main.rt")
    return next(each for each in places if (root / "crates" / each).exists())


def listed(root: Path) -> str:
    """Every crate by the groups of crates.txt, the lowest first."""
    text = ""
    for said, crates in groups(root):
        text += f"**{said}**\n\n| crate | what it is |\n|---|---|\n"
        for crate in crates:
            first = re.split(r"(?<=[a-z`)])\. ", head_of(root, crate))[0].rstrip(".")
            text += f"| [{crate}]({page_of(root, crate)}) | {first} |\n"
        text += "\n"
    return text


def logouts(root: Path) -> str:
    """Why a session logs a firm out, and what it says."""
    enum = WHY.search((root / REASONS).read_text(encoding="utf-8"))
    if enum is None:
        raise SystemExit(f"{REASONS} has no enum Why")
    reasons = {name: said for said, name in REASON.findall(enum[1])}
    lines = ["| reason | Text (58) |", "|---|---|"]
    for plain, counted, text, number in TEXT.findall((root / TEXTS).read_text(encoding="utf-8")):
        lines.append(f"| {reasons[plain or counted]} | `{text}{'N' if number else ''}` |")
    return "\n".join(lines) + "\n"


def made(root: Path = ROOT) -> dict[str, str]:
    """Each page that is made, with its text."""
    pages = sorted((root / "crates").glob("*/README.md"))
    texts = {str(page.relative_to(root)): page.read_text(encoding="utf-8") for page in pages}
    texts[LIST] = (root / LIST).read_text(encoding="utf-8")
    texts[SESSIONS] = (root / SESSIONS).read_text(encoding="utf-8")

    def part(name: str) -> str:
        if name == "crates":
            return listed(root)
        return logouts(root) if name == "texts of a Logout" else head_of(root, name)

    return {page: filled(text, SCRIPT, part) for page, text in texts.items()}


def main() -> int:
    parser = argparse.ArgumentParser(
        description=__doc__, formatter_class=argparse.RawTextHelpFormatter
    )
    parser.add_argument("--check", action="store_true")
    return write(ROOT, made(), parser.parse_args().check)


if __name__ == "__main__":
    sys.exit(main())
