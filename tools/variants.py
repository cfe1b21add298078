#!/usr/bin/python3
"""Makes tables of faults and of kinds, from the comments of the enums in Rattle that have them.

    tools/variants.py            writes each table that a page marks as made by it
    tools/variants.py --check    says which pages are not as it would write them, and ends with 1 then

A mark says `CRATE::ENUM`, or `CRATE::ENUM, each TEXT NAME` for names behind a text, or `CRATE::ENUM in small` for
names without capitals; `CRATE::ENUM with FIELD` takes the variants with that field alone. With `as HEAD | HEAD` at its
end the columns have these heads in place of `fault` and `when`.
No table has `Memory`: the page says when memory may be refused.
"""

from __future__ import annotations

import argparse
import re
import sys
from collections.abc import Iterator
from pathlib import Path

from formats import rows
from made import filled, write

ROOT = Path(__file__).resolve().parent.parent
SCRIPT = "tools/variants.py"
PAGES = ("docs/FORMATS.md", "docs/PROGRAM.md", "docs/RECOVERY.md", "docs/SESSIONS.md")
ASKED = re.compile(
    r"(\w+)::(\w+)(?: with (\w+))?(?:, each (.+) NAME)?( in small)?(?: as (.+) \| (.+))?"
)
VARIANT = re.compile(r"    (\w+)(?:(?:\(.*\))?,| \{)")


def body_of(root: Path, crate: str, enum: str) -> str:
    """The lines of an enum, between its braces."""
    for path in sorted((root / "crates" / crate / "src").glob("**/*.rt")):
        text = path.read_text(encoding="utf-8")
        found = re.search(
            r"^pub enum %s(?:<[^>]*>)? \{\n(.*?)^\}" % enum, text, re.DOTALL | re.MULTILINE
        )
        if found is not None:
            return found[1]
    raise SystemExit("crates/%s has no enum %s" % (crate, enum))


def variants(body: str) -> Iterator[tuple[str, str]]:
    """The variants, each with its comment. Those of a variant's fields stand further in."""
    said: list[str] = []
    for line in body.splitlines():
        if line.startswith("    ///"):
            said.append(line.removeprefix("    ///").strip())
        elif (found := VARIANT.fullmatch(line)) is not None:
            yield found[1], " ".join(said)
            said = []


def sentence(text: str) -> str:
    """A comment as a cell has it: it begins small, and a single sentence has no full stop."""
    is_name = text.split()[0][1:].lower() != text.split()[0][1:]  # as BodyLength is
    first = text[0] if is_name else text[0].lower()
    return first + (text[1:] if ". " in text else text[1:].removesuffix("."))


def called(name: str, before: str | None, is_small: bool) -> str:
    """A variant as the program prints it."""
    shown = re.sub(r"\B([A-Z])", r" \1", name).lower() if is_small else name
    return f"{before} {shown}" if before else shown


def table(what: str, root: Path = ROOT) -> str:
    """The table that a mark asks for."""
    found = ASKED.fullmatch(what)
    if found is None:
        raise SystemExit("no enum is named so: %s" % what)
    crate, enum, field, before, is_small, *heads = found.groups()
    body = body_of(root, crate, enum)
    having = re.findall(r"^    (\w+) \{\n(?:     .*\n)*?        %s: " % field, body, re.MULTILINE)
    lines = [
        ["`%s`" % called(name, before, bool(is_small)), sentence(said)]
        for name, said in variants(body)
        if name != "Memory" and (field is None or name in having)
    ]
    if not lines:
        raise SystemExit("no variant stands in %s::%s" % (crate, enum))
    return rows(heads if heads[0] else ["fault", "when"], lines)


def made(root: Path = ROOT) -> dict[str, str]:
    """Each page with its tables made anew."""
    texts = {file: (root / file).read_text(encoding="utf-8") for file in PAGES}
    return {
        file: filled(text, SCRIPT, lambda what: table(what, root)) for file, text in texts.items()
    }


def main() -> int:
    parser = argparse.ArgumentParser(
        description=__doc__, formatter_class=argparse.RawTextHelpFormatter
    )
    parser.add_argument("--check", action="store_true")
    return write(ROOT, made(), parser.parse_args().check)


if __name__ == "__main__":
    sys.exit(main())
