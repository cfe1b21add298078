#!/usr/bin/python3
"""Makes what is read of the venue's reasons for a refusal, from fix/reasons.toml.

    tools/reasons.py            writes fix/reasons.txt, with which the gateway is built, and the tables that
                                docs/MARKET.md and docs/CONNECTING.md mark as made by it
    tools/reasons.py --check    says which of these are not as it would write them, and ends with 1
"""

from __future__ import annotations

import argparse
import sys
import tomllib
from collections.abc import Mapping
from pathlib import Path
from typing import Any

from formats import rows
from made import filled, write

ROOT = Path(__file__).resolve().parent.parent
SCRIPT = "tools/reasons.py"
SOURCE = "fix/reasons.toml"
WORDS = "fix/reasons.txt"
PAGES = ("docs/MARKET.md", "docs/CONNECTING.md")
NOT_FOUND = "297=9"  # in place of 297=5 with a code in 300
HEAD = """\
# Text (58) of a message that refuses: for each name in the tables of docs/MARKET.md the name, a space, and the words
# that a firm reads. (A refused hit or pass has its name in 58, and stands in none of these lines.)
#
# The gateway is built with this table, and puts it into entry 0 of each day's log. Made by tools/reasons.py.
"""
# How a table of rules calls what it refuses, and the columns behind that.
RULES = {
    "quote": ["the quote is refused where", "300"],
    "cancel": ["where", "297", "300"],
    "decline": ["the decline is refused where", "300"],
    "request": ["the request is refused where", "658"],
    "hit": ["the hit is refused where"],
}

Source = Mapping[str, Any]


def read(root: Path = ROOT) -> Source:
    """The one source."""
    with (root / SOURCE).open("rb") as file:
        return tomllib.load(file)


def text(source: Source) -> str:
    """The words of each name, as the gateway reads them."""
    return HEAD + "".join("%s %s\n" % (one["name"], one["words"]) for one in source["reason"])


def quoted(name: str) -> str:
    return "`%s`" % name


def rank(code: str) -> int:
    """Where a code stands in the firms' table: by its number, and last where it is none."""
    return int(code) if code.isdigit() else sys.maxsize


def words(source: Source) -> str:
    """What a firm reads for each name, with the code beside it."""
    said = sorted(source["reason"], key=lambda one: rank(one["code"]))
    lines = [
        [quoted(one["name"]), quoted(one["words"]), one["code"], one.get("advice", "")]
        for one in said
    ]
    return rows(["name", "58", "300 or 658", "do this"], lines)


def hits(source: Source) -> str:
    """What a firm does behind each refusal of a hit."""
    lines = [[quoted(one["name"]), one["happened"], one["advice"]] for one in source["hit"]]
    return rows(["58", "what happened", "do this"], lines)


def codes(source: Source, kind: str, name: str) -> list[str]:
    """The codes beside a name in the table of what it refuses."""
    if kind == "hit":
        return []
    code = next(one["code"] for one in source["reason"] if one["name"] == name)
    if kind != "cancel":
        return [code]
    return ["9", ""] if code == NOT_FOUND else ["5", code]


def rules(source: Source, kind: str) -> str:
    """The rules that refuse a quote, a cancel, a decline, a request or a hit, in the order in which they are asked."""
    named = (
        [(one["name"], one["where"]) for one in source["hit"]]
        if kind == "hit"
        else source["rules"][kind]
    )
    lines = [
        [str(at), quoted(name), where, *codes(source, kind, name)]
        for at, (name, where) in enumerate(named, 1)
    ]
    return rows(["", "name", *RULES[kind]], lines)


def table(source: Source, name: str) -> str:
    """What stands between two marks of this name."""
    if name == "words":
        return words(source)
    if name == "hits":
        return hits(source)
    return rules(source, name.removeprefix("rules of a "))


def made(root: Path = ROOT) -> dict[str, str]:
    """Each file that is made of the source, with what it has to have."""
    source = read(root)
    files = {WORDS: text(source)}
    for file in PAGES:
        page = (root / file).read_text(encoding="utf-8")
        files[file] = filled(page, SCRIPT, lambda name: table(source, name))
    return files


def main() -> int:
    parser = argparse.ArgumentParser(
        description=__doc__, formatter_class=argparse.RawTextHelpFormatter
    )
    parser.add_argument("--check", action="store_true")
    return write(ROOT, made(), parser.parse_args().check)


if __name__ == "__main__":
    sys.exit(main())
