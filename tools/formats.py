#!/usr/bin/python3
"""Makes what firms read of the venue's formats, from fix/formats.toml.

    tools/formats.py            writes the dictionaries fix/FIXT11.xml and fix/MIRESEASON.xml, and the tables
                                that docs/FORMATS.md and docs/CONNECTING.md mark as made by it
    tools/formats.py --check    says which of these are not as it would write them, and ends with 1
"""

from __future__ import annotations

import argparse
import re
import sys
import textwrap
import tomllib
from collections.abc import Iterator, Mapping, Sequence
from pathlib import Path
from typing import Any
from xml.sax.saxutils import quoteattr

from made import filled, write

ROOT = Path(__file__).resolve().parent.parent
SCRIPT = "tools/formats.py"
SOURCE = "fix/formats.toml"
DICTIONARIES = {"transport": "fix/FIXT11.xml", "application": "fix/MIRESEASON.xml"}
PAGES = ("docs/FORMATS.md", "docs/CONNECTING.md")
WIDTH = 112  # columns of a comment
FIELDS = "fields of "  # and the name of a message
SENDERS = {"S": "dealer", "Z": "dealer", "AG": "dealer", "R": "investor", "AJ": "investor"}

Table = Mapping[str, Any]


def read(root: Path = ROOT) -> Table:
    """The one source."""
    with (root / SOURCE).open("rb") as file:
        return tomllib.load(file)


# ------------------------------------------------------------ dictionaries


def attributes(**values: str) -> str:
    return "".join(" %s=%s" % (name, quoteattr(value)) for name, value in values.items())


def item(text: str) -> tuple[str, str, str]:
    """What a field of the source names: `field` or `component`, its name, and whether it is required."""
    kind = "component" if text.startswith("@") else "field"
    return kind, text.strip("@!"), "Y" if text.endswith("!") else "N"


def lines_of(fields: Sequence[Any], depth: int) -> Iterator[str]:
    """The fields of a message, with their groups."""
    space = "  " * depth
    for one in fields:
        if isinstance(one, str):
            kind, name, required = item(one)
            yield "%s<%s%s/>" % (space, kind, attributes(name=name, required=required))
            continue
        _, name, required = item(one["group"])
        yield "%s<group%s>" % (space, attributes(name=name, required=required))
        yield from lines_of(one["fields"], depth + 1)
        yield space + "</group>"


def comment(text: str, depth: int) -> list[str]:
    """A comment in lines, as those of its item are indented."""
    space = "  " * depth
    first, *rest = textwrap.wrap("<!-- %s -->" % text, WIDTH - len(space) - 5)
    return [space + first, *(space + " " * 5 + line for line in rest)]


def header(part: Table) -> Iterator[str]:
    yield "  <header>"
    *fields, last = lines_of(part["header"], 2)
    yield from fields
    if "header_comment" in part:
        yield from comment(part["header_comment"], 2)
    yield last
    yield "  </header>"


def messages(source: Table, part: str) -> Iterator[str]:
    yield "  <messages>"
    is_spaced = part == "application"
    for at, one in enumerate(it for it in source["message"] if it["of"] == part):
        if is_spaced and at > 0:
            yield ""
        if "comment" in one:
            yield from comment(one["comment"], 2)
        category = one.get("category", "app" if part == "application" else "admin")
        yield "    <message%s>" % attributes(name=one["name"], msgtype=one["type"], msgcat=category)
        yield from lines_of(one["fields"], 3)
        yield "    </message>"
    yield "  </messages>"


def components(source: Table, part: str) -> Iterator[str]:
    if part == "transport":
        yield "  <components/>"
        return
    yield "  <components>"
    for one in source["component"]:
        yield "    <component%s>" % attributes(name=one["name"])
        yield from lines_of([{"group": one["group"], "fields": one["fields"]}], 3)
        yield "    </component>"
    yield "  </components>"


def field_lines(source: Table, part: str) -> Iterator[str]:
    yield "  <fields>"
    for one in source["field"]:
        if part not in one["of"]:
            continue
        is_told = part == "application"
        if is_told and "comment" in one:
            yield from comment(one["comment"], 2)
        values = one.get("values", []) if is_told else []
        said = attributes(number=str(one["tag"]), name=one["name"], type=one["type"])
        yield "    <field%s%s>" % (said, "" if values else "/")
        for value, name in values:
            yield "      <value%s/>" % attributes(enum=value, description=name)
        if values:
            yield "    </field>"
    yield "  </fields>"


def dictionary(source: Table, part: str) -> str:
    """A data dictionary in QuickFIX's format."""
    lines = ['<?xml version="1.0" encoding="UTF-8"?>', "<!--"]
    lines += [*source[part]["head"].rstrip("\n").split("\n"), "-->"]
    lines += ['<fix type="FIXT" major="1" minor="1" servicepack="0">', *header(source[part]), ""]
    lines += [*messages(source, part), "", "  <trailer>", *lines_of(source[part]["trailer"], 2)]
    lines += ["  </trailer>", "", *components(source, part), "", *field_lines(source, part)]
    return "\n".join([*lines, "</fix>", ""])


# ------------------------------------------------------------ tables of the pages


def names(source: Table) -> dict[int, str]:
    """The name of each tag."""
    return {one["tag"]: one["name"] for one in source["field"]}


def tags(source: Table) -> dict[str, int]:
    return {one["name"]: one["tag"] for one in source["field"]}


def rows(head: Sequence[str], lines: Sequence[Sequence[str]]) -> str:
    """A table of a page."""
    said = [head, ["---"] * len(head), *lines]
    text = "".join("| %s |\n" % " | ".join(line) for line in said)
    return re.sub(r"(?<=\|) {2}(?=\|)", " ", text)


def reads(source: Table) -> str:
    """What the venue reads of each message, in the order in which it looks."""
    known, lines = names(source), []
    for one in source["reads"]:
        for at, (tag, form, required) in enumerate(one["rows"]):
            kind = one["message"] if at == 0 else ""
            lines.append([kind, "%d %s" % (tag, known[tag]), form, required])
    return rows(["type", "tag", "form", "required"], lines)


def writes(source: Table, to: str) -> str:
    """What the venue writes to a dealer, or to an investor."""
    lines = next(one["rows"] for one in source["writes"] if one["to"] == to)
    return rows(["message", "fields"], lines)


def flat(source: Table, fields: Sequence[Any]) -> Iterator[str]:
    """The names of all fields of a message, those of groups and components among them."""
    parts = {one["name"]: one for one in source["component"]}
    for one in fields:
        if isinstance(one, str):
            kind, name, _ = item(one)
            if kind == "field":
                yield name
            else:
                yield from flat(source, [parts[name]])
        else:
            yield item(one["group"])[1]
            yield from flat(source, one["fields"])


def values_of(one: Table) -> str:
    said = [
        "%s %s" % (value, name.lower().replace("_", " ")) for value, name in one.get("values", [])
    ]
    return ", ".join(said)


def needs_of(source: Table, kind: str) -> dict[int, str]:
    """Of each tag that the venue reads in a message of this type, whether it is required."""
    found = {}
    for one in source["reads"]:
        if "(35=%s)" % kind in one["message"]:
            found.update({tag: required for tag, _, required in one["rows"]})
    return found


def fields(source: Table, message: str) -> str:
    """A message of the application, with its fields: who has to send them, and what they may be."""
    by_name = {one["name"]: one for one in source["field"]}
    named = {one["name"]: one for one in source["message"] if one["of"] == "application"}
    one = named[message]
    needs = needs_of(source, one["type"])
    sender = SENDERS.get(one["type"])
    text = "**%s (35=%s).** %s\n\n" % (one["name"], one["type"], one.get("comment", ""))
    head = ["tag", "name", "type"] + (["the %s sends it" % sender] if sender else []) + ["values"]
    lines = []
    for name in dict.fromkeys(flat(source, one["fields"])):
        field = by_name[name]
        asked = [needs.get(field["tag"], "")] if sender else []
        lines.append([str(field["tag"]), name, field["type"], *asked, values_of(field)])
    return text + rows(head, lines)


def table(source: Table, name: str) -> str:
    """What stands between two marks of this name."""
    if name == "reads":
        return reads(source)
    if name.startswith(FIELDS):
        return fields(source, name.removeprefix(FIELDS))
    return writes(source, name.removeprefix("writes to "))


def page(source: Table, text: str) -> str:
    """A page with its tables made anew."""
    return filled(text, SCRIPT, lambda name: table(source, name))


def made(root: Path = ROOT) -> dict[str, str]:
    """Each file that is made of the source, with what it has to have."""
    source = read(root)
    files = {file: dictionary(source, part) for part, file in DICTIONARIES.items()}
    for file in PAGES:
        files[file] = page(source, (root / file).read_text(encoding="utf-8"))
    return files


def main() -> int:
    parser = argparse.ArgumentParser()
    parser.add_argument("--check", action="store_true")
    return write(ROOT, made(), parser.parse_args().check)


if __name__ == "__main__":
    sys.exit(main())
