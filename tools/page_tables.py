#!/usr/bin/python3
"""Makes tables of pages from the files in which their text stands: a comment or a column's meaning.

    tools/page_tables.py            writes the tables between its marks
    tools/page_tables.py --check    says which pages are not as it would write them, and ends with 1
"""

from __future__ import annotations

import argparse
import re
import sys
from collections.abc import Callable, Iterator, Sequence
from dataclasses import dataclass
from pathlib import Path

ROOT = Path(__file__).resolve().parent.parent
sys.path[:0] = [str(ROOT / "audit"), str(ROOT / "common")]

from mireseason_audit.items import CHECKS  # noqa: E402  the path is set before
from mireseason_audit.statistics_tables import FIGURES  # noqa: E402

PAGES = ("gateway/README.md", "docs/OPERATING.md", "docs/SUPERVISING.md")
SETTINGS = "install/packages/config/gateway.toml"
ALERTS = "install/prometheus/mireseason.rules.yml"
LIMITS = "limits"  # a part of it, whose values are all defaults
MARKED = re.compile(
    r"(<!-- made by tools/page_tables\.py: ([a-z ]+) -->\n).*?(<!-- made end -->)", re.DOTALL
)
PART = re.compile(r"^(?:# )?\[(?P<name>[a-z]+)\](?:\s+# (?P<text>.*))?$")
KEY = re.compile(r"^(?:# )?(?P<name>[a-z_]+) = (?P<value>.*?)\s+# (?P<text>.*)$")
ANY_KEY = re.compile(r"^(?:# )?[a-z_]+ = ")
GOES_ON = re.compile(r"^\s+# (?P<text>.*)$")
FOLDERS = re.compile(r"^set\(FOLDERS ([a-z_\s]+)\)", re.MULTILINE)
ALERT = re.compile(
    r"- alert: .*?severity: (?P<severity>\w+).*?summary: \"(?P<summary>[^\"]*)\"\n"
    r".*?action: \"(?P<action>[^\"]*)\"\n",
    re.DOTALL,
)
FILLED_IN = re.compile(r"\{\{ \$(?:labels\.)?(\w+)[^}]*\}\}")
HEADER = re.compile(r"\b[a-z_]+\.h\b")


class Unread(Exception):
    """A source does not have what a table is made of."""


@dataclass
class Setting:
    """A key of a configuration, by its part, with the comment behind it."""

    part: str
    name: str
    value: str
    text: str


def settings_in(text: str) -> list[Setting]:
    """The keys of a configuration, those that stand as comments too."""
    found: list[Setting] = []
    part = ""
    for line in text.splitlines():
        if of_part := PART.match(line):
            part = of_part["name"]
        elif key := KEY.match(line):
            found.append(Setting(part, key["name"], key["value"], key["text"]))
        elif ANY_KEY.match(line):
            raise Unread("no comment says what this is: %s" % line)
        elif (more := GOES_ON.match(line)) and found:
            found[-1].text += " " + more["text"]
    return found


def rows(head: Sequence[str], lines: Sequence[Sequence[str]]) -> str:
    """A table of a page."""
    said = [head, ["---"] * len(head), *lines]
    text = "".join("| %s |\n" % " | ".join(line) for line in said)
    return re.sub(r"(?<=\|) {2}(?=\|)", " ", text)


def keys(root: Path) -> str:
    """Each key of the gateway but the limits."""
    lines = []
    before = ""
    for one in settings_in((root / SETTINGS).read_text(encoding="utf-8")):
        if one.part == LIMITS:
            continue
        lines.append(
            ["" if one.part == before else "`[%s]`" % one.part, "`%s`" % one.name, one.text]
        )
        before = one.part
    return rows(["part", "key", "is"], lines)


def limits(root: Path) -> str:
    """What one firm may do, with the figures that count where nothing is set."""
    lines = [
        ["`%s`" % one.name, "{:,}".format(int(one.value)), one.text]
        for one in settings_in((root / SETTINGS).read_text(encoding="utf-8"))
        if one.part == LIMITS
    ]
    return rows(["key of `[limits]`", "default", "what it limits"], lines)


def head_of(text: str) -> str:
    """The comment with which a file begins, as one line."""
    lines: list[str] = []
    for line in text.splitlines():
        if not line.startswith("# "):
            break
        lines.append(line.removeprefix("# "))
    return " ".join(lines).removesuffix(".")


def folders(root: Path) -> str:
    """The folders of gateway/src in their order, with the head of each one's CMakeLists.txt."""
    order = FOLDERS.search((root / "gateway/CMakeLists.txt").read_text(encoding="utf-8"))
    if order is None:
        raise Unread("gateway/CMakeLists.txt has no FOLDERS")
    lines = []
    for name in order[1].split():
        file = root / "gateway/src" / name / "CMakeLists.txt"
        head = head_of(file.read_text(encoding="utf-8"))
        lines.append(["`%s`" % name, HEADER.sub(lambda found: "`%s`" % found[0], head)])
    return rows(["folder", "has"], lines)


def figures(_root: Path) -> str:
    """The columns of the audit's figures that say what they are."""
    lines = [["`%s`" % one.name, one.meaning] for one in FIGURES.columns]
    return rows(["column", "is"], lines)


def alerts(root: Path) -> str:
    """The alerts: what is found, whom it wakes, and what to do. What an alert fills in is in capitals."""
    text = (root / ALERTS).read_text(encoding="utf-8")
    found = list(ALERT.finditer(text))
    if len(found) != text.count("- alert: "):
        raise Unread("an alert lacks severity, summary or action, in this order")
    lines = [
        [
            FILLED_IN.sub(lambda name: name[1].upper(), one["summary"]),
            one["severity"],
            one["action"],
        ]
        for one in found
    ]
    return rows(["an alert says", "severity", "what to do"], lines)


def checks(_root: Path) -> str:
    """What the audit looks at, by the lines of its report."""
    return rows(["item", "what is checked"], [[name, text] for name, text in CHECKS])


TABLES: dict[str, Callable[[Path], str]] = {
    "keys": keys,
    "limits": limits,
    "folders": folders,
    "figures": figures,
    "checks": checks,
    "alerts": alerts,
}


def page(root: Path, text: str) -> str:
    """A page with its tables made anew."""

    def made_again(mark: re.Match[str]) -> str:
        if mark[2] not in TABLES:
            raise Unread("there is no table %s" % mark[2])
        return mark[1] + "\n" + TABLES[mark[2]](root) + "\n" + mark[3]

    return MARKED.sub(made_again, text)


def made(root: Path = ROOT) -> Iterator[tuple[str, str]]:
    """Each page that has such tables, with what it has to have."""
    for file in PAGES:
        yield file, page(root, (root / file).read_text(encoding="utf-8"))


def main() -> int:
    parser = argparse.ArgumentParser()
    parser.add_argument("--check", action="store_true")
    is_check = parser.parse_args().check
    changed = 0
    for file, text in made():
        if (ROOT / file).read_text(encoding="utf-8") == text:
            continue
        changed += 1
        print("%s is not as it would be written" % file if is_check else "%s is written" % file)
        if not is_check:
            (ROOT / file).write_text(text, encoding="utf-8")
    return 1 if is_check and changed else 0


if __name__ == "__main__":
    sys.exit(main())
