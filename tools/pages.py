#!/usr/bin/env python3
"""Checks the pages (.md) of this repository.

    tools/pages.py [--venue PROGRAM]     names, links, commands, clauses, and what scripts print
    tools/pages.py --words               how many words people wrote, and how many scripts, page by page

PROGRAM is a built rfq_venue, or words as "python3 tests/model/program.py"; without it the commands
that ask it are listed as not run. A finding is a line `PAGE:LINE: WHAT`, the last line
`N passed, M failed`.
"""

from __future__ import annotations

import argparse
import sys
from pathlib import Path

from page_checks.clauses import check_clauses
from page_checks.commands import check_commands
from page_checks.links import check_links
from page_checks.names import check_names
from page_checks.page import Checked, Page, pages_of, tracked
from page_checks.vocabulary import vocabulary_of
from page_checks.written import check_written


def is_main(path: str) -> bool:
    """Whether a page is one of those that everybody reads."""
    return path in ("README.md", "CONTRIBUTING.md", "SECURITY.md") or path.startswith("docs/")


def print_words(pages: list[Page]) -> None:
    """A line a page, the longest first, and two sums: the words, and those of tables that scripts make."""
    counted = {page.path: page.count() for page in pages}
    print(" words   made")
    for path, (words, made) in sorted(counted.items(), key=lambda one: one[1], reverse=True):
        print(f"{words:6} {made:6} {path}")
    for name, paths in (
        ("README, CONTRIBUTING, SECURITY and docs/", filter(is_main, counted)),
        ("all pages", iter(counted)),
    ):
        summed = [counted[path] for path in paths]
        words, made = (sum(column) for column in zip(*summed))
        print(f"{words:6} {made:6} {name}")


def check_pages(root: Path, files: list[str], pages: list[Page], program: str | None) -> Checked:
    """All checks; prints the commands that were not run."""
    words = vocabulary_of(root, files)
    checked, left = check_commands(pages, root, words, program)
    for shown in left:
        print(f"{shown.page}:{shown.line}: not run here: {shown.command}")
    checked.add(check_names(pages, words))
    checked.add(check_links(pages, words))
    checked.add(check_written(root, pages))
    checked.add(check_clauses(root))
    return checked


def main() -> int:
    """The status: 0 where nothing was found."""
    arguments = argparse.ArgumentParser(
        description=__doc__, formatter_class=argparse.RawTextHelpFormatter
    )
    arguments.add_argument("--venue", metavar="PROGRAM")
    arguments.add_argument("--words", action="store_true")
    asked = arguments.parse_args()
    root = Path(__file__).resolve().parent.parent
    files = tracked(root)
    pages = pages_of(root, files)
    if asked.words:
        print_words(pages)
        return 0
    checked = check_pages(root, files, pages, asked.venue)
    for finding in sorted(checked.findings, key=lambda found: (found.page, found.line)):
        print(finding)
    print(f"{checked.passed} passed, {len(checked.findings)} failed")
    return 1 if checked.findings else 0


if __name__ == "__main__":
    sys.exit(main())
