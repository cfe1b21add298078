"""Checks that the scripts that print a page can print it now: each crate has the caller that is named
for it, and the headline has definitions to read. Checks also that each table which a page marks as made
is as its script would write it.
"""

from __future__ import annotations

import subprocess
import sys
from pathlib import Path

import made
import promises
import reading_list

from .page import Checked, Page

PROMISES = "tools/promises.py"
READING = "tools/reading_list.py"

# Scripts that make tables, or files: each says by `--check` what is not as it would write it.
MAKERS = [
    "tools/figures.py",
    "tools/formats.py",
    "tools/laws.py",
    "tools/reasons.py",
    "tools/conformance.py",
    "tools/commands.py",
    "tools/crates.py",
    "tools/page_tables.py",
    "tools/variants.py",
    "tools/tables_of_tests.py",
]


def fault_of_promises(root: Path, crate: str) -> str | None:
    """Why the promises of a crate can't be printed, if so."""
    try:
        promises.page_text(root, [crate])
    except (LookupError, OSError) as error:
        return str(error)
    return None


def fault_of_reading(root: Path) -> str | None:
    """Why the definitions of the headline can't be listed, if so."""
    try:
        listed = reading_list.reading_list(root)
    except (SystemExit, OSError) as error:
        return str(error)
    return None if "| `step_replay` |" in listed else "it lists nothing of step_replay"


def fault_of_maker(root: Path, script: str) -> str | None:
    """What a script would write otherwise, if anything."""
    told = subprocess.run(
        [sys.executable, root / script, "--check"],
        stdout=subprocess.PIPE,
        stderr=subprocess.STDOUT,
        text=True,
        check=False,
    )
    return None if told.returncode == 0 else told.stdout.strip().replace("\n", "; ")


def check_marks(pages: list[Page], makers: list[str]) -> Checked:
    """Each mark names a script that is asked, and has its end before the next one."""
    checked = Checked()
    for page in pages:
        opened = 0
        for number, line in page.prose():
            first = made.FIRST.fullmatch(line)
            if first is not None:
                is_asked = first[1] in makers
                fault = None if is_asked else f"{first[1]} is none of the scripts that are asked"
                checked.note(page.path, number, "a mark within another" if opened else fault)
                opened = number
            elif line == made.LAST:
                checked.note(page.path, number, None if opened else "an end without a mark")
                opened = 0
            elif "<!-- made" in line:
                checked.note(page.path, number, "a mark that is none")
        if opened:
            checked.note(page.path, opened, "a mark without its end")
    return checked


def check_written(root: Path, pages: list[Page]) -> Checked:
    """The promises of each crate, the reading list, and each made table."""
    checked = check_marks(pages, MAKERS)
    for crate in promises.crates_of(root):
        checked.note(PROMISES, 1, fault_of_promises(root, crate))
    checked.note(READING, 1, fault_of_reading(root))
    for script in MAKERS:
        checked.note(script, 1, fault_of_maker(root, script))
    return checked
