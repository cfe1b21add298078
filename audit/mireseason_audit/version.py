"""Says which version and commit of the audit this is, and of the keeper beside it."""

import argparse
import subprocess
from pathlib import Path
from typing import Any

ROOT = Path(__file__).resolve().parent.parent.parent


def version_text(program: str = "mireseason-audit") -> str:
    """`mireseason-audit 1.1.0 (COMMIT)`: a `+` behind the commit where files differ from it, `unknown` where none is known."""
    return "%s %s (%s)" % (program, first_line(ROOT / "VERSION"), commit_of(ROOT))


def first_line(file: Path) -> str:
    try:
        return file.read_text().partition("\n")[0]
    except OSError:
        return "unknown"


def commit_of(root: Path) -> str:
    """Of a package by its file COMMIT, and else of the repository."""
    if (root / "COMMIT").exists():
        return first_line(root / "COMMIT")
    words = [
        "git",
        "-C",
        str(root),
        "describe",
        "--always",
        "--abbrev=12",
        "--match=no-tag",
        "--dirty=+",
    ]
    try:
        told = subprocess.run(words, capture_output=True, text=True, check=True, timeout=10)
    except (OSError, subprocess.SubprocessError):
        return "unknown"
    return told.stdout.strip() or "unknown"


class PrintVersion(argparse.Action):
    """Is asked for before git is: only who wants to know waits for it."""

    def __init__(self, option_strings: list[str], dest: str, **_: Any) -> None:
        super().__init__(option_strings, dest, nargs=0, help="print version and commit")

    def __call__(self, parser: argparse.ArgumentParser, *_: Any) -> None:
        print(version_text())
        parser.exit()
