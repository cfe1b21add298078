"""Runs the commands that a page shows, and checks that they print what the page says.

A block ```console has lines `$ COMMAND`, each followed by what it prints, both streams; a line
`...` stands for any lines. Each command runs at the top of the repository, and `rfq_venue` is the
program that was given. A block ```sh, and an indented line that begins with a program or a file of
the repository, is a command that takes minutes, or more than one process: it is listed, and not
run; the file has to be there.
"""

from __future__ import annotations

import os
import re
import shlex
import subprocess
import tempfile
from dataclasses import dataclass, field
from pathlib import Path

from .page import Block, Checked, Page, is_indented
from .vocabulary import Vocabulary

LIMIT = 900  # seconds for a command: one that is not done by then hangs
PROGRAMS = {
    "rt",
    "rfq_venue",
    "mireseason-audit",
    "python3",
    "apt-get",
    "systemctl",
    "etcdctl",
    "openssl",
    "ctest",
    "cmake",
}
SCRIPT = re.compile(r"^[a-z][\w-]*(?:/[\w.-]+)+$")


@dataclass
class Shown:
    """A command of a page, and the lines that it has to print."""

    page: str
    line: int
    command: str
    prints: list[str] = field(default_factory=list)


def shown_in(page: Page, block: Block) -> list[Shown]:
    """The commands of a block with their output."""
    shown: list[Shown] = []
    for number, line in enumerate(block.lines, block.first):
        if line.startswith("$ "):
            shown.append(Shown(page.path, number, line[2:]))
        elif shown:
            shown[-1].prints.append(line)
    return shown


def pattern_of(lines: list[str]) -> re.Pattern[str]:
    """What matches these lines, `...` being any."""
    text = "".join("(?:.*\n)*" if line == "..." else re.escape(line) + "\n" for line in lines)
    return re.compile(text)


def fault_of(shown: Shown, root: Path, environment: dict[str, str]) -> str | None:
    """Runs a command: what it prints instead, if anything."""
    try:
        run = subprocess.run(
            ["bash", "-c", shown.command],
            cwd=root,
            env=environment,
            text=True,
            stdin=subprocess.DEVNULL,
            stdout=subprocess.PIPE,
            stderr=subprocess.STDOUT,
            timeout=LIMIT,
            check=False,
        )
    except subprocess.TimeoutExpired:
        return f"not done in {LIMIT} s: {shown.command}"
    if pattern_of(shown.prints).fullmatch(run.stdout):
        return None
    printed = run.stdout if len(run.stdout) < 600 else run.stdout[:600] + ".."
    return f"{shown.command}\n  prints:\n{printed}"


def environment_with(program: str, folder: str) -> dict[str, str]:
    """The environment in which `rfq_venue` is this program, or these words, as `python3 FILE`."""
    words = [
        os.path.abspath(word) if os.path.exists(word) else word for word in shlex.split(program)
    ]
    script = Path(folder) / "rfq_venue"
    script.write_text(f'#!/bin/sh\nexec {shlex.join(words)} "$@"\n', encoding="utf-8")
    script.chmod(0o755)
    return {**os.environ, "PATH": f"{folder}:{os.environ['PATH']}", "LC_ALL": "C.UTF-8"}


def listed_in(page: Page) -> list[Shown]:
    """The commands of a page that are not run: those of blocks ```sh, and indented ones."""
    listed = [
        Shown(page.path, number, line)
        for block in page.blocks()
        if block.kind == "sh"
        for number, line in enumerate(block.lines, block.first)
        if line and not line.startswith("#")
    ]
    for number, line in page.prose():
        first = (line.split() or [""])[0]
        if is_indented(line) and (first in PROGRAMS or SCRIPT.match(first)):
            listed.append(Shown(page.path, number, line.strip()))
    return listed


def check_listed(listed: list[Shown], words: Vocabulary) -> Checked:
    """Of a command that is not run: the file with which it begins is there."""
    checked = Checked()
    for shown in listed:
        first = shown.command.split()[0]
        if SCRIPT.match(first):
            known = words.has_path(first, "")
            checked.note(shown.page, shown.line, None if known else f"there is no file {first}")
    return checked


def check_commands(
    pages: list[Page], root: Path, words: Vocabulary, program: str | None
) -> tuple[Checked, list[Shown]]:
    """Runs what can be run, and lists the rest: what takes minutes, or the program where there is
    none."""
    listed = [shown for page in pages for shown in listed_in(page)]
    checked = check_listed(listed, words)
    with tempfile.TemporaryDirectory() as folder:
        environment = environment_with(program or "false", folder)
        for page in pages:
            for block in page.blocks():
                for shown in shown_in(page, block) if block.kind == "console" else []:
                    if program is None and re.search(r"\brfq_venue\b", shown.command):
                        listed.append(shown)
                    else:
                        checked.note(shown.page, shown.line, fault_of(shown, root, environment))
    return checked, listed
