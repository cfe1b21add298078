#!/usr/bin/python3
"""Makes the tables of the program's commands, flags and lines of input, from the texts of its help.

    tools/commands.py            writes the tables that docs/PROGRAM.md and docs/FORMATS.md mark as made by it
    tools/commands.py --check    says whether they are not as it would write them, and ends with 1 then
"""

from __future__ import annotations

import argparse
import re
import sys
from collections.abc import Iterator
from dataclasses import dataclass
from pathlib import Path

from formats import rows
from made import filled, write

ROOT = Path(__file__).resolve().parent.parent
SCRIPT = "tools/commands.py"
TABLE = "crates/command_arguments/src/table.rt"
TEXTS = "crates/command_arguments/src/help.rt"
INPUTS = "crates/command_arguments/src/inputs.rt"
PAGES = ("docs/PROGRAM.md", "docs/FORMATS.md")
TEXT = re.compile(r'const (\w+): &str =\s+"([^"]*)";')
FLAG = re.compile(r'const (\w+): FlagLine = FlagLine \{\s+name: "(\w+)",\s+help: (\w+),')
ARGUMENT = re.compile(
    r'const (\w+): ArgumentLine = ArgumentLine \{\s+shown: "(\w+)",\s+required: (\w+),'
)
INPUT = re.compile(r'const (\w+): &str = "\\\n(.*?)";', re.DOTALL)
LISTED = re.compile(r"  (\S.*?)(?: {2,}(\S.*))?")  # what the help lists, and what it says of that
ASKED = re.compile(r"(line|part|fault)s (\d) to (\d) of (\w+)")
COMMAND = re.compile(
    r'CommandLine \{\s+name: "(\w+)",\s+about: (\w+),\s+input: \w+,\s+flags: &\[([^]]*)\],'
    r"\s+argument: (None|Some\((\w+)\)),"
)


@dataclass
class Command:
    """A command as its help has it."""

    shown: str  # its name, and its argument where it has one
    about: str
    flags: list[str]


@dataclass
class Help:
    """The commands in their order, and what each flag asks for."""

    commands: list[Command]
    flags: dict[str, str]
    inputs: dict[str, str]  # what a command reads, with the lists of its parts


def read(root: Path = ROOT) -> Help:
    """What the program's help says."""
    source = (root / TABLE).read_text(encoding="utf-8")
    texts = dict(TEXT.findall((root / TEXTS).read_text(encoding="utf-8")))
    flags = {one: (name, texts[said]) for one, name, said in FLAG.findall(source)}
    arguments = {
        one: shown if is_required == "true" else "[%s]" % shown
        for one, shown, is_required in ARGUMENT.findall(source)
    }
    commands = []
    for name, about, taken, _, argument in COMMAND.findall(source):
        shown = "%s %s" % (name, arguments[argument]) if argument else name
        names = [flags[one][0] for one in taken.split(", ") if one]
        commands.append(Command(shown, texts[about], names))
    inputs = [
        found
        for file in (TEXTS, INPUTS)
        for found in INPUT.findall((root / file).read_text(encoding="utf-8"))
    ]
    unescaped = {name: text.replace('\\"', '"') for name, text in inputs}
    return Help(commands, dict(flags.values()), unescaped)


def lists(text: str) -> Iterator[list[list[str]]]:
    """The lists of a text of the help, each a name and what is said of it, over as many lines as that has."""
    found: list[list[str]] = []
    for line in [*text.split("\n"), ""]:
        if not line.startswith("  "):
            if found:
                yield found
            found = []
        elif line.startswith(" " * 8):
            found[-1][1] = (found[-1][1] + " " + line.strip()).strip()
        elif (listed := LISTED.fullmatch(line)) is not None:
            found.append([listed[1], listed[2] or ""])


def listed(told: Help, what: str, first: int, last: int, name: str) -> str:
    """Some of the lists of an input, in one table of lines, of their parts, or of faults."""
    chosen = [line for one in list(lists(told.inputs[name]))[first - 1 : last] for line in one]
    lines = [["`%s`" % form, said] for form, said in chosen]
    return rows([what, "says"], [[cell.replace("|", "\\|") for cell in line] for line in lines])


def table(told: Help, name: str) -> str:
    """What stands between two marks of this name: the commands, the flags, or lists of an input."""
    asked = ASKED.fullmatch(name)
    if asked is not None:
        return listed(told, asked[1], int(asked[2]), int(asked[3]), asked[4])
    if name == "commands":
        lines = [["`%s`" % one.shown, one.about] for one in told.commands]
        return rows(["command", "does"], lines)
    lines = []
    for flag, said in told.flags.items():
        of = [one.shown.split()[0] for one in told.commands if flag in one.flags]
        lines.append(["`--%s`" % flag, ", ".join("`%s`" % one for one in of), said])
    return rows(["flag", "with", "does"], lines)


def made(root: Path = ROOT) -> dict[str, str]:
    """Each page with its tables made anew."""
    told = read(root)
    texts = {file: (root / file).read_text(encoding="utf-8") for file in PAGES}
    return {
        file: filled(text, SCRIPT, lambda name: table(told, name)) for file, text in texts.items()
    }


def main() -> int:
    parser = argparse.ArgumentParser(
        description=__doc__, formatter_class=argparse.RawTextHelpFormatter
    )
    parser.add_argument("--check", action="store_true")
    return write(ROOT, made(), parser.parse_args().check)


if __name__ == "__main__":
    sys.exit(main())
