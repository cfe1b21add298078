"""Days, the frames that the venue's program prints for each, and the engines' own program."""

import re
import shlex
import subprocess
from dataclasses import dataclass
from pathlib import Path

import pytest

from tests.harness import build
from tests.harness.build import made_once
from tests.harness.options import ROOT

HERE = Path(__file__).resolve().parent
EXAMPLES = ROOT / "examples"
VENUE = EXAMPLES / "three-dealers.toml"
PROGRAM, FRAMES = "program", "frames"
DIVIDER = re.compile(rb"(?m)^%%$")
ENGINES = "g++ -std=c++14 -O0 -Wall -Wextra -Wno-deprecated -o {out} {sources} -lquickfix -lpthread"


@dataclass(frozen=True)
class Input:
    """A day of the venue, or a list of what is due to a firm, and the command that reads it."""

    name: str
    command: str
    text: bytes


def inputs() -> list[Input]:
    """Of the examples and of days/. A day of steps alone has its configuration beside it, or that of the examples."""
    found = []
    for path in sorted([*EXAMPLES.iterdir(), *(HERE / "days").iterdir()]):
        if not path.is_file():
            continue
        text = path.read_bytes()
        if path.suffix == ".due":
            found.append(Input("alone-" + path.name, "alone", text))
        elif path.suffix == ".steps":
            own = path.with_suffix(".toml")
            head = (own if own.exists() else VENUE).read_bytes()
            found.append(Input("replay-" + path.name, "replay", head + b"%%\n" + text))
        elif len(DIVIDER.findall(text)) == 1:
            found.append(Input("replay-" + path.name, "replay", text))
    return found


@dataclass(frozen=True)
class Printed:
    """All days, in files of a folder: the inputs, and the frames that were printed for each."""

    folder: Path
    program: Path  # the venue's program as one file, which is started without words
    inputs: list[Input]
    frames: list[Path]


def as_one_file(words: tuple[str, ...], folder: Path) -> Path:
    program = folder / PROGRAM
    program.write_text('#!/bin/sh\nexec %s "$@"\n' % shlex.join(words))
    program.chmod(0o755)
    return program


@pytest.fixture(scope="session")
def printed(venue: tuple[str, ...], shared: Path) -> Printed:
    folder = made_once(shared / "engines", lambda fresh: print_all(venue, fresh))
    frames = [folder / FRAMES / each.name for each in inputs()]
    return Printed(folder, folder / PROGRAM, inputs(), frames)


def print_all(venue: tuple[str, ...], folder: Path) -> None:
    """The frames that the venue's program prints for each input."""
    program = as_one_file(venue, folder)
    (folder / FRAMES).mkdir()
    for each in inputs():
        words = [str(program), each.command, "--frames"]
        done = subprocess.run(words, input=each.text, capture_output=True, check=True, timeout=600)
        (folder / FRAMES / each.name).write_bytes(done.stdout)


@pytest.fixture(scope="session")
def engines() -> Path:
    """The program of this folder, which reads and builds messages with QuickFIX."""
    sources = sorted(HERE.glob("*.cpp"))
    return build.compiled("engines", ENGINES.replace("{sources}", "-I%s {sources}" % HERE), sources)
