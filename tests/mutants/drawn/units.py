"""The programs of unit tests that cmake builds in a folder."""

import json
import os
import subprocess
import time
from collections.abc import Iterator, Mapping
from dataclasses import dataclass
from pathlib import Path

UNIT = "unit "  # what the name of such a program begins with, among the names of tests
LIMIT = 600.0  # seconds of one program


@dataclass(frozen=True)
class Unit:
    """A program of unit tests."""

    name: str
    command: tuple[str, ...]

    def run(self, out: Path, own: Mapping[str, str], limit: float = LIMIT) -> float | None:
        """Its seconds with these words in its environment; None where it fails. TimeoutExpired where it takes longer."""
        began = time.monotonic()
        done = subprocess.run(
            self.command,
            cwd=out,
            env={**os.environ, **own},
            stdout=subprocess.DEVNULL,
            stderr=subprocess.DEVNULL,
            timeout=limit,
            check=False,
        )
        return time.monotonic() - began if done.returncode == 0 else None


def units(out: Path) -> Iterator[Unit]:
    """The programs that ctest runs in a folder that is built, each once, with all its cases."""
    words = ["ctest", "--test-dir", str(out), "--show-only=json-v1"]
    done = subprocess.run(words, capture_output=True, timeout=LIMIT, check=True)
    programs = {
        test["command"][0] for test in json.loads(done.stdout)["tests"] if "command" in test
    }
    for program in sorted(programs):
        yield Unit(UNIT + Path(program).name, (program,))
