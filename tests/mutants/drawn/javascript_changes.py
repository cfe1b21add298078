"""Finds the possible changes of a file in JavaScript: a script of node reads acorn's syntax tree."""

import json
import subprocess
import tempfile
from pathlib import Path

from tests.mutants.drawn.change import BOUNDS, OPPOSITES, Change, Kind

SCRIPT = Path(__file__).with_name("javascript_changes.js")
LIMIT = 60  # seconds


def javascript_changes(file: str, path: str) -> list[Change]:
    """All changes of a file in JavaScript, in its order."""
    with tempfile.NamedTemporaryFile("w", suffix=".json") as words:
        json.dump({"bounds": BOUNDS, "opposites": OPPOSITES}, words)
        words.flush()
        command = ["node", str(SCRIPT), path, words.name]
        done = subprocess.run(command, capture_output=True, text=True, timeout=LIMIT, check=True)
    found = [change_of(file, json.loads(line)) for line in done.stdout.splitlines()]
    return sorted(found, key=lambda change: (change.start, change.kind.name))


def change_of(file: str, told: dict[str, int | str]) -> Change:
    """A line of the script."""
    start, end, line = (int(told[key]) for key in ("start", "end", "line"))
    return Change(file, line, start, end, str(told["new"]), Kind[str(told["kind"])])
