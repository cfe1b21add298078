#!/usr/bin/python3
"""Runs the venue's program, and keeps its answers by its arguments and the SHA-256 of what it reads.

usage: remembered.py WORDS OF THE PROGRAM .. ARGUMENTS ..

The program is a function of its input: what it answered once, it answers again. Hundreds of tests read
one day, so each of its answers is made once. REMEMBERED names the folder.
"""

import hashlib
import json
import os
import subprocess
import sys
import tempfile
from pathlib import Path

COMMANDS = ("alone", "replay", "day", "live", "due", "dues", "compare", "blotter")


def kept_in(place: Path) -> tuple[bytes, bytes, int] | None:
    if not (place / "status").exists():
        return None
    status = json.loads((place / "status").read_text())
    return (place / "out").read_bytes(), (place / "err").read_bytes(), status


def made(words: list[str], data: bytes, place: Path) -> tuple[bytes, bytes, int]:
    """Runs the program, and keeps what it answers."""
    done = subprocess.run(words, input=data, capture_output=True, check=False)
    with tempfile.TemporaryDirectory(dir=place.parent) as name:
        for part, value in (("out", done.stdout), ("err", done.stderr)):
            (Path(name) / part).write_bytes(value)
        (Path(name) / "status").write_text(json.dumps(done.returncode))
        place.mkdir(exist_ok=True)
        for part in ("out", "err", "status"):
            os.replace(Path(name) / part, place / part)
    return done.stdout, done.stderr, done.returncode


def main() -> int:
    words = sys.argv[1:]
    folder = os.environ.get("REMEMBERED")
    if folder is None or not any(word in COMMANDS for word in words):
        os.execvp(words[0], words)
    data = sys.stdin.buffer.read()
    digest = hashlib.sha256("\0".join(words).encode() + b"\0\0" + data).hexdigest()
    place = Path(folder) / digest
    out, err, status = kept_in(place) or made(words, data, place)
    sys.stderr.buffer.write(err)
    sys.stdout.buffer.write(out)
    sys.stdout.flush()
    return int(status)


if __name__ == "__main__":
    sys.exit(main())
