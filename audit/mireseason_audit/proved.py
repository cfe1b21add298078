"""Recognises the venue's proved program by its SHA-256, which this repository has in a file."""

import hashlib
import re
from collections.abc import Iterable
from pathlib import Path

from .faults import Unreadable

ROOT = Path(__file__).resolve().parent.parent.parent
# In the repository, and as packages install it. It has the sums of other files, too.
FILES = (ROOT / "crates" / "proved.sha256", ROOT / "proved.sha256")
PROGRAM = "crates/rfq_venue/out/rfq_venue"
LINE = re.compile(r"([0-9a-f]{64})  (\S.*)")
LONGEST = 1 << 20  # bytes of the file


def proved_programs(files: Iterable[Path] = FILES) -> dict[str, str]:
    """What each proved program is, by its SHA-256; none where the repository names none."""
    path = next((path for path in files if path.exists()), None)
    if path is None:
        return {}
    try:
        with path.open(encoding="utf-8") as file:
            lines = file.read(LONGEST).splitlines()
    except (OSError, ValueError) as fault:
        raise Unreadable("%s can't be read: %s" % (path, fault)) from None
    found = (LINE.fullmatch(line.partition("#")[0].strip()) for line in lines)
    return {line[1]: line[2] for line in found if line is not None and line[2] == PROGRAM}


def sum_of(path: Path) -> str:
    """The SHA-256 of a program's file."""
    with path.open("rb") as file:
        return hashlib.file_digest(file, "sha256").hexdigest()
