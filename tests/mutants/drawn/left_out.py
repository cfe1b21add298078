"""Reads left_out.toml: which changes are not drawn, which passed every test and are no mistake, and why."""

import re
import tomllib
from dataclasses import dataclass
from pathlib import Path

from tests.mutants.drawn.change import Change

FILE = Path(__file__).with_name("left_out.toml")


@dataclass(frozen=True)
class LeftOut:
    """The two lists."""

    lines: list[re.Pattern[str]]
    # a file, what stood there, and what stands there then; and a part of its line, where it stands elsewhere too
    equal: frozenset[tuple[str, str, str, str]]

    def has(self, change: Change, text: bytes) -> bool:
        line = text.splitlines()[change.line - 1].decode(errors="replace")
        return any(pattern.search(line) for pattern in self.lines)

    def is_equal(self, change: Change, text: bytes) -> bool:
        old = " ".join(text[change.start : change.end].decode().split())
        own = (change.file, old, " ".join(change.new.split()))
        line = text.splitlines()[change.line - 1].decode()
        return any(one[:3] == own and one[3] in line for one in self.equal)


def read_left_out(file: Path = FILE) -> LeftOut:
    """Each entry has its reason, else KeyError."""
    told = tomllib.loads(file.read_text())
    for entry in [*told.get("line", []), *told.get("equal", [])]:
        assert entry["why"], entry
    lines = [re.compile(entry["has"]) for entry in told.get("line", [])]
    equal = frozenset(
        (entry["file"], entry["old"], entry["new"], entry.get("line", ""))
        for entry in told.get("equal", [])
    )
    return LeftOut(lines, equal)
