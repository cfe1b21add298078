"""docs/MAP.md has each folder at the top of the repository in a row, with a command that builds and tests it."""

import re
from pathlib import Path

ROOT = Path(__file__).resolve().parents[2]
NO_SOURCES = {"out", "__pycache__"}
ROW = re.compile(r"^\| \[([a-z]+)\]\([^)]+\) \| ([^|]+) \| ([^|]+) \|$", re.MULTILINE)


def rows() -> dict[str, tuple[str, str]]:
    """Of each folder that the map has: what it is, and its command."""
    page = (ROOT / "docs" / "MAP.md").read_text(encoding="utf-8")
    return {name: (what, command) for name, what, command in ROW.findall(page)}


def test_each_folder_has_a_row() -> None:
    found = {path.name for path in ROOT.iterdir() if path.is_dir()} - NO_SOURCES
    assert {name for name in found if not name.startswith(".")} == set(rows())


def test_each_row_says_what_it_is_and_how_it_is_tested() -> None:
    for name, (what, command) in rows().items():
        assert len(what) > 20, name
        assert "`" in command, name


def test_readme_names_the_map_first() -> None:
    """Where to go: the first link is the map."""
    text = (ROOT / "README.md").read_text(encoding="utf-8")
    where = text[text.index("## Where to go") :]
    assert re.findall(r"\]\(([^)]+)\)", where)[0] == "docs/MAP.md"
