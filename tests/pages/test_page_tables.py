"""Tables of pages that tools/page_tables.py makes of comments and of columns' meanings."""

import re
import shutil
import tomllib
from pathlib import Path

import page_tables
import pytest
from page_tables import PAGES, ROOT, SETTINGS, TABLES, Unread, page, settings_in

MARK = "<!-- made by tools/page_tables.py: %s -->\n%s<!-- made end -->"


def in_use(text: str) -> str:
    """The installed configuration with each key in use that stands there as a comment."""
    return re.sub(r"(?m)^# (?=\[|[a-z_]+ = )", "", text)


@pytest.mark.parametrize("file", PAGES)
def test_each_page_has_what_is_made(file: str) -> None:
    assert dict(page_tables.made())[file] == (ROOT / file).read_text(encoding="utf-8")


def test_each_table_stands_on_a_page() -> None:
    pages = "".join((ROOT / file).read_text(encoding="utf-8") for file in PAGES)
    assert [name for name in TABLES if MARK.split("\n", 1)[0] % name not in pages] == []


def test_each_key_of_the_installed_file_is_read() -> None:
    text = (ROOT / SETTINGS).read_text(encoding="utf-8")
    found: dict[str, list[str]] = {}
    for one in settings_in(text):
        found.setdefault(one.part, []).append(one.name)
    assert {part: list(keys) for part, keys in tomllib.loads(in_use(text)).items()} == found


def test_a_comment_that_goes_on() -> None:
    text = '[log]\nfile = "a" # where it is,\n    # and how\n# [seal]  # keys\n# key = "k"  # one # two\n'
    found = [(one.part, one.name, one.value, one.text) for one in settings_in(text)]
    assert found == [
        ("log", "file", '"a"', "where it is, and how"),
        ("seal", "key", '"k"', "one # two"),
    ]


def test_a_key_without_a_comment_is_found() -> None:
    with pytest.raises(Unread, match="port = 1"):
        settings_in("[fix]\nport = 1\n")


def test_an_unknown_table_is_found() -> None:
    with pytest.raises(Unread, match="there is no table other"):
        page(ROOT, MARK % ("other", ""))


def test_a_head_that_changes_reaches_the_page(tmp_path: Path) -> None:
    shutil.copytree(ROOT / "gateway/src", tmp_path / "gateway/src")
    shutil.copy(ROOT / "gateway/CMakeLists.txt", tmp_path / "gateway")
    file = tmp_path / "gateway/src/base/CMakeLists.txt"
    file.write_text("# Another head of\n# base.h.\n" + file.read_text().split("\n", 1)[1])
    table = page(tmp_path, MARK % ("folders", "| `before` |\n"))
    assert "| `base` | Another head of `base.h` |\n" in table and "before" not in table
