"""What tools/crates.py makes of crates for the pages."""

from pathlib import Path

import crates
import pytest

from tests.harness.options import ROOT

TREE = {
    "crates.txt": "# A line for each crate.\n\n# Low: what others need\none: itoa\n\n# High: the rest\ntwo may_wait=1: one\n",
    "crates/one/src/lib.rt": "//! Numbers, as [`Ticks`](ticks) have them. Of `one` there\n//! is more.\n//!\n//! And so on.\n",
    "crates/two/src/main.rt": "//! The program.\nmod two;\n",
    "crates/two/README.md": "# two\n\n<!-- made by tools/crates.py: two -->\n<!-- made end -->\n",
    crates.LIST: "<!-- made by tools/crates.py: crates -->\n<!-- made end -->\n",
    crates.SESSIONS: "<!-- made by tools/crates.py: texts of a Logout -->\n<!-- made end -->\n",
    crates.REASONS: "pub enum Why {\n    /// It is closed.\n    Closed,\n    /// It came before.\n    Low {\n"
    "        /// The next.\n        next: u64,\n    },\n}\n",
    crates.TEXTS: 'why_text why.Closed = codes "closed"\nwhy_text (why.Low next) = codes "low, not " ++ decimal next\n',
}


@pytest.fixture
def tree(tmp_path: Path) -> Path:
    for name, text in TREE.items():
        (tmp_path / name).parent.mkdir(parents=True, exist_ok=True)
        (tmp_path / name).write_text(text, encoding="utf-8")
    return tmp_path


def test_a_crates_page_begins_with_its_head(tree: Path) -> None:
    assert "-->\n\nThe program.\n\n<!--" in crates.made(tree)["crates/two/README.md"]


def test_the_list_has_the_first_sentence_of_each(tree: Path) -> None:
    said = crates.made(tree)[crates.LIST]
    assert "**Low: what others need**" in said and "**High: the rest**" in said
    assert "| [one](one/src/lib.rt) | Numbers, as `Ticks` have them |" in said
    assert "| [two](two/README.md) | The program |" in said


def test_each_reason_of_a_logout_has_its_text(tree: Path) -> None:
    said = crates.made(tree)[crates.SESSIONS]
    assert "| It is closed | `closed` |\n| It came before | `low, not N` |\n" in said


def test_every_crate_is_listed() -> None:
    found = {each.name for each in (ROOT / "crates").iterdir() if (each / "src").is_dir()}
    assert {crate for _, names in crates.groups(ROOT) for crate in names} == found
