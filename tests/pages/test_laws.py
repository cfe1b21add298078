"""The tables of laws in docs/PROOFS.md are made of the comments of these laws (tools/laws.py)."""

from pathlib import Path

import laws
import pytest
from made import filled

from tests.harness.options import ROOT

SOURCE = """\
/// A price rises (`once`) in every
/// [venue](docs/MARKET.md#a-quote).
///
/// And it stays.
///
/// It ends at: [days](docs/PROOFS.md#answers) on which
/// a duty is left; fields.
#[inline]
pub fn prices_rise()
    ensures once { true }
    ensures twice { true }
{}

/// It rises.
pub fn it_rises()
    ensures { true }
{}

/// It ends at: nothing.
pub fn untold()
    ensures { true }
{}
"""
DEFINITION = """\
-- What a book has,
-- in short.
--
-- And more.
use other

-- A book keeps
-- its quotes.
pub record Keeps : Type 0 where
"""


@pytest.fixture
def root(tmp_path: Path) -> Path:
    """A repository of one crate."""
    for folder, file, text in (
        ("src", "laws.rt", SOURCE.partition("/// It ends at: nothing")[0]),
        ("specs", "Book.antt", DEFINITION),
    ):
        path = tmp_path / "crates" / "desk" / folder
        path.mkdir(parents=True)
        (path / file).write_text(text, encoding="utf-8")
    return tmp_path


def test_a_comment_is_a_row(root: Path, monkeypatch: pytest.MonkeyPatch) -> None:
    monkeypatch.setattr(laws, "lines_to_read", lambda _, names: 234 * len(names))
    read = laws.Laws(root)
    both = [read.named("desk::prices_rise"), read.named("desk::it_rises")]
    assert laws.row_in_full(root, both) == [
        "A price rises (`once`) in every [venue](MARKET.md#a-quote). And it stays",
        "`desk::prices_rise` (`once`, `twice`), `desk::it_rises`",
        "[days](#answers) on which a duty is left; fields",
        "470",
    ]
    assert laws.row_in_full(root, both[1:]) == ["It rises", "`desk::it_rises`", "", "230"]


def test_a_law_is_named_by_the_crate_in_which_it_stands(root: Path) -> None:
    said = "`gone::it_rises`, `desk::it_rises`, `gone::nothing`"
    assert laws.on_page(root, said) == "`desk::it_rises`, `desk::it_rises`, `gone::nothing`"


def test_a_row_in_short_has_the_sentence_alone(root: Path, monkeypatch: pytest.MonkeyPatch) -> None:
    monkeypatch.setattr(laws, "lines_to_read", lambda _, names: 1000 * len(names) + 234)
    law = laws.Laws(root).named("desk::prices_rise")
    said, cited, _, lines = laws.row_in_short(root, [law])
    assert said == "A price rises in every [venue](MARKET.md#a-quote)"
    assert (cited, lines) == ("`prices_rise`", "1,200")


def test_a_definition_is_a_row(root: Path) -> None:
    assert laws.row_of_definition(root, "desk/Book") == [
        "`Book` of `desk`",
        "What a book has, in short",
    ]
    assert laws.row_of_definition(root, "desk/Book.Keeps") == [
        "`Keeps` of `Book`",
        "A book keeps its quotes",
    ]


def test_what_is_not_there_is_told(root: Path) -> None:
    with pytest.raises(LookupError, match="desk has no law prices_fall"):
        laws.Laws(root).named("desk::prices_fall")
    with pytest.raises(LookupError, match="no record Lacks"):
        laws.row_of_definition(root, "desk/Book.Lacks")
    with pytest.raises(LookupError, match="no table elsewhere"):
        list(laws.table_lines(laws.Laws(root), "elsewhere"))
    (root / "crates/desk/src/laws.rt").write_text(SOURCE, encoding="utf-8")
    with pytest.raises(LookupError, match="untold has no sentence"):
        laws.Laws(root).named("desk::it_rises")


def test_each_table_stands_on_the_page() -> None:
    page = (ROOT / laws.PAGE).read_text(encoding="utf-8")
    made = filled(page, laws.SCRIPT, lambda name: "the table " + name)
    for name in (*laws.ROWS, *laws.DEFINITIONS):
        assert made.count("\n\nthe table %s\n\n" % name) == 1
