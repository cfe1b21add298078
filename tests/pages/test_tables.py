"""The tables that scripts make of what code and tests have: none of their rows is lost on the way."""

import re
from pathlib import Path

import commands
import conformance
import figures
import pytest
import reasons
import variants

from tests.harness.options import ROOT


def test_each_rule_has_its_words_and_no_other() -> None:
    source = reasons.read()
    named = {name for rules in source["rules"].values() for name, _ in rules}
    assert named == {one["name"] for one in source["reason"]}
    assert len(reasons.words(source).splitlines()) == len(named) + 2


def test_the_words_are_printable() -> None:
    for one in reasons.read()["reason"]:
        assert re.fullmatch(r"[ -{}~]{1,100}", one["words"]), one["name"]


def test_each_command_and_flag_of_the_help_is_listed() -> None:
    told, source = commands.read(), (ROOT / commands.TABLE).read_text(encoding="utf-8")
    assert len(told.commands) == len(re.findall(r"\n        name: ", source)) == 8
    assert len(told.flags) == source.count(": FlagLine = ")
    assert set(told.flags) == {flag for one in told.commands for flag in one.flags}


def test_what_the_help_lists_is_whole() -> None:
    """A name whose words begin on the next line, and words of two lines."""
    text = "head\n  a B\n            of a\n  c   of c\n            and more\nbetween\n  d   of d"
    wanted = [[["a B", "of a"], ["c", "of c and more"]], [["d", "of d"]]]
    assert list(commands.lists(text)) == wanted


def definitions(folder: Path, **texts: str) -> Path:
    place = folder / conformance.DEFINITIONS / "quickfix"
    place.mkdir(parents=True)
    for name, text in texts.items():
        (place / (name + ".def")).write_text(text, encoding="utf-8")
    return folder


def test_a_difference_stands_in_one_row(tmp_path: Path) -> None:
    place = definitions(
        tmp_path,
        **{"2b_One": "# @differs x: y | z | why\n", "1a_Two": "# @differs as 2b_One: x\n"},
    )
    (found,) = conformance.differences(place)
    assert conformance.line_of(found) == ["1a, 2b", "x: y", "z", "why"]


@pytest.mark.parametrize("text", ["as 2b_None: x", "as 1a_One: y", "x | y", "x | y | z | w"])
def test_a_difference_at_fault(tmp_path: Path, text: str) -> None:
    """It names none, or one that begins otherwise, or has not three parts."""
    place = definitions(tmp_path, **{"1a_One": "# @differs %s\n" % text})
    with pytest.raises(SystemExit):
        conformance.differences(place)


ENUM = """pub enum Fault {
    /// BodyLength is
    /// wrong.
    #[error("a")]
    Length,
    /// A sum. It is wrong.
    Sum(u16),
    /// Memory was refused.
    Memory,
    /// Of a line.
    Line {
        /// Its number.
        number: usize,
    },
}
"""


def test_each_variant_stands_in_a_row_with_its_comment(tmp_path: Path) -> None:
    """With a text before its name, small at its begin but for a name; Memory is left out."""
    place = tmp_path / "crates" / "low" / "src"
    place.mkdir(parents=True)
    (place / "fault.rt").write_text(ENUM, encoding="utf-8")
    rows = variants.table("low::Fault, each day: NAME", tmp_path).splitlines()[2:]
    assert rows == [
        "| `day: Length` | BodyLength is wrong |",
        "| `day: Sum` | a sum. It is wrong. |",
        "| `day: Line` | of a line |",
    ]
    lines = variants.table("low::Fault in small as what | says", tmp_path).splitlines()
    assert lines[0] == "| what | says |" and lines[-1] == "| `line` | of a line |"
    alone = variants.table("low::Fault with number", tmp_path).splitlines()[2:]
    assert alone == ["| `Line` | of a line |"]


def test_an_enum_with_a_lifetime_ends_at_its_own_brace(tmp_path: Path) -> None:
    """What follows it, an `impl` with a lifetime of its own, is no part of it."""
    place = tmp_path / "crates" / "low" / "src"
    place.mkdir(parents=True)
    text = ENUM.replace("Fault {", "Fault<'a> {") + "\nimpl<'a> Drop for Fault<'a> {\n    own\n}\n"
    (place / "fault.rt").write_text(text, encoding="utf-8")
    assert len(variants.table("low::Fault", tmp_path).splitlines()) == 5


def test_a_small_name_has_a_space_for_each_capital() -> None:
    assert variants.called("UnknownFirm", "line K:", True) == "line K: unknown firm"


@pytest.mark.parametrize("what", ["low::None", "low", "low::Fault, each"])
def test_an_enum_that_is_not_there(tmp_path: Path, what: str) -> None:
    (tmp_path / "crates" / "low" / "src").mkdir(parents=True)
    with pytest.raises(SystemExit):
        variants.table(what, tmp_path)


def bench(folder: Path, text: str) -> Path:
    (folder / "bench").mkdir()
    (folder / "bench" / "one.sh").write_text(text, encoding="utf-8")
    return folder


def test_each_figure_stands_in_a_row(tmp_path: Path) -> None:
    """The first one of a script names it."""
    place = bench(tmp_path, "# @figure a | b | c\nset -e\n# @figure d | e | f\n")
    assert list(figures.figures(place)) == [["`bench/one.sh`", "a", "b", "c"], ["", "d", "e", "f"]]


def test_a_figure_without_its_parts(tmp_path: Path) -> None:
    with pytest.raises(SystemExit):
        list(figures.figures(bench(tmp_path, "# @figure a | b\n")))
