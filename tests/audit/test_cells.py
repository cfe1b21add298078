"""Cells of CSV: no text is a formula for a spreadsheet, and none turns the direction of another."""

import json

import pytest
from mireseason_audit.frame import directed
from mireseason_audit.isin import has_right_digit
from mireseason_audit.tables import Column, Form, Table, cell_of, table_text, text_in

# What stands in a log, and what may stand in a cell.
CELLS = [
    ("plain", "plain"),
    ("a-b=c", "a-b=c"),
    ("=2+3", "'=2+3"),
    (" =2+3", "' =2+3"),
    ("x; =2+3", "x; '=2+3"),
    ("x,@SUM(A1)", "x,'@SUM(A1)"),
    ("x\t-1|+1\n=1", "x\t'-1|'+1\n'=1"),
    ("\t=1", "'\t'=1"),
    ("'a;'b", "''a;''b"),
    ("\uff1d1;\uff0b1", "'\uff1d1;'\uff0b1"),
    ("8=FIXT.1.1|9=5|35=0|", "8=FIXT.1.1|9=5|35=0|"),
]


@pytest.mark.parametrize("text, cell", CELLS)
def test_a_cell(text: str, cell: str) -> None:
    assert cell_of(text) == cell
    assert text_in(cell) == text


@pytest.mark.parametrize("mark", "\u061c\u200e\u200f\u202a\u202e\u2066\u2069")
def test_a_mark_of_direction(mark: str) -> None:
    """A code in CSV and on a page; in JSON an escape, which a program reads as the mark."""
    code = "\\u%04x" % ord(mark)
    assert cell_of("a%sb" % mark) == directed("a%sb" % mark) == "a%sb" % code
    table: Table[str] = Table("t", "", (Column("c", "", lambda row: row),))
    text = table_text(table, ["a%sb" % mark], Form.JSON)
    assert mark not in text and json.loads(text) == [{"c": "a%sb" % mark}]


@pytest.mark.parametrize(
    "text, is_right",
    [
        ("US0378331005", True),  # with a digit that everybody can look up
        ("US0378331006", False),
        ("GB0002634946", True),
        ("XS0000000009", True),
        ("us0378331005", False),
        ("US037833100", False),
    ],
)
def test_the_digit_of_an_isin(text: str, is_right: bool) -> None:
    assert has_right_digit(text) == is_right
