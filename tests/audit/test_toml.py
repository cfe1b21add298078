"""Texts that are kept from a parser of TOML, since they would use up its stack or all memory: the same in Python as in
C++ (gateway/unit/toml_bounds_test.cpp)."""

import pytest
from bounded_toml import DEEPEST, LONGEST, excess_of, table_of

DEEP = "it is more than 32 deep"

TAKEN = {
    "a key": b"a" + b".a" * 31 + b" = 1\n",
    "a table's name": b"[a" + b".a" * 31 + b"]\n",
    "an array": b"x = " + b"[" * 32 + b"]" * 32 + b"\n",
    "tables": b"a = {" * 31 + b"a = 1" + b"}" * 31 + b"\n",
    "texts": b'x = "' + b"[." * 99 + b"\"\ny = '" + b"{." * 99 + b"'\n",
    "long texts": b'x = """\n' + b"[.\n" * 99 + b"\"\"\"\ny = '''\n" + b"{.\n" * 99 + b"'''\n",
    "an escape": b'x = "\\"' + b"[." * 99 + b'"\n',
    "a comment": b"# " + b"[." * 99 + b"\n",
    "numbers": b"x = [" + b"1.5, " * 99 + b"]\n",
    "all that may be": b"#" * LONGEST,
}
NOT = {
    "a key": (b"a" + b".a" * 32 + b" = 1\n", "line 1: " + DEEP),
    "a long key": (b"a" + b".a" * 50000 + b" = 1\n", "line 1: " + DEEP),
    "a table's name": (b"[a" + b".a" * 50000 + b"]\n", "line 1: " + DEEP),
    "brackets": (b"b = 1\nx = " + b"[" * 33, "line 2: " + DEEP),
    "tables": (b"a={" * 33, "line 1: " + DEEP),
    "quoted parts": (b'"a" . ' * 40 + b"a = 1", "line 1: " + DEEP),
    "a text that ends with its line": (b'x = "a\ny = ' + b"[" * 33, "line 2: " + DEEP),
    "a text without an end": (b'x = "a\\', None),
    "a key twice": (b"a = 1\na = 2\n", None),
    "no UTF-8": (b"a = \xff\n", None),
    "a byte more": (b"#" * (LONGEST + 1), "it has more than 1048576 bytes"),
}


@pytest.mark.parametrize("text", TAKEN.values(), ids=TAKEN.keys())
def test_what_is_at_the_edge_is_taken(text: bytes) -> None:
    assert excess_of(text) is None
    table_of(text)


@pytest.mark.parametrize(("text", "told"), NOT.values(), ids=NOT.keys())
def test_what_is_past_it_is_not(text: bytes, told: str | None) -> None:
    assert excess_of(text) == told
    with pytest.raises(ValueError):
        table_of(text)


@pytest.mark.parametrize("quote", [b'"', b"'"])
@pytest.mark.parametrize("marks", [3, 4, 5])
def test_a_long_text_may_end_with_quotation_marks_of_its_own(quote: bytes, marks: int) -> None:
    """What stands behind it in its line is counted."""
    begun = b"x = [" + 3 * quote + b"a" + marks * quote + b", {a"
    value = b".a = " + quote + 40 * b"." + quote + b"}]\n"
    assert table_of(begun + value)["x"][0] == "a" + (marks - 3) * quote.decode()
    assert excess_of(begun + b".a" * DEEPEST + b" = 1}]\n") == "line 1: " + DEEP
