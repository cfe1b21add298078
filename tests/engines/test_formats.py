"""Tries each row of fix/formats.toml that the venue reads on the venue's program; the dictionaries and the tables of fields are
made from that file. test_engines.py reads with the dictionary what the venue writes."""

import subprocess
import tomllib
from collections.abc import Sequence
from dataclasses import dataclass
from functools import cache

import pytest

from tests.harness.options import ROOT

LIMIT = 120  # seconds
CONFIGURATION = """version = 1
date = "20250314"
[[bond]]
id = "BONDA0000001"
[[dealer]]
name = "DLR1"
traders = ["T1"]
quotes = 64
exposure = 1000000000
[[investor]]
name = "INV1"
traders = ["T8"]
requests = 64
open = 64
quantity = 5000000
%%
"""
PARTY = [(453, "1"), (448, "DLR1"), (447, "D"), (452, "35")]
ASKED = [(131, "q1"), (146, "1"), (48, "BONDA0000001"), (22, "4"), (54, "1"), (38, "2000000")]
ASKED += [(126, "20250314-17:00:00"), *PARTY]
QUOTED = [(117, "a1"), (131, "R1"), (48, "BONDA0000001"), (22, "4"), (133, "99.5")]
DEALER, INVESTOR = ("DLR1", "T1"), ("INV1", "T8")
Fields = list[tuple[int, str]]
# Of each message that the venue reads: who sends it, its type, and one that has all its fields.
WHOLE: dict[str, tuple[tuple[str, str], str, Fields]] = {
    "Quote (35=S)": (
        DEALER,
        "S",
        [*QUOTED, (132, "99"), (134, "1"), (135, "1"), (537, "1"), (62, "20250314-16:00:00")],
    ),
    "QuoteCancel (35=Z)": (DEALER, "Z", [(298, "5"), (117, "a1")]),
    "QuoteRequestReject (35=AG), a decline": (DEALER, "AG", [(131, "R1"), (658, "10")]),
    "QuoteRequest (35=R)": (INVESTOR, "R", [(131, "q2"), *ASKED[1:]]),
    "QuoteResponse (35=AJ), a hit (694=1) or a pass (694=6)": (
        INVESTOR,
        "AJ",
        [(693, "h1"), (694, "1"), (117, "Q1"), (131, "q1")],
    ),
}
OF_NO_FORM = {"id": "x" * 41, "number": "1x", "price": "1x", "quantity": "1x", "moment": "1x"}
MISSING, EMPTY, WRONG_VALUE, WRONG_FORM, TWICE = "1", "4", "5", "6", "13"  # 373


@dataclass(frozen=True)
class Row:
    """One field of a message, as the source has it."""

    message: str
    tag: int
    form: str
    required: str

    def __str__(self) -> str:
        return "%s-%d" % (self.message.split(" ")[0], self.tag)


def rows() -> list[Row]:
    with (ROOT / "fix" / "formats.toml").open("rb") as file:
        source = tomllib.load(file)
    return [Row(one["message"], *row) for one in source["reads"] for row in one["rows"]]


def said(who: tuple[str, str], moment: str, kind: str, fields: Fields) -> str:
    body = "|".join("%d=%s" % item for item in fields)
    return "say %s %s %s %s %s\n" % (*who, moment, kind, body)


def answers(
    venue: Sequence[str], who: tuple[str, str], kind: str, fields: Fields
) -> list[dict[str, str]]:
    """What the venue sends for one message, on a day with a request and a quote: by tag the first value."""
    day = CONFIGURATION + said(INVESTOR, "09:00:00", "R", ASKED)
    day += said(DEALER, "09:00:01", "S", QUOTED)
    before = shown(tuple(venue), day)
    return shown(tuple(venue), day + said(who, "09:00:02", kind, fields))[len(before) :]


@cache
def shown(venue: tuple[str, ...], lines: str) -> list[dict[str, str]]:
    run = subprocess.run(
        [*venue, "live"], input=lines, capture_output=True, text=True, timeout=LIMIT, check=True
    )
    return [sent(line) for line in run.stdout.splitlines()]


def sent(line: str) -> dict[str, str]:
    """A message as `live` prints it: the firm, its number, its moment, its type and its fields."""
    _, _, _, kind, body = line.split(" ", 4)
    return {"35": kind, **dict(part.split("=", 1) for part in reversed(body.split("|")))}


def changed(row: Row, to: str | None) -> Fields:
    """The whole message with another value of this field, or without it."""
    fields = WHOLE[row.message][2]
    if to is None:
        return [item for item in fields if item[0] != row.tag]
    return [(tag, to if tag == row.tag else value) for tag, value in fields]


def rejects(venue: Sequence[str], row: Row, fields: Fields) -> str:
    """SessionRejectReason (373) of the Reject of this field; empty where there is none."""
    who, kind, _ = WHOLE[row.message]
    found = [one for one in answers(venue, who, kind, fields) if one["35"] == "3"]
    assert all(one["371"] == str(row.tag) for one in found), (found, fields)
    return found[0]["373"] if found else ""


@pytest.mark.parametrize("row", rows(), ids=str)
def test_what_the_venue_reads(venue: tuple[str, ...], row: Row) -> None:
    """A field that is missing, empty, there twice, or of another form."""
    whole = WHOLE[row.message][2]
    assert rejects(venue, row, whole) == ""
    is_needed = row.required != "no" and not (
        row.message.startswith("QuoteResponse") and row.tag == 131
    )
    assert rejects(venue, row, changed(row, None)) == (MISSING if is_needed else "")
    assert rejects(venue, row, changed(row, "")) == EMPTY
    assert rejects(venue, row, [*whole, (row.tag, dict(whole)[row.tag])]) == TWICE
    form = row.form.split(",")[0]
    expected = WRONG_VALUE if form.startswith("exactly") else WRONG_FORM
    assert rejects(venue, row, changed(row, OF_NO_FORM.get(form, "9"))) == expected
    if "which is" in row.form:
        assert rejects(venue, row, changed(row, "9")) == WRONG_VALUE


def test_each_message_is_tried() -> None:
    assert {row.message for row in rows()} == set(WHOLE)
    for message, (_, _, fields) in WHOLE.items():
        assert {row.tag for row in rows() if row.message == message} <= {tag for tag, _ in fields}
