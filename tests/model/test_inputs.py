"""Compares a program with the second implementation: drawn inputs of every command but `day`, byte for byte."""

from pathlib import Path

import pytest
from hypothesis import given
from hypothesis import strategies as st

from tests.model.compare import (
    compared,
    head,
    inputs,
    joined,
    model_answer,
    noted_inputs,
    program_answer,
    report,
    same,
)
from tests.model.days import Day, Draw

MOST_SEED = 2**32
COMMANDS = (["replay", "--frames"], ["dues"], ["blotter", "DLR1"])
WRONG_ARGUMENTS = 2  # the status of a program
LEAVES_OUT = 16  # a line in so many, so that a day that fails shrinks line by line


@pytest.fixture(scope="session")
def has_notes(first_program: list[str]) -> bool:
    """Whether the program has the flag --notes: one that has not calls it a wrong argument."""
    return program_answer(first_program, ["alone", "--notes"], b"")[0] != WRONG_ARGUMENTS


@pytest.mark.draws(short=350, long=20_000)
def test_inputs_of_a_seed(
    first_program: list[str],
    has_notes: bool,
    drawn: int,
    place: Path,
    monkeypatch: pytest.MonkeyPatch,
) -> None:
    """Status, output and standard error of all inputs of a seed; those of an even seed with --notes."""
    monkeypatch.chdir(place)  # an input at fault is written there
    notes = has_notes and drawn % 2 == 0
    seed, difference, count, _ = compared((first_program, drawn, notes))
    assert difference is None, report(seed, difference)
    assert count > 0 or not (
        noted_inputs(drawn) if notes else inputs(drawn)
    )  # the list of a dealer or investor of a day that has none


@st.composite
def days(draw: st.DrawFn) -> bytes:
    """A drawn day of which a line is missing here and there; one that fails shrinks to the lines that it takes."""
    day = Day(Draw(draw(st.integers(0, MOST_SEED))), length=draw(st.integers(1, 60)))
    lines = [line for line in day.text().split(b"\n") if draw(st.integers(0, LEAVES_OUT - 1))]
    return joined(head(day), b"\n".join(lines)) + b"\n"


@given(days(), st.sampled_from(COMMANDS))
def test_days_with_lines_left_out(first_program: list[str], day: bytes, words: list[str]) -> None:
    mine, other = model_answer(words, day), program_answer(first_program, words, day)
    assert same(mine, other), "%r prints %r, and the second implementation %r" % (
        words,
        other,
        mine,
    )


@given(days())
def test_days_line_by_line(first_program: list[str], day: bytes) -> None:
    """`live` answers as `replay --live` does."""
    lines = b"\n".join(line for line in day.split(b"\n") if not line.startswith(b"turn "))
    words = ["live", "--frames", "--marks"]
    mine, other = model_answer(words, lines), program_answer(first_program, words, lines)
    assert same(mine, other), "it prints %r, and the second implementation %r" % (other, mine)
