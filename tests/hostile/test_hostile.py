"""Hostile inputs, and days at the limits of a configuration."""

import pytest

from tests.hostile import full_day, inputs


@pytest.mark.draws(short=1000, long=20_000)
def test_a_spoilt_input_is_answered(first_program: list[str], drawn: int) -> None:
    """A lawful input that was spoilt on its way ends with an answer or with a fault in the program's words."""
    _, words, _, wrong = inputs.spoilt((first_program, drawn))
    assert not wrong, "%s: %s" % (" ".join(words), wrong)


@pytest.mark.long
@pytest.mark.parametrize(
    "case", inputs.large_cases(), ids=[case.name for case in inputs.large_cases()]
)
def test_the_longest_input(first_program: list[str], case: inputs.Large) -> None:
    """16 MiB of one kind of line, and a byte more."""
    _, wrong = inputs.answered(first_program, case.words, case.text())
    assert not wrong


@pytest.mark.parametrize("requests", full_day.SHAPES)
def test_a_day_at_the_limits(first_program: list[str], requests: int) -> None:
    """64 dealers and 64 investors on threads: what each was sent is by the rules, and some quote is hit."""
    counts = full_day.run(first_program, requests)
    assert counts["hits"] > 0
