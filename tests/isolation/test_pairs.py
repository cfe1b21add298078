"""Pairs of days that one firm can't tell apart, since its list is the same in both."""

import pytest

from tests.isolation import investors, pairs


@pytest.mark.draws(short=1100, long=11_000)
def test_days_of_one_dealers_list(first_program: list[str], drawn: int) -> None:
    pair = pairs.compared((first_program, drawn))
    assert not pair.fault


@pytest.mark.draws(short=550, long=5_500)
def test_days_of_one_investors_list(first_program: list[str], drawn: int) -> None:
    pair = investors.compared((first_program, drawn))
    assert not pair.fault


def test_most_pairs_have_equal_lists(first_program: list[str], seed: int) -> None:
    """Or the tests above would show little."""
    drawn = range(seed, seed + 20)
    assert sum(pairs.compared((first_program, each)).equal for each in drawn) > 10
    assert sum(investors.compared((first_program, each)).equal for each in drawn) > 10
