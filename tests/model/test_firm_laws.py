"""What matters first to a firm holds of the model on drawn days, and each law finds its wrong venue."""

import itertools

import pytest

from tests.model.days import Day, Draw
from tests.model.firm_laws import broken
from tests.model.presence import pair_of, told_apart
from tests.model.wrong_venues import WRONG, planted

MOST_DAYS = 300
PRESENCE = "full_books_close_later"  # it breaks no law of one day: two have to be compared
BOTH_WAYS = pytest.mark.parametrize("live", [True, False], ids=["live", "as drawn"])

# Each wrong venue, the law that finds it, and a day on which it did.
FOUND = [
    ("drops_say_withdrawn", "withdrawn", 8),
    ("refused_hits_are_not_answered", "responses", 0),
    ("passes_are_not_answered", "responses", 6),
    ("posts_are_not_relayed", "quotes", 0),
    ("sweeps_leave_rooms_open", "overdue", 86),
    ("investors_count_all_trades", "names", 2),
    ("dealers_count_all_trades", "names", 34),
    ("answers_are_late", "times", 2),
    ("hits_of_a_replaced_quote_take_the_new_one", "hits", 105),
    ("hits_of_no_quote_take_the_last_one", "hits", 28),
    ("covers_are_the_worst", "covers", 74),
    ("cancels_of_all_take_one_quote", "messages", 441),
    ("expiries_are_told_twice", "quotes", 0),
    ("declines_are_not_told", "quotes", 2),
    ("declines_overtake_quotes", "quotes", 412),
    ("withdrawals_are_not_told", "quotes", 0),
    ("withdrawals_take_no_effect", "quotes", 0),
    ("replaced_quotes_are_not_told", "quotes", 0),
    ("passes_leave_requests_open", "ended", 6),
    ("refusals_close_requests", "ended", 0),
    ("requests_reach_dealers_asked_before", "only", 0),
    ("the_first_dealers_are_asked", "named", 0),
    ("identifiers_may_have_a_bar", "carried", 0),
    ("rejects_repeat_too_much", "carried", 0),
    ("rejects_are_heartbeats", "carried", 0),
    ("refusals_of_rooms_are_noted", "carried", 0),
    ("numbers_are_those_of_answers", "carried", 0),
]


@pytest.mark.draws(short=40, long=1000)
def test_laws_hold(drawn: int) -> None:
    assert not broken(Day(Draw(drawn)))


@pytest.mark.parametrize(("wrong", "law", "first"), FOUND, ids=[wrong for wrong, _, _ in FOUND])
def test_wrong_venues_are_found(wrong: str, law: str, first: int) -> None:
    """On the day that is named, or on another one where the draws have changed."""
    with planted(wrong):
        for seed in itertools.chain([first], range(MOST_DAYS)):
            if law in broken(Day(Draw(seed))):
                return
    pytest.fail("no day of %d breaks the law" % MOST_DAYS)


@pytest.mark.draws(short=40, long=1000)
@BOTH_WAYS
def test_presence_is_not_told(drawn: int, live: bool) -> None:
    """What the other dealers do, with the same hits awarded, tells a dealer nothing but the cover."""
    found = pair_of(drawn, live)
    if found is not None:
        assert told_apart(*found) is None


@BOTH_WAYS
def test_drawn_days_make_pairs(live: bool) -> None:
    """Or the test above would look at nothing."""
    found = [pair_of(seed, live) for seed in range(20)]
    assert any(pair is not None and pair[1][0].awards for pair in found)


def test_told_presence_is_found() -> None:
    """A venue whose notices are later where more quotes stood is told apart."""
    with planted(PRESENCE):
        for seed in itertools.chain([84], range(MOST_DAYS)):
            found = pair_of(seed)
            if found is not None and told_apart(*found):
                return
    pytest.fail("no pair of %d is told apart" % MOST_DAYS)


def test_each_wrong_venue_has_its_law() -> None:
    assert {wrong for wrong, _, _ in FOUND} | {PRESENCE} == set(WRONG)
