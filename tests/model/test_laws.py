"""What has to hold between a program's answers, whatever the rules of the market are."""

from functools import partial

import pytest

from tests.model import investors, laws, trades
from tests.model.days import Day, Draw
from tests.model.lawful import ran

DAYS_FOR_A_TRADE = 20


@pytest.mark.draws(short=20, long=1000)
def test_commands_agree(first_program: list[str], drawn: int) -> None:
    """`replay --live` prints what `live` printed, `due` and `alone` what `replay` gave the firm, and so on."""
    day = Day(Draw(drawn))
    faults = [*laws.broken(day, laws.asker(first_program)), *laws.unread(day)]
    assert not faults


@pytest.mark.draws(short=40, long=2000)
def test_threads_have_an_order(first_program: list[str], drawn: int) -> None:
    """For a day on threads there is an order of the actions that gives what each firm was sent."""
    ran(first_program, drawn).venue()


def played(day: "trades.Played") -> int:
    """How many trades a day had, each told alike to both firms."""
    won, faults = trades.faults_of(day)
    assert not faults
    return won


def looked_at(day: "trades.Played") -> None:
    try:
        played(day)
    except trades.Ambiguous:
        pytest.skip("the day's messages can be read in two ways")


@pytest.mark.draws(short=300, long=10_000)
def test_trades_of_steps(first_program: list[str], drawn: int) -> None:
    looked_at(trades.replayed(first_program, drawn))


@pytest.mark.draws(short=300, long=10_000)
def test_trades_line_by_line(first_program: list[str], drawn: int) -> None:
    looked_at(trades.lived(first_program, drawn))


@pytest.mark.draws(short=40, long=2000)
def test_trades_on_threads(first_program: list[str], drawn: int) -> None:
    looked_at(trades.threaded(first_program, drawn))


@pytest.mark.parametrize("kind", [trades.replayed, trades.lived, trades.threaded])
def test_drawn_days_have_trades(first_program: list[str], seed: int, kind: "trades.Kind") -> None:
    """Or the tests above would look at nothing."""
    won = 0
    for drawn in range(seed, seed + DAYS_FOR_A_TRADE):
        try:
            won += played(kind(first_program, drawn))
        except trades.Ambiguous:
            continue
    assert won > 0


@pytest.mark.draws(short=40, long=2000)
def test_investors_views_on_threads(first_program: list[str], drawn: int) -> None:
    _, faults = partial(investors.threads, first_program)(drawn)
    assert not faults


@pytest.mark.parametrize("trial", ["views", "silence", "apart"])
@pytest.mark.draws(short=20, long=2000)
def test_what_is_said_of_investors(trial: str, drawn: int) -> None:
    """Of the second implementation alone."""
    _, faults = investors.TRIALS[trial](drawn)
    assert not faults


def test_channels_of_investors(seed: int) -> None:
    found, faults = investors.TRIALS["channels"](seed)
    assert found > 0 and not faults
