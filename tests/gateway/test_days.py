"""Drawn days of stock initiators: SIGKILL ends gateway, venue and initiators again and again."""

import time
from dataclasses import dataclass
from pathlib import Path

import pytest

from tests.gateway.held import count_of
from tests.gateway.midnight import wait_for_room
from tests.gateway.play import SHORT_DEADLINE, Day
from tests.gateway.settle import settled
from tests.gateway.stage import Tools
from tests.harness.options import Options

TOLD_FAULTS = 20


@dataclass(frozen=True)
class Length:
    """How many messages the firms of a day send, and how often something is ended."""

    messages: int
    ends: int


LONG = Length(2000, 40)
SQLITE, POSTGRES = Length(400, 8), Length(200, 4)  # in the short form


def play(tools: Tools, folder: Path, seed: int, length: Length, postgres: str = "") -> None:
    """Plays a day; each message of each firm has to be the venue's for the log that is left."""
    day, began = Day(tools.programs, tools.player, folder, seed, postgres), time.monotonic()
    try:
        day.open()
        day.play(length.messages, length.ends)
        faults = settled(day.door, day.firms, SHORT_DEADLINE)
        count = sum(count_of(firm) for firm in day.firms)
        again = sum(len(firm.received) for firm in day.firms) - count
        print(
            "day %d: %d messages of 6 firms, %d distinct ones to them, %d came again; ended %s; %.0f s"
            % (seed, length.messages, count, again, day.ends, time.monotonic() - began)
        )
        assert not faults, "\n".join(faults[:TOLD_FAULTS])
    finally:
        day.close()


@pytest.mark.parametrize("nth", [0, *(pytest.param(nth, marks=pytest.mark.long) for nth in (1, 2))])
def test_a_day_in_sqlite(tools: Tools, place: Path, options: Options, nth: int) -> None:
    wait_for_room("a day")
    play(tools, place, options.seed + nth, SQLITE if options.is_short else LONG)


def test_a_day_in_postgres(
    tools: Tools, place: Path, options: Options, postgres_database: str
) -> None:
    wait_for_room("a day")
    play(tools, place, options.seed, POSTGRES if options.is_short else LONG, postgres_database)
