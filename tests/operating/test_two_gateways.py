"""Two gateways on one log, day after day: both end with a day, and the next day opens at one of them, also if the other is
gone.
"""

import subprocess
from collections.abc import Iterator
from contextlib import contextmanager
from pathlib import Path

import pytest

from tests.gateway.door import Port
from tests.gateway.ledger import PostgresLog
from tests.gateway.stage import Stage, Tools
from tests.gateway.wait import LONG, until
from tests.harness.clock import Clock
from tests.operating.test_week import ENDS, OPENS, Week, first_friday


@pytest.fixture
def week(tools: Tools, place: Path, postgres_database: str) -> Iterator[Week]:
    stage = Stage(tools, place, PostgresLog(postgres_database, "day_{date}"))
    clock = Clock(tools.shim, place)
    stage.door.environment.update(clock.environment)
    yield Week(stage, clock, first_friday())
    stage.close()


@contextmanager
def second_gateway(week: Week) -> Iterator[Path]:
    """Another one on the same log, with a door of its own; the file of what it says."""
    folder = week.stage.folder
    text = (folder / "gateway.toml").read_text()
    port = Port()
    text = text.replace("port = %d\n" % week.stage.door.port, "port = %d\n" % port.number)
    text = text.replace("port = %d\n" % week.stage.door.metrics, "port = 0\n")
    text = text.replace('checkpoints = "checkpoints"', 'checkpoints = "checkpoints2"')
    (folder / "second.toml").write_text(text)
    told = folder / "second.told"
    words = [week.stage.door.programs.gateway, folder / "second.toml"]
    environment = {**week.clock.environment}
    with told.open("wb") as file:
        process = subprocess.Popen(words, stdout=file, stderr=file, env=environment)
    try:
        yield told
    finally:
        process.kill()
        process.wait()


@pytest.mark.long
def test_two_gateways_go_on_together(week: Week) -> None:
    """The one that follows ends its day with the other, follows on the next one, and opens the one behind that alone."""
    stage = week.stage
    week.write()
    week.set_clock(week.day(1), OPENS, -30)
    stage.door.start()
    week.wait_told("closed until=")
    week.open_day(1)
    with second_gateway(week) as told:
        until("it stands by", LONG, lambda: "stands by" in told.read_text())
        stage.auction()
        before = week.told()
        week.set_clock(week.day(1), ENDS, -1)
        week.wait_told("closed until=", before)
        until("it waits for the next day", LONG, lambda: "closed until=" in told.read_text())
        for firm in stage.firms:
            firm.kill()

        # Whichever is first speaks, and the other follows.
        since, second_since = week.told(), told.read_text()
        week.set_clock(week.day(2), OPENS, -2)

        def is_open() -> bool:
            texts = (week.told()[len(since) :], told.read_text()[len(second_since) :])
            return sorted((" ready " in text, "stands by" in text) for text in texts) == [
                (False, True),
                (True, False),
            ]

        until("one is ready, and one stands by", LONG, is_open)

        # The other takes over what is left of the day, or has it already, and opens the next one.
        stage.door.kill()
        until(
            "the second is ready", LONG, lambda: " ready " in told.read_text()[len(second_since) :]
        )
        second_since = told.read_text()
        week.set_clock(week.day(2), ENDS, -1)
        until(
            "it ends the day",
            LONG,
            lambda: "closed until=" in told.read_text()[len(second_since) :],
        )
        second_since = told.read_text()
        week.set_clock(week.day(4), OPENS, -2)
        until(
            "the second is ready", LONG, lambda: " ready " in told.read_text()[len(second_since) :]
        )
