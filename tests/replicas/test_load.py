"""64 firms send as fast as the gateway answers (tests/gateway/load.py) into a log in PostgreSQL with a synchronous standby: gateways
take over from one another, and the standby from the server.

What has to hold in the end is that of tests/gateway/test_load.py: no firm has had what the log that is left does not give it.
"""

import random
import shutil
from collections.abc import Callable, Iterator
from pathlib import Path

import pytest

from tests.gateway.door import Door
from tests.gateway.ledger import PostgresLog
from tests.gateway.load import DEALERS, INVESTORS, venue_text
from tests.gateway.load_day import Day, make_day  # noqa: F401, a fixture is called by its name
from tests.gateway.stage import check
from tests.harness import postgres
from tests.harness.fixtures import MakeGateway
from tests.harness.options import Options
from tests.replicas.pair import Pair, end, pair, promoted

SOON, LATE = 200, 3000  # messages that come to firms until something ends, as drawn
STALLS, GOES_ON = b"log does not answer", b"log answers again"

MakeDay = Callable[..., Day]

pytestmark = pytest.mark.root


@pytest.fixture
def servers(place: Path) -> Iterator[Pair]:
    if postgres.programs() is None:
        pytest.skip("PostgreSQL is not installed")
    with pair(place) as made:
        yield made


@pytest.fixture
def log(servers: Pair) -> PostgresLog:
    return PostgresLog(servers.connection, "day")


class Second:
    """The gateway that follows; when the first is killed it takes over, and the first one follows it."""

    def __init__(self, day: Day, door: Door) -> None:
        self.day, self.door = day, door
        door.folder.joinpath("venue.toml").write_text(venue_text())
        shutil.copytree(day.door.keys, door.keys)
        door.write()
        self._follow()

    def _follow(self) -> None:
        """Starts it, and waits until it could take over."""
        told, kept = self.door.told, self.door.folder / "checkpoints"
        before = told.read_bytes().count(b"stands by") if told.exists() else 0
        self.door.start()
        self.day.load.run(
            "another gateway follows",
            [self.day.door, self.door],
            lambda: told.read_bytes().count(b"stands by") > before
            and any(kept.glob("*.checkpoint")),
        )

    def takes_over(self) -> None:
        """The one that speaks is killed, and follows once firms are at the other one."""
        with self.day.committed() as places:
            self.day.door.kill()
            self.day.note_end(places)
        self.day.door, self.door = self.door, self.day.door
        self.day.goes_on_for(SOON)
        self._follow()


def test_gateways_take_over_under_load(
    make_day: MakeDay,  # noqa: F811
    make_gateway: MakeGateway,
    log: PostgresLog,
    options: Options,
) -> None:
    """The gateway that speaks is killed again and again."""
    draw, day = random.Random("gateways of %d" % options.seed), make_day(log)
    other = make_gateway(DEALERS, INVESTORS, log=log)
    day.open(other)
    day.goes_on_for(SOON)
    second = Second(day, other)
    for _ in range(2 if options.is_short else 12):
        day.goes_on_for(draw.randrange(SOON, LATE))
        second.takes_over()
    second.door.stop()
    day.whole()


def stands_still(door: Door) -> bool:
    """Whether the log does not answer; of a busy machine it may have stood still before, and gone on."""
    told = door.told.read_bytes()
    return told.rfind(STALLS) > told.rfind(GOES_ON)


def test_the_standby_is_lost_and_takes_over_under_load(
    make_day: MakeDay,  # noqa: F811
    servers: Pair,
    log: PostgresLog,
    options: Options,
) -> None:
    """The standby ends, so no commit is answered any more; then the server ends. What a firm had is on the standby's disk."""
    draw, day = random.Random("standbys of %d" % options.seed), make_day(log)
    day.open()
    day.goes_on_for(draw.randrange(SOON, LATE))
    end(servers.standby)
    day.load.run("the log does not answer", [day.door], lambda: stands_still(day.door))
    day.load.rests([day.door])
    had = day.load.fresh
    end(servers.primary)
    day.load.run("the gateway ends", [], day.door.has_ended)
    check(day.door.wait_end() == 1, "the gateway ends otherwise: %s" % day.door.last_words())
    check(day.load.fresh == had, "something comes behind the end of the server")
    with promoted(servers.standby):
        with day.committed() as places:
            day.note_end(places)
        day.door.start()
        day.goes_on_for(LATE)
        day.whole()
