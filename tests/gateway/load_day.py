"""A day of the load of 64 firms (load.py), whose gateway is ended and started again, and what is looked at in its end."""

import sqlite3
from collections.abc import Callable, Iterator
from contextlib import closing, contextmanager
from functools import partial

import pytest

from tests.gateway.door import Door
from tests.gateway.ledger import PostgresLog
from tests.gateway.load import DEALERS, INVESTORS, Load, venue_text
from tests.gateway.load_checks import Cut, cut, faults, not_again
from tests.gateway.stage import check
from tests.gateway.test_seals import audit_of
from tests.gateway.wait import LONG
from tests.harness.fixtures import MakeGateway
from tests.harness.options import Options

TOLD_FAULTS = 5
COUNT = "SELECT count(*) FROM entry"


class Day:
    """A day of the load, whose gateway is ended and started again."""

    def __init__(self, door: Door, seed: int) -> None:
        self.door, self.load = door, Load(seed)
        self.cuts: list[Cut] = []

    def open(self, *others: Door) -> None:
        """Firms go to this gateway, or to another one of these that listens."""
        (self.door.folder / "venue.toml").write_text(venue_text())
        self.door.write()
        self.door.start()
        self.load.begin(self.door, *others)

    @contextmanager
    def committed(self) -> Iterator[Callable[[], int]]:
        """How many entries are in the log, of which the gateway knew that they are on disk, also once it has ended. Of SQLite it is
        read by who had the log open by then: later ones find in the write-ahead log what was written there and not synchronised.
        """
        log = self.door.postgres
        if log is not None:
            yield partial(count_in_postgres, log)
            return
        name = "file:%s?mode=ro" % self.door.database
        with closing(sqlite3.connect(name, uri=True, timeout=LONG)) as reader:
            count_in_sqlite(reader)
            yield partial(count_in_sqlite, reader)

    def note_end(self, places: Callable[[], int]) -> None:
        """The gateway has ended: what firms had then, and what was on disk."""
        self.load.drain()
        self.cuts.append(cut(self.load, places()))

    def kill(self) -> None:
        """Ends it by SIGKILL, and starts it again."""
        with self.committed() as places:
            self.door.kill()
            self.note_end(places)
        self.door.start()

    def goes_on_for(self, messages: int, seconds: float = 0) -> None:
        self.load.goes_on_for(messages, [self.door], seconds)

    def whole(self) -> None:
        """The firms end what they have begun, and are sent all again by a gateway that was started anew."""
        load, doors = self.load, [self.door]
        load.auctions.goes_on = False
        load.run("all is answered", doors, lambda: load.all_on() and load.auctions.is_done())
        self.kill()
        load.run("all are logged on", doors, load.all_on)
        since = [len(engine.came) for engine in load.engines]
        for engine in load.engines:
            engine.ask_for_all()
            engine.test(b"behind all")
        load.run(
            "all comes again",
            doors,
            lambda: all(b"behind all" in engine.answered for engine in load.engines),
        )
        logouts = [list(engine.logouts) for engine in load.engines]
        status = self.door.stop()
        load.drain()
        check(status == 0, "the gateway ended with status %d" % status)
        for engine, told in zip(load.engines, logouts):
            engine.logouts = told  # not those of a gateway that stops
        found = [fault for at, one in zip(since, load.engines) for fault in not_again(one, at)]
        found += faults(self.door.programs.venue, load, self.cuts, self.door.ledger())
        check(not found, "%d faults: %s" % (len(found), "; ".join(found[:TOLD_FAULTS])))
        audit = audit_of(self.door, "--gateway-key", str(self.door.keys / "gateway.pub"))
        check(audit.returncode == 0, "the audit finds: %s" % audit.stdout)


def count_in_postgres(log: PostgresLog) -> int:
    return int(log.rows(COUNT)[0][0])


def count_in_sqlite(log: sqlite3.Connection) -> int:
    return int(log.execute(COUNT).fetchone()[0])


@pytest.fixture
def make_day(make_gateway: MakeGateway, options: Options) -> Iterator[Callable[..., Day]]:
    """make_day(log) gives a day that is not open yet."""
    days: list[Day] = []

    def make(log: PostgresLog | None = None) -> Day:
        days.append(Day(make_gateway(DEALERS, INVESTORS, log=log), options.seed))
        return days[-1]

    yield make
    for day in days:
        day.load.close()
