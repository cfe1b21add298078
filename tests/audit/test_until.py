"""A log as it stood at one of its entries: it shows what a log shows that ends there, and nothing that came later."""

import sqlite3
from collections.abc import Callable
from contextlib import closing
from pathlib import Path
from typing import Any

import pytest
from mireseason_audit.faults import Unreadable
from mireseason_audit.log import Log
from mireseason_audit.sqlite_log import SqliteSource
from mireseason_audit.until import UntilLog, place_until

from tests.audit.test_evidence import Day, day, drawn

__all__ = ["day", "drawn"]  # fixtures

FIRMS = ("ALPHA", "BRAVO", "FJORD")
CUT = """DELETE FROM entry WHERE place > %(place)d; DELETE FROM sent WHERE place > %(place)d;
    DELETE FROM connection WHERE entry > %(place)d; DELETE FROM seal WHERE place > %(place)d;
    DELETE FROM checkpoint WHERE place > %(place)d"""


def of_each(ask: Callable[[Log, str], Any]) -> Callable[[Log], Any]:
    return lambda log: [ask(log, firm) for firm in FIRMS]


# What is asked of a log, by the name of what answers.
ASKED: dict[str, Callable[[Log], Any]] = {
    "day": lambda log: log.day(),
    "entries": lambda log: list(log.entries()),
    "lines": lambda log: [line for lines in log.line_blocks() for line in lines],
    "places": lambda log: list(log.places()),
    "last place": lambda log: log.last_place(),
    "gaps": lambda log: log.has_gaps(),
    "hashes": lambda log: [log.hash_at(place) for place in range(40)],
    "an entry": lambda log: [log.entry_at(place) for place in range(40)],
    "numbers": lambda log: log.session_numbers(list(range(1, 40))),
    "what came": of_each(lambda log, firm: list(log.came(firm))),
    "what was sent": of_each(lambda log, firm: list(log.sent(firm))),
    "last number": of_each(lambda log, firm: log.last_number_of(firm)),
    "how many": of_each(lambda log, firm: log.count_of(firm)),
    "firms": lambda log: log.firms(),
    "the door": lambda log: list(log.connection_events()),
    "last row": lambda log: log.last_event(),
    "logons": of_each(lambda log, firm: log.logons(firm)),
    "seals": lambda log: list(log.seals()),
    "checkpoints": lambda log: list(log.checkpoints()),
    "what is beyond": lambda log: list(log.beyond_form()),
    "its form": lambda log: (log.has_chain, log.has_door, log.has_seals, log.has_epochs),
    "its ends": lambda log: log.numbers_checkpoints,
}


def cut_at(day: Day, place: int, path: Path) -> SqliteSource:
    """A copy that ends at an entry."""
    path.write_bytes(day.log.read_bytes())
    with closing(sqlite3.connect(path)) as connection:
        connection.executescript(CUT % {"place": place})
    return SqliteSource(path)


def test_a_log_as_it_stood(day: Day, tmp_path: Path) -> None:
    with SqliteSource(day.log).open() as log:
        last = log.last_place()
    assert 15 < last < 40
    for place in (0, 1, 7, last - 1, last, last + 5):
        with (
            cut_at(day, place, tmp_path / ("cut-%d.db" % place)).open() as cut,
            UntilLog(SqliteSource(day.log).open(), place) as shown,
        ):
            for name, ask in ASKED.items():
                assert ask(shown) == ask(cut), (name, place)
            assert shown.is_part and not cut.is_part
            sealed = min(place, last), shown.last_event()
            assert shown.last_seal() == sealed, "what comes later is sealed later"


def test_what_a_session_carried_then(day: Day) -> None:
    """Up to the last message of the venue that there was; what the session said of itself before that stands among it."""
    with SqliteSource(day.log).open() as log:
        rows = {firm: list(log.outgoing(firm)) for firm in FIRMS}
        placed = {firm: {one.number: one.place for one in log.sent(firm)} for firm in FIRMS}
        last = log.last_place()
    for place in (0, 7, 12, last):
        with UntilLog(SqliteSource(day.log).open(), place) as shown:
            for firm in FIRMS:
                then = [at for at, row in enumerate(rows[firm]) if row.sent is not None]
                then = [at for at in then if placed[firm][rows[firm][at].sent or 0] <= place]
                carried = rows[firm][: max(then, default=-1) + 1]
                assert list(shown.outgoing(firm)) == carried
                own = [row for row in carried if row.sent is None]
                assert list(shown.own_messages(firm)) == own
    assert any(row.sent is None for firm in FIRMS for row in rows[firm])


def test_which_entry_is_meant(day: Day) -> None:
    """By its place, which has to be there; or the last whose moment is not later."""
    source = SqliteSource(day.log)
    with closing(sqlite3.connect(day.log)) as connection:
        rows = connection.execute("SELECT place, moment FROM entry ORDER BY place").fetchall()
    last = rows[-1][0]
    assert [place_until(source, entry, None) for entry in (0, 3, last)] == [0, 3, last]
    for entry in (-1, last + 1):
        with pytest.raises(Unreadable, match="the log has the entries 0 to %d$" % last):
            place_until(source, entry, None)
    for moment in (*(moment for _, moment in rows), "08:00:00.001", "23:59:59.999"):
        meant = max(place for place, when in rows if when <= moment)
        assert place_until(source, None, moment) == meant, moment
    assert place_until(source, None, "00:00:00.000") == 0
