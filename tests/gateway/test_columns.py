"""Somebody who may write to the log's database, and has no key, changes each column of each table, one at a time. If a seal or
a signature covers it, the next start ends and says so; the rest is a copy that no gateway reads. `speaker`, of PostgreSQL alone,
is neither: it says who speaks. Whoever changes it can end a gateway, and changes nothing that a firm is told."""

from collections.abc import Callable, Iterator
from contextlib import contextmanager
from dataclasses import dataclass
from pathlib import Path

import pytest

from tests.admin.operator import did
from tests.admin.test_orders import GONE, quoted
from tests.gateway.door import today
from tests.gateway.ledger import PostgresLog
from tests.gateway.midnight import wait_for_room
from tests.gateway.stage import DEALER, INVESTOR, Stage, Tools, check
from tests.gateway.test_copy import Day
from tests.gateway.test_second_attack import asked
from tests.gateway.test_seals import Intruder
from tests.gateway.wait import LONG, until
from tests.limits.flood import logged_on

# Of each table the columns by which its row is known, and which row is changed.
Rows = dict[str, tuple[list[str], str]]
SEALED: Rows = {
    "form": ([], "TRUE"),
    "entry": (["place"], "place = (SELECT max(place) FROM entry WHERE number IS NOT NULL)"),
    "connection": (["place"], "place = (SELECT max(place) FROM connection WHERE firm = 'DLR1')"),
    "seal": (["number"], "number = (SELECT max(number) FROM seal)"),
    "checkpoint": (["number"], "number = (SELECT max(number) FROM checkpoint)"),
}
# The dealer's notice of its trade, beside which the trade's name is told.
OF_DEALER = "firm = 'DLR1' AND told LIKE '1003=%%'"
COPIES: Rows = {"sent": (["firm", "number"], OF_DEALER)}
SPEAKER: Rows = {"speaker": (["one"], "TRUE")}
TABLES = SEALED | COPIES
NOT_ACCEPTED = 3  # a status: an operator has to decide


@dataclass(frozen=True)
class Column:
    """A column of the row that is changed, with what stands there and what will, as they stand in a statement."""

    table: str
    name: str
    was: str
    other: str
    row: str  # which row it is

    def row_if_known_by_it(self) -> str:
        """Its row, as long as it is not changed; none where the row is known by other columns."""
        known = "%s = %s" % (self.name, self.was)
        return self.row if known in self.row.split(" AND ") else "FALSE"

    def statement(self, now: str, before: str) -> str:
        """Puts one in the place of the other, whether its row is known by it or not."""
        row = self.row.replace("%s = %s" % (self.name, self.was), "%s = %s" % (self.name, before))
        return "UPDATE %s SET %s = %s WHERE %s" % (self.table, self.name, now, row)


def names_and_types(intruder: Intruder, table: str) -> list[tuple[str, str]]:
    """The columns of a table."""
    if intruder.door.postgres is None:
        return [(row[1], row[2]) for row in intruder.rows("PRAGMA table_info(%s)" % table)]
    query = "SELECT column_name, upper(data_type) FROM information_schema.columns WHERE"
    query += " table_schema = current_schema() AND table_name = '%s'" % table
    return [(name, kind) for name, kind in intruder.rows(query)]


def columns(intruder: Intruder, table: str) -> list[Column]:
    """All of a table, in a row that stands there."""
    quoted = "quote(%s)" if intruder.door.postgres is None else "quote_nullable(%s::text)"
    keys, where = (TABLES | SPEAKER)[table]
    kinds = names_and_types(intruder, table)
    all_of_them = ", ".join(quoted % name for name, _ in kinds)
    (literals,) = intruder.rows("SELECT %s FROM %s WHERE %s" % (all_of_them, table, where))
    values = dict(zip([name for name, _ in kinds], literals, strict=True))
    row = " AND ".join("%s = %s" % (key, values[key]) for key in keys) or "TRUE"
    return [
        Column(table, name, values[name], other(intruder, kind, values[name]), row)
        for name, kind in kinds
    ]


def other(intruder: Intruder, kind: str, literal: str) -> str:
    """Another value of this kind than that."""
    if kind in ("INTEGER", "BIGINT"):
        number = literal.strip("'")
        return "%d" % (1000 if number == "NULL" else int(number) + 1000)
    if kind.startswith("TIMESTAMP"):
        return "'infinity'"
    return "'x'" if kind == "TEXT" else intruder.literal(b"x")


@contextmanager
def changed(intruder: Intruder, column: Column) -> Iterator[str]:
    """As long as it is open the column is another; gives words for it."""
    words = "%s.%s" % (column.table, column.name)
    intruder.rows(column.statement(column.other, column.was))
    value = "SELECT count(*) FROM %s WHERE %s = %s"
    ((found,),) = intruder.rows(value % (column.table, column.name, column.other))
    check(int(found) > 0, "%s is not changed" % words)
    yield words
    if column.table in COPIES:
        # A row that the gateway has put there meanwhile.
        intruder.rows("DELETE FROM %s WHERE %s" % (column.table, column.row_if_known_by_it()))
    intruder.rows(column.statement(column.was, column.other))


@pytest.mark.parametrize("table", SEALED)
def test_sealed_at_rest(stage_of_log: Stage, table: str) -> None:
    """No start goes on with it; once it is undone, one does."""
    stage = stage_of_log
    day = Day(stage)
    check(stage.door.stop() == 0, "the gateway does not end well")
    intruder = Intruder(stage.door)
    for column in columns(intruder, table):
        with changed(intruder, column) as words:
            stage.door.start()
            status = stage.door.wait_end()
            check(status in (1, NOT_ACCEPTED), "%s: a start ends with %d" % (words, status))
    stage.door.start()
    stage.door.wait_open()
    day.check("once all is undone")


@pytest.mark.parametrize("table", COPIES)
def test_copies_at_rest(stage_of_log: Stage, table: str) -> None:
    """A start does not read it."""
    stage = stage_of_log
    day = Day(stage)
    check(stage.door.stop() == 0, "the gateway does not end well")
    intruder = Intruder(stage.door)
    for column in columns(intruder, table):
        with changed(intruder, column) as words:
            stage.door.start()
            stage.door.wait_open()
            day.check(words)
            check(stage.door.stop() == 0, "%s: the gateway does not end well" % words)


def test_while_it_runs(stage_of_log: Stage) -> None:
    """A gateway that runs reads none of it back for a firm."""
    stage = stage_of_log
    day = Day(stage)
    intruder = Intruder(stage.door)
    for table in TABLES:
        for column in columns(intruder, table):
            with changed(intruder, column) as words:
                day.check(words)
    check(stage.door.stop() == 0, "the gateway does not end well")


def test_who_sent_a_quote(stage_of_log: Stage) -> None:
    """A gateway that runs knows which trader sent a quote, whatever its entry says by now: an operator's cancel takes it back."""
    stage = stage_of_log
    stage.door.operators = ""
    stage.open()
    intruder = Intruder(stage.door)
    with logged_on(stage, DEALER) as dealer, logged_on(stage, INVESTOR) as investor:
        asked(dealer, investor)
        quoted(dealer, b"q1")
        quote = stage.door.ledger().messages_of("DLR1")[-1]
        line = quote.line.replace(b"50=T1".hex().upper().encode(), b"50=T2".hex().upper().encode())
        check(line != quote.line, "the quote is of another trader: %r" % quote.line)
        row = intruder.literal(line), quote.place
        intruder.rows("UPDATE entry SET line = %s WHERE place = %d" % row)
        did(stage, "cancel", "DLR1", "--trader", "T1", "--because", "they called")
        dealer.got_until(lambda message: message.value(117) == b"q1" and message.value(297) == GONE)


# ------------------------------------------------------------ who speaks


@pytest.fixture
def stage_in_postgres(
    tools: Tools, place: Path, postgres_database: str, request: pytest.FixtureRequest
) -> Iterator[Stage]:
    wait_for_room(request.node.name)
    made = Stage(tools, place, PostgresLog(postgres_database, "day_" + today()))
    yield made
    made.close()


def changes_of_speaker(intruder: Intruder) -> Iterator[tuple[str, str]]:
    """Words for each change of it, and the statement. A constraint keeps `one`; an older term is another thing than a later one."""
    for name in [column.name for column in columns(intruder, "speaker")]:
        (column,) = [each for each in columns(intruder, "speaker") if each.name == name]
        if name != "one":
            yield name, column.statement(column.other, column.was)
    yield "an older term", "UPDATE speaker SET term = term - 1"


def is_heard(intruder: Intruder) -> Callable[[], bool]:
    """Whether the gateway that speaks has said since now that it is there, or has ended: it says so each second."""
    looked = "SELECT seen FROM speaker"
    before = intruder.rows(looked)
    return lambda: intruder.door.has_ended() or intruder.rows(looked) != before


def test_who_speaks_while_it_runs(stage_in_postgres: Stage) -> None:
    """It goes on, or ends with status 1 and says why; then the next start goes on."""
    stage = stage_in_postgres
    day = Day(stage)
    intruder, ended = Intruder(stage.door), []
    for words, statement in changes_of_speaker(intruder):
        check(intruder.rows(statement + " RETURNING one") == [["1"]], "%s: no change" % words)
        until("it goes on or ends", LONG, is_heard(intruder))
        if stage.door.has_ended():
            ended.append(words)
            check(stage.door.wait_end() == 1, "%s: it ends otherwise" % words)
            check("is over" in stage.door.last_words(), stage.door.last_words())
            stage.door.start()
            stage.door.wait_open()
        day.check(words)
    check(set(ended) == {"term", "an older term"}, "it ended with %r" % ended)


def test_who_spoke_at_rest(stage_in_postgres: Stage) -> None:
    """The next start takes a term of its own behind it."""
    stage = stage_in_postgres
    day = Day(stage)
    intruder = Intruder(stage.door)
    check(stage.door.stop() == 0, "the gateway does not end well")
    for words, statement in changes_of_speaker(intruder):
        check(intruder.rows(statement + " RETURNING one") == [["1"]], "%s: no change" % words)
        stage.door.start()
        stage.door.wait_open()
        day.check(words)
        check(stage.door.stop() == 0, "%s: the gateway does not end well" % words)
