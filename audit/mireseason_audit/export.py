"""Writes a day as tables."""

from collections.abc import Iterator
from contextlib import ExitStack
from dataclasses import dataclass
from pathlib import Path
from typing import Any, TypeVar

from .bonds import Bond, bonds_of
from .day_pass import DayPass
from .day_tables import (
    ASKED,
    CONNECTIONS,
    MESSAGES,
    QUOTES,
    REQUESTS,
    RESPONSES,
    SESSIONS,
    TRADES,
    RequestRow,
    TradeRow,
)
from .exchanges import exchanges
from .facts import Facts
from .log import Log
from .records import Day
from .tables import Column, Form, Table, TableWriter, write_table

Row = TypeVar("Row")
ALL: tuple[Table[Any], ...] = (
    REQUESTS,
    ASKED,
    QUOTES,
    RESPONSES,
    TRADES,
    MESSAGES,
    SESSIONS,
    CONNECTIONS,
)


@dataclass(frozen=True)
class ColumnRow:
    """A column of the tables, as a row of one."""

    table: str
    column: str
    meaning: str


COLUMNS: Table[ColumnRow] = Table(
    "columns",
    "a column of the other tables",
    (
        Column("table", "", lambda row: row.table),
        Column("column", "", lambda row: row.column),
        Column("meaning", "", lambda row: row.meaning),
    ),
)


class Streams:
    """Writes the rows that are not held: messages and responses."""

    def __init__(self, form: Form, folder: Path, files: ExitStack) -> None:
        self._form, self._folder, self._files = form, folder, files
        self.messages = self._begun(MESSAGES)
        self.responses = self._begun(RESPONSES)

    def _begun(self, table: Table[Row]) -> TableWriter[Row]:
        path = self._folder / ("%s.%s" % (table.name, self._form.value))
        file = self._files.enter_context(path.open("w", encoding="utf-8", newline=""))
        return TableWriter(table, self._form, file)

    def end(self) -> None:
        self.messages.end()
        self.responses.end()


def export_day(log: Log, day: Day, form: Form, folder: Path) -> Facts:
    """Writes all tables into a folder."""
    day_pass = DayPass(log, day)
    with ExitStack() as files:
        streams = Streams(form, folder, files)
        for exchange in exchanges(log, day):
            taken = day_pass.take(exchange)
            if taken.response is not None:
                streams.responses.put(taken.response)
            for row in day_pass.rows(exchange, taken.refusal):
                streams.messages.put(row)
        day_pass.end()
        streams.end()
    write_held(day_pass, form, folder)
    write_table(CONNECTIONS, log.connection_events() if log.has_door else (), form, folder)
    write_table(COLUMNS, column_rows(), form, folder)
    return day_pass.facts


def write_held(day_pass: DayPass, form: Form, folder: Path) -> None:
    """The tables whose rows are held."""
    bonds, facts = bonds_of(day_pass.day), day_pass.facts
    requests = (RequestRow(one, currency_of(bonds, one.bond)) for one in facts.requests)
    trades = (TradeRow(one, currency_of(bonds, one.request.bond)) for one in facts.trades)
    write_table(REQUESTS, requests, form, folder)
    write_table(ASKED, facts.asked, form, folder)
    write_table(QUOTES, facts.quotes, form, folder)
    write_table(TRADES, trades, form, folder)
    write_table(SESSIONS, day_pass.sessions.values(), form, folder)


def column_rows() -> Iterator[ColumnRow]:
    """What the columns of all tables say."""
    for table in ALL:
        yield ColumnRow(table.name, "", "a row is " + table.meaning)
        for column in table.columns:
            yield ColumnRow(table.name, column.name, column.meaning)


def currency_of(bonds: dict[str, Bond], bond: str) -> str:
    return bonds[bond].currency if bond in bonds else ""
