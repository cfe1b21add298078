"""Reads the logs in PostgreSQL, each a schema of its own, as the role `keeper`.

It reads all of them. By two functions of install/hosts/config/database.sql, which run with the owner's role, it makes the tables of
a day and removes those of an old one. It changes nothing else.
"""

import itertools
import re
from collections.abc import Iterator, Sequence
from contextlib import closing, contextmanager
from dataclasses import dataclass
from datetime import timedelta
from typing import Any

import psycopg2
from psycopg2 import sql

from .faults import Fault, one_line

ROWS_AT_A_TIME = 256  # each time the server is asked
SILENT = "5 seconds"  # a gateway that has said nothing for so long may be taken over from
TERMS = "speaker"  # of PostgreSQL alone: it says who speaks, and nothing of the day
TYPES = {"integer", "bigint", "text", "bytea"}
NAME = re.compile(r"[a-z][a-z_]*")

TABLES = """SELECT c.relname, a.attname, format_type(a.atttypid, NULL), a.attnotnull, coalesce(a.attnum = ANY (i.indkey), false)
    FROM pg_class c JOIN pg_namespace n ON n.oid = c.relnamespace JOIN pg_attribute a ON a.attrelid = c.oid
    LEFT JOIN pg_index i ON i.indrelid = c.oid AND i.indisprimary
    WHERE n.nspname = %s AND c.relkind = 'r' AND a.attnum > 0 AND NOT a.attisdropped
    ORDER BY c.relname, a.attnum"""
END = """SELECT (SELECT seen < clock_timestamp() - interval '{silent}' FROM speaker),
    coalesce((SELECT max(place) FROM entry), -1), coalesce((SELECT max(place) FROM connection), 0),
    (SELECT max(place) FROM checkpoint), (SELECT max(event) FROM checkpoint)""".format(
    silent=SILENT
)
# What the defaults of the role would have ended: a role may set its own otherwise.
LONG = """SELECT pid FROM pg_stat_activity WHERE usename = %s AND backend_type = 'client backend'
    AND (state = 'active' AND clock_timestamp() - query_start > %s
        OR state LIKE 'idle in transaction%%' AND clock_timestamp() - state_change > %s)"""


@dataclass(frozen=True)
class Column:
    name: str
    type: str  # integer, bigint, text or bytea
    is_needed: bool  # never NULL
    is_key: bool


@dataclass(frozen=True)
class Table:
    name: str
    columns: tuple[Column, ...]

    @property
    def order(self) -> tuple[Column, ...]:
        """By what its rows are ordered: its key, or all that it has."""
        return tuple(column for column in self.columns if column.is_key) or self.columns


@dataclass(frozen=True)
class End:
    """How the log of a day ends."""

    is_silent: bool  # no gateway has written there for some seconds
    is_signed: bool  # the last checkpoint is that of the last entry and the last row of the door

    @property
    def is_closed(self) -> bool:
        return self.is_silent and self.is_signed


class Log:
    """One transaction that reads a day, and sees it as it was when that began."""

    def __init__(self, connection: Any, schema: str) -> None:
        self._connection = connection
        self._schema = schema
        self._cursors = itertools.count()
        self._rows(sql.SQL("SET LOCAL search_path TO {}").format(sql.Identifier(schema)), ())

    def tables(self) -> list[Table]:
        """All that it has, but for who speaks. Fault where one is none of a log."""
        found: dict[str, list[Column]] = {}
        for table, *column in self._rows(sql.SQL(TABLES), (self._schema,)):
            found.setdefault(table, []).append(Column(*column))
        found.pop(TERMS, None)
        for name, columns in found.items():
            names = [name, *(column.name for column in columns)]
            if not all(map(NAME.fullmatch, names)) or not {c.type for c in columns} <= TYPES:
                raise Fault("%s: the table %r is none of a log" % (self._schema, name))
        return [Table(name, tuple(columns)) for name, columns in found.items()]

    def rows(self, table: Table) -> Iterator[tuple[Any, ...]]:
        """Its rows in their order, which is the same in every language of the server."""
        order = [
            sql.SQL("{} COLLATE " + '"C"' if column.type == "text" else "{}").format(
                sql.Identifier(column.name)
            )
            for column in table.order
        ]
        query = sql.SQL("SELECT {} FROM {} ORDER BY {}").format(
            sql.SQL(", ").join(sql.Identifier(column.name) for column in table.columns),
            sql.Identifier(table.name),
            sql.SQL(", ").join(order),
        )
        with self._connection.cursor("keeper_%d" % next(self._cursors)) as cursor:
            cursor.itersize = ROWS_AT_A_TIME
            cursor.execute(query)
            for row in cursor:
                yield tuple(map(plain, row))

    def first_line(self) -> bytes | None:
        """Entry 0, which says what the day is; None of a day that has not begun."""
        rows = self._rows(sql.SQL("SELECT line FROM entry WHERE place = 0"), ())
        return bytes(rows[0][0]) if rows else None

    def end(self) -> End:
        ((silent, entry, event, signed_entry, signed_event),) = self._rows(sql.SQL(END), ())
        return End(bool(silent), (signed_entry, signed_event) == (entry, event))

    def _rows(self, query: sql.Composable, values: Sequence[object]) -> list[tuple[Any, ...]]:
        with self._connection.cursor() as cursor:
            cursor.execute(query, values)
            return list(cursor.fetchall()) if cursor.description else []


def plain(value: object) -> object:
    """A value of a column, bytes as bytes."""
    return bytes(value) if isinstance(value, memoryview) else value


@dataclass(frozen=True)
class Database:
    """The database of the logs, by a connection string of libpq."""

    connection: str

    def logs(self) -> list[str]:
        """The schemas of all logs, in their order."""
        query = "SELECT nspname FROM pg_namespace JOIN pg_roles r ON r.oid = nspowner WHERE rolname = 'log_owner'"
        return sorted(name for (name,) in self._asked(query + " AND nspname <> 'mireseason'"))

    def make(self, schema: str) -> None:
        """Makes the tables of a day."""
        self._asked("SELECT mireseason.make_log(%s)", schema)

    def remove(self, schema: str) -> None:
        """Removes a day, whose tables nobody may have locked."""
        self._asked("SELECT mireseason.remove_log(%s)", schema)

    def end_long(self, role: str, longest: timedelta) -> int:
        """Ends the sessions of a role whose statement, or whose pause within a transaction, is longer; how many."""
        query = "SELECT count(*) FILTER (WHERE pg_terminate_backend(pid)) FROM (%s) AS long" % LONG
        ((count,),) = self._asked(query, role, longest, longest)
        return int(count)

    @contextmanager
    def reading(self, schema: str) -> Iterator[Log]:
        """A transaction over a day."""
        try:
            with closing(psycopg2.connect(self.connection)) as connection:
                connection.set_session(isolation_level="REPEATABLE READ", readonly=True)
                yield Log(connection, schema)
        except psycopg2.Error as fault:
            raise Fault("%s: %s" % (schema, one_line(fault))) from None

    def _asked(self, query: str, *values: object) -> list[tuple[Any, ...]]:
        try:
            with closing(psycopg2.connect(self.connection)) as connection, connection:
                with connection.cursor() as cursor:
                    cursor.execute(query, values)
                    return list(cursor.fetchall())
        except psycopg2.Error as fault:
            raise Fault(one_line(fault)) from None
