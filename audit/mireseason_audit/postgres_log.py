"""Reads a log in a schema of PostgreSQL, in one transaction, by cursors that the server keeps, and takes it into a file
of SQLite.
"""

import itertools
import sqlite3
from collections.abc import Iterator
from contextlib import closing
from dataclasses import dataclass
from pathlib import Path
from typing import Any

import psycopg2
from psycopg2 import sql

from .faults import Unreadable
from .frame import printable
from .log import Log
from .log_form import FORMS, FUNCTIONS, TRIGGER, TRIGGERED, short, strange_tables
from .sql_log import Rows, SqlLog, form_of
from .sqlite_log import Given
from .taken import Table, attach, cause_of, put_form, put_rows

OLD_FORM = 2  # of the tables: without connections
ROWS_AT_A_TIME = 1024  # each time the server is asked
PLACE = "(SELECT oid FROM pg_namespace WHERE nspname = ?)"
COLUMNS = (
    """SELECT relname, attname FROM pg_class JOIN pg_attribute ON attrelid = pg_class.oid
    WHERE relnamespace = %s AND relkind = 'r' AND attnum > 0 AND NOT attisdropped
    ORDER BY relname, attnum"""
    % PLACE
)
# The tables of a log of which, or of whose children, the server would carry out for whoever reads them, with that one's
# rights, what their owner thought of: a view does, and so does the server's planner with a function in the condition or
# in the columns of an index, or in statistics.
CARRIED_OUT = """WITH RECURSIVE own AS (
        SELECT oid, relname FROM pg_class WHERE relnamespace = PLACE AND relname = ANY (?)
        UNION SELECT inhrelid, own.relname FROM pg_inherits JOIN own ON inhparent = own.oid)
    SELECT DISTINCT own.relname FROM own JOIN pg_class ON pg_class.oid = own.oid WHERE relkind <> 'r'
    OR EXISTS (SELECT FROM pg_index WHERE indrelid = own.oid AND (indpred IS NOT NULL OR indexprs IS NOT NULL))
    OR EXISTS (SELECT FROM pg_statistic_ext WHERE stxrelid = own.oid AND stxexprs IS NOT NULL)
    ORDER BY 1""".replace(
    "PLACE", PLACE
)
# What of the schema the server may carry out in the place of its own, in a query that calls that by its name alone: a
# function or an operator whose name it has, too, may fit better, and a type may have a way to become another.
LIKE_THE_SERVERS = """SELECT 'function ' || proname FROM pg_proc AS one WHERE pronamespace = PLACE
        AND EXISTS (SELECT FROM pg_proc WHERE pronamespace = 'pg_catalog'::regnamespace AND proname = one.proname)
    UNION SELECT 'operator ' || oprname FROM pg_operator AS one WHERE oprnamespace = PLACE
        AND EXISTS (SELECT FROM pg_operator WHERE oprnamespace = 'pg_catalog'::regnamespace AND oprname = one.oprname)
    UNION SELECT 'the type of ' || attname || ' of ' || relname FROM pg_class JOIN pg_attribute
        ON attrelid = pg_class.oid JOIN pg_type ON pg_type.oid = atttypid WHERE relnamespace = PLACE
        AND relkind = 'r' AND attnum > 0 AND NOT attisdropped AND typnamespace <> 'pg_catalog'::regnamespace
    ORDER BY 1""".replace(
    "PLACE", PLACE
)
# A policy of rows is not carried out, either: where one counts for who reads, that is an error. Nor are the constraints by
# which the planner leaves a table out. Until the schema was looked at nothing is found there, or where else a role looks.
PLAIN = "SET row_security = off; SET constraint_exclusion = off; SET search_path TO pg_catalog"
# What is no plain table of the schema, or changes what is written to one or read of one.
OTHERS = """WITH tables AS (SELECT oid, relname FROM pg_class WHERE relnamespace = PLACE AND relkind = 'r')
    SELECT CASE relkind WHEN 'v' THEN 'view' WHEN 'm' THEN 'materialized view' WHEN 'f' THEN 'foreign table'
        WHEN 'p' THEN 'partitioned table' WHEN 'S' THEN 'sequence' ELSE 'relation' END, relname, ''
        FROM pg_class WHERE relnamespace = PLACE AND relkind NOT IN ('r', 'i', 't')
    UNION ALL SELECT 'index', pg_class.relname, tables.relname FROM pg_index JOIN tables ON indrelid = tables.oid
        JOIN pg_class ON pg_class.oid = indexrelid WHERE NOT indisprimary
    UNION ALL SELECT 'trigger', tgname, relname FROM pg_trigger JOIN tables ON tgrelid = tables.oid
        JOIN pg_proc ON pg_proc.oid = tgfoid WHERE NOT tgisinternal AND NOT (tgname = '{trigger}'
        AND relname IN {triggered} AND proname = 'refuse_other_terms' AND pronamespace = PLACE
        AND tgenabled = 'O' AND tgtype = 4 AND tgqual IS NULL)
    UNION ALL SELECT 'rule', rulename, relname FROM pg_rewrite JOIN tables ON ev_class = tables.oid
    UNION ALL SELECT 'policy', polname, relname FROM pg_policy JOIN tables ON polrelid = tables.oid
    UNION ALL SELECT 'row security', '', relname FROM pg_class WHERE relnamespace = PLACE AND relrowsecurity
    UNION ALL SELECT 'child', pg_class.relname, tables.relname FROM pg_inherits JOIN tables ON inhparent = tables.oid
        JOIN pg_class ON pg_class.oid = inhrelid
    UNION ALL SELECT 'parent', pg_class.relname, tables.relname FROM pg_inherits JOIN tables ON inhrelid = tables.oid
        JOIN pg_class ON pg_class.oid = inhparent
    UNION ALL SELECT 'function', proname, '' FROM pg_proc WHERE pronamespace = PLACE AND (prosecdef OR
        (proname, encode(sha256(convert_to(prosrc, 'UTF8')), 'hex')) NOT IN {functions})
    UNION ALL SELECT 'constraint', conname, relname FROM pg_constraint JOIN tables ON conrelid = tables.oid
        WHERE contype IN ('c', 'f') AND relname <> 'speaker'
    UNION ALL SELECT 'default', attname, relname FROM pg_attrdef JOIN tables ON adrelid = tables.oid
        JOIN pg_attribute ON attrelid = adrelid AND attnum = adnum
    UNION ALL SELECT 'unlogged table', relname, '' FROM pg_class WHERE relnamespace = PLACE AND relkind = 'r'
        AND relpersistence <> 'p'
    UNION ALL SELECT 'type', typname, '' FROM pg_type WHERE typnamespace = PLACE AND typtype NOT IN ('c', 'b')
    UNION ALL SELECT 'operator', oprname, '' FROM pg_operator WHERE oprnamespace = PLACE
    ORDER BY 1, 2, 3""".format(
    trigger=TRIGGER, triggered=TRIGGERED, functions=tuple(FUNCTIONS.items())
).replace(
    "PLACE", PLACE
)


@dataclass(frozen=True)
class PostgresSource(Given):
    """A connection string of libpq and the schema of the day."""

    connection: str
    schema: str
    has_chain = True

    @property
    def name(self) -> str:
        return self.schema

    def current(self) -> Log:
        return PostgresLog(self)

    def take(self, path: Path) -> None:
        with PostgresLog(self) as log:
            log.put_all(path)


class PostgresLog(SqlLog):
    """One transaction that reads, and sees the log as it was when it began."""

    def __init__(self, source: PostgresSource) -> None:
        self._name = source.name
        self._cursors = itertools.count()
        try:
            self._connection = psycopg2.connect(source.connection)
            self._connection.set_session(isolation_level="REPEATABLE READ", readonly=True)
            with self._connection.cursor() as cursor:
                cursor.execute(PLAIN)
                check_tables(cursor, source.schema)
                path = sql.SQL("SET search_path TO {}").format(sql.Identifier(source.schema))
                cursor.execute(path)
                cursor.execute("SELECT number FROM form")
                forms = cursor.fetchall()
        except psycopg2.Error as fault:
            raise Unreadable("%s: no log can be read: %s" % (self._name, one_line(fault))) from None
        self._take_form(form_of(self._name, forms, OLD_FORM))

    def blocks(self, query: str, *values: object) -> Iterator[Rows]:
        try:
            with self._connection.cursor("audit_%d" % next(self._cursors)) as cursor:
                cursor.execute(query.replace("?", "%s"), values)
                while rows := cursor.fetchmany(ROWS_AT_A_TIME):
                    yield [tuple(map(plain, row)) for row in rows]
        except (psycopg2.Error, UnicodeError) as fault:
            raise Unreadable("%s: %s" % (self._name, one_line(fault))) from None

    @staticmethod
    def bytes_of(value: Any) -> bytes:
        return bytes(value)

    def beyond_form(self) -> Iterator[str]:
        tables: dict[str, list[str]] = {}
        for table, column in self.rows(COLUMNS, self._name):
            tables.setdefault(table, []).append(column)
        yield from strange_tables(self.form, tables, has_terms=True)
        for kind, name, table in self.rows(OTHERS, *[self._name] * OTHERS.count("?")):
            words = " ".join(filter(None, (kind, short(name))))
            yield words + (" of %s" % short(table) if table else "")

    def put_all(self, path: Path) -> None:
        """Puts all rows into a new file, as one query of each table gives them."""
        try:
            with closing(sqlite3.connect("", isolation_level=None)) as file:
                attach(file, path)
                file.execute("BEGIN")
                put_form(file, self.form, self.beyond_form())
                put_rows(file, self.form, self._put)
                file.execute("COMMIT")
        except sqlite3.Error as fault:
            raise Unreadable("%s: %s" % (self._name, cause_of(fault, path))) from None

    def _put(self, file: sqlite3.Connection, table: Table) -> None:
        """A value that is neither a number, a text nor bytes is none of a log: SQLite refuses it."""
        into = "%s VALUES (%s)" % (table.put, ", ".join("?" * len(table.columns)))
        for rows in self.blocks("%s %s" % (table.scan, table.name)):
            file.executemany(into, rows)

    def close(self, failed: bool = False) -> None:
        super().close(failed)
        self._connection.close()


def check_tables(cursor: Any, schema: str) -> None:
    """Unreadable where to read a table of the log would carry out something: nothing of one was read before."""
    names = sorted({name for tables in FORMS.values() for name in tables})
    cursor.execute(CARRIED_OUT.replace("?", "%s"), (schema, names))
    for (name,) in cursor.fetchall():
        text = "%s: no log can be read: %s is no table, or has a function that is carried out"
        raise Unreadable(text % (schema, name))
    cursor.execute(LIKE_THE_SERVERS.replace("?", "%s"), (schema,) * LIKE_THE_SERVERS.count("?"))
    for (name,) in cursor.fetchall():
        text = "%s: no log can be read: %s may be carried out in the place of the server's own"
        raise Unreadable(text % (schema, printable(short(name))))


def plain(value: object) -> object:
    """A value of a column, bytes as bytes."""
    return bytes(value) if isinstance(value, memoryview) else value


def one_line(fault: Exception) -> str:
    return " ".join(str(fault).split())
