"""Writes a day of PostgreSQL as a file of SQLite, which the audit reads without a server, and computes the digest of a day's
rows.
"""

import hashlib
import os
import sqlite3
import time
from collections.abc import Iterable, Iterator
from contextlib import closing
from itertools import islice
from pathlib import Path
from typing import Any

from .database import ROWS_AT_A_TIME, Log, Table
from .faults import Fault

Row = tuple[Any, ...]
ENTRY_SECONDS = 60.0  # for the first entry of a log, which takes none of them
STEPS = 100_000  # of SQLite, after each of which the time is looked at
LONGEST_ENTRY = 17 << 20  # bytes of entry 0, whose configuration has up to 16 MiB


def reader_of(path: Path) -> sqlite3.Connection:
    """A reader of a copy, which nobody writes: SQLite puts no file of its own beside it."""
    return sqlite3.connect(path.resolve().as_uri() + "?mode=ro&immutable=1", uri=True)


def hasty_reader_of(path: Path) -> sqlite3.Connection:
    """The same of one that anybody may have made: what it asks for takes a minute at most, and has no value of any length."""
    file = reader_of(path)
    end = time.monotonic() + ENTRY_SECONDS
    file.setlimit(sqlite3.SQLITE_LIMIT_LENGTH, LONGEST_ENTRY)
    file.set_progress_handler(lambda: time.monotonic() > end, STEPS)
    return file


def digest_of_log(log: Log) -> str:
    """Of all rows in the database, as `digest_of_file` has it of a copy."""
    found = hashlib.sha256()
    for table in log.tables():
        add_rows(found, table.name, log.rows(table))
    return found.hexdigest()


def digest_of_file(path: Path) -> str:
    """Of all rows of a copy, read from the file."""
    found = hashlib.sha256()
    try:
        with closing(reader_of(path)) as file:
            for name, order in tables_of(file):
                add_rows(found, name, file.execute("SELECT * FROM %s ORDER BY %s" % (name, order)))
    except sqlite3.Error as fault:
        raise Fault("%s: %s" % (path, fault)) from None
    return found.hexdigest()


def first_line(path: Path) -> bytes | None:
    """Entry 0 of a copy; None where it has none."""
    try:
        with closing(hasty_reader_of(path)) as file:
            # From the table, as the audit reads it: an index may say something else.
            query = "SELECT CAST(line AS BLOB) FROM entry NOT INDEXED WHERE place = 0 LIMIT 1"
            row = file.execute(query).fetchone()
    except sqlite3.Error as fault:
        raise Fault("%s: %s" % (path.name, fault)) from None
    return bytes(row[0] or b"") if row else None


def write_day(log: Log, path: Path) -> str:
    """Writes all rows of a day into a new file, which is on disk then; their digest."""
    found = hashlib.sha256()
    try:
        with closing(sqlite3.connect(path, isolation_level=None)) as file:
            file.execute("PRAGMA synchronous = OFF")  # it counts once all of it is on disk: below
            file.execute("BEGIN")
            for table in log.tables():
                file.execute(definition(table))
                add_rows(found, table.name, written(file, table, log.rows(table)))
            file.execute("COMMIT")
    except sqlite3.Error as fault:
        raise Fault("%s: %s" % (path, fault)) from None
    on_disk(path)
    return found.hexdigest()


def written(file: sqlite3.Connection, table: Table, rows: Iterator[Row]) -> Iterator[Row]:
    """The rows, each of which stands in the file then."""
    places = ", ".join("?" * len(table.columns))
    while block := list(islice(rows, ROWS_AT_A_TIME)):
        file.executemany("INSERT INTO %s VALUES (%s)" % (table.name, places), block)
        yield from block


def definition(table: Table) -> str:
    """A table of the same columns. Names and types are of those that a log may have (database.py)."""
    lines = [
        "%s %s%s" % (column.name, column.type.upper(), " NOT NULL" if column.is_needed else "")
        for column in table.columns
    ]
    if key := [column.name for column in table.columns if column.is_key]:
        lines.append("PRIMARY KEY (%s)" % ", ".join(key))
    return "CREATE TABLE %s (%s)" % (table.name, ", ".join(lines))


def tables_of(file: sqlite3.Connection) -> list[tuple[str, str]]:
    """The tables of a copy by their names, each with what its rows are ordered by."""
    names = [
        name for (name,) in file.execute("SELECT name FROM sqlite_schema WHERE type = 'table'")
    ]
    found = []
    for name in sorted(names):
        columns: list[tuple[str, int]] = file.execute(
            "SELECT name, pk FROM pragma_table_info(?)", (name,)
        ).fetchall()
        keys = [column for key, column in sorted((key, column) for column, key in columns) if key]
        found.append((name, ", ".join(keys or [column for column, _ in columns])))
    return found


def add_rows(found: "hashlib._Hash", table: str, rows: Iterable[Row]) -> None:
    """Each value with its kind and its length: two different days have no one text."""
    found.update(b"table %b\n" % table.encode())
    for row in rows:
        found.update(b"".join(map(encoded, row)) + b"\n")


def encoded(value: object) -> bytes:
    if value is None:
        return b"- "
    if isinstance(value, int):
        return b"%d " % value
    kind, data = (b"b", value) if isinstance(value, bytes) else (b"t", str(value).encode())
    return b"%b%d:%b " % (kind, len(data), data)


def on_disk(path: Path) -> None:
    """The file, or the names in a folder, are on disk when this returns."""
    number = os.open(path, os.O_RDONLY)
    try:
        os.fsync(number)
    finally:
        os.close(number)
