"""Reads a log in a file of SQLite, in one transaction: in one that somebody has made, or in the audit's own, into which
it takes that.
"""

import sqlite3
import tempfile
import time
from abc import abstractmethod
from collections.abc import Callable, Iterator
from dataclasses import dataclass
from pathlib import Path
from typing import Any

from .faults import Unreadable
from .log import Log, Source
from .log_form import FORMS, is_plain, key_of, short, strange_tables
from .sql_log import Rows, SqlLog, form_of
from .taken import BEYOND, FORM, TAKEN, Table, attach, cause_of, limit, put_form, put_rows

OLD_FORM = 1  # of the tables: without connections
# So few rows, and pages of the file, that a processor's cache holds them and what is made of them.
ROWS_AT_A_TIME = 128
PAGES = "PRAGMA cache_size = -256"  # kilobytes
MOST_BYTES = 17 << 20  # of a value: the greatest is entry 0, whose configuration has up to 16 MiB
READ = "SELECT 1 FROM main.sqlite_master"  # what the file says of its tables, and so that a transaction has begun
# What the file says of its tables is read at once, and in a forged file it may have no end.
OPENING_SECONDS, STEPS = 20.0, 100_000  # steps of SQLite, after each of which the time is looked at
# A table of a log that makes rows or values while it is read: a view, a virtual table, a computed
# column. One of a name that no log has is never read.
KINDS = "SELECT type FROM pragma_table_list WHERE schema = 'main' AND name = ? COLLATE NOCASE"
HIDDEN = "SELECT name FROM pragma_table_xinfo(?) WHERE hidden > 0"
# An index has a definition, unless SQLite made it for a key, whatever its name is.
OBJECTS = """SELECT type, name, tbl_name FROM sqlite_schema WHERE type <> 'table'
    AND NOT (type = 'index' AND sql IS NULL AND name LIKE 'sqlite_autoindex_%') ORDER BY type, name"""
COLUMNS = """SELECT objects.name, columns.name FROM pragma_table_list AS objects LEFT JOIN
    pragma_table_info(objects.name) AS columns ON objects.type = 'table'
    WHERE objects.schema = 'main' AND objects.type NOT IN ('view', 'shadow')
    AND objects.name NOT IN ('sqlite_schema', 'sqlite_master')"""
KEY = "SELECT name FROM pragma_table_info(?) WHERE pk > 0 ORDER BY pk"
DEFINITIONS = "SELECT name, sql FROM sqlite_schema WHERE type = 'table' ORDER BY name"
MARKS = ("user_version", "application_id")  # of the file, 0 in one that a gateway made


class Given(Source):
    """A log that somebody else has made, in a file or on a server. Each time it is opened it is taken first."""

    has_chain: bool

    @abstractmethod
    def current(self) -> Log:
        """The log as it stands now, wherever that is."""

    @abstractmethod
    def take(self, path: Path) -> None:
        """Makes this file, and puts all rows there; Unreadable where that can't be done."""

    def taken(self, folder: Path) -> Source:
        path = folder / TAKEN
        self.take(path)
        return TakenSource(path, self)

    def open(self) -> Log:
        # The file is gone with the folder, and the log has it open.
        with tempfile.TemporaryDirectory(prefix="mireseason-") as name:
            return self.taken(Path(name)).open()


@dataclass(frozen=True)
class SqliteSource(Given):
    """A file of SQLite."""

    path: Path
    has_chain: bool = True
    title: str = ""

    @property
    def name(self) -> str:
        return self.title or self.path.name

    @property
    def seal_path(self) -> Path:
        return self.path.with_name(self.path.name + ".seal")

    def current(self) -> Log:
        return GivenLog(self)

    def take(self, path: Path) -> None:
        with GivenLog(self, path) as log:
            log.put_all(path)


@dataclass(frozen=True)
class TakenSource(Source):
    """The file into which a log was taken, and where that is."""

    path: Path
    given: Given

    @property
    def name(self) -> str:
        return self.given.name

    @property
    def seal_path(self) -> Path:
        return self.given.seal_path

    def open(self) -> Log:
        return TakenLog(self)

    def current(self) -> Log:
        return self.given.current()


class SqliteLog(SqlLog):
    """One transaction over a file. Any column may hold a value of any type."""

    _connection: sqlite3.Connection
    _name: str

    def blocks(self, query: str, *values: object) -> Iterator[Rows]:
        try:
            yield from self._blocks(query, values)
        except sqlite3.Error as fault:
            raise Unreadable("%s: %s" % (self._name, fault)) from None

    def _blocks(self, query: str, values: tuple[object, ...]) -> Iterator[Rows]:
        """The rows; where a text is none, they are read anew, and texts as `text_of` has them."""
        given = 0
        try:
            for rows in fetched(self._connection.execute(query, values)):
                yield rows
                given += len(rows)
        except sqlite3.OperationalError:
            if self._connection.text_factory is text_of:
                raise
            self._connection.text_factory = text_of
            again = self._connection.execute(query, values)
            for _ in range(given):
                again.fetchone()
            yield from fetched(again)

    @staticmethod
    def bytes_of(value: Any) -> bytes:
        """Those that SQLite gives whoever asks for a column as bytes."""
        if isinstance(value, bytes):
            return value
        return b"" if value is None else str(value).encode()

    def close(self, failed: bool = False) -> None:
        super().close(failed)
        self._connection.close()


class TakenLog(SqliteLog):
    """A log that was taken. The audit made the file, which has the log's rows alone."""

    def __init__(self, source: TakenSource) -> None:
        self.has_chain = source.given.has_chain
        self._name = source.name
        self._connection = connected(source.path)
        ((form,),) = self._connection.execute(FORM)
        self._take_form(form)

    def beyond_form(self) -> Iterator[str]:
        return (words for words, in self.rows(BEYOND))


class GivenLog(SqliteLog):
    """A log as somebody has made it: what one query says of it another need not say."""

    def __init__(self, source: SqliteSource, beside: Path | None = None) -> None:
        """beside is made, too: it is the file into which the log is taken."""
        self.has_chain = source.has_chain
        self._name = source.name
        if not source.path.is_file():
            raise Unreadable("%s: there is no such file" % source.path)
        try:
            self._connection = connected(source.path, beside)
            check_tables(self._connection, source.path)
            forms = self._connection.execute("SELECT number FROM main.form LIMIT 2").fetchall()
        except sqlite3.Error as fault:
            raise Unreadable("%s is no log of the gateway: %s" % (source.path, fault)) from None
        self._path = source.path
        self._take_form(form_of(str(source.path), forms, OLD_FORM))

    def put_all(self, path: Path) -> None:
        """Puts all rows into this file, which was made beside, by one pass over each table that uses no index."""
        try:
            limit(self._connection, self._bytes())
            put_form(self._connection, self.form, self.beyond_form())
            put_rows(self._connection, self.form, put_scanned)
            self._connection.execute("COMMIT")
        except sqlite3.Error as fault:
            raise Unreadable("%s: %s" % (self._name, cause_of(fault, path))) from None

    def beyond_form(self) -> Iterator[str]:
        tables: dict[str, list[str]] = {}
        for table, column in self.rows(COLUMNS):
            tables.setdefault(table, []).append(column or "")
        yield from strange_tables(self.form, tables, has_terms=False)
        for table, sql in self.rows(DEFINITIONS):
            if table in FORMS[self.form] and not self._is_own(table, str(sql)):
                yield "another definition of table %s" % table
        for kind, name, table in self.rows(OBJECTS):
            words = "%s %s" % (kind, short(name))
            yield words + (" of %s" % short(table) if table != name else "")
        for mark in MARKS:
            ((value,),) = self.rows("PRAGMA " + mark)
            if value:
                yield "%s %d" % (mark, value)
        yield from self._bytes_behind()

    def _is_own(self, table: str, definition: str) -> bool:
        key = [column for column, in self.rows(KEY, table)]
        return is_plain(definition) and key == key_of(self.form, table)

    def _bytes_behind(self) -> Iterator[str]:
        """Bytes behind the last page of a file that is whole."""
        more = self._path.stat().st_size - self._bytes()
        if more > 0 and not has_more(self._path):
            yield "%d bytes after the last page" % more

    def _bytes(self) -> int:
        """Of all pages."""
        ((pages,),), ((size,),) = self.rows("PRAGMA page_count"), self.rows("PRAGMA page_size")
        return int(pages) * int(size)


def put_scanned(connection: sqlite3.Connection, table: Table) -> None:
    """All rows of a table of the log, as they stand in it."""
    connection.execute("%s %s main.%s NOT INDEXED" % (table.put, table.scan, table.name))


def check_tables(connection: sqlite3.Connection, path: Path) -> None:
    """Unreadable where a table of the log is none, or computes: what is made while it is read may
    have no end.
    """
    for name in sorted({name for tables in FORMS.values() for name in tables}):
        kinds = [kind for kind, in connection.execute(KINDS, (name,))]
        if kinds not in ([], ["table"]) or (
            kinds and connection.execute(HIDDEN, (name,)).fetchone()
        ):
            text = "%s is no log of the gateway: %s is no table, or has a computed column"
            raise Unreadable(text % (path, name))


def fetched(cursor: sqlite3.Cursor) -> Iterator[Rows]:
    """The rows that are left, so many at a time."""
    while rows := cursor.fetchmany(ROWS_AT_A_TIME):
        yield rows


def text_of(data: bytes) -> str:
    """A text of the file, which may be no text: an escape for each byte that is not."""
    return data.decode("utf-8", "backslashreplace")


def has_more(path: Path) -> bool:
    """Whether there is a log beside the file, without which the file is not whole."""
    return any(path.with_name(path.name + end).exists() for end in ("-wal", "-journal"))


def too_late_from(end: float) -> Callable[[], bool]:
    """Whether this moment has come."""
    return lambda: time.monotonic() > end


def connected(path: Path, beside: Path | None = None) -> sqlite3.Connection:
    """A reader of the file; of one in a folder that can't be written to, as the file stands. Where another
    file is named, that is made beside it, as `taken`.
    """
    address = path.resolve().as_uri()
    for ending in ("?mode=ro", "?mode=ro&immutable=1"):
        connection = sqlite3.connect(address + ending, uri=True, timeout=10, isolation_level=None)
        connection.setlimit(sqlite3.SQLITE_LIMIT_LENGTH, MOST_BYTES)
        connection.set_progress_handler(too_late_from(time.monotonic() + OPENING_SECONDS), STEPS)
        try:
            connection.execute("PRAGMA trusted_schema = OFF")
            connection.execute("PRAGMA cell_size_check = ON")
            connection.execute(READ).fetchone()
            if beside is not None:
                attach(connection, beside)
            connection.execute("BEGIN")
            connection.execute(READ).fetchone()
            connection.set_progress_handler(None, STEPS)
            connection.execute(PAGES)
            return connection
        except sqlite3.OperationalError:
            connection.close()
            if "immutable" in ending or has_more(path):
                raise
    raise AssertionError("the loop returns or raises")
