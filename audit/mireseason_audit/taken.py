"""The file into which a log is taken: the audit makes it, and puts each table's rows there as one pass over that table
gives them.

Whoever made a file of SQLite chose what stands in each of its indexes, and a server answers each query as it likes. If
the audit asked such a log twice, it might check other rows than it shows. So it asks once, and all that it says is of
the rows that it took.
"""

import sqlite3
from collections.abc import Callable, Iterable, Iterator
from pathlib import Path
from typing import NamedTuple

from .log_form import FORMS, key_of

TAKEN = "taken.db"  # the file's name
# The log's form, and what is beyond that in the log, which has no table here.
FORM, BEYOND = "SELECT number FROM form", "SELECT words FROM beyond ORDER BY rowid"
# Bytes of a page; how many times as long as the log the file may be; and the pages that it has in any case. Rows take
# less than twice as much room in pages of another size, but a forged tree may lead to one page a thousand times.
PAGE, TIMES, LEAST = 4096, 3, 256


class Table(NamedTuple):
    """A table of a log, as it is taken."""

    name: str
    columns: tuple[str, ...]
    key: tuple[str, ...]

    @property
    def is_numbered(self) -> bool:
        """Whether its key is one number."""
        return self.key in (("place",), ("number",))

    @property
    def definition(self) -> str:
        """Columns have no type: each value stays as it was."""
        key = self.key if self.is_numbered else ()
        listed = ["%s INTEGER PRIMARY KEY" % one if one in key else one for one in self.columns]
        return "CREATE TABLE taken.%s (%s)" % (self.name, ", ".join(listed))

    @property
    def look_up(self) -> str | None:
        """The index of a table that is not numbered. A key that a log has twice stands there twice."""
        if self.is_numbered:
            return None
        return "CREATE INDEX taken.by_%s ON %s (%s)" % (self.name, self.name, ", ".join(self.key))

    @property
    def put(self) -> str:
        """The begin of an INSERT."""
        return "INSERT INTO taken.%s (%s)" % (self.name, ", ".join(self.columns))

    @property
    def scan(self) -> str:
        """The begin of a SELECT of all its rows, none of which is looked up."""
        return "SELECT %s FROM" % ", ".join(self.columns)


def tables_of(form: int) -> Iterator[Table]:
    """The tables of a log of this form, but for the one that says so."""
    for name, columns in FORMS[form].items():
        if name != "form":
            yield Table(name, tuple(columns.split()), tuple(key_of(form, name)))


def attach(connection: sqlite3.Connection, path: Path) -> None:
    """Makes the file, beside what the connection reads. It is gone with the command: no end of that has to
    leave it whole.
    """
    connection.execute("ATTACH ? AS taken", (path.resolve().as_uri() + "?mode=rwc",))
    connection.execute("PRAGMA taken.journal_mode = OFF")
    connection.execute("PRAGMA taken.synchronous = OFF")


def limit(connection: sqlite3.Connection, size: int) -> None:
    """By the bytes of the log: a file that goes on to grow fills the disk."""
    connection.execute("PRAGMA taken.max_page_count = %d" % (LEAST + TIMES * size // PAGE))


def put_form(connection: sqlite3.Connection, form: int, beyond: Iterable[str]) -> None:
    words = [(each,) for each in beyond]
    connection.execute("CREATE TABLE taken.form (number)")
    connection.execute("INSERT INTO taken.form VALUES (?)", (form,))
    connection.execute("CREATE TABLE taken.beyond (words)")
    connection.executemany("INSERT INTO taken.beyond VALUES (?)", words)


def put_rows(
    connection: sqlite3.Connection, form: int, put: Callable[[sqlite3.Connection, Table], None]
) -> None:
    """Each table with its rows, which `put` puts there."""
    for table in tables_of(form):
        connection.execute(table.definition)
        put(connection, table)
        if table.look_up is not None:
            connection.execute(table.look_up)


def cause_of(fault: sqlite3.Error, path: Path) -> str:
    """Why rows could not be put into the file. Where it is the disk, OSError with the system's words: SQLite has none."""
    name: str = getattr(fault, "sqlite_errorname", "")  # a fault of Python's own has none
    if name.startswith(("SQLITE_FULL", "SQLITE_IOERR")):
        with path.open("ab") as file:
            file.write(bytes(PAGE))
    if name == "SQLITE_FULL":
        return "it has more rows than a file of its length can hold"
    return str(fault)
