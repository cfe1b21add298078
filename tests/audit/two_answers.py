"""Makes a file that SQLite answers in two ways: a table has forged rows, with their chain made anew, and an index of it
what stood there before.
"""

import sqlite3
from collections.abc import Iterator
from contextlib import closing, contextmanager
from pathlib import Path

from tests.audit.test_forgeries import chain_anew, reworded

Database = sqlite3.Connection
SCHEMA_ROW = "SELECT type, name, tbl_name, rootpage, sql FROM sqlite_schema WHERE name = ?"
PUT_ROW = "INSERT INTO sqlite_schema VALUES (?, ?, ?, ?, ?)"


@contextmanager
def opened(log: Path) -> Iterator[Database]:
    """Anew each time: SQLite reads what the file says of its tables once."""
    with closing(sqlite3.connect(log, isolation_level=None)) as database:
        database.create_function("reworded", 3, reworded)
        database.execute("PRAGMA writable_schema = ON")
        database.execute("PRAGMA synchronous = OFF")
        yield database


def without_key(log: Path, table: str) -> None:
    """The same rows, in a table whose places are a column as any other."""
    with opened(log) as database:
        ((*_, sql),) = database.execute(SCHEMA_ROW, (table,)).fetchall()
        database.execute("ALTER TABLE %s RENAME TO old" % table)
        database.execute(sql.replace("INTEGER PRIMARY KEY", "INTEGER"))
        database.execute("INSERT INTO %s SELECT * FROM old" % table)
        database.execute("DROP TABLE old")


def behind_its_index(log: Path, index: str, name: str, change: str, before: str = "") -> None:
    """Changes a table, and leaves an index of it as it was before that; then the index is called `name`."""
    with opened(log) as database:
        database.execute(before)
        database.execute("CREATE INDEX kept ON " + index)
        ((kind, _, table, page, sql),) = database.execute(SCHEMA_ROW, ("kept",)).fetchall()
        database.execute("DELETE FROM sqlite_schema WHERE name = 'kept'")
    with opened(log) as database:
        database.execute(change)
        chain_anew(database)
        database.execute(PUT_ROW, (kind, name, table, page, sql.replace("kept", name)))


def behind_its_key(log: Path, change: str) -> None:
    """Changes the table `sent`, and leaves the index of its key as it was."""
    automatic = "sqlite_autoindex_sent_1"
    with opened(log) as database:
        (index,) = database.execute(SCHEMA_ROW, (automatic,)).fetchall()
        ((*_, sql),) = database.execute(SCHEMA_ROW, ("sent",)).fetchall()
        database.execute("DELETE FROM sqlite_schema WHERE name = ?", (automatic,))
        bare = sql.replace("PRIMARY KEY (firm, number)", "CHECK (1)")
        assert bare != sql
        database.execute("UPDATE sqlite_schema SET sql = ? WHERE name = 'sent'", (bare,))
    with opened(log) as database:
        database.execute(change)
        database.execute("UPDATE sqlite_schema SET sql = ? WHERE name = 'sent'", (sql,))
        database.execute(PUT_ROW, index)
