"""Reads an export back, without any of the audit's code."""

import csv
import json
import sqlite3
from dataclasses import dataclass
from pathlib import Path

Row = dict[str, str]
TABLES = (
    "asked",
    "columns",
    "connections",
    "messages",
    "quotes",
    "requests",
    "responses",
    "sessions",
    "trades",
)


@dataclass(frozen=True)
class Exported:
    """The tables of an export; a value that is none is an empty text."""

    tables: dict[str, list[Row]]

    def table(self, name: str) -> list[Row]:
        return self.tables[name]

    def database(self) -> sqlite3.Connection:
        """The tables as tables of SQL: whole numbers as such, an empty text as NULL."""
        connection = sqlite3.connect(":memory:")
        for name, rows in self.tables.items():
            if rows:
                fill(connection, name, rows)
        return connection


def fill(connection: sqlite3.Connection, name: str, rows: list[Row]) -> None:
    columns = list(rows[0])
    connection.execute("CREATE TABLE %s (%s)" % (name, ", ".join('"%s"' % one for one in columns)))
    marks = ", ".join("?" * len(columns))
    values = ([as_value(row[column]) for column in columns] for row in rows)
    connection.executemany("INSERT INTO %s VALUES (%s)" % (name, marks), values)


def as_value(text: str) -> str | int | None:
    if not text:
        return None
    return int(text) if text.isdecimal() and len(text) < 16 else text


def read_export(folder: Path, form: str) -> Exported:
    """All tables of a folder."""
    names = sorted(path.stem for path in folder.iterdir())
    assert names == sorted(TABLES), names
    read = read_csv if form == "csv" else read_json
    return Exported({name: read(folder / ("%s.%s" % (name, form))) for name in TABLES})


def read_csv(path: Path) -> list[Row]:
    """A table of CSV. An apostrophe in front of a text says that it is no formula."""
    with path.open(newline="", encoding="utf-8") as file:
        rows = list(csv.DictReader(file))
    return [{name: cell.removeprefix("'") for name, cell in row.items()} for row in rows]


def read_json(path: Path) -> list[Row]:
    """A table of JSON, its values as texts."""
    rows = json.loads(path.read_text(encoding="utf-8"))
    return [{name: "" if one is None else str(one) for name, one in row.items()} for row in rows]
