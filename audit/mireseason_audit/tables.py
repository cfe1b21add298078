"""Writes tables as files: CSV for a spreadsheet, JSON for a program."""

import csv
import io
import json
import re
from collections.abc import Callable, Iterable
from dataclasses import dataclass
from decimal import Decimal
from enum import Enum
from pathlib import Path
from typing import Generic, TextIO, TypeVar

from .frame import directed

Row = TypeVar("Row")
Value = str | int | Decimal | None
# A spreadsheet takes a text that begins so for a formula, in some languages by a letter of full
# width, and a firm may have chosen the text. What stands behind a separator is a cell of its own
# for a spreadsheet of a country that separates by another one.
SIGNS = "=+\\-@\uff1d\uff0b\uff0d\uff20'"
BEGINS = re.compile(r"[ \u00a0]*[\t\r\n%s]" % SIGNS)
BEHIND = re.compile(r"([;,|\t\r\n][ \u00a0\t\r\n]*)(?=[%s])" % SIGNS)
GUARDED = re.compile(r"([;,|\t\r\n][ \u00a0\t\r\n]*)'")


class Form(Enum):
    """The two forms."""

    CSV = "csv"
    JSON = "json"


@dataclass(frozen=True)
class Column(Generic[Row]):
    """A column: its name, what it says, and how it is read off a row."""

    name: str
    meaning: str
    value: Callable[[Row], Value]


@dataclass(frozen=True)
class Table(Generic[Row]):
    """A table with its columns, in their order."""

    name: str
    meaning: str  # of one row
    columns: tuple[Column[Row], ...]

    @property
    def names(self) -> list[str]:
        return [column.name for column in self.columns]

    def values(self, row: Row) -> list[Value]:
        return [column.value(row) for column in self.columns]


class TableWriter(Generic[Row]):
    """Writes one table, row by row: CSV with a line of names first, or a list of objects."""

    def __init__(self, table: Table[Row], form: Form, file: TextIO) -> None:
        self._table, self._form, self._file = table, form, file
        self._lines = 0
        self._csv = csv.writer(file, lineterminator="\r\n")  # so that it quotes both
        if form is Form.CSV:
            self._csv.writerow(table.names)

    def put(self, row: Row) -> None:
        values = self._table.values(row)
        if self._form is Form.CSV:
            self._csv.writerow([cell_of(value) for value in values])
        else:
            self._file.write(",\n" if self._lines else "[\n")
            objects = dict(zip(self._table.names, map(json_of, values)))
            self._file.write(directed(json.dumps(objects, ensure_ascii=False)))
        self._lines += 1

    def end(self) -> None:
        if self._form is Form.JSON:
            self._file.write("\n]\n" if self._lines else "[]\n")


def cell_of(value: Value) -> str:
    """A value as a cell. A text that a spreadsheet would take for a formula, as a whole or behind a
    separator, has an apostrophe there, as has one that begins with an apostrophe itself.
    """
    if value is None:
        return ""
    if isinstance(value, str):
        text = BEHIND.sub(r"\1'", directed(value))
        return "'" + text if BEGINS.match(value) else text
    return decimal_text(value) if isinstance(value, Decimal) else "%d" % value


def text_in(cell: str) -> str:
    """The text that a cell has: the apostrophes that `cell_of` put there are taken away."""
    return GUARDED.sub(r"\1", cell[1:] if cell.startswith("'") else cell)


def json_of(value: Value) -> "str | int | None":
    """A value of JSON. A price is a text, since it is exact."""
    return decimal_text(value) if isinstance(value, Decimal) else value


def decimal_text(value: Decimal) -> str:
    """A decimal as it is printed: no exponent, and no zeros at the end of a fraction."""
    text = format(value, "f")
    text = text.rstrip("0").rstrip(".") if "." in text else text
    return "0" if text in ("", "-0") else text


def write_table(table: Table[Row], rows: Iterable[Row], form: Form, folder: Path) -> int:
    """Writes one table into a file of its name; answers how many rows it has."""
    count = 0
    path = folder / ("%s.%s" % (table.name, form.value))
    with path.open("w", encoding="utf-8", newline="") as file:
        writer = TableWriter(table, form, file)
        for row in rows:
            writer.put(row)
            count += 1
        writer.end()
    return count


def table_text(table: Table[Row], rows: Iterable[Row], form: Form) -> str:
    """A table as one text."""
    file = io.StringIO(newline="")
    writer = TableWriter(table, form, file)
    for row in rows:
        writer.put(row)
    writer.end()
    return file.getvalue()
