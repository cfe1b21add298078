"""Reads a regulation's fields and codes from a data file beside this module."""

import tomllib
from collections.abc import Mapping
from dataclasses import dataclass
from pathlib import Path

HERE = Path(__file__).resolve().parent
NOT_AT_HAND = "written without the regulation at hand"
COMPARED = "compared with the regulation"


@dataclass(frozen=True)
class Field:
    """A field: its number, its name, and by what it is asked for, or why there is none."""

    number: int
    name: str
    value: str  # empty where this market has none
    source: str  # where the value comes from, or why there is none

    @property
    def column(self) -> str:
        return "%02d_%s" % (self.number, self.name)

    @property
    def source_words(self) -> str:
        return self.source if self.value else "none: " + self.source


@dataclass(frozen=True)
class Regulation:
    """All fields, and the codes that stand in them."""

    fields: tuple[Field, ...]
    codes: Mapping[str, Mapping[str, str]]
    is_checked: bool
    table: Mapping[str, object]  # what else the file has

    @property
    def mark(self) -> str:
        """Whether somebody has compared the file with the text."""
        return COMPARED if self.is_checked else NOT_AT_HAND

    def code(self, kind: str, name: str) -> str:
        return self.codes[kind][name]


def read_regulation(name: str) -> Regulation:
    """The data file of this name."""
    table = tomllib.loads((HERE / name).read_text(encoding="utf-8"))
    fields = tuple(field_of(row) for row in table["field"])
    return Regulation(fields, table["codes"], table["checked"] is True, table)


def field_of(row: Mapping[str, object]) -> Field:
    value = str(row.get("value", ""))
    source = str(row["from" if value else "none"])
    number = row["number"]
    assert isinstance(number, int)
    return Field(number, str(row["name"]), value, source)
