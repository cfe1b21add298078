"""Writes the figures of a day for a person at a terminal, and for a program."""

import json
from collections.abc import Iterable, Sequence
from decimal import Decimal

from .statistics import Group, Statistics
from .statistics_tables import (
    AMOUNTS,
    ANSWERS,
    DISTANCES,
    FIGURES,
    LIVES,
    OUTCOMES,
    REFUSALS,
    FigureRow,
    amount_rows,
    figure_rows,
    refusal_rows,
)
from .tables import Column, Form, Value, decimal_text, table_text

GROUPS = {
    Group.DAY: "The day",
    Group.DEALER: "Dealers",
    Group.INVESTOR: "Investors",
    Group.BOND: "Bonds",
    Group.HOUR: "Hours of the requests, in UTC",
}
WITH_DETAILS = (Group.DAY, Group.DEALER, Group.INVESTOR)  # the others' are in --json
BLOCKS: dict[str, tuple[Column[FigureRow], ...]] = {
    "answers": ANSWERS,
    "outcomes of answers": OUTCOMES,
    "distances in points": DISTANCES,
    "lives of quotes": LIVES,
}


def statistics_text(statistics: Statistics) -> str:
    """All tables, group by group."""
    parts = []
    rows = figure_rows(statistics)
    for group, title in GROUPS.items():
        parts.append("%s\n" % title)
        mine = [row for row in rows if row.group is group]
        for name, columns in BLOCKS.items():
            parts.append(
                grid(
                    name,
                    [one.name for one in columns],
                    [[row.key, *(cell(column.value(row)) for column in columns)] for row in mine],
                )
            )
    parts.append("Face value, by currency, or by bond where it has none\n")
    parts.append(
        grid(
            "",
            ["", "unit", "asked for", "traded", "trades"],
            [
                [
                    row.group.value,
                    row.key,
                    row.unit,
                    *map(grouped, (row.asked_for, row.traded, row.trades)),
                ]
                for row in amount_rows(statistics)
                if row.group in WITH_DETAILS
            ],
        )
    )
    parts.append("Refusals\n")
    parts.append(
        grid(
            "",
            ["", "what", "code", "name", "count"],
            [
                [row.group.value, row.key, row.what, row.code, row.name, str(row.count)]
                for row in refusal_rows(statistics)
                if row.group in WITH_DETAILS
            ],
        )
    )
    return "\n".join(parts)


def statistics_json(statistics: Statistics) -> str:
    """One object with three lists of rows."""
    found = {
        FIGURES.name: json.loads(table_text(FIGURES, figure_rows(statistics), Form.JSON)),
        AMOUNTS.name: json.loads(table_text(AMOUNTS, amount_rows(statistics), Form.JSON)),
        REFUSALS.name: json.loads(table_text(REFUSALS, refusal_rows(statistics), Form.JSON)),
    }
    return json.dumps(found, indent=1, ensure_ascii=False)


def cell(value: Value) -> str:
    if isinstance(value, Decimal):
        return decimal_text(value)
    return "-" if value is None else str(value)


def grouped(number: int) -> str:
    return format(number, ",")


def grid(corner: str, heads: Sequence[str], rows: Iterable[Sequence[str]]) -> str:
    """Lines with columns of one width: texts to the left, numbers to the right."""
    lines: list[list[str]] = [[corner, *heads], *(list(row) for row in rows)]
    widths = [max(len(line[at]) for line in lines) for at in range(len(lines[0]))]
    return "".join("  %s\n" % line_of(line, widths) for line in lines)


def line_of(line: Sequence[str], widths: Sequence[int]) -> str:
    cells = [
        text.rjust(width) if at and is_number(text) else text.ljust(width)
        for at, (text, width) in enumerate(zip(line, widths))
    ]
    return "  ".join(cells).rstrip()


def is_number(text: str) -> bool:
    return text.replace(",", "").replace(".", "").replace("-", "").isdigit() or text == "-"
