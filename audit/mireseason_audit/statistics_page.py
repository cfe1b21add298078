"""Makes the page *Statistics*: the figures of a day as plots, with the tables beside them."""

from collections.abc import Callable, Iterable
from dataclasses import dataclass
from decimal import Decimal

from .plots import Bar, Marks, Plot, bars, filled, spreads
from .statistics import Group, Statistics
from .statistics_tables import (
    ANSWERS,
    DISTANCES,
    LIVES,
    OUTCOMES,
    FigureRow,
    amount_rows,
    figure_rows,
    refusal_rows,
)
from .tables import Column, Value, decimal_text

TITLES = {
    Group.DEALER: "Dealers",
    Group.INVESTOR: "Investors",
    Group.BOND: "Bonds",
    Group.HOUR: "Hours",
}
HEADS = {
    "response_ms": "Response, median s",
    "response_ms_90": "90th s",
    "response_ms_99": "99th s",
    "life_ms": "Life, median s",
    "life_ms_90": "90th s",
    "life_ms_99": "99th s",
    "hit_ratio": "Hit ratio %",
    "from_cover": "From cover, median",
    "from_cover_most": "From cover, most",
    "from_best": "By, median",
    "from_best_most": "By, most",
    "covers_lapsed": "Covers past 62",
    "lapsed": "Past 62",
    "not_best": "Hits not the best",
}
SHARES = ("median", "90th of a hundred", "99th of a hundred")


@dataclass(frozen=True)
class Grid:
    """A table: its heads, and its rows, each with its key first."""

    name: str
    heads: list[str]
    rows: list[list[str]]
    texts: int = 0  # how many of the first columns are texts


@dataclass(frozen=True)
class Beside:
    """Plots, what their parts are called, and the table beside them."""

    title: str
    plots: list[Plot]
    legend: list[tuple[str, str]]  # of each part, its attributes and its name
    marks: list[str]
    grid: Grid


@dataclass(frozen=True)
class Section:
    """All of one group."""

    id: str
    title: str
    blocks: list[Beside]
    amounts: Grid
    refusals: Grid


def sections(statistics: Statistics) -> list[Section]:
    """The groups that the page has."""
    return [section(statistics, group) for group in TITLES]


def section(statistics: Statistics, group: Group) -> Section:
    rows = [row for row in figure_rows(statistics) if row.group is group]
    return Section(
        group.value + "s",
        TITLES[group],
        [ends(rows), answers(rows), outcomes(rows), distances(rows), lives(rows)],
        amounts(statistics, group),
        refusals(statistics, group),
    )


def figure_grids(statistics: Statistics, group: Group) -> list[Grid]:
    """The tables of one group, without the plots."""
    rows = [row for row in figure_rows(statistics) if row.group is group]
    return [
        grid("Answers", rows, ANSWERS),
        grid("What became of answers", rows, OUTCOMES),
        grid("Distances in points", rows, DISTANCES),
        grid("Quotes", rows, LIVES),
    ]


def ends(rows: list[FigureRow]) -> Beside:
    names = ("awarded", "passed", "expired", "open")
    drawn = [Bar(row.key, tuple((one, row.figures.ends[one]) for one in names)) for row in rows]
    table = Grid(
        "Requests",
        ["Requests", *map(capital, names)],
        [
            [row.key, str(row.figures.requests), *(str(row.figures.ends[one]) for one in names)]
            for row in rows
        ],
    )
    plot = bars("Requests, by how they ended", drawn)
    return Beside("Requests", [plot], legend_of(names), [], table)


def legend_of(names: tuple[str, ...]) -> list[tuple[str, str]]:
    return [(filled(at), name) for at, name in enumerate(names)]


def answers(rows: list[FigureRow]) -> Beside:
    names = ("answered", "declined", "silent")
    drawn = [
        Bar(
            row.key,
            tuple(zip(names, (row.figures.answered, row.figures.declined, row.figures.silent))),
        )
        for row in rows
    ]
    return Beside(
        "Answers",
        [
            bars("What dealers that were asked gave", drawn),
            spreads("Response time in seconds", marks(rows, ANSWERS[-3:], seconds), SHARES),
        ],
        legend_of(names),
        list(SHARES),
        grid("Answers", rows, ANSWERS[1:]),
    )


def outcomes(rows: list[FigureRow]) -> Beside:
    names = ("won", "cover", "done away", "passed", "expired")
    drawn = [Bar(row.key, tuple((one, row.figures.notices[one]) for one in names)) for row in rows]
    return Beside(
        "What became of answers",
        [bars("What dealers that quoted were told", drawn)],
        legend_of(names),
        [],
        grid("What became of answers", rows, OUTCOMES),
    )


def distances(rows: list[FigureRow]) -> Beside:
    title = "Distance of the winner from the cover, in points"
    columns = [one for one in DISTANCES if one.name in ("from_cover", "from_cover_most")]
    names = ("median", "most")
    return Beside(
        "Distances in points",
        [spreads(title, marks(rows, columns, float), names)],
        [],
        list(names),
        grid("Distances in points", rows, DISTANCES),
    )


def lives(rows: list[FigureRow]) -> Beside:
    title = "Life of a quote in seconds"
    return Beside(
        "Quotes",
        [spreads(title, marks(rows, LIVES[-3:], seconds), SHARES)],
        [],
        list(SHARES),
        grid("Quotes", rows, LIVES),
    )


def marks(
    rows: list[FigureRow],
    columns: Iterable[Column[FigureRow]],
    value_of: Callable[[Decimal | int], float],
) -> list[Marks]:
    found = []
    for row in rows:
        values = [column.value(row) for column in columns]
        numbers = [value_of(one) if isinstance(one, (int, Decimal)) else None for one in values]
        found.append(Marks(row.key, tuple(numbers)))
    return found


def seconds(milliseconds: Decimal | int) -> float:
    return float(milliseconds) / 1000


def grid(name: str, rows: list[FigureRow], columns: Iterable[Column[FigureRow]]) -> Grid:
    listed = list(columns)
    return Grid(
        name,
        [head(one) for one in listed],
        [[row.key, *(cell(one, one.value(row)) for one in listed)] for row in rows],
    )


def head(column: Column[FigureRow]) -> str:
    return HEADS.get(column.name) or capital(column.name.replace("_", " "))


def capital(text: str) -> str:
    return text[:1].upper() + text[1:]


def cell(column: Column[FigureRow], value: Value) -> str:
    """A value as the page has it: times in seconds, and nothing of none."""
    if value is None:
        return "–"
    if "_ms" in column.name and isinstance(value, int):
        return "%.3f" % (value / 1000)
    return decimal_text(value) if isinstance(value, Decimal) else str(value)


def amounts(statistics: Statistics, group: Group) -> Grid:
    """Face value, never added across currencies."""
    return Grid(
        "Face value",
        ["In", "Asked for", "Traded", "Trades"],
        [
            [row.key, row.unit, spaced(row.asked_for), spaced(row.traded), str(row.trades)]
            for row in amount_rows(statistics)
            if row.group is group
        ],
        texts=1,
    )


def refusals(statistics: Statistics, group: Group) -> Grid:
    return Grid(
        "Refusals",
        ["What", "Code", "Text (58)", "Count"],
        [
            [row.key, row.what, row.code, row.name, str(row.count)]
            for row in refusal_rows(statistics)
            if row.group is group
        ],
        texts=3,
    )


def spaced(value: int) -> str:
    return format(value, ",").replace(",", "\u202f")
