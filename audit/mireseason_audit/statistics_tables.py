"""Arranges the figures of a day as tables: what their columns are called, and which stand
together.
"""

from collections.abc import Callable, Iterator
from dataclasses import dataclass
from decimal import ROUND_HALF_UP, Decimal

from .statistics import Figures, Group, Statistics
from .tables import Column, Table

TENTH = Decimal("0.1")


@dataclass(frozen=True)
class FigureRow:
    """The figures of one dealer, investor, bond, hour or of the day."""

    group: Group
    key: str
    figures: Figures


@dataclass(frozen=True)
class AmountRow:
    """Face value in one currency, or of one bond that has none."""

    group: Group
    key: str
    unit: str
    asked_for: int
    traded: int
    trades: int


@dataclass(frozen=True)
class RefusalRow:
    group: Group
    key: str
    what: str
    code: str
    name: str
    count: int


def hit_ratio(row: FigureRow) -> Decimal | None:
    """Of a dealer, how many of the requests that it quoted on it won; of all others, how many of
    the requests that were quoted on were awarded. In a hundred.
    """
    figures = row.figures
    if row.group is Group.DEALER:
        return percent(figures.won, figures.answered)
    return percent(figures.awarded, figures.quoted_on)


def percent(part: int, whole: int) -> Decimal | None:
    if whole == 0:
        return None
    return (Decimal(100 * part) / whole).quantize(TENTH, ROUND_HALF_UP)


def counted(name: str) -> Callable[[FigureRow], int]:
    """How many of those that answered were told this notice."""
    return lambda row: row.figures.notices[name]


def ended(name: str) -> Callable[[FigureRow], int]:
    """How many quotes ended so."""
    return lambda row: row.figures.quotes[name]


KEYS: tuple[Column[FigureRow], ...] = (
    Column(
        "group",
        "day, dealer, investor, bond or hour (of the request, in UTC)",
        lambda row: row.group.value,
    ),
    Column("key", "which", lambda row: row.key),
)
ANSWERS: tuple[Column[FigureRow], ...] = (
    Column("requests", "requests that were accepted", lambda row: row.figures.requests),
    Column("asked", "dealers asked on them", lambda row: row.figures.asked),
    Column(
        "answered", "of these, with at least one accepted quote", lambda row: row.figures.answered
    ),
    Column("declined", "of these, declined without one", lambda row: row.figures.declined),
    Column("silent", "of these, the others", lambda row: row.figures.silent),
    Column(
        "response_ms",
        "milliseconds from the request to a dealer's first accepted quote, median",
        lambda row: row.figures.response_ms.at(50),
    ),
    Column(
        "response_ms_90",
        "of these times, the 90th of a hundred",
        lambda row: row.figures.response_ms.at(90),
    ),
    Column(
        "response_ms_99",
        "of these times, the 99th of a hundred",
        lambda row: row.figures.response_ms.at(99),
    ),
)
OUTCOMES: tuple[Column[FigureRow], ...] = (
    Column("won", "of those that answered, told so by 694", counted("won")),
    Column("cover", "likewise", counted("cover")),
    Column("done_away", "likewise", counted("done away")),
    Column("passed", "likewise", counted("passed")),
    Column("expired", "likewise", counted("expired")),
    Column(
        "hit_ratio",
        "of a dealer, won in a hundred answered; of others, requests awarded in a hundred quoted on",
        hit_ratio,
    ),
)
DISTANCES: tuple[Column[FigureRow], ...] = (
    Column("trades", "trades", lambda row: row.figures.trades),
    Column("covers", "covers that could be hit", lambda row: row.figures.from_cover.count),
    Column(
        "from_cover",
        "points by which the winner was better than the cover, median",
        lambda row: row.figures.from_cover.at(50),
    ),
    Column("from_cover_most", "the same, most", lambda row: row.figures.from_cover.greatest),
    Column(
        "covers_lapsed",
        "covers whose 62 had passed, counted apart",
        lambda row: row.figures.covers_lapsed,
    ),
    Column(
        "not_best",
        "hits of a quote while a better one could have been hit",
        lambda row: row.figures.not_best,
    ),
    Column(
        "from_best",
        "of these, points by which it was worse, median",
        lambda row: row.figures.from_best.at(50),
    ),
    Column("from_best_most", "the same, most", lambda row: row.figures.from_best.greatest),
)
LIVES: tuple[Column[FigureRow], ...] = (
    Column("quotes", "quotes that were accepted", lambda row: row.figures.quotes.total()),
    Column("replaced", "quotes that ended so", ended("replaced")),
    Column("withdrawn", "likewise", ended("withdrawn")),
    Column(
        "fades",
        "quotes withdrawn while they could be hit, if a hit of the same request came later",
        lambda row: row.figures.fades,
    ),
    Column("lapsed", "quotes whose 62 passed before they ended", lambda row: row.figures.lapsed),
    Column(
        "life_ms",
        "milliseconds from a quote's acceptance until it could no longer be hit, median",
        lambda row: row.figures.life_ms.at(50),
    ),
    Column(
        "life_ms_90",
        "of these times, the 90th of a hundred",
        lambda row: row.figures.life_ms.at(90),
    ),
    Column(
        "life_ms_99",
        "of these times, the 99th of a hundred",
        lambda row: row.figures.life_ms.at(99),
    ),
)
FIGURES: Table[FigureRow] = Table(
    "figures", "what the figures are of", KEYS + ANSWERS + OUTCOMES + DISTANCES + LIVES
)
AMOUNTS: Table[AmountRow] = Table(
    "amounts",
    "face value in one currency, or of one bond that has none",
    (
        Column("group", "", lambda row: row.group.value),
        Column("key", "", lambda row: row.key),
        Column("unit", "a currency, or a bond", lambda row: row.unit),
        Column("asked_for", "", lambda row: row.asked_for),
        Column("traded", "", lambda row: row.traded),
        Column("trades", "", lambda row: row.trades),
    ),
)
REFUSALS: Table[RefusalRow] = Table(
    "refusals",
    "a reason for which messages were refused",
    (
        Column("group", "", lambda row: row.group.value),
        Column("key", "", lambda row: row.key),
        Column(
            "what", "request, quote, cancel, decline, hit, pass or message", lambda row: row.what
        ),
        Column("code", "tag and value", lambda row: row.code),
        Column("name", "Text (58), where the answer has it", lambda row: row.name),
        Column("count", "", lambda row: row.count),
    ),
)


def figure_rows(statistics: Statistics) -> list[FigureRow]:
    return [FigureRow(group, key, figures) for (group, key), figures in statistics.rows.items()]


def amount_rows(statistics: Statistics) -> Iterator[AmountRow]:
    """Of each row, its units in their order."""
    for (group, key), figures in statistics.rows.items():
        for unit in sorted(figures.asked_for):
            yield AmountRow(
                group,
                key,
                unit,
                figures.asked_for[unit],
                figures.traded[unit],
                figures.trade_counts[unit],
            )


def refusal_rows(statistics: Statistics) -> Iterator[RefusalRow]:
    """Of each row, its reasons, the most frequent first."""
    for (group, key), figures in statistics.rows.items():
        for refusal, count in sorted(figures.refusals.items(), key=lambda one: (-one[1], one[0])):
            yield RefusalRow(group, key, refusal.what, refusal.code, refusal.name, count)
