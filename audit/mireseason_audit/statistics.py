"""Computes the figures of a day, for each dealer, investor, bond and hour.

A share of so many in a hundred is the value at that rank: of n values in order, the one whose
number is n times the share, rounded up. So each figure stands in the log, or is the difference of
two that do. An hour is the one in which a request came. Amounts are never added across currencies,
nor across bonds that have no currency.
"""

from collections import Counter
from collections.abc import Iterable
from dataclasses import dataclass, field
from decimal import Decimal
from enum import Enum
from typing import Generic, NamedTuple, TypeVar

from .bonds import Bond, bonds_of
from .facts import Answer, AskedFact, Facts, QuoteFact, RequestFact, TradeFact
from .records import Day
from .refusals import Refusal

Number = TypeVar("Number", int, Decimal)


class Group(Enum):
    """What a row of figures is of."""

    DAY = "day"
    DEALER = "dealer"
    INVESTOR = "investor"
    BOND = "bond"
    HOUR = "hour"


@dataclass
class Spread(Generic[Number]):
    """Values, of which a few are shown."""

    values: list[Number] = field(default_factory=list)

    def put(self, value: Number) -> None:
        self.values.append(value)

    @property
    def count(self) -> int:
        return len(self.values)

    def at(self, share: int) -> Number | None:
        """The value at a rank, in a hundred; None of none."""
        ranked = sorted(self.values)
        return ranked[-(-share * len(ranked) // 100) - 1] if ranked else None

    @property
    def greatest(self) -> Number | None:
        return max(self.values, default=None)


@dataclass
class Figures:
    """The figures of one row."""

    ends: Counter[str] = field(default_factory=Counter)  # requests, by how they ended
    quoted_on: int = 0  # requests with at least one quote
    asked: int = 0  # dealers on requests
    answered: int = 0
    declined: int = 0
    silent: int = 0
    response_ms: Spread[int] = field(default_factory=Spread)
    notices: Counter[str] = field(default_factory=Counter)  # of those that answered
    from_cover: Spread[Decimal] = field(default_factory=Spread)  # of covers that could be hit
    covers_lapsed: int = 0
    from_best: Spread[Decimal] = field(default_factory=Spread)  # of hits that were not the best
    quotes: Counter[str] = field(default_factory=Counter)  # by how they ended
    fades: int = 0
    lapsed: int = 0
    life_ms: Spread[int] = field(default_factory=Spread)
    refusals: Counter[Refusal] = field(default_factory=Counter)
    asked_for: Counter[str] = field(default_factory=Counter)  # face value, by its unit
    traded: Counter[str] = field(default_factory=Counter)
    trade_counts: Counter[str] = field(default_factory=Counter)  # trades, by the same unit

    @property
    def requests(self) -> int:
        return self.ends.total()

    @property
    def awarded(self) -> int:
        return self.ends["awarded"]

    @property
    def won(self) -> int:
        return self.notices["won"]

    @property
    def trades(self) -> int:
        return sum(self.trade_counts.values())

    @property
    def not_best(self) -> int:
        return self.from_best.count


@dataclass
class Statistics:
    """The rows of a day, each group in an order of its own."""

    rows: dict[tuple[Group, str], Figures] = field(default_factory=dict)

    def of(self, group: Group) -> list[tuple[str, Figures]]:
        return [(key, figures) for (one, key), figures in self.rows.items() if one is group]

    def row(self, group: Group, key: str) -> Figures:
        return self.rows.setdefault((group, key), Figures())


class Refused(NamedTuple):
    """A message that was refused, as the figures count it."""

    firm: str
    bond: str  # of the configuration; empty where it is about none
    hour: str
    refusal: Refusal


class Counting:
    """Counts the facts of a day."""

    def __init__(self, day: Day, bonds: dict[str, Bond]) -> None:
        self._bonds = bonds
        self._dealers = {firm.name for firm in day.dealers}
        self.statistics = Statistics()
        self.statistics.row(Group.DAY, day.date)
        for firm in day.firms:
            self.statistics.row(Group.DEALER if firm.is_dealer else Group.INVESTOR, firm.name)
        for bond in bonds:
            self.statistics.row(Group.BOND, bond)
        self._date = day.date

    def take(self, facts: Facts, refused: Counter[Refused]) -> Statistics:
        """All that happened. Hours stand in their order."""
        hours = {hour_of(one.moment) for one in facts.requests} | {one.hour for one in refused}
        for hour in sorted(hours):
            self.statistics.row(Group.HOUR, hour)
        for request in facts.requests:
            self._take_request(request)
        for asked in facts.asked:
            self._take_asked(asked)
        for quote in facts.quotes:
            self._take_quote(quote)
        for trade in facts.trades:
            self._take_trade(trade)
        for one, count in refused.items():
            self._take_refused(one, count)
        return self.statistics

    def _of_request(self, request: RequestFact, dealers: Iterable[str]) -> list[Figures]:
        """The rows that a fact about a request, and these dealers, counts in."""
        row = self.statistics.row
        rows = [row(Group.DAY, self._date), row(Group.INVESTOR, request.investor)]
        rows += [row(Group.BOND, request.bond), row(Group.HOUR, hour_of(request.moment))]
        return rows + [row(Group.DEALER, dealer) for dealer in dealers]

    def _unit(self, request: RequestFact) -> str:
        bond = self._bonds.get(request.bond)
        return request.bond if bond is None else bond.unit

    def _take_request(self, request: RequestFact) -> None:
        for figures in self._of_request(request, request.dealers):
            figures.ends[request.end] += 1
            figures.quoted_on += request.quotes > 0
            figures.asked_for[self._unit(request)] += request.quantity

    def _take_asked(self, asked: AskedFact) -> None:
        for figures in self._of_request(asked.request, [asked.dealer]):
            figures.asked += 1
            figures.answered += asked.answer is Answer.QUOTED
            figures.declined += asked.answer is Answer.DECLINED
            figures.silent += asked.answer is Answer.SILENT
            if asked.response_ms is not None:
                figures.response_ms.put(asked.response_ms)
                figures.notices[asked.notice] += 1

    def _take_quote(self, quote: QuoteFact) -> None:
        for figures in self._of_request(quote.request, [quote.dealer]):
            figures.quotes[quote.end] += 1
            figures.fades += quote.is_fade
            figures.lapsed += quote.lapsed
            if quote.life_ms is not None:
                figures.life_ms.put(quote.life_ms)

    def _take_trade(self, trade: TradeFact) -> None:
        unit = self._unit(trade.request)
        for figures in self._of_request(trade.request, [trade.dealer.firm]):
            figures.traded[unit] += trade.request.quantity
            figures.trade_counts[unit] += 1
            figures.covers_lapsed += trade.cover_lapsed
            if trade.from_cover is not None and not trade.cover_lapsed:
                figures.from_cover.put(trade.from_cover)
            if trade.from_best > 0:
                figures.from_best.put(trade.from_best)

    def _take_refused(self, one: Refused, count: int) -> None:
        row = self.statistics.row
        group = Group.DEALER if one.firm in self._dealers else Group.INVESTOR
        rows = [row(Group.DAY, self._date), row(group, one.firm)]
        rows.append(row(Group.HOUR, one.hour))
        if one.bond in self._bonds:
            rows.append(row(Group.BOND, one.bond))
        for figures in rows:
            figures.refusals[one.refusal] += count


def hour_of(moment: str) -> str:
    """The hour of a time of day, as `08`."""
    return moment[:2]


def statistics_of(day: Day, facts: Facts, refused: Counter[Refused]) -> Statistics:
    """The figures of a day."""
    return Counting(day, bonds_of(day)).take(facts, refused)
