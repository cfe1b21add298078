"""Writes an investor's own file for best execution: its requests, whom it asked, what it was shown,
what it hit, and how far that was from the best. It has nothing that the investor was not told.
"""

from collections import defaultdict
from collections.abc import Iterator
from dataclasses import dataclass

from .facts import AskedFact, Facts, QuoteFact, TradeFact
from .tables import Column, Table


@dataclass(frozen=True)
class Shown:
    """A quote that the investor was shown, or a dealer that gave none."""

    asked: AskedFact
    quote: QuoteFact | None
    trade: TradeFact | None  # the request's, where it was awarded

    @property
    def is_hit(self) -> bool:
        return self.trade is not None and self.trade.quote is self.quote


BEST_EXECUTION: Table[Shown] = Table(
    "best-execution",
    "a quote that the investor was shown, or a dealer that it asked and that showed none",
    (
        Column("request", "the investor's name: 131", lambda row: row.asked.request.name),
        Column("moment", "at which it asked", lambda row: row.asked.request.moment),
        Column("trader", "50", lambda row: row.asked.request.trader),
        Column("bond", "48", lambda row: row.asked.request.bond),
        Column("side", "buy or sell", lambda row: "buy" if row.asked.request.buys else "sell"),
        Column("quantity", "face value: 38", lambda row: row.asked.request.quantity),
        Column("deadline", "126", lambda row: row.asked.request.deadline),
        Column("asked", "how many dealers", lambda row: len(row.asked.request.dealers)),
        Column("end", "awarded, passed, expired or open", lambda row: row.asked.request.end),
        Column("end_moment", "", lambda row: row.asked.request.end_moment),
        Column("dealer", "", lambda row: row.asked.dealer),
        Column("answer", "quoted, declined or silent", lambda row: row.asked.answer.value),
        Column("quote", "117", lambda row: row.quote.shown if row.quote else ""),
        Column(
            "number",
            "34 of the message that showed it, the venue's",
            lambda row: row.quote.shown_number if row.quote else None,
        ),
        Column("shown", "when", lambda row: row.quote.moment if row.quote else ""),
        Column("price", "in points", lambda row: row.quote.price if row.quote else None),
        Column("until", "62; empty without one", lambda row: row.quote.until if row.quote else ""),
        Column(
            "gone",
            "when it was taken back or replaced, if it was",
            lambda row: row.quote.end_moment if row.quote and is_gone(row.quote) else "",
        ),
        Column("hit", "1 of the quote that was awarded, else 0", lambda row: int(row.is_hit)),
        Column(
            "from_best",
            "of the hit: points worse than the best that could be hit",
            lambda row: row.trade.from_best if row.trade and row.is_hit else None,
        ),
        Column(
            "from_cover",
            "of the hit: points better than the best of the others",
            lambda row: row.trade.from_second if row.trade and row.is_hit else None,
        ),
    ),
)


def is_gone(quote: QuoteFact) -> bool:
    """Whether the investor was told that a quote is gone."""
    return quote.end in ("replaced", "withdrawn")


def best_execution(facts: Facts, investor: str) -> Iterator[Shown]:
    """The rows of one investor: its requests in their order, and on each the dealers in the
    order in which it named them.
    """
    trades = {trade.request.number: trade for trade in facts.trades}
    quotes: dict[tuple[int, str], list[QuoteFact]] = defaultdict(list)
    for quote in facts.quotes:
        quotes[quote.request.number, quote.dealer].append(quote)
    asked: dict[tuple[int, str], AskedFact] = {}
    for one in facts.asked:
        asked[one.request.number, one.dealer] = one
    for request in facts.requests:
        if request.investor != investor:
            continue
        trade = trades.get(request.number)
        for key in [(request.number, dealer) for dealer in request.dealers]:
            if key in asked:
                listed: list[QuoteFact | None] = list(quotes.get(key, [])) or [None]
                yield from (Shown(asked[key], quote, trade) for quote in listed)
