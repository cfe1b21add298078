"""Makes a page for one investor about its awards, for best execution. It has nothing that the
investor was not told: it shows the quotes that the investor was shown, and names no cover.
"""

from collections import Counter
from collections.abc import Iterator
from dataclasses import dataclass
from pathlib import Path

from .best_execution import Shown
from .facts import TradeFact
from .records import Day, Firm
from .tables import decimal_text
from .templates import HERE, Templates

PAGE = "best-execution.html"


@dataclass(frozen=True)
class Award:
    """A request that was awarded."""

    trade: TradeFact
    asked: int  # dealers
    answered: int  # of these, those whose quote it was shown

    @property
    def better(self) -> str:
        """By how many points it was better than the best of the others; empty without one."""
        found = self.trade.from_second
        return "" if found is None else decimal_text(found)

    @property
    def price(self) -> str:
        return decimal_text(self.trade.quote.price)


def awards(rows: list[Shown]) -> Iterator[Award]:
    """Those of an investor's rows, in their order."""
    quoted = {(row.asked.request.number, row.asked.dealer) for row in rows if row.quote}
    answered = Counter(number for number, _ in quoted)
    told: set[int] = set()
    for row in rows:
        request = row.asked.request
        if row.trade is not None and request.number not in told:
            told.add(request.number)
            yield Award(row.trade, len(request.dealers), answered[request.number])


def write_investor_page(day: Day, firm: Firm, rows: list[Shown], folder: Path) -> None:
    """The page, which needs no other file."""
    requests = {row.asked.request.number for row in rows}
    text = Templates(day).page(
        "best_execution.html",
        "",
        firm=firm,
        awards=list(awards(rows)),
        requests=len(requests),
        style=(HERE / "style.css").read_text(encoding="utf-8"),
    )
    (folder / PAGE).write_text(text, encoding="utf-8")
