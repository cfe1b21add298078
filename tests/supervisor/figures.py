"""Puts the figures of a day into one shape, however they were found."""

from collections.abc import Iterable
from dataclasses import dataclass, field
from fractions import Fraction
from typing import Any

from tests.supervisor.sheet import Sheet

Value = int | Fraction | None
Key = tuple[str, str]  # the group, and which
DECIMALS = {"hit_ratio", "from_cover", "from_cover_most", "from_best", "from_best_most"}


@dataclass
class Figures:
    """The rows of `stats --json`, by group and key."""

    figures: dict[Key, dict[str, Value]] = field(default_factory=dict)
    amounts: dict[tuple[str, str, str], tuple[int, int, int]] = field(default_factory=dict)
    refusals: dict[tuple[str, str, str, str, str], int] = field(default_factory=dict)


def read_figures(found: dict[str, list[dict[str, Any]]]) -> Figures:
    """What `stats --json` prints."""
    figures = Figures()
    for row in found["figures"]:
        values = {
            name: Fraction(value) if name in DECIMALS and value is not None else value
            for name, value in row.items()
            if name not in ("group", "key")
        }
        figures.figures[row["group"], row["key"]] = values
    for row in found["amounts"]:
        key = row["group"], row["key"], row["unit"]
        figures.amounts[key] = row["asked_for"], row["traded"], row["trades"]
    for row in found["refusals"]:
        names = row["group"], row["key"], row["what"], row["code"], row["name"]
        figures.refusals[names] = row["count"]
    return figures


def ranked(values: Iterable[int | Fraction], share: int) -> Value:
    """Of n values the one at rank n * share / 100, rounded up."""
    listed = sorted(values)
    rank = (len(listed) * share + 99) // 100
    return listed[rank - 1] if listed else None


def ratio(part: int, whole: int) -> Value:
    """In a hundred, to one digit behind the point, a half rounded up."""
    if whole == 0:
        return None
    return Fraction((Fraction(1000 * part, whole) + Fraction(1, 2)).__floor__(), 10)


class Tally:
    """Counts a sheet."""

    def __init__(self, sheet: Sheet, date: str) -> None:
        self._sheet, self._date = sheet, date

    def keys(self) -> list[Key]:
        requests = self._sheet.requests
        return [
            ("day", self._date),
            *(("dealer", name) for name in sorted({o.dealer for r in requests for o in r.asked})),
            *(("investor", name) for name in sorted({one.investor for one in requests})),
            *(("bond", name) for name in sorted({one.bond for one in requests})),
            *(("hour", name) for name in sorted({one.hour for one in requests})),
        ]

    def figures(self, key: Key) -> dict[str, Value]:
        """All columns of one row."""
        group, name = key
        dealer = name if group == "dealer" else ""
        of = {"investor": "investor", "bond": "bond", "hour": "hour"}.get(group)
        requests = [one for one in self._sheet.requests if of is None or getattr(one, of) == name]
        if dealer:
            requests = [r for r in requests if any(one.dealer == dealer for one in r.asked)]
        numbers = {one.number for one in requests}
        asked = [o for r in requests for o in r.asked if not dealer or o.dealer == dealer]
        answered = [one for one in asked if one.answer == "answered"]
        times = [one.milliseconds for one in answered if one.milliseconds is not None]
        trades = [
            one
            for one in self._sheet.trades
            if one.request.number in numbers and (not dealer or one.dealer == dealer)
        ]
        covers = [
            one.better_than(one.cover_price)
            for one in trades
            if one.cover_price is not None and not one.cover_lapsed
        ]
        worse = [-one.better_than(one.best) for one in trades if one.better_than(one.best) < 0]
        quotes = [
            one
            for one in self._sheet.quotes
            if self._sheet.by_entry[one.entry].number in numbers
            and (not dealer or one.dealer == dealer)
        ]
        faded = {(one.dealer, one.quote) for one in self._sheet.fades}
        quoted = [r for r in requests if any(one.answer == "answered" for one in r.asked)]
        awarded = [r for r in quoted if r.end == "awarded"]
        won = sum(one.notice == "won" for one in answered)
        lives = [one.life for one in quotes]
        return {
            "requests": len(requests),
            "asked": len(asked),
            "answered": len(answered),
            "declined": sum(one.answer == "declined" for one in asked),
            "silent": sum(one.answer == "silent" for one in asked),
            "response_ms": ranked(times, 50),
            "response_ms_90": ranked(times, 90),
            "response_ms_99": ranked(times, 99),
            "won": won,
            "cover": sum(one.notice == "cover" for one in answered),
            "done_away": sum(one.notice == "done away" for one in answered),
            "passed": sum(one.notice == "passed" for one in answered),
            "expired": sum(one.notice == "expired" for one in answered),
            "hit_ratio": ratio(won, len(answered)) if dealer else ratio(len(awarded), len(quoted)),
            "trades": len(trades),
            "covers": len(covers),
            "from_cover": ranked(covers, 50),
            "from_cover_most": max(covers, default=None),
            "covers_lapsed": sum(one.cover_lapsed for one in trades),
            "not_best": len(worse),
            "from_best": ranked(worse, 50),
            "from_best_most": max(worse, default=None),
            "quotes": len(quotes),
            "replaced": sum(one.fate == "replaced" for one in quotes),
            "withdrawn": sum(one.fate == "withdrawn" for one in quotes),
            "fades": sum((one.dealer, one.name) in faded for one in quotes),
            "lapsed": sum(one.is_lapsed for one in quotes),
            "life_ms": ranked(lives, 50),
            "life_ms_90": ranked(lives, 90),
            "life_ms_99": ranked(lives, 99),
        }
