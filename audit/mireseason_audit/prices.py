"""Reads a price as it stands in a message, writes it in 32nds, and reads a quantity. Only the venue
says whether one is lawful.
"""

import re
from dataclasses import dataclass
from decimal import Decimal
from functools import lru_cache

TICKS = 256  # in a point
MOST_DIGITS = 15
FORM = re.compile(r"-?([0-9]*)\.?([0-9]*)")


def number_of(text: str) -> Decimal | None:
    """A number as a message may spell it, without an exponent; None where the text is none."""
    found = FORM.fullmatch(text)
    if found is None or not 1 <= len(found[1]) + len(found[2]) <= MOST_DIGITS:
        return None
    return Decimal(text)


def quantity_of(text: str) -> int | None:
    """A whole number, which a message may spell with a point; None where the text is none."""
    value = number_of(text)
    return int(value) if value is not None and value == int(value) else None


@dataclass(frozen=True)
class Price:
    """A price as it was written."""

    text: str

    @property
    def decimal(self) -> Decimal | None:
        """None where the text is no number."""
        return number_of(self.text)

    @property
    def ticks(self) -> int | None:
        """Whole 256ths of a point; None where it is none."""
        value = self.decimal
        if value is None or value < 0 or value * TICKS != int(value * TICKS):
            return None
        return int(value * TICKS)

    @property
    def thirty_seconds(self) -> str:
        """Points, 32nds and eighths of a 32nd, a plus sign for four; empty where it has none."""
        return thirty_seconds_of(self)

    def moved(self, thirty_seconds: int) -> str:
        """The price so many 32nds higher, as it is written in a message."""
        return spelled((self.decimal or Decimal(0)) + Decimal(thirty_seconds) / 32)

    def __str__(self) -> str:
        return self.text


@dataclass(frozen=True)
class Band:
    """The prices that a bond may have, both ends among them."""

    low: Price
    high: Price

    def moved(self, price: Price, thirty_seconds: int) -> Price | None:
        """The price so many 32nds higher, or the end of the band before that; None for one outside it."""
        value, low, high = price.decimal, self.low.decimal, self.high.decimal
        if value is None or low is None or high is None or not low <= value <= high:
            return None
        after = min(max(value + Decimal(thirty_seconds) / 32, low), high)
        return Price(spelled(after))


def spelled(value: Decimal) -> str:
    """A price as a message has it."""
    text = format(value, "f")
    return text.rstrip("0").rstrip(".") if "." in text else text


@lru_cache(maxsize=4096)
def thirty_seconds_of(price: Price) -> str:
    """A price in 32nds. A day has the same prices again and again."""
    ticks = price.ticks
    if ticks is None:
        return ""
    points, part = divmod(ticks, TICKS)
    whole, eighths = divmod(part, 8)
    return "%d-%02d%s" % (points, whole, {0: "", 4: "+"}.get(eighths, str(eighths)))
