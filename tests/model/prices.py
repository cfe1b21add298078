"""Prices: whole 256ths of a point, 1 to 255,999, and the grids and bands of bonds."""

from __future__ import annotations

import re
from fractions import Fraction
from typing import NamedTuple, TypeGuard

HIGHEST = 255_999
GRIDS = (32, 64, 128, 256)
PRICE = re.compile(rb"(-?)([0-9]*)(?:\.([0-9]*))?\Z")
QUANTITY = re.compile(rb"([0-9]*)(?:\.([0-9]*))?\Z")
MOST_DIGITS = 15


class Band(NamedTuple):
    """The lawful prices of a bond, both ends among them."""

    low: int
    high: int


ANY_PRICE = Band(1, HIGHEST)  # of a bond without a band


def decimal(whole: bytes, part: bytes | None) -> Fraction | None:
    """The value of digits before and behind a point, or None where there are none or too many."""
    part = part or b""
    digits = whole + part
    if not 1 <= len(digits) <= MOST_DIGITS:
        return None
    return Fraction(int(digits), 10 ** len(part))


def read_price(text: bytes) -> int | str | None:
    """None where the form is wrong; else the 256ths, or 'Range' or 'Grid'."""
    found = PRICE.match(text)
    value = decimal(found[2], found[3]) if found else None
    if found is None or value is None:
        return None
    ticks = value * 256
    if found[1] or ticks < 1 or ticks > HIGHEST:
        return "Range"
    if ticks.denominator != 1:
        return "Grid"
    return int(ticks)


def is_price(value: object) -> TypeGuard[int]:
    """Whether what read_price answered is a price of whole 256ths."""
    return isinstance(value, int)


def on_grid(ticks: int, grid: int) -> bool:
    return ticks % (256 // grid) == 0


def in_band(ticks: int, band: Band) -> bool:
    return band.low <= ticks <= band.high


def read_quantity(text: bytes) -> Fraction | None:
    """None where the form is wrong; else its value, a Fraction."""
    found = QUANTITY.match(text)
    return decimal(found[1], found[2]) if found else None


def price_text(ticks: int) -> bytes:
    whole, part = divmod(ticks, 256)
    if part == 0:
        return b"%d" % whole
    return (b"%d.%08d" % (whole, part * 390625)).rstrip(b"0")


def thirty_seconds(ticks: int) -> bytes:
    """Points, 32nds, and eighths of a 32nd, a plus sign for four of them."""
    points, part = divmod(ticks, 256)
    thirty_second, eighths = divmod(part, 8)
    last = b"" if eighths == 0 else b"+" if eighths == 4 else b"%d" % eighths
    return b"%d-%02d" % (points, thirty_second) + last
