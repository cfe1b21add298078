"""The configuration of a venue, and each of its faults: Toml, Missing, Name, Twice, Limit."""

from __future__ import annotations

import re
from collections.abc import Callable, Iterator
from dataclasses import dataclass
from typing import Any, TypeVar

import tomllib

from .frames import is_date
from .prices import ANY_PRICE, GRIDS, Band, is_price, on_grid, read_price

NAME = re.compile(r"[A-Z][A-Z0-9]{0,7}\Z")
BOND = re.compile(r"[A-Z0-9]{12}\Z")
NO_FIRMS = ("VENUE", "CLOCK")
MOST_BONDS, MOST_DEALERS, MOST_INVESTORS, MOST_TRADERS = 1024, 64, 64, 16
MOST_QUOTES, MOST_EXPOSURE = 4096, 10**15
MOST_REQUESTS, MOST_OPEN, MOST_QUANTITY = 1024, 1024, 10**12
ALL_QUOTES, ALL_REQUESTS = 65_536, 4_096


Table = dict[str, Any]  # of TOML
Value = TypeVar("Value")


class ConfigFault(Exception):
    pass


@dataclass(frozen=True)
class Bond:
    id: bytes
    grid: int
    band: Band = ANY_PRICE


@dataclass(frozen=True)
class Dealer:
    name: bytes
    traders: tuple[bytes, ...]
    quotes: int
    exposure: int


@dataclass(frozen=True)
class Investor:
    name: bytes
    traders: tuple[bytes, ...]
    requests: int
    open: int
    quantity: int


class Configuration:
    def __init__(
        self, date: bytes, bonds: list[Bond], dealers: list[Dealer], investors: list[Investor]
    ) -> None:
        self.date, self.bonds, self.dealers, self.investors = date, bonds, dealers, investors
        self.firms: list[Dealer | Investor] = [*dealers, *investors]
        self.numbers = {row.name: number for number, row in enumerate(self.firms)}

    def firm(self, name: bytes) -> int | None:
        """The number of a firm, dealers first, or None."""
        return self.numbers.get(name)

    def dealer(self, firm: int) -> Dealer:
        """The row of a dealer."""
        return self.dealers[firm]

    def investor(self, firm: int) -> Investor:
        """The row of an investor."""
        return self.investors[firm - len(self.dealers)]

    def is_dealer(self, firm: int) -> bool:
        return firm < len(self.dealers)

    def has_room(self, firm: int, n: int) -> bool:
        return not self.is_dealer(firm) and 1 <= n <= self.investor(firm).requests

    def rooms(self) -> Iterator[tuple[int, int]]:
        """The rooms of the venue: investor and request, in their order."""
        for firm in range(len(self.dealers), len(self.firms)):
            for n in range(1, self.investor(firm).requests + 1):
                yield firm, n


def is_name(text: str) -> bool:
    return bool(NAME.match(text))


def is_firm_name(text: str) -> bool:
    return is_name(text) and text not in NO_FIRMS


def is_bond(text: str) -> bool:
    return bool(BOND.match(text))


# ---------------------------------------------------------------- values of a table, each by its kind


def value_of(table: Table, key: str, kind: type[Value]) -> Value:
    """The value of a key, of this kind; truth values are no integers."""
    value = table.get(key)
    if value is None or type(value) is not kind:
        raise ConfigFault("Missing")
    return value


def integer(table: Table, key: str, most: int) -> int:
    value = value_of(table, key, int)
    if not 1 <= value <= most:
        raise ConfigFault("Limit")
    return value


def new_name(value: object, lawful: Callable[[str], bool], earlier: set[str]) -> bytes:
    """A text of a lawful form that was not named before; joins those that were."""
    if not isinstance(value, str):
        raise ConfigFault("Missing")
    if not lawful(value):
        raise ConfigFault("Name")
    if value in earlier:
        raise ConfigFault("Twice")
    earlier.add(value)
    return value.encode()


def rows(table: Table, key: str, most: int) -> Iterator[Table]:
    """The tables of an array, in order; absent it is empty. What is no table is found in its turn."""
    if key not in table:
        return
    array = value_of(table, key, list)
    if len(array) > most:
        raise ConfigFault("Limit")
    for row in array:
        if type(row) is not dict:
            raise ConfigFault("Missing")
        yield row


def traders_of(row: Table) -> tuple[bytes, ...]:
    array = value_of(row, "traders", list)
    if not 1 <= len(array) <= MOST_TRADERS:
        raise ConfigFault("Limit")
    named: set[str] = set()
    return tuple(new_name(trader, is_name, named) for trader in array)


# ---------------------------------------------------------------- bonds


def bonds_of(table: Table, version: int) -> Iterator[Bond]:
    """The rows of the bonds; in version 1 each has 256ths, and before version 3 none has a band."""
    ids: set[str] = set()
    for row in rows(table, "bond", MOST_BONDS):
        bond = new_name(row.get("id"), is_bond, ids)
        grid = grid_of(row, version) if version > 1 else 256
        yield Bond(bond, grid, band_of(row, grid) if version > 2 else ANY_PRICE)


def grid_of(row: Table, version: int) -> int:
    """The grid of a bond; absent in version 3 it is Limit, as when that was no version."""
    if version > 2 and "grid" not in row:
        raise ConfigFault("Limit")
    grid = value_of(row, "grid", int)
    if grid not in GRIDS:
        raise ConfigFault("Limit")
    return grid


def band_of(row: Table, grid: int) -> Band:
    """The band of a bond, which has both ends or neither."""
    low, high = end_of(row, "low", grid), end_of(row, "high", grid)
    if low is None and high is None:
        return ANY_PRICE
    if low is None or high is None or low > high:
        raise ConfigFault("Limit")
    return Band(low, high)


def end_of(row: Table, key: str, grid: int) -> int | None:
    """A price on the bond's grid, or None where there is none."""
    if key not in row:
        return None
    price = read_price(value_of(row, key, str).encode())
    if price is None:
        raise ConfigFault("Name")
    if not is_price(price) or not on_grid(price, grid):
        raise ConfigFault("Limit")
    return price


# ---------------------------------------------------------------- the whole


def read_toml(data: bytes) -> Table:
    try:
        table = tomllib.loads(data.decode("utf-8"))
    except (ValueError, RecursionError):
        raise ConfigFault("Toml") from None
    if has_wide_integer(table):
        raise ConfigFault("Toml")
    return table


def has_wide_integer(value: object) -> bool:
    """Whether an integer stands in it that has no place in 64 bits."""
    if isinstance(value, dict):
        return any(has_wide_integer(item) for item in value.values())
    if isinstance(value, list):
        return any(has_wide_integer(item) for item in value)
    return isinstance(value, int) and not -(2**63) <= value < 2**63


def read_configuration(data: bytes) -> Configuration:
    """The configuration that these bytes spell; ConfigFault with the name of its first fault."""
    table = read_toml(data)
    version = value_of(table, "version", int)
    if version not in (1, 2, 3):
        raise ConfigFault("Limit")
    date = value_of(table, "date", str).encode()
    if not is_date(date):
        raise ConfigFault("Name")
    bonds = list(bonds_of(table, version))
    names: set[str] = set()
    dealers: list[Dealer] = []
    investors: list[Investor] = []
    for row in rows(table, "dealer", MOST_DEALERS):
        name = new_name(row.get("name"), is_firm_name, names)
        traders = traders_of(row)
        quotes = integer(row, "quotes", MOST_QUOTES)
        dealers.append(Dealer(name, traders, quotes, integer(row, "exposure", MOST_EXPOSURE)))
    for row in rows(table, "investor", MOST_INVESTORS):
        name = new_name(row.get("name"), is_firm_name, names)
        traders = traders_of(row)
        requests = integer(row, "requests", MOST_REQUESTS)
        opened = integer(row, "open", MOST_OPEN)
        investors.append(
            Investor(name, traders, requests, opened, integer(row, "quantity", MOST_QUANTITY))
        )
    if sum(dealer.quotes for dealer in dealers) > ALL_QUOTES:
        raise ConfigFault("Limit")
    if sum(investor.requests for investor in investors) > ALL_REQUESTS:
        raise ConfigFault("Limit")
    return Configuration(date, bonds, dealers, investors)
