"""The bonds of a day, as its configuration has them.

A row may have `name`, `isin`, `currency` (three capital letters) and `quoted` ("32nds" or
"decimals"), which the venue's program ignores. A bond without `quoted` is shown in decimals. In
version 3 it may have a band, `low` and `high`.
"""

import re
from collections.abc import Mapping
from dataclasses import dataclass, replace

from bounded_toml import table_of

from .faults import Wrong
from .frame import printable
from .prices import Band, Price
from .records import Day

BOND = re.compile(r"[A-Z0-9]{12}")
CURRENCY = re.compile(r"[A-Z]{3}")
WAYS = ("32nds", "decimals")
LONGEST_NAME = 100


@dataclass(frozen=True)
class Bond:
    """A bond, and how its amounts and prices are told."""

    id: str
    currency: str = ""  # empty where the row has none
    in_32nds: bool = False
    name: str = ""
    isin: str = ""
    band: Band | None = None

    @property
    def words(self) -> str:
        """Its identifier, and its name where it has one."""
        return "%s %s" % (self.id, self.name) if self.name else self.id

    @property
    def unit(self) -> str:
        """Of what amounts are counted together: a currency, and without one this bond alone."""
        return self.currency or self.id


def bonds_of(day: Day) -> dict[str, Bond]:
    """The bonds by their identifiers, in the order of the rows."""
    table = table_of(day.configuration)
    rows = [row for row in table.get("bond", []) if isinstance(row, dict)]
    bonds = [replace(bond_of(row), band=band_of(row, table.get("version"))) for row in rows]
    return {bond.id: bond for bond in bonds}


def band_of(row: Mapping[str, object], version: object) -> Band | None:
    """The ends of a bond's band; None before version 3, and where it has none."""
    low, high = row.get("low"), row.get("high")
    if version != 3 or (low is None and high is None):
        return None
    if not isinstance(low, str) or not isinstance(high, str):
        raise Wrong("entry 0: bond %s has a band without two texts" % row.get("id"))
    band = Band(Price(low), Price(high))
    if band.low.ticks is None or band.high.ticks is None:
        raise Wrong("entry 0: bond %s has a band from %r to %r" % (row.get("id"), low, high))
    return band


def bond_of(row: Mapping[str, object]) -> Bond:
    """One row; what an operator may have got wrong in it is told by name."""
    name, currency, quoted = row.get("id"), row.get("currency", ""), row.get("quoted", "decimals")
    if not isinstance(name, str) or not BOND.fullmatch(name):
        raise Wrong("entry 0: the configuration has a bond named %r" % (name,))
    if not isinstance(currency, str) or (currency and not CURRENCY.fullmatch(currency)):
        text = "entry 0: the currency of bond %s is %r: it has to be three capital letters"
        raise Wrong(text % (name, currency))
    if quoted not in WAYS:
        text = 'entry 0: bond %s is quoted in %r: it has to be "32nds" or "decimals"'
        raise Wrong(text % (name, quoted))
    words, isin = row.get("name", ""), row.get("isin", "")
    if not isinstance(words, str) or len(words) > LONGEST_NAME or not isinstance(isin, str):
        text = "entry 0: bond %s has a wrong name or isin"
        raise Wrong(text % name)
    return Bond(name, currency, quoted == "32nds", printable(words), isin)
