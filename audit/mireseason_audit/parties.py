"""Reads who the names of a day belong to: the operator's file `parties.toml`.

    [venue]
    mic = "XMIR"
    [firm.DLR1]
    lei = "5493001KJTIIGC8Y1R12"
    dea = false
    capacity = "DEAL"
    liquidity = true
    client = ""                       # the firm has none
    [firm.DLR1.traders]
    T1 = "GB19800113ANNA#SMITH"
    [firm.DLR1.trader.T1]             # what differs for a trader
    decision = "GB19800113ANNA#SMITH"
    [firm.DLR1.order.a17]             # and for an order, by its 131, 117 or 693
    client = "5493001KJTIIGC8Y1R12"
    [bond.BONDA0000001]
    isin = "XS0000000009"
    currency = "USD"
    class = "sovereign"               # of transparency.toml
    cleared = false

The MIC, a bond's currency and its ISIN may stand in the configuration, too. What nobody says is said
to be missing, and is never made up.
"""

import re
from collections.abc import Mapping
from dataclasses import dataclass, field
from pathlib import Path

from bounded_toml import LONGEST, table_of

from .bonds import Bond, bonds_of
from .faults import Unreadable
from .isin import has_right_digit
from .records import Day

PERSON = (re.compile(r"|[ -~]{1,52}"), "nothing, or up to 52 printable characters")
FORMS = {  # of each key, its form and what it is
    "mic": (re.compile(r"[A-Z0-9]{4}"), "four capital letters or digits"),
    "lei": (re.compile(r"[A-Z0-9]{18}[0-9]{2}"), "18 capital letters or digits and two digits"),
    "isin": (re.compile(r"[A-Z]{2}[A-Z0-9]{9}[0-9]"), "two letters, nine others, a digit"),
    "currency": (re.compile(r"[A-Z]{3}"), "three capital letters"),
    "traders": (re.compile(r"[ -~]{1,52}"), "1 to 52 printable characters"),
    "client": PERSON,
    "decision": PERSON,
    "broker": (re.compile(r"|[A-Z0-9]{18}[0-9]{2}"), "nothing, or a legal entity identifier"),
    "capacity": (re.compile(r"[A-Z]{4}"), "four capital letters"),
    "class": (re.compile(r"[a-z-]{1,20}"), "small letters"),
}
FLAGS = ("dea", "liquidity", "cleared")


@dataclass
class Parties:
    """What the file and the configuration say, and what was looked for in vain."""

    table: Mapping[str, object]
    bonds: Mapping[str, Bond] = field(default_factory=dict)  # of the day
    traders: Mapping[str, frozenset[str]] = field(default_factory=dict)  # of the day, by firm
    own_mic: object = None  # of the day's configuration; None where it has none
    missing: dict[str, None] = field(default_factory=dict)  # in the order in which it was missed

    def mic(self) -> str:
        """By the parties or the configuration."""
        if self._at("venue", "mic") is None and self.own_mic is not None:
            return str(checked("mic", self.own_mic, "mic", where="entry 0"))
        return self._text("mic", "venue", "mic")

    def lei(self, firm: str) -> str:
        return self._text("lei", "firm", firm, "lei")

    def trader(self, firm: str, trader: str) -> str:
        """Empty of a trader that the day does not have, whom a message named that was refused."""
        if trader not in self.traders.get(firm, ()):
            return ""
        return self._text("traders", "firm", firm, "traders", trader)

    def said(self, key: str, firm: str, trader: str, order: str) -> str | bool:
        """What is said of an order, else of its trader, else of its firm."""
        for keys in (("order", order, key), ("trader", trader, key)):
            found = self._at("firm", firm, *keys)
            if found is not None:
                return checked(key, found, "firm", firm, *keys)
        found = self._at("firm", firm, key)
        if found is None:
            self.missing[".".join(("firm", firm, key))] = None
            return ""
        return checked(key, found, "firm", firm, key)

    def isin(self, bond: str) -> str:
        """By the parties or the configuration; without them 48 where it is one by its digit. Empty
        of a bond that the day does not have.
        """
        if bond not in self.bonds:
            return ""
        own, found, where = self.bonds[bond].isin, self._at("bond", bond, "isin"), "parties"
        if found is None and own:
            found, where = own, "entry 0"
        elif found is None and has_right_digit(bond):
            return bond
        if found is None:
            self.missing["bond.%s.isin" % bond] = None
            return ""
        value = str(checked("isin", found, "bond", bond, "isin", where=where))
        if not has_right_digit(value):
            text = "%s: bond.%s.isin is %r, whose last digit is not that of an ISIN"
            raise Unreadable(text % (where, bond, value))
        return value

    def shared_isins(self) -> list[str]:
        """In words, each ISIN that several bonds of the day are said to have."""
        found: dict[str, list[str]] = {}
        for bond, own in self.bonds.items():
            said = self._at("bond", bond, "isin") or own.isin
            if isinstance(said, str) and said:
                found.setdefault(said, []).append(bond)
        text = "one ISIN for several bonds: %s is that of %s"
        return [text % (isin, ", ".join(bonds)) for isin, bonds in found.items() if len(bonds) > 1]

    def currency(self, bond: str) -> str:
        if bond not in self.bonds:
            return ""
        own = self.bonds[bond].currency
        if own and self._at("bond", bond, "currency") is None:
            return own
        return self._text("currency", "bond", bond, "currency")

    def bond_class(self, bond: str) -> str:
        """By which the size is told from which a report is deferred."""
        return self._text("class", "bond", bond, "class")

    def is_cleared(self, bond: str) -> str:
        """Whether its trades are cleared, in a word."""
        found = self._at("bond", bond, "cleared")
        if found is None:
            self.missing["bond.%s.cleared" % bond] = None
            return ""
        return "true" if checked("cleared", found, "bond", bond, "cleared") is True else "false"

    def _text(self, kind: str, *keys: str) -> str:
        """The value at some keys; empty, and noted, where there is none."""
        found = self._at(*keys)
        if found is None:
            self.missing[".".join(keys)] = None
            return ""
        return str(checked(kind, found, *keys))

    def _at(self, *keys: str) -> object:
        found: object = self.table
        for key in keys:
            found = found.get(key) if isinstance(found, Mapping) else None
        return found


def checked(kind: str, value: object, *keys: str, where: str = "parties") -> str | bool:
    """A value in the form of its kind, and where it stands."""
    if kind in FLAGS and isinstance(value, bool):
        return value
    form, words = FORMS.get(kind, (None, "true or false"))
    if form is None or not isinstance(value, str) or not form.fullmatch(value):
        text = "%s: %s is %r: it has to be %s"
        raise Unreadable(text % (where, ".".join(keys), value, words))
    return value


def traders_of(day: Day) -> dict[str, frozenset[str]]:
    """The traders of each firm, as the configuration has them."""
    table = table_of(day.configuration)
    rows = [*table.get("dealer", []), *table.get("investor", [])]
    return {str(row["name"]): frozenset(map(str, row.get("traders", []))) for row in rows}


def parties_of(table: Mapping[str, object], day: Day) -> Parties:
    """What the file says, with the bonds and the traders of a day."""
    own_mic = table_of(day.configuration).get("mic")
    return Parties(table, bonds_of(day), traders_of(day), own_mic=own_mic)


def read_parties(path: Path) -> Mapping[str, object]:
    """Reads the file."""
    try:
        with path.open("rb") as file:
            return table_of(file.read(LONGEST + 1))
    except (OSError, ValueError) as fault:
        text = "the parties %s can't be read (%s): name a file by --parties"
        raise Unreadable(text % (path, fault)) from None
