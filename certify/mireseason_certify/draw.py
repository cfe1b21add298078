"""Draws from a seed names, bonds, quantities, prices and the order of the cases: a desk can't have learnt the answers."""

from __future__ import annotations

import random
from collections.abc import Sequence
from dataclasses import dataclass
from decimal import Decimal
from typing import TypeVar

from .own_venue import Bond, Cast, password
from .played import Identity

Item = TypeVar("Item")
DEALERS = ("ASHDOWN", "BRAEMAR", "CALDER", "DUNMORE", "ELGIN", "FENWICK", "GLENROY", "HARLOW")
INVESTORS = ("KESTREL", "LAPWING", "MERLIN", "NIGHTJAR", "OSPREY", "PETREL", "REDWING", "SISKIN")
GRIDS = (32, 64, 128, 256)
BONDS = 96  # more than all cases together use, since each request has one of its own
LETTERS = "ABCDEFGHJKLMNPQRSTUVWXYZ"
EXPOSURE = 12_000_000
QUANTITY = 5_000_000
STEP = 100_000  # of a quantity


@dataclass
class Draw:
    """All that is drawn, by one seed."""

    seed: int

    def __post_init__(self) -> None:
        self._random = random.Random(self.seed)
        self._bonds_left: list[Bond] = []
        self._names_had: set[str] = set()

    def cast(self, desk: str, role: str) -> Cast:
        """The firms and bonds of the venue. The desk has the name that the developer gives it."""
        who = Identity(desk, self._trader(), password())
        dealers = [self._played(name) for name in self._names(DEALERS, desk, 3)]
        investors = [self._played(name) for name in self._names(INVESTORS, desk, 2)]
        (dealers if role == "dealer" else investors).append(who)
        bonds = [self._bond(at) for at in range(BONDS)]
        self._bonds_left = list(bonds)
        return Cast(who, role, dealers, investors, bonds, EXPOSURE, QUANTITY)

    def bond(self) -> Bond:
        """One that no case has had."""
        return self._bonds_left.pop()

    def quantity(self, most: int = QUANTITY) -> int:
        return STEP * self._random.randrange(1, most // STEP + 1)

    def price(self, bond: Bond) -> Decimal:
        """On the bond's grid, between 90 and 110."""
        return Decimal(self._random.randrange(90 * bond.grid, 110 * bond.grid)) / bond.grid

    def off_grid(self, bond: Bond) -> Decimal:
        """A price of at most eight decimals that is no whole number of the grid's steps."""
        return self.price(bond) + Decimal(1) / (bond.grid * 2)

    def outside(self, bond: Bond) -> Decimal:
        """The price one step below the bond's band, or one above it."""
        step = Decimal(1) / bond.grid
        return self._random.choice((bond.low - step, bond.high + step))

    def side(self) -> str:
        """Side (54): 1, the investor buys, or 2, it sells."""
        return self._random.choice("12")

    def name(self, head: str) -> str:
        """A name that no message has had: a word and six digits."""
        while (name := "%s-%06d" % (head, self._random.randrange(1_000_000))) in self._names_had:
            pass
        self._names_had.add(name)
        return name

    def shuffled(self, items: Sequence[Item]) -> list[Item]:
        """The same, in another order."""
        return self._random.sample(items, len(items))

    def _names(self, known: tuple[str, ...], taken: str, count: int) -> list[str]:
        return self._random.sample([name for name in known if name != taken], count)

    def _played(self, name: str) -> Identity:
        return Identity(name, self._trader(), password())

    def _trader(self) -> str:
        return "T%02d" % self._random.randrange(100)

    def _bond(self, at: int) -> Bond:
        """A bond whose band has every price that is drawn, and a point more at each end."""
        grid = self._random.choice(GRIDS)
        low = Decimal(self._random.randrange(80 * grid, 89 * grid)) / grid
        high = Decimal(self._random.randrange(111 * grid, 120 * grid)) / grid
        return Bond(self._bond_id(at), grid, low, high)

    def _bond_id(self, at: int) -> str:
        letters = "".join(self._random.choices(LETTERS, k=4))
        return "XS%s%06d" % (letters, self._random.randrange(10_000) * 100 + at)


def text_of(price: Decimal) -> str:
    """A price as a message has it."""
    return format(price.normalize(), "f")
