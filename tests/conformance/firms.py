"""Gives firms for which nobody has logged on yet, and starts gateways as they are needed."""

from collections.abc import Callable
from dataclasses import dataclass

from tests.conformance.house import House
from tests.gateway.door import Door, today, venue_text
from tests.gateway.firm import Identity

MOST = 32  # dealers, and as many investors, of one gateway
PASSWORD = "one-for-all-of-them"


@dataclass
class DoorOfMany(Door):
    """A gateway whose firms share a password, which is hashed once: a hash takes as long as an attacker's guess."""

    _hash: str = ""

    def hashed(self, password: str) -> str:
        self._hash = self._hash or super().hashed(password)
        return self._hash


@dataclass(frozen=True)
class Pair:
    """A dealer and an investor whose sessions nobody has begun, and where they log on."""

    house: House
    port: int
    dealer: str
    investor: str


def identity(letter: str, number: int) -> Identity:
    return Identity("%s%d" % (letter, number), "T1", PASSWORD)


@dataclass
class Firms:
    """Hands out pairs of firms."""

    make: Callable[[list[Identity], list[Identity]], Door]
    _door: Door | None = None
    _day: str = ""  # of the gateway
    _used: int = 0

    def pair(self) -> Pair:
        """The next pair: of the gateway that runs, or of another one where its day is over or its firms are used, or which a
        definition has left ended."""
        used = self._used == MOST or self._day != today()
        if self._door is None or used or self._door.has_ended():
            self._day, self._used = today(), 0
            self._door = self._open()
        self._used += 1
        return Pair(House(self._door), self._door.port, "D%d" % self._used, "I%d" % self._used)

    def close(self) -> None:
        if self._door:
            self._door.close()

    def _open(self) -> Door:
        self.close()
        dealers, investors = (
            [identity(letter, number) for number in range(1, MOST + 1)] for letter in "DI"
        )
        door = self.make(dealers, investors)
        door.operators = ""
        text = venue_text(dealers, investors)
        for usual in ("quotes = 4096", "requests = 1024"):  # too many for so many firms
            text = text.replace(usual, usual.split(" ")[0] + " = 64")
        (door.folder / "venue.toml").write_text(text)
        door.write()
        door.start()
        door.wait_open()
        return door
