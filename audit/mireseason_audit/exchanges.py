"""Reads a day as exchanges: what came at one place of the order, and all that the venue gave for
it.
"""

from collections.abc import Iterator
from typing import NamedTuple

from .frame import Fields, fields_of, text_of
from .lines import Came, came_of
from .log import Log
from .records import Day, Entry, Firm, Sent


class Told(NamedTuple):
    """A message of the venue to a firm."""

    firm: Firm
    number: int
    kind: str  # 35
    fields: Fields
    bytes: bytes

    def text(self, tag: int) -> str:
        return text_of(self.fields, tag)


class Exchange(NamedTuple):
    """An entry, its message, and what was told for it: the answer to its firm first."""

    entry: Entry
    came: Came | None
    told: tuple[Told, ...]

    @property
    def place(self) -> int:
        return self.entry.place

    @property
    def moment(self) -> str:
        return self.entry.moment

    @property
    def firm(self) -> str | None:
        return self.came.firm if self.came else self.entry.firm

    def answers(self) -> list[Told]:
        """What its own firm was told."""
        return [told for told in self.told if told.firm.name == self.firm]


NOWHERE = 1 << 63  # after all places


class Waiting:
    """A firm's messages that are still to come, with the next one and its place at hand."""

    def __init__(self, firm: Firm, rows: Iterator[Sent]) -> None:
        self.firm = firm
        self._rows = rows
        self._take()

    def _take(self) -> None:
        self._next = next(self._rows, None)
        self.place = NOWHERE if self._next is None else self._next.place

    def up_to(self, place: int) -> Iterator[Told]:
        """Those of entries up to this one."""
        while self._next is not None and self.place <= place:
            row, fields = self._next, fields_of(self._next.bytes)
            yield Told(self.firm, row.number, text_of(fields, 35), fields, row.bytes)
            self._take()


def exchanges(log: Log, day: Day) -> Iterator[Exchange]:
    """All exchanges of a day, in their order; none is held."""
    waiting = [Waiting(firm, log.sent(firm.name)) for firm in day.firms]
    for entry in log.entries():
        if entry.place == 0:
            continue
        came = came_of(entry.line)
        place = entry.place
        told = [told for one in waiting if one.place <= place for told in one.up_to(place)]
        if came is not None:
            speaker = came.firm
            told.sort(key=lambda message: message.firm.name != speaker)
        yield Exchange(entry, came, tuple(told))
