"""Shows a log as it stood at one of its entries, and nothing that was added since."""

import itertools
from collections.abc import Iterator, Sequence
from dataclasses import dataclass
from pathlib import Path

from .faults import Unreadable
from .log import Log, Source
from .records import Carried, Checkpoint, ConnectionEvent, Entries, Entry, Messages, SealRow


def up_to(block: Entries, last: int) -> Entries | None:
    """The entries of a block up to a place; None where there are none."""
    kept = [at for at, place in enumerate(block.places) if place <= last]
    if not kept:
        return None
    if len(kept) == len(block.places):
        return block
    return Entries._make(tuple(column[at] for at in kept) for column in block)


class UntilLog(Log):
    """Shows of another log the entries up to a place, and what was sent for them."""

    is_part = True

    def __init__(self, log: Log, last: int) -> None:
        self._log, self._last = log, last
        self.has_chain, self.has_door = log.has_chain, log.has_door
        self.has_seals, self.has_epochs = log.has_seals, log.has_epochs
        self.numbers_checkpoints = log.numbers_checkpoints

    def entry_blocks(self) -> Iterator[Entries]:
        for block in self._log.entry_blocks():
            kept = up_to(block, self._last)
            if kept is None:
                return
            yield kept

    def connection_events(self) -> Iterator[ConnectionEvent]:
        """Those that happened before the next entry came."""
        events = self._log.connection_events()
        return itertools.takewhile(lambda event: event.entry <= self._last, events)

    def seals(self) -> Iterator[SealRow]:
        return itertools.takewhile(lambda row: row.place <= self._last, self._log.seals())

    def last_seal(self) -> tuple[int, int]:
        """As far as it is sealed now: what comes later is sealed later."""
        place, event = self._log.last_seal()
        return min(place, self._last), min(event, self.last_event())

    def notes_hash_at(self, seal: int) -> bytes:
        return self._log.notes_hash_at(seal)

    def last_event(self) -> int:
        return max((event.place for event in self.connection_events()), default=0)

    def beyond_form(self) -> Iterator[str]:
        return self._log.beyond_form()

    def checkpoints(self) -> Iterator[Checkpoint]:
        return (one for one in self._log.checkpoints() if one.place <= self._last)

    def logons(self, firm: str) -> dict[int, ConnectionEvent]:
        logons = self._log.logons(firm).items()
        return {number: event for number, event in logons if event.entry <= self._last}

    def event_hash_at(self, place: int) -> bytes:
        return self._log.event_hash_at(place)

    def came(self, firm: str) -> Iterator[Entry]:
        return (entry for entry in self._log.came(firm) if entry.place <= self._last)

    def entry_at(self, place: int) -> Entry | None:
        return self._log.entry_at(place) if place <= self._last else None

    def sent_blocks(self, firm: str) -> Iterator[Messages]:
        for block in self._log.sent_blocks(firm):
            kept = [at for at, place in enumerate(block.others) if self._has(place)]
            if kept:
                yield block.picked(kept)

    def outgoing_blocks(self, firm: str) -> Iterator[Carried]:
        """What the session carried, up to the last message of the venue that there was then; its
        own messages behind that are of later.
        """
        last = self.last_number_of(firm)
        left = last if isinstance(last, int) else 0
        for block in self._log.outgoing_blocks(firm):
            if left <= 0:
                return
            ends = [at for at, sent in enumerate(block.others) if sent is not None and sent >= left]
            left = 0 if ends else left
            yield block.picked(range(ends[0] + 1 if ends else len(block.numbers)))

    def told_beside(self, firm: str) -> Iterator[tuple[int, bytes]]:
        """As they are now: nobody asks for later messages."""
        return self._log.told_beside(firm)

    def line_blocks(self) -> Iterator[list[bytes]]:
        for block in self.entry_blocks():
            lines = [line for place, line in zip(block.places, block.lines) if place > 0]
            if lines:
                yield lines

    def places(self) -> Iterator[int]:
        return itertools.takewhile(self._has, self._log.places())

    def last_place(self) -> int:
        return min(self._last, self._log.last_place())

    def hash_at(self, place: int) -> bytes:
        return self._log.hash_at(place) if place <= self._last else b""

    def has_gaps(self) -> bool:
        return any(place != at for at, place in enumerate(self.places()))

    def session_numbers(self, places: Sequence[int]) -> dict[int, int]:
        return self._log.session_numbers([place for place in places if self._has(place)])

    def targets(self) -> dict[str, int]:
        """As they are now: a session's number only rises."""
        return self._log.targets()

    def firms(self) -> set[str]:
        return {firm for firm in self._log.firms() if next(self.sent_blocks(firm), None)}

    def last_number_of(self, firm: str) -> object:
        """The greatest number of what was sent for the entries."""
        numbers = [max(block.numbers) for block in self.sent_blocks(firm)]
        return max(numbers, default=None)

    def count_of(self, firm: str) -> int:
        return sum(len(block.numbers) for block in self.sent_blocks(firm))

    def close(self, failed: bool = False) -> None:
        self._log.close(failed)

    def _has(self, place: int) -> bool:
        return place <= self._last


@dataclass(frozen=True)
class UntilSource(Source):
    """Where a log is that is read up to an entry."""

    source: Source
    last: int

    def open(self) -> Log:
        return UntilLog(self.source.open(), self.last)

    def taken(self, folder: Path) -> Source:
        return UntilSource(self.source.taken(folder), self.last)

    def current(self) -> Log:
        return UntilLog(self.source.current(), self.last)

    @property
    def name(self) -> str:
        return self.source.name


def place_until(source: Source, entry: int | None, moment: str | None) -> int:
    """The last place that is meant: of an entry, or the last one whose moment is not later."""
    with source.open() as log:
        last = log.last_place()
        if entry is not None:
            if not 0 <= entry <= last:
                raise Unreadable("--until %d: the log has the entries 0 to %d" % (entry, last))
            return entry
        assert moment is not None
        found = 0
        for block in log.entry_blocks():
            places = [at for at, when in zip(block.places, block.moments) if when <= moment]
            if not places:
                break
            found = places[-1]
        return found
