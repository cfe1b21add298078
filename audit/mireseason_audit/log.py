"""Gives every log one interface: a file of SQLite, a schema of PostgreSQL, or two files of text."""

import itertools
from abc import ABC, abstractmethod
from collections.abc import Iterator, Sequence
from pathlib import Path

from .closing import Closing
from .faults import Wrong
from .records import (
    Carried,
    Checkpoint,
    ConnectionEvent,
    Day,
    Entries,
    Entry,
    Messages,
    Outgoing,
    SealRow,
    Sent,
    configured,
    day_of,
)


class Log(Closing):
    """Reads the rows of a log. Every list is read in blocks of some rows, so none is held."""

    has_chain: bool = True  # whether the entries have hashes, and the sessions their messages
    has_door: bool = False  # whether it says who connected, and what came on which connection
    has_seals: bool = False  # whether a gateway has sealed and signed what it wrote
    has_epochs: bool = False  # whether its sessions have what they keep, and not what they sent
    # Whether gateways number what they sign without a gap, and say where a day has ended.
    numbers_checkpoints: bool = False
    has_notes: bool = False  # whether its seals have the session notes of their batches
    is_part: bool = False  # whether it shows a log as it stood before its end

    @abstractmethod
    def entry_blocks(self) -> Iterator[Entries]:
        """All entries, by their places."""

    @abstractmethod
    def connection_events(self) -> Iterator[ConnectionEvent]:
        """What happened to connections, by their places; of a log that says it."""

    @abstractmethod
    def logons(self, firm: str) -> dict[int, ConnectionEvent]:
        """Of a firm, the Logons that were accepted, by the numbers of their connections."""

    @abstractmethod
    def event_hash_at(self, place: int) -> bytes:
        """The hash of what happened to a connection at a place; empty where there is none."""

    def checkpoints(self) -> Iterator[Checkpoint]:
        """What a gateway has signed, in its order; of a log that has seals."""
        return iter(())

    def seals(self) -> Iterator[SealRow]:
        """The rows by which a log is sealed, by their numbers; of a log that has seals."""
        return iter(())

    def last_seal(self) -> tuple[int, int]:
        """The entry, and the row of what happened to connections, up to which a log is sealed."""
        return -1, 0

    def notes_hash_at(self, seal: int) -> bytes:
        """The running hash of the session notes up to a seal; empty where there is none."""
        return b""

    def last_event(self) -> int:
        """The last place of what happened to connections; 0 where nothing did."""
        return 0

    def beyond_form(self) -> Iterator[str]:
        """What stands beside the tables of its form, each in words."""
        return iter(())

    @abstractmethod
    def came(self, firm: str) -> Iterator[Entry]:
        """The entries of one firm, by their places."""

    @abstractmethod
    def entry_at(self, place: int) -> Entry | None:
        """The entry at a place, if there is one."""

    @abstractmethod
    def sent_blocks(self, firm: str) -> Iterator[Messages]:
        """What the venue gave for a firm, by its numbers."""

    @abstractmethod
    def outgoing_blocks(self, firm: str) -> Iterator[Carried]:
        """The messages of a firm's session, by its numbers."""

    @abstractmethod
    def line_blocks(self) -> Iterator[list[bytes]]:
        """The lines of the entries after place 0, in their order."""

    @abstractmethod
    def places(self) -> Iterator[int]:
        """The places of the entries, in their order."""

    @abstractmethod
    def last_place(self) -> int:
        """The last entry's place; -1 where there is none."""

    @abstractmethod
    def hash_at(self, place: int) -> bytes:
        """The hash of the entry at a place; empty where there is none."""

    @abstractmethod
    def has_gaps(self) -> bool:
        """Whether the places are others than 0, 1, 2 and so on."""

    @abstractmethod
    def session_numbers(self, places: Sequence[int]) -> dict[int, int]:
        """Of the messages at some places, by place, the numbers that they had in their session."""

    @abstractmethod
    def targets(self) -> dict[str, int]:
        """Of each firm, the number that its session expects next."""

    def epochs(self) -> dict[str, int]:
        """Of each firm, how often its session was reset, as far as the log says it."""
        return {}

    @abstractmethod
    def firms(self) -> set[str]:
        """The firms to which any message went."""

    @abstractmethod
    def last_number_of(self, firm: str) -> object:
        """The greatest number of what a firm was sent, whatever stands there."""

    @abstractmethod
    def count_of(self, firm: str) -> int:
        """How many messages a firm was sent."""

    def entries(self) -> Iterator[Entry]:
        """All entries, one by one."""
        return (Entry._make(row) for block in self.entry_blocks() for row in block.rows())

    def sent(self, firm: str) -> Iterator[Sent]:
        """What the venue gave for a firm, one by one."""
        for block in self.sent_blocks(firm):
            yield from map(Sent, itertools.repeat(firm), *block)

    def outgoing(self, firm: str) -> Iterator[Outgoing]:
        """The messages of a firm's session, one by one."""
        for block in self.outgoing_blocks(firm):
            yield from map(Outgoing, itertools.repeat(firm), *block)

    def told_beside(self, firm: str) -> Iterator[tuple[int, bytes]]:
        """What tells a firm of the notes beside messages of the venue, by their numbers: what has these fields, each with
        an SOH before it. Not every message need have one.
        """
        for row in self.outgoing(firm):
            if row.sent is not None and not row.copy:
                yield row.sent, row.bytes

    def own_messages(self, firm: str) -> Iterator[Outgoing]:
        """Of a firm's session, those that carry none of the venue."""
        return (row for row in self.outgoing(firm) if row.sent is None)

    def day(self) -> Day:
        """The day in entry 0."""
        first = next(self.entries(), None)
        if first is None or first.place != 0:
            raise Wrong("the log has no entry 0, which says what day it is of")
        return day_of(first.line) if self.has_chain else configured("", "", first.line)


class Source(ABC):
    """Where a log is. It can be handed to another process, which opens it there."""

    @abstractmethod
    def open(self) -> Log:
        """Opens it; Unreadable where that can't be done. One that somebody else has made is taken for that
        (taken.py).
        """

    def taken(self, folder: Path) -> "Source":
        """The log as it is now, taken into this folder: all that is opened from then on has the same rows."""
        return self

    def current(self) -> Log:
        """The log as it stands now, wherever that is, for who asks whether it goes on: what it answers is
        nothing that a verdict may rest on.
        """
        return self.open()

    @property
    def seal_path(self) -> Path:
        """Where its seal is, unless another file is named."""
        return Path(self.name + ".seal")

    @property
    @abstractmethod
    def name(self) -> str:
        """What it is called in a report, whoever holds it and wherever it stands."""
