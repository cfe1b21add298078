"""What the desks of dealers and investors have in common: their numbers, and what they have sent."""

from __future__ import annotations

from collections.abc import Iterator, Sequence
from dataclasses import dataclass
from typing import TYPE_CHECKING, Any

from .frames import moment_text, read_frame, write_frame
from .prices import ANY_PRICE, Band, price_text
from .session import Inbox, Message, Reject, Types

if TYPE_CHECKING:
    from .configuration import Dealer, Investor


Duty = tuple[Any, ...]  # its name, and what it takes


@dataclass(frozen=True)
class Ask:
    """What a request asks for; side 1 buys, 2 sells, as the investor has it."""

    investor: bytes
    bond: bytes
    side: int
    quantity: int
    deadline: int
    grid: int
    band: Band = ANY_PRICE


@dataclass(frozen=True)
class Reason:
    """Noted beside a message that refuses: the name of the line of the table."""

    name: str


@dataclass(frozen=True)
class Trade:
    """Noted beside a message that tells of a trade: the other firm."""

    other: bytes


def first(refusals: Iterator[tuple[object, str]]) -> str | None:
    """The name of the first condition that holds, looking at no later one; None where none does."""
    for condition, name in refusals:
        if condition:
            return name
    return None


def price_tag(side: int) -> int:
    """Who buys asks for offers, who sells for bids."""
    return 133 if side == 1 else 132


class Desk:
    types: Types = {}  # the message types that the firm's role sends

    def __init__(self, date: bytes, row: Dealer | Investor) -> None:
        self.date, self.row = date, row
        self.inbox = Inbox()
        self.sent: list[list[tuple[int, bytes]]] = []
        self.notes: list[Reason | Trade | None] = []

    def send(
        self,
        moment: int,
        kind: bytes,
        fields: Sequence[tuple[int, bytes | None]],
        note: Reason | Trade | None = None,
    ) -> None:
        """Sends a message, beside which this is noted; fields without a value are left out."""
        self.notes.append(note)
        head = [(35, kind), (49, b"VENUE"), (56, self.row.name), (34, b"%d" % (len(self.sent) + 1))]
        head.append((52, moment_text(self.date, moment)))
        self.sent.append(head + [(tag, value) for tag, value in fields if value is not None])

    def receive(self, moment: int, data: bytes) -> Message | None:
        """The message that passed the session checks, or None: dropped, or answered by a Reject."""
        message = self.inbox.receive(data, read_frame, self.date, self.row, self.types)
        if isinstance(message, Reject):
            self.send(moment, b"3", message.fields)
            return None
        return message

    def take(self, moment: int, data: bytes) -> list[Duty]:
        """The duties that follow a message: none where it did not pass the session checks."""
        message = self.receive(moment, data)
        return [] if message is None else self.take_message(moment, message)

    def take_message(self, moment: int, message: Message) -> list[Duty]:
        """The duties that follow a message that passed the session checks."""
        raise NotImplementedError

    def sides(self, other: bytes) -> tuple[bytes, bytes]:
        """The investor and the dealer of a trade with this firm."""
        raise NotImplementedError

    def note_line(self, number: int) -> bytes | None:
        """What is noted beside the message with this number (34), as a line; None where nothing is."""
        note, about = self.notes[number - 1], b"%s %d" % (self.row.name, number)
        if isinstance(note, Reason):
            return b"why %s %s" % (about, note.name.encode())
        if isinstance(note, Trade):
            k = self.notes[:number].count(note)
            return b"trade %s %s" % (
                about,
                b"-".join([self.date, *self.sides(note.other), b"%d" % k]),
            )
        return None

    def frames(self) -> list[bytes]:
        return [write_frame(fields) for fields in self.sent]


def instrument(bond: bytes) -> list[tuple[int, bytes]]:
    return [(55, b"[N/A]"), (48, bond), (22, b"4")]


def terms(ask: Ask) -> list[tuple[int, bytes]]:
    """The instrument, the investor's side and the quantity."""
    return instrument(ask.bond) + [(54, b"%d" % ask.side), (38, b"%d" % ask.quantity)]


def party(name: bytes, role: int) -> list[tuple[int, bytes]]:
    return [(453, b"1"), (448, name), (447, b"D"), (452, b"%d" % role)]


def price_field(side: int, ticks: int) -> tuple[int, bytes]:
    return (price_tag(side), price_text(ticks))
