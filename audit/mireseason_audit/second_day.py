"""Makes a second day beside the one in a log: with other dealers' prices moved, or without their
messages.
"""

from collections.abc import Callable, Mapping
from dataclasses import dataclass, field
from pathlib import Path

from .bonds import Bond, bonds_of
from .frame import Fields, fault_of, framed, text_of
from .lines import Came, came_of
from .log import Log
from .prices import Price
from .records import Day
from .requests import Request
from .streams import blocks_of

BID, OFFER, SEQ_NUM, QUOTE, BOND = 132, 133, 34, 117, 48


@dataclass(frozen=True)
class Moved:
    """A quote whose price was moved."""

    place: int
    dealer: str
    before: Price
    after: Price


# By how many 32nds the quote of an entry is moved; 0 leaves it.
Move = Callable[[int, Came], int]


@dataclass
class MovedDay:
    """A day with some prices moved, and which."""

    moved: list[Moved] = field(default_factory=list)

    def write(self, log: Log, day: Day, move: Move, path: Path, part: bytes = b"") -> None:
        """Writes the second day; prices alone differ, and with them lengths and sums of frames.

        Lines without the part, in small hexadecimal digits, are left as they are.
        """
        bonds = bonds_of(day)
        with path.open("wb", buffering=1 << 20) as file:
            file.write(day.head)
            for entry in log.entries():
                if entry.place > 0:
                    line = entry.line
                    if is_with(line, part):
                        line = self._line(entry.place, line, move, bonds)
                    file.write(line + b"\n")

    def _line(self, place: int, line: bytes, move: Move, bonds: Mapping[str, Bond]) -> bytes:
        came = came_of(line)
        if came is None or not is_whole(came) or text_of(came.fields, 35) != "S":
            return line
        by = move(place, came)
        changed = moved_fields(came.fields, by, bonds) if by else None
        if changed is None:
            return line
        fields, before, after = changed
        self.moved.append(Moved(place, came.firm, before, after))
        return line_of(came, fields)


def needle(request: str) -> bytes:
    """What stands in a `hex` line of a message about a request, in small digits."""
    return (b"\x01131=%b\x01" % request.encode()).hex().encode()


def is_with(line: bytes, part: bytes) -> bool:
    """Whether a line may have a part; one that is no `hex` line always may."""
    return not line.startswith(b"hex ") or part in line.lower()


def is_whole(came: Came) -> bool:
    """Whether a message is a frame, or one that the program frames: what is none stays as it is."""
    return came.frame is None or fault_of(came.frame) is None


def line_of(came: Came, fields: Fields) -> bytes:
    """A line with the same firm and time, and other fields in its body."""
    if came.frame is None:  # `say FIRM TRADER TIME TYPE BODY`: 35 and 50 stand in front of BODY
        body = b"|".join(b"%d=%b" % field for field in fields[2:])
        return b" ".join([*came.line.split(b" ", 5)[:5], body])
    return ("hex %s %s %s" % (came.firm, came.time, framed(fields).hex())).encode()


def body_of(fields: Fields) -> Fields:
    """The fields without 8, 9 and 10."""
    return Fields(pair for pair in fields if pair[0] not in (8, 9, 10))


def moved_fields(
    fields: Fields, by: int, bonds: Mapping[str, Bond]
) -> tuple[Fields, Price, Price] | None:
    """The body with its price moved, within its bond's band; None where no price can be moved."""
    for at, (tag, value) in enumerate(fields):
        price = Price(value.decode("ascii", "replace"))
        if tag in (BID, OFFER) and price.ticks is not None:
            bond = bonds.get(text_of(fields, BOND))
            after = bond.band.moved(price, by) if bond and bond.band else Price(price.moved(by))
            if after is None or after.decimal == price.decimal:
                return None
            changed = Fields([*fields[:at], (tag, after.text.encode()), *fields[at + 1 :]])
            return body_of(changed), price, after
    return None


def on_request(request: Request, dealer: str, by: int) -> Move:
    """Moves one dealer's quotes on one request."""
    name = request.shown.get(dealer)

    def move(place: int, came: Came) -> int:
        return by if came.firm == dealer and text_of(came.fields, 131) == name else 0

    return move


def append(first: Path, second: Path, both: Path) -> None:
    """Both days as `compare` reads them."""
    with both.open("wb", buffering=1 << 20) as file:
        for path in (first, second):
            if path is second:
                file.write(b"%%\n")
            for block in blocks_of(path):
                file.write(block)
