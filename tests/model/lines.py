"""The lines that the program reads and writes: steps, due text, messages, blotters."""

from __future__ import annotations

import re
from collections.abc import Callable, Iterator
from typing import TYPE_CHECKING, Any

from .configuration import (
    MOST_EXPOSURE,
    MOST_QUANTITY,
    MOST_QUOTES,
    MOST_TRADERS,
    Dealer,
    is_bond,
    is_firm_name,
    is_name,
)
from .desk import Ask
from .frames import (
    LONGEST,
    SOH,
    Stream,
    StreamFault,
    is_date,
    moment_text,
    read_fields,
    read_time,
    time_text,
    write_frame,
)
from .prices import ANY_PRICE, GRIDS, Band, is_price, price_text, read_price
from .replay import CLOCK, Item

if TYPE_CHECKING:
    from .configuration import Bond, Configuration
    from .dealer import DealerDesk
    from .investor import InvestorDesk

MOST_TURNS = 1000
HEX = re.compile(rb"(?:[0-9A-Fa-f]{2})+\Z")
OWN_TAGS = (49, 56, 34, 52, 50)  # the program's own fields of a `say` line, where BODY has none


Step = tuple[Any, ...]  # its name, and what it takes


class LineFault(Exception):
    """What is wrong with a line: form, unknown firm, unknown room or stream."""


def number_of(text: bytes, digits: int = 9) -> int:
    if not re.match(rb"[0-9]{1,%d}\Z" % digits, text):
        raise LineFault("form")
    return int(text)


def limited(text: bytes, most: int, digits: int = 9) -> int:
    value = number_of(text, digits)
    if not 1 <= value <= most:
        raise LineFault("form")
    return value


def time_of(text: bytes) -> int:
    moment = read_time(text)
    if moment is None:
        raise LineFault("form")
    return moment


def named(text: bytes, lawful: Callable[[str], bool]) -> bytes:
    """A text of this form, as bytes."""
    if not text.isascii() or not lawful(text.decode()):
        raise LineFault("form")
    return text


def one_of(text: bytes, values: tuple[bytes, ...]) -> bytes:
    if text not in values:
        raise LineFault("form")
    return text


def parts_of(line: bytes, count: int, rest: bool = False) -> list[bytes]:
    """The parts of a line, none of them empty; with `rest` the last is the rest of the line."""
    parts = line.split(b" ", count - 1) if rest else line.split(b" ")
    if len(parts) != count or b"" in parts:
        raise LineFault("form")
    return parts


def bars(data: bytes) -> bytes:
    return data.replace(SOH, b"|")


def unbarred(text: bytes) -> bytes:
    return text.replace(b"|", SOH)


def bytes_of(text: bytes) -> bytes:
    """The bytes of one or more pairs of hexadecimal digits."""
    if not HEX.match(text):
        raise LineFault("form")
    return bytes.fromhex(text.decode())


def can_be_own(data: bytes) -> bool:
    """Whether a line `own` says these bytes: a bar would be read as 0x01, a line feed would end the line."""
    return not any(byte in data for byte in b"|\n")


def is_said(line: bytes) -> bool:
    """Whether a line says something: it is neither empty nor a comment."""
    return bool(line) and not line.startswith(b"#")


def numbered(lines: tuple[bytes, ...] | list[bytes], first: int) -> Iterator[tuple[int, bytes]]:
    """The lines that say something, each with its number."""
    return ((number, line) for number, line in enumerate(lines, first) if is_said(line))


# ---------------------------------------------------------------- say


class Framer:
    """Frames `say` lines, and counts those of each firm whose BODY has no 34."""

    def __init__(self, date: bytes) -> None:
        self.date = date
        self.counts: dict[bytes, int] = {}

    def frame(
        self, firm: bytes, trader: bytes, time: bytes, kind: bytes, body: bytes
    ) -> tuple[int, bytes, bool]:
        """The moment, the message, and whether it used a number of the firm's count."""
        moment = time_of(time)
        for word in (trader, kind):
            if b"|" in word or SOH in word:
                raise LineFault("form")
        fields = (
            None if SOH in body else read_fields(body if body.endswith(b"|") else body + b"|", b"|")
        )
        if fields is None:
            raise LineFault("form")
        there = {tag for tag, _ in fields}
        own = [(49, firm), (56, b"VENUE"), (34, b"%d" % (self.counts.get(firm, 0) + 1))]
        own += [(52, moment_text(self.date, moment)), (50, trader)]
        data = write_frame(
            [(35, kind)] + [field for field in own if field[0] not in there] + fields
        )
        if len(data) > LONGEST:
            raise LineFault("form")
        return moment, data, 34 not in there

    def count(self, firm: bytes) -> None:
        self.counts[firm] = self.counts.get(firm, 0) + 1


# ---------------------------------------------------------------- steps


class StepReader:
    """Reads the lines of steps, one after the other, of one configuration."""

    def __init__(self, configuration: Configuration) -> None:
        self.configuration = configuration
        self.framer = Framer(configuration.date)
        self.streams: dict[int, Stream] = {}

    def firm(self, word: bytes) -> int:
        firm = self.configuration.firm(word)
        if firm is None:
            raise LineFault("unknown firm")
        return firm

    def steps(self, line: bytes) -> list[Step]:
        """The steps of a line: ("came", firm, moment, bytes), ("turn", actor, n) and ("expire", firm, n, moment).

        A line `clock` is the last of these for each room of the venue.
        """
        keyword = line.split(b" ", 1)[0]
        if keyword == b"say":
            _, name, *rest = parts_of(line, 6, rest=True)
            moment, data, counts = self.framer.frame(name, *rest)
            firm = self.firm(name)
            if counts:
                self.framer.count(name)
            return [("came", firm, moment, data)]
        if keyword in (b"in", b"piece"):
            _, name, time, data = parts_of(line, 4, rest=True)
            moment, firm = time_of(time), self.firm(name)
            messages = [unbarred(data)] if keyword == b"in" else self.cut(firm, unbarred(data))
            return [("came", firm, moment, message) for message in messages]
        if keyword == b"hex":
            _, name, time, data = parts_of(line, 4, rest=True)
            moment, message = time_of(time), bytes_of(data)
            return [("came", self.firm(name), moment, message)]
        if keyword == b"clock":
            moment = time_of(parts_of(line, 2)[1])
            return [("expire", firm, n, moment) for firm, n in self.configuration.rooms()]
        if keyword == b"turn":
            _, name, times = parts_of(line, 3)
            count = limited(times, MOST_TURNS)
            return [("turn", CLOCK if name == b"CLOCK" else self.firm(name), count)]
        if keyword == b"expire":
            _, name, number, time = parts_of(line, 4)
            room, moment = number_of(number), time_of(time)
            firm = self.firm(name)
            if not self.configuration.has_room(firm, room):
                raise LineFault("unknown room")
            return [("expire", firm, room, moment)]
        raise LineFault("form")

    def cut(self, firm: int, piece: bytes) -> list[bytes]:
        try:
            messages, self.streams[firm] = self.streams.get(firm, Stream()).feed(piece)
        except StreamFault:
            raise LineFault("stream") from None
        return messages


# ---------------------------------------------------------------- due text


def read_due_text(
    lines: tuple[bytes, ...] | list[bytes], first: int
) -> tuple[bytes, Dealer, list[Item]]:
    """The date, the dealer and the due list; LineFault and the number of the line at fault."""
    said, number = list(numbered(lines, first)), first + len(lines)
    try:
        number, line = said[0] if said else (number, b"")
        keyword, date = parts_of(line, 2)
        one_of(keyword, (b"date",))
        if not is_date(date):
            raise LineFault("form")
        number, line = said[1] if len(said) > 1 else (first + len(lines), b"")
        row, framer = read_dealer_line(line), Framer(date)
        due: list[Item] = []
        for number, line in said[2:]:
            due.append(read_due_line(line, row.name, framer))
        return date, row, due
    except LineFault as fault:
        raise LineFault(fault.args[0], number) from None


def read_dealer_line(line: bytes) -> Dealer:
    parts = line.split(b" ")
    if len(parts) < 5 or parts[0] != b"dealer":
        raise LineFault("form")
    _, name, quotes, exposure, *traders = parts
    named(name, is_firm_name)
    for trader in traders:
        named(trader, is_name)
    if len(traders) > MOST_TRADERS or len(set(traders)) < len(traders):
        raise LineFault("form")
    return Dealer(
        name, tuple(traders), limited(quotes, MOST_QUOTES), limited(exposure, MOST_EXPOSURE, 16)
    )


def read_due_line(line: bytes, name: bytes, framer: Framer) -> Item:
    keyword = line.split(b" ", 1)[0]
    if keyword == b"say":
        moment, data, counts = framer.frame(name, *parts_of(line, 5, rest=True)[1:])
        if counts:
            framer.count(name)
        return "own", moment, data
    if keyword == b"own":
        _, time, data = parts_of(line, 3, rest=True)
        return "own", time_of(time), unbarred(data)
    if keyword == b"hex":
        _, time, data = parts_of(line, 3, rest=True)
        return "own", time_of(time), bytes_of(data)
    if keyword == b"shown":
        return read_shown(line)
    if keyword == b"lifted":
        return "lifted", number_of(parts_of(line, 2)[1])
    if keyword == b"closed":
        _, k, close, time = parts_of(line, 4)
        return (
            "closed",
            number_of(k),
            int(one_of(close, (b"1", b"3", b"4", b"5", b"6"))),
            time_of(time),
        )
    if keyword == b"drop":
        _, last, time = parts_of(line, 3)
        return "drop", number_of(last), time_of(time)
    raise LineFault("form")


def price_of(text: bytes) -> int:
    ticks = read_price(text)
    if not is_price(ticks):
        raise LineFault("form")
    return ticks


def grid_and_band(parts: list[bytes]) -> tuple[int, Band]:
    """`GRID [LOW HIGH]`, whatever the ends of the band are."""
    if len(parts) not in (1, 3):
        raise LineFault("form")
    steps = number_of(parts[0])
    if steps not in GRIDS:
        raise LineFault("form")
    return steps, Band(price_of(parts[1]), price_of(parts[2])) if parts[1:] else ANY_PRICE


def grid_and_band_text(of: Ask | Bond) -> list[bytes]:
    ends = [] if of.band == ANY_PRICE else [price_text(end) for end in of.band]
    return [b"%d" % of.grid, *ends]


def read_shown(line: bytes) -> tuple[str, Ask, int]:
    parts = line.split(b" ")
    _, investor, bond, side, quantity, deadline, time = parts_of(b" ".join(parts[:7]), 7)
    steps, band = grid_and_band(parts[7:] or [b"256"])
    named(investor, is_firm_name)
    named(bond, is_bond)
    one_of(side, (b"1", b"2"))
    terms = int(side), limited(quantity, MOST_QUANTITY, 16), time_of(deadline)
    return "shown", Ask(investor, bond, *terms, steps, band), time_of(time)


def due_text(date: bytes, row: Dealer, due: list[Item]) -> Iterator[bytes]:
    yield b"date " + date
    yield b" ".join([b"dealer", row.name, b"%d" % row.quotes, b"%d" % row.exposure, *row.traders])
    for item in due:
        yield due_line(*item)


def due_line(kind: str, *item: Any) -> bytes:
    if kind == "own":
        moment, data = item
        if can_be_own(data):
            return b"own %s %s" % (time_text(moment), bars(data))
        return b"hex %s %s" % (time_text(moment), data.hex().encode())
    if kind == "shown":
        ask, moment = item
        words = [
            b"shown",
            ask.investor,
            ask.bond,
            b"%d" % ask.side,
            b"%d" % ask.quantity,
            time_text(ask.deadline),
            time_text(moment),
        ]
        last = grid_and_band_text(ask)
        return b" ".join(words + ([] if last == [b"256"] else last))
    if kind == "lifted":
        return b"lifted %d" % item[0]
    if kind == "drop":
        return b"drop %d %s" % (item[0], time_text(item[1]))
    return b"closed %d %d %s" % (item[0], item[1], time_text(item[2]))


# ---------------------------------------------------------------- messages, marks and blotters


def done_mark(number: int, deadline: int | None) -> bytes:
    """Behind the messages of an input line; with the earliest deadline of a room that has not ended, if there is one."""
    return b"done %d" % number + (b"" if deadline is None else b" " + time_text(deadline))


def fault_mark(number: int, name: str) -> bytes:
    return b"fault %d %s" % (number, name.encode())


def message_line(firm: bytes, fields: list[tuple[int, bytes]], frames: bool) -> bytes:
    """A message that the venue has sent; its first five fields are 35, 49, 56, 34 and 52."""
    if frames:
        return firm + b" " + bars(write_frame(fields))
    kind, _, _, number, sending = (value for _, value in fields[:5])
    body = b"|".join(b"%d=%s" % field for field in fields[5:])
    return b" ".join([firm, number, sending.split(b"-", 1)[1], kind, body])


def side_letter(ask: Ask) -> str:
    return "B" if ask.side == 1 else "S"


def dealer_blotter(desk: DealerDesk) -> Iterator[bytes]:
    for quote, price, state in desk.blotter():
        request, moment = quote.request, time_text(quote.moment).decode()
        line = f"{quote.q:>4} {moment} {quote.trader.decode():<8} {f'R{request.k}':<5} {request.ask.bond.decode()} "
        line += f"{side_letter(request.ask)} {request.ask.quantity:>13} {price.decode():>7} {state}"
        yield line.encode()


def investor_blotter(desk: InvestorDesk) -> Iterator[bytes]:
    for request in desk.requests:
        ask, moment = request.ask, time_text(request.moment).decode()
        line = f"{request.n:>4} {moment} {request.trader.decode():<8} {ask.bond.decode()} "
        line += f"{side_letter(ask)} {ask.quantity:>13} {request.closed or 'open'}"
        yield line.encode()
