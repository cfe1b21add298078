"""Writes the due text of an investor: what it sees of the venue, and what is due to it, line by line."""

from collections.abc import Iterator
from typing import Any

from .configuration import (
    MOST_BONDS,
    MOST_DEALERS,
    MOST_OPEN,
    MOST_QUANTITY,
    MOST_REQUESTS,
    MOST_TRADERS,
    Bond,
    Investor,
    is_bond,
    is_firm_name,
    is_name,
)
from .frames import is_date, time_text
from .lines import (
    Framer,
    LineFault,
    due_line,
    grid_and_band,
    grid_and_band_text,
    is_said,
    limited,
    named,
    number_of,
    numbered,
    one_of,
    parts_of,
    price_of,
    read_due_line,
    time_of,
)
from .prices import price_text
from .replay import Item, Seen
from .session import ID

REPLIES = (b"Awarded", b"Passed", b"NotOpen", b"Deadline", b"Gone", b"Expired", b"Withdrawn")


def is_investor_text(lines: tuple[bytes, ...]) -> bool:
    """Whether due text is that of an investor: its second line says so."""
    said = [line for line in lines if is_said(line)]
    return len(said) > 1 and said[1].split(b" ", 1)[0] == b"investor"


# ---------------------------------------------------------------- reading


def read_investor_text(lines: tuple[bytes, ...], first: int) -> tuple[Seen, list[Item]]:
    """What the investor sees, and its due list; LineFault and the number of the line at fault."""
    number, said = first, list(numbered(lines, first))
    try:
        number, line = said[0]
        keyword, date = parts_of(line, 2)
        one_of(keyword, (b"date",))
        if not is_date(date):
            raise LineFault("form")
        number, line = said[1]
        row, framer = read_row(line), Framer(date)
        bonds: list[Bond] = []
        dealers: list[bytes] = []
        due: list[Item] = []
        for number, line in said[2:]:
            keyword = line.split(b" ", 1)[0]
            if keyword == b"bond" and not dealers and not due:
                read_bond(line, bonds)
            elif keyword == b"dealer" and not due:
                read_dealer(line, row.name, dealers)
            else:
                due.append(read_item(line, row.name, framer))
        return (date, row, bonds, dealers), due
    except LineFault as fault:
        raise LineFault(fault.args[0], number) from None


def read_row(line: bytes) -> Investor:
    parts = line.split(b" ")
    if len(parts) < 6:
        raise LineFault("form")
    _, name, requests, opened, quantity, *traders = parts
    named(name, is_firm_name)
    for trader in traders:
        named(trader, is_name)
    if len(traders) > MOST_TRADERS or len(set(traders)) < len(traders):
        raise LineFault("form")
    limits = (
        limited(requests, MOST_REQUESTS),
        limited(opened, MOST_OPEN),
        limited(quantity, MOST_QUANTITY, 16),
    )
    return Investor(name, tuple(traders), *limits)


def read_bond(line: bytes, bonds: list[Bond]) -> None:
    """A bond more, which none before it is."""
    parts = line.split(b" ")
    _, bond = parts_of(b" ".join(parts[:2]), 2)
    named(bond, is_bond)
    row = Bond(bond, *grid_and_band(parts[2:]))
    if bond in (other.id for other in bonds) or len(bonds) == MOST_BONDS:
        raise LineFault("form")
    bonds.append(row)


def read_dealer(line: bytes, own: bytes, dealers: list[bytes]) -> None:
    """The name of a dealer more, which no firm before it has."""
    _, name = parts_of(line, 2)
    named(name, is_firm_name)
    if name == own or name in dealers or len(dealers) == MOST_DEALERS:
        raise LineFault("form")
    dealers.append(name)


def read_item(line: bytes, name: bytes, framer: Framer) -> Item:
    keyword = line.split(b" ", 1)[0]
    if keyword in (b"say", b"own", b"hex"):
        return read_due_line(line, name, framer)
    if keyword == b"quoted":
        return read_quoted(line)
    if keyword == b"gone":
        _, n, k, time = parts_of(line, 4)
        return "gone", number_of(n), number_of(k), time_of(time)
    if keyword == b"declined":
        _, n, dealer, time = parts_of(line, 4)
        return "declined", number_of(n), named(dealer, is_firm_name), time_of(time)
    if keyword == b"answered":
        return read_answered(line)
    if keyword == b"expired":
        _, n, time = parts_of(line, 3)
        return "expired", number_of(n), time_of(time)
    raise LineFault("form")


def with_last(line: bytes, count: int) -> tuple[list[bytes], bytes | None]:
    """So many parts of a line, and one behind them where it stands."""
    if line.count(b" ") < count:
        return parts_of(line, count), None
    *parts, last = parts_of(line, count + 1)
    return parts, last


def read_quoted(line: bytes) -> Item:
    (_, n, dealer, price, time), until = with_last(line, 5)
    ticks = price_of(price)
    end = None if until is None else time_of(until)
    return "quoted", number_of(n), named(dealer, is_firm_name), ticks, end, time_of(time)


def read_answered(line: bytes) -> Item:
    (_, n, name, reply, time), quote = with_last(line, 5)
    if not ID.match(name):
        raise LineFault("form")
    k = None if quote is None else number_of(quote)
    return "answered", number_of(n), (name, k), one_of(reply, REPLIES).decode(), time_of(time)


# ---------------------------------------------------------------- writing


def investor_text(seen: Seen, due: list[Item]) -> Iterator[bytes]:
    date, row, bonds, dealers = seen
    yield b"date " + date
    yield b" ".join(
        [b"investor", row.name, b"%d %d %d" % (row.requests, row.open, row.quantity), *row.traders]
    )
    for bond in bonds:
        yield b" ".join([b"bond", bond.id, *grid_and_band_text(bond)])
    for name in dealers:
        yield b"dealer " + name
    for item in due:
        yield item_line(*item)


def item_line(kind: str, *item: Any) -> bytes:
    if kind == "own":
        return due_line(kind, *item)
    if kind == "quoted":
        n, dealer, ticks, until, moment = item
        line = b"quoted %d %s %s %s" % (n, dealer, price_text(ticks), time_text(moment))
        return line if until is None else line + b" " + time_text(until)
    if kind == "gone":
        n, k, moment = item
        return b"gone %d %d %s" % (n, k, time_text(moment))
    if kind == "declined":
        n, dealer, moment = item
        return b"declined %d %s %s" % (n, dealer, time_text(moment))
    if kind == "answered":
        n, (name, k), reply, moment = item
        line = b"answered %d %s %s %s" % (n, name, reply.encode(), time_text(moment))
        return line if k is None else line + b" %d" % k
    n, moment = item
    return b"expired %d %s" % (n, time_text(moment))
