"""The session checks: what is asked of a message before the market's rules see it.

Each table has its tags in the order in which they are checked. Of each tag it checks: missing although
required 1, more than once 13, empty 4, of wrong form 6, and then the value.
"""

from __future__ import annotations

import re
from collections.abc import Callable
from typing import TYPE_CHECKING, Any

from .frames import is_date, read_time
from .prices import read_price, read_quantity

if TYPE_CHECKING:
    from .configuration import Dealer, Investor

MISSING, EMPTY, VALUE, FORM, COMP_ID, MSG_TYPE, TWICE, GROUP = 1, 4, 5, 6, 9, 11, 13, 16
ID = re.compile(rb"[!-{}~]{1,40}\Z")
NUMBER = re.compile(rb"[0-9]{1,9}\Z")
MOST_QUANTITY = 10**12
GROUP_TAGS = (448, 447, 452)


Message = dict[
    Any, Any
]  # values by their tags, each as its form has it, and the dealers under 'dealers'
Lawful = tuple[Callable[[Any], bool], int]  # whether a value is, and the reason where it is not
Table = list[tuple[int, Callable[[bytes, bytes], Any], Callable[[Message], bool], Lawful]]
Types = dict[bytes, Table]


class SessionFault(Exception):
    """A tag (371) and a reason (373)."""

    def __init__(self, tag: int, reason: int) -> None:
        super().__init__(tag, reason)
        self.tag, self.reason = tag, reason


class Wrong(Exception):
    """A reason, of the value that is being read."""


# ---------------------------------------------------------------- forms: bytes to a value, or Wrong


def any_text(value: bytes, _date: bytes) -> bytes:
    return value


def an_id(value: bytes, _date: bytes) -> bytes:
    if not ID.match(value):
        raise Wrong(FORM)
    return value


def number(value: bytes, _date: bytes) -> int:
    if not NUMBER.match(value):
        raise Wrong(FORM)
    return int(value)


def price(value: bytes, _date: bytes) -> int | str:
    """256ths, or the name of a fault that the desk looks at."""
    ticks = read_price(value)
    if ticks is None:
        raise Wrong(FORM)
    return ticks


def quantity(value: bytes, _date: bytes) -> int:
    amount = read_quantity(value)
    if amount is None:
        raise Wrong(FORM)
    if amount.denominator != 1 or not 1 <= amount <= MOST_QUANTITY:
        raise Wrong(VALUE)
    return int(amount)


def moment(value: bytes, date: bytes) -> int:
    day, dash, time = value[:8], value[8:9], read_time(value[9:])
    if not is_date(day) or dash != b"-" or time is None:
        raise Wrong(FORM)
    if day != date:
        raise Wrong(VALUE)
    return time


# ---------------------------------------------------------------- tables


def always(_message: Message) -> bool:
    return True


def never(_message: Message) -> bool:
    return False


def where(tag: int, value: object) -> Callable[[Message], bool]:
    """Required where an earlier tag has this value."""
    return lambda message: bool(message.get(tag) == value)


def one_of(*values: object) -> Lawful:
    return (lambda value: value in values), VALUE


ANYTHING: Lawful = (lambda value: True), VALUE

DEALER_TYPES: Types = {
    b"S": [
        (117, an_id, always, ANYTHING),
        (131, an_id, always, ANYTHING),
        (48, an_id, always, ANYTHING),
        (22, any_text, always, one_of(b"4")),
        (132, price, never, ANYTHING),
        (133, price, never, ANYTHING),
        (134, quantity, never, ANYTHING),
        (135, quantity, never, ANYTHING),
        (537, number, never, ANYTHING),
        (62, moment, never, ANYTHING),
    ],
    b"Z": [
        (298, number, always, ANYTHING),
        (117, an_id, where(298, 5), ANYTHING),
    ],
    b"AG": [
        (131, an_id, always, ANYTHING),
        (658, number, always, one_of(10)),
    ],
}

INVESTOR_TYPES: Types = {
    b"R": [
        (131, an_id, always, ANYTHING),
        (146, number, always, one_of(1)),
        (48, an_id, always, ANYTHING),
        (22, any_text, always, one_of(b"4")),
        (54, any_text, always, one_of(b"1", b"2")),
        (38, quantity, always, ANYTHING),
        (126, moment, always, ANYTHING),
        (453, number, always, ANYTHING),  # and its group, behind it
    ],
    b"AJ": [
        (693, an_id, always, ANYTHING),
        (694, number, always, one_of(1, 6)),
        (117, an_id, where(694, 1), ANYTHING),
        (131, an_id, where(694, 6), ANYTHING),
    ],
}


def header(row: Investor | Dealer, types: Types) -> Table:
    """The tags that every message has, as those of this firm, whose role has these types."""
    return [
        (49, any_text, always, ((lambda value: bool(value == row.name)), COMP_ID)),
        (56, any_text, always, ((lambda value: bool(value == b"VENUE")), COMP_ID)),
        (52, moment, always, ANYTHING),
        (50, any_text, always, ((lambda value: value in row.traders), VALUE)),
        (35, any_text, always, ((lambda value: value in types), MSG_TYPE)),
    ]


def check_table(
    table: Table, fields: list[tuple[int, bytes]], date: bytes, message: Message
) -> None:
    """Puts the value of each tag that is present into the message; SessionFault at the first fault."""
    values: dict[int, list[bytes]] = {}
    for tag, value in fields:
        values.setdefault(tag, []).append(value)
    for tag, form, required, (lawful, reason) in table:
        found = values.get(tag)
        if not found:
            if required(message):
                raise SessionFault(tag, MISSING)
            continue
        if len(found) > 1:
            raise SessionFault(tag, TWICE)
        if found[0] == b"":
            raise SessionFault(tag, EMPTY)
        try:
            value = form(found[0], date)
        except Wrong as wrong:
            raise SessionFault(tag, wrong.args[0]) from None
        if not lawful(value):
            raise SessionFault(tag, reason)
        message[tag] = value


def party_group(fields: list[tuple[int, bytes]], count: int, known: list[int]) -> list[bytes]:
    """The dealers of the group behind 453, in order; fields of other tags than those known are no part of it."""
    fields = [field for field in fields if field[0] in known or field[0] in GROUP_TAGS]
    begin = [tag for tag, _ in fields].index(453) + 1
    end = begin
    while end < len(fields) and fields[end][0] in GROUP_TAGS:
        end += 1
    run, outside = fields[begin:end], fields[:begin] + fields[end:]
    heads = [tag for tag, _ in run].count(448)
    if (run and run[0][0] != 448) or heads != count or any(tag in GROUP_TAGS for tag, _ in outside):
        raise SessionFault(453, GROUP)
    entries: list[list[tuple[int, bytes]]] = []
    for field in run:
        if field[0] == 448:
            entries.append([])
        entries[-1].append(field)
    return [dealer for dealer in map(party, entries) if dealer is not None]


def party(entry: list[tuple[int, bytes]]) -> bytes | None:
    """The dealer that an entry names, or None where it names something else."""
    values = {}
    for tag in GROUP_TAGS:
        found = [value for other, value in entry if other == tag]
        if not found:
            raise SessionFault(tag, MISSING)
        if len(found) > 1:
            raise SessionFault(tag, TWICE)
        if found[0] == b"":
            raise SessionFault(tag, EMPTY)
        if tag == 448 and not ID.match(found[0]):
            raise SessionFault(tag, FORM)
        values[tag] = found[0]
    return values[448] if values[447] == b"D" and values[452] == b"35" else None


def read_message(
    fields: list[tuple[int, bytes]], date: bytes, row: Investor | Dealer, types: Types
) -> Message:
    """The values of a message by tag, its dealers under 'dealers'; SessionFault with the first fault."""
    message: Message = {}
    head = header(row, types)
    check_table(head, fields, date, message)
    table = types[message[35]]
    check_table(table, fields, date, message)
    if message[35] == b"R":
        known = [line[0] for line in head + table]
        message["dealers"] = party_group(fields, message[453], known)
    return message


# ---------------------------------------------------------------- 34, before all of this


class Inbox:
    """Counts the numbers of a firm's messages, and refuses what comes out of turn."""

    def __init__(self) -> None:
        self.expected = 1

    def receive(
        self,
        data: bytes,
        read_fields: Callable[[bytes], list[tuple[int, bytes]] | None],
        date: bytes,
        row: Investor | Dealer,
        types: Types,
    ) -> Message | Reject | None:
        """None where the bytes are dropped; else the message, or the fields of a Reject."""
        fields = read_fields(data)
        numbers = [value for tag, value in fields or [] if tag == 34]
        if (
            fields is None
            or len(numbers) != 1
            or not NUMBER.match(numbers[0])
            or int(numbers[0]) < 1
        ):
            return None
        try:
            if int(numbers[0]) != self.expected:
                raise SessionFault(34, VALUE)
            self.expected += 1
            return read_message(fields, date, row, types)
        except SessionFault as fault:
            return reject(fields, numbers[0], fault)


class Reject:
    def __init__(self, fields: list[tuple[int, bytes]]) -> None:
        self.fields = fields


def reject(fields: list[tuple[int, bytes]], number: bytes, fault: SessionFault) -> Reject:
    kind = fields[0][1]
    answer = [(45, number), (371, b"%d" % fault.tag)]
    if re.match(rb"[A-Za-z0-9]{1,4}\Z", kind):
        answer.append((372, kind))
    return Reject(answer + [(373, b"%d" % fault.reason)])
