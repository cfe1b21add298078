"""Reads a test definition, in the form of QuickFIX's acceptance tests: README.md says what a line is."""

import re
from dataclasses import dataclass
from datetime import datetime, timedelta, timezone
from enum import Enum
from pathlib import Path

from tests.gateway.wire import framed
from tests.model.frames import checksum

SOH = b"\x01"
LINE = re.compile(r"([iIeEo])(?:(\d),)?(.*)")
SHIFTED = re.compile(r"<TIME([+-]\d+)?>")
LETTERS = re.compile(r"<FILL(\d+)>")
JOINED = "&"  # at the end of what is said: it leaves with the next, in the same bytes
LAST = re.compile(rb"(?<=\x01)10=[^\x01]*\x01?\Z")  # the sum of a message that gives one
MOMENT = re.compile(rb"\d{8}-\d\d:\d\d:\d\d\.\d{3}")


class Act(Enum):
    """What a line says."""

    CONNECT = "iCONNECT"
    DISCONNECT = "iDISCONNECT"
    ENDS = "eDISCONNECT"  # the gateway ends the connection, and says nothing before
    SAY = "I"
    HEAR = "E"
    OPERATOR = "o"  # an operator does something, or the gateway ends or is started


@dataclass(frozen=True)
class Line:
    """A line of a definition, and on which connection it happens."""

    at: str  # FILE:LINE
    act: Act
    connection: int
    text: str = ""  # a message, with bars; or what the operator does
    is_joined: bool = False  # with the next that is said, in the same bytes


def line_of(at: str, text: str) -> Line:
    """A line that is neither empty nor a remark."""
    found = LINE.fullmatch(text)
    assert found, "%s: no line of a definition: %r" % (at, text)
    letter, connection, rest = found[1], int(found[2] or 1), found[3]
    if letter == "I":
        return Line(at, Act.SAY, connection, rest.removesuffix(JOINED), rest.endswith(JOINED))
    if letter in (Act.HEAR.value, Act.OPERATOR.value):
        return Line(at, Act(letter), connection, rest)
    return Line(at, Act(letter + rest), connection)


def lines_of(path: Path) -> list[Line]:
    """The lines of a definition, in their order."""
    numbered = enumerate(path.read_text().splitlines(), 1)
    lines = [
        line_of("%s:%d" % (path.name, number), text)
        for number, text in numbered
        if text and not text.startswith("#")
    ]
    assert lines, "%s: nothing is said" % path.name
    return lines


def named(text: str, names: dict[str, str]) -> str:
    """A text with what its names stand for, and as many letters as it asks for."""
    for name, value in names.items():
        text = text.replace("<%s>" % name, value)
    return LETTERS.sub(lambda found: "x" * int(found[1]), text)


def filled(text: str, names: dict[str, str]) -> str:
    """A text with what its names and moments stand for; a moment has whole seconds, as in QuickFIX's runner."""
    text = named(text, names)
    now = datetime.now(timezone.utc)

    def moment(found: re.Match[str]) -> str:
        return (now + timedelta(seconds=int(found[1] or 0))).strftime("%Y%m%d-%H:%M:%S")

    return SHIFTED.sub(moment, text.replace("<MINUTE>", now.strftime("%Y%m%d-%H:%M")))


def message_of(text: str) -> bytes:
    """The bytes of a message: with the length (9) and the sum (10) that belong to it, where it gives none."""
    data = text.encode().replace(b"|", SOH)
    if not data.startswith(b"8="):
        return data
    begin, rest = data.split(SOH, 1)
    total = LAST.search(rest)
    body = rest[: total.start()] if total else rest
    front = begin + SOH + (b"" if body.startswith(b"9=") else b"9=%d\x01" % len(body)) + body
    return front + (total[0] if total else b"10=" + checksum(front) + SOH)


def fields_of(data: bytes) -> list[tuple[bytes, bytes]]:
    """The fields of bytes that end in SOH."""
    parts = (part.partition(b"=") for part in data.removesuffix(SOH).split(SOH))
    return [(tag, value) for tag, _, value in parts]


def fits(expected: bytes, value: bytes) -> bool:
    """Whether a value is the one that is written; `<TIME>` is any moment with milliseconds."""
    return bool(MOMENT.fullmatch(value)) if expected == b"<TIME>" else value == expected


def fault_in(expected: str, names: dict[str, str], got: bytes) -> str | None:
    """What is wrong with a message: its length, its sum, or the first field that is not the one that is written."""
    expected = named(expected, names)
    fields = fields_of(got)
    body = SOH.join(tag + b"=" + value for tag, value in fields[2:-1]) + SOH
    if got != framed(body):
        return "length or sum is wrong"
    wanted = fields_of(expected.encode().replace(b"|", SOH))
    heard = [fields[0], *fields[2:-1]]
    for (tag, text), (other, value) in zip(wanted, heard):
        if tag != other or not fits(text, value):
            return (b"%s=%s is not %s=%s" % (other, value, tag, text)).decode()
    return None if len(wanted) == len(heard) else "it has %d fields" % len(heard)
