"""Reads and writes frames of FIXT.1.1: bytes into fields, and fields into bytes."""

import re
from collections.abc import Callable, Iterable
from functools import lru_cache
from zlib import adler32

from .records import SOH

START = re.compile(rb"8=FIXT\.1\.1\x019=([0-9]{1,6})\x01")
CHECKSUM_BYTES = 7  # 10=ccc and its SOH
LONGEST = 4096  # bytes of a message that the venue reads
TAG = re.compile(rb"[1-9][0-9]{0,8}")
NUMBER = re.compile(r"[0-9]{1,9}")
DIRECTION = re.compile("[\u061c\u200e\u200f\u202a-\u202e\u2066-\u2069]")


class Fields(list[tuple[int, bytes]]):
    """The fields of a message, in their order, and the first value of each tag."""

    def __init__(self, fields: Iterable[tuple[int, bytes]] = ()) -> None:
        super().__init__(fields)
        self.firsts: dict[int, bytes] = dict(reversed(self))


def fields_of(data: bytes) -> Fields:
    """All fields; of what is no field (no tag, no equals sign) the tag is 0."""
    parts = data.removesuffix(SOH).split(SOH)
    read = kept_field_of if len(data) <= LONGEST else field_of
    return Fields(map(read, parts))


def field_of(part: bytes) -> tuple[int, bytes]:
    """One field."""
    text, equals, value = part.partition(b"=")
    return (int(text), value) if equals and TAG.fullmatch(text) else (0, part)


# The same; most of a message's fields stand in many others.
kept_field_of: Callable[[bytes], tuple[int, bytes]] = lru_cache(maxsize=1 << 14)(field_of)


def text_of(fields: Fields, tag: int) -> str:
    """The first value of a tag as text; empty where there is none."""
    value = fields.firsts.get(tag)
    return "" if value is None else value.decode("utf-8", "replace")


def number_in(text: str) -> int | None:
    """A number as the venue reads one: up to nine digits; None where the text is none."""
    return int(text) if NUMBER.fullmatch(text) else None


def sum_of(data: bytes) -> int:
    """The sum of all bytes modulo 256.

    The lower half of an Adler-32 is one more than the sum, as long as that is below 65,521, and so
    of up to 256 bytes. It is many times faster than `sum`, and a day has a million messages.
    """
    if len(data) <= 256:
        return (adler32(data) - 1) % 256
    return sum(adler32(data[at : at + 256]) - 1 for at in range(0, len(data), 256)) % 256


def framed(fields: Iterable[tuple[int, bytes]]) -> bytes:
    """The frame of the fields of a body, MsgType (35) first."""
    return frame_of(b"".join(b"%d=%s\x01" % field for field in fields))


def frame_of(body: bytes) -> bytes:
    """The frame of a body, which begins with 35 and ends with an SOH."""
    head = b"8=FIXT.1.1\x019=%d\x01" % len(body) + body
    return head + b"10=%03d\x01" % sum_of(head)


def fault_of(data: bytes) -> str | None:
    """What is wrong with a frame's length or sum; None where nothing is."""
    found = START.match(data)
    if found is None:
        return "it does not begin as a frame of FIXT.1.1"
    if len(data) - found.end() - CHECKSUM_BYTES != int(found[1]):
        return "its length is not the one that it says"
    if data[-CHECKSUM_BYTES:] != b"10=%03d\x01" % sum_of(data[:-CHECKSUM_BYTES]):
        return "its sum is not the one that it says"
    return None


def printable(text: str) -> str:
    """A text as one line: an escape for what is not printable, a line feed too."""
    if text.isprintable():
        return text
    return "".join(one if one.isprintable() else escaped(one) for one in text)


def directed(text: str) -> str:
    """A text whose letters stand in their order: a code for what would change their direction."""
    return DIRECTION.sub(lambda found: escaped(found[0]), text)


def escaped(letter: str) -> str:
    return letter.encode("unicode_escape").decode("ascii")


def barred(data: bytes) -> str:
    """Bytes as text: a vertical bar for each SOH, an escape for what is not printable."""
    if data.isascii():
        text = data.decode("ascii").replace("\x01", "|")
        if text.isprintable():
            return text
    return "".join(
        "|" if byte == 1 else chr(byte) if 0x20 <= byte < 0x7F else "\\x%02x" % byte
        for byte in data
    )
