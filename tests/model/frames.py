"""Frames of FIXT.1.1, streams of them, dates and moments.

A frame is 8=FIXT.1.1|9=L|, a body of L bytes, and 10=ccc| (a vertical bar stands for the byte 0x01).
A body is read as a list of (tag, value), the tag a number, the value bytes.
"""

from __future__ import annotations

import re

SOH = b"\x01"
START = b"8=FIXT.1.1" + SOH + b"9="
LONGEST = 4096
TRAILER = 7  # 10=ccc|
TAG = re.compile(rb"[1-9][0-9]{0,8}\Z")
FRAMING_TAGS = (8, 9, 10)


# ---------------------------------------------------------------- frames


def read_fields(body: bytes, divider: bytes) -> list[tuple[int, bytes]] | None:
    """The fields of a text in which each is ended by the divider, or None where one is not lawful."""
    if not body.endswith(divider):
        return None
    fields = []
    for part in body[: -len(divider)].split(divider):
        tag, equals, value = part.partition(b"=")
        if not equals or not TAG.match(tag) or int(tag) in FRAMING_TAGS:
            return None
        fields.append((int(tag), value))
    return fields


def checksum(data: bytes) -> bytes:
    return b"%03d" % (sum(data) % 256)


def read_frame(data: bytes) -> list[tuple[int, bytes]] | None:
    """The fields of the body, or None where the bytes are no frame."""
    if len(data) > LONGEST or not data.startswith(START):
        return None
    length, end, rest = data[len(START) :].partition(SOH)
    if not end or not re.match(rb"[0-9]{1,6}\Z", length) or len(rest) != int(length) + TRAILER:
        return None
    body, trailer = rest[:-TRAILER], rest[-TRAILER:]
    fields = read_fields(body, SOH)
    if not fields or fields[0][0] != 35:
        return None
    if not re.match(rb"10=[0-9]{3}\x01\Z", trailer):
        return None
    if trailer[3:6] != checksum(data[:-TRAILER]):
        return None
    return fields


def write_frame(fields: list[tuple[int, bytes]]) -> bytes:
    body = b"".join(b"%d=%s" % (tag, value) + SOH for tag, value in fields)
    head = START + b"%d" % len(body) + SOH + body
    return head + b"10=" + checksum(head) + SOH


# ---------------------------------------------------------------- streams


class StreamFault(Exception):
    """Start, Length, TooLong or End."""


class Stream:
    """Cuts the bytes of one firm into messages; what is behind the last one waits."""

    def __init__(self, rest: bytes = b"") -> None:
        self.rest = rest

    def feed(self, piece: bytes) -> tuple[list[bytes], Stream]:
        """The messages that the piece ends, and the stream behind them; StreamFault where a byte shows one."""
        rest, messages = self.rest + piece, []
        while True:
            length = self.message_length(rest)
            if length is None or len(rest) < length:
                break
            trailer = rest[length - TRAILER : length]
            if not re.match(rb"10=[0-9]{3}\x01\Z", trailer):
                raise StreamFault("End")
            messages.append(rest[:length])
            rest = rest[length:]
        return messages, Stream(rest)

    @staticmethod
    def message_length(data: bytes) -> int | None:
        """The length of the message that begins here, or None where it is not told yet."""
        if data[: len(START)] != START[: len(data)]:
            raise StreamFault("Start")
        digits = data[len(START) :]
        count = 0
        while count < len(digits) and digits[count : count + 1].isdigit():
            count += 1
        if count > 6:
            raise StreamFault("Length")
        if count == len(digits):
            return None
        if digits[count : count + 1] != SOH or count == 0:
            raise StreamFault("Length")
        length = len(START) + count + 1 + int(digits[:count]) + TRAILER
        if length > LONGEST:
            raise StreamFault("TooLong")
        return length


# ---------------------------------------------------------------- dates and moments


def is_date(text: bytes) -> bool:
    """Eight digits, month 01 to 12, day 01 to 31 in any month."""
    if not re.match(rb"[0-9]{8}\Z", text):
        return False
    return 1 <= int(text[4:6]) <= 12 and 1 <= int(text[6:8]) <= 31


def read_time(text: bytes) -> int | None:
    """The millisecond of the day that HH:MM:SS or HH:MM:SS.sss tells, or None."""
    found = re.match(rb"([0-9]{2}):([0-9]{2}):([0-9]{2})(?:\.([0-9]{3}))?\Z", text)
    if not found:
        return None
    hours, minutes, seconds, thousandths = (int(part or 0) for part in found.groups())
    if hours > 23 or minutes > 59 or seconds > 59:
        return None
    return ((hours * 60 + minutes) * 60 + seconds) * 1000 + thousandths


def time_text(moment: int) -> bytes:
    seconds, thousandths = divmod(moment, 1000)
    minutes, seconds = divmod(seconds, 60)
    return b"%02d:%02d:%02d.%03d" % (minutes // 60, minutes % 60, seconds, thousandths)


def moment_text(date: bytes, moment: int) -> bytes:
    return date + b"-" + time_text(moment)
