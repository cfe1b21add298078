"""Takes messages of FIXT.1.1 out of a stream of bytes, and writes them."""

from __future__ import annotations

import re
from collections.abc import Sequence
from dataclasses import dataclass
from datetime import datetime, timezone

SOH = b"\x01"
LONGEST = 1 << 16  # bytes of a frame: what the gateway takes at most
BEGIN = re.compile(rb"8=FIXT\.1\.1\x019=([0-9]{1,6})\x01")
LONGEST_BEGIN = len(b"8=FIXT.1.1\x019=123456\x01")
TRAILER = len(b"10=123\x01")
NUMBER = re.compile(r"[0-9]{1,9}")
SESSION_KINDS = frozenset("A012345")  # MsgType (35) of FIX's session

Fields = Sequence[tuple[int, str]]


class NoFrame(Exception):
    """Bytes that begin no message of FIXT.1.1."""


@dataclass(frozen=True)
class Message:
    """One message, with its fields in their order."""

    raw: bytes
    fields: tuple[tuple[int, str], ...]

    def get(self, tag: int) -> str:
        """The first value of a field; empty where there is none."""
        return next((value for other, value in self.fields if other == tag), "")

    @property
    def kind(self) -> str:
        """MsgType (35)."""
        return self.get(35)

    @property
    def number(self) -> int:
        """MsgSeqNum (34); 0 where it is none."""
        return number_of(self.get(34)) or 0

    @property
    def is_again(self) -> bool:
        """PossDupFlag (43): it is sent again."""
        return self.get(43) == "Y"

    @property
    def is_of_session(self) -> bool:
        return self.kind in SESSION_KINDS

    @property
    def bars(self) -> str:
        """Its text with a bar for each SOH, without a password (554)."""
        text = self.raw.replace(SOH, b"|").decode("utf-8", "replace")
        return re.sub(r"\|554=[^|]*", "|554=***", text)


def message_of(raw: bytes) -> Message:
    """What a frame says; of what is no field the tag is 0."""
    return Message(raw, tuple(field_of(part) for part in raw.removesuffix(SOH).split(SOH)))


def field_of(part: bytes) -> tuple[int, str]:
    tag, equals, value = part.partition(b"=")
    text = value.decode("utf-8", "replace")
    return (int(tag), text) if equals and tag.isdigit() and len(tag) <= 9 else (0, text)


def number_of(text: str) -> int | None:
    """A number as the venue reads it, of 1 to 9 digits; None where the text is none."""
    return int(text) if NUMBER.fullmatch(text) else None


def now() -> str:
    """SendingTime (52) of this moment."""
    return time_text(datetime.now(timezone.utc))


def time_text(moment: datetime) -> str:
    """A UTCTimestamp to the millisecond."""
    return moment.strftime("%Y%m%d-%H:%M:%S.%f")[:-3]


def moment_of(text: str) -> datetime | None:
    """A UTCTimestamp to the millisecond or finer; None where it is none."""
    try:
        return datetime.strptime(text, "%Y%m%d-%H:%M:%S.%f")
    except ValueError:
        return None


def written(kind: str, sender: str, number: int, fields: Fields, again: Fields = ()) -> bytes:
    """A message to the venue. `again` stands in its header (43 and 122)."""
    head = [(35, kind), (49, sender), (56, "VENUE"), (34, str(number)), *again, (52, now())]
    body = b"".join(b"%d=%s\x01" % (tag, value.encode()) for tag, value in [*head, *fields])
    text = b"8=FIXT.1.1\x019=%d\x01" % len(body) + body
    return text + b"10=%03d\x01" % (sum(text) % 256)


class FrameStream:
    """The bytes of one direction of a connection."""

    def __init__(self) -> None:
        self._waiting = b""

    def take(self, data: bytes) -> list[Message]:
        """The messages that are whole with these bytes. Raises NoFrame where the first bytes that
        wait begin none.
        """
        self._waiting += data
        found: list[Message] = []
        try:
            while (end := self._end()) is not None:
                found.append(message_of(self._waiting[:end]))
                self._waiting = self._waiting[end:]
        except NoFrame:
            if not found:
                raise
        return found

    def rest(self) -> bytes:
        """What came of a message that is not whole; it is given away."""
        rest, self._waiting = self._waiting, b""
        return rest

    def _end(self) -> int | None:
        """Where the first message ends, if all of it is there."""
        begin = BEGIN.match(self._waiting)
        if begin is None:
            if len(self._waiting) >= LONGEST_BEGIN or not begins_frame(self._waiting):
                raise NoFrame(repr(self._waiting[:60]))
            return None
        end = begin.end() + int(begin[1]) + TRAILER
        if end > LONGEST:
            raise NoFrame("a message of %d bytes" % end)
        return end if len(self._waiting) >= end else None


def begins_frame(data: bytes) -> bool:
    """Whether bytes that are too few for a whole begin may become one."""
    head = b"8=FIXT.1.1\x019="
    return data.startswith(head) if len(data) >= len(head) else head.startswith(data)
