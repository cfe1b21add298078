"""Checks a session's messages of the venue against `sent`: it reads back the translation of
gateway/README.md.

A message on the wire has the venue's number in ApplSeqNum (1181), first after the header, and
its moment in TransactTime (60), whose place depends on the type; the rest of its body is the
venue's, byte for byte. On a day that gives notes a message may have one field more, after all
others: Text (58) with the words of a reason, or TradeID (1003). The replay says whether that is
what the venue notes beside the message.
"""

import re
from collections.abc import Callable, Iterator, Mapping
from typing import NamedTuple

from .differing import FRAME as FRAME_TAGS
from .differing import differing
from .findings import Finding
from .frame import CHECKSUM_BYTES, fault_of, fields_of
from .records import SOH, Outgoing, Sent

IN_FRONT_OF = {b"S": b"\x01537=", b"AI": b"\x01297=", b"R": b"\x01453="}  # where 60 stands
REJECT = b"3"
HEADER_TAGS = FRAME_TAGS | {34, 43, 49, 52, 56, 97, 122}  # the session's own
OWN = re.compile(rb"8=FIXT\.1\.1\x019=\d+\x0135=[0-5A]\x01")  # what a session sends of itself
REFERS = b"\x0145="
CARRIED = b"\x011181="
WHY, TRADE = b"\x0158=", b"\x011003="
TOLD = (WHY, TRADE)
TRADE_FIELD = re.compile(rb"\x011003=[!-~]{1,40}")
# The header of a message that carries one of the venue's: 35, 34, 49, 52, 56, and no other field.
HEADER = re.compile(
    rb"8=FIXT\.1\.1\x019=\d+\x0135=([^\x01]*)\x0134=(\d+)\x0149=([^\x01]*)\x0152=[^\x01]*"
    rb"\x0156=([^\x01]*)"
)


class Parts(NamedTuple):
    """What the translation looks at in a frame of the venue."""

    kind: bytes
    number: bytes
    moment: bytes
    body: bytes  # all fields after 52, with an SOH before each and none after the last


FRAME = re.compile(
    rb"8=FIXT\.1\.1\x019=\d+\x0135=([^\x01]*)\x0149=[^\x01]*\x0156=[^\x01]*"
    rb"\x0134=([^\x01]*)\x0152=([^\x01]*)(.*)\x0110=\d{3}\x01\Z",
    re.DOTALL,
)


def parts_of(frame: bytes) -> Parts | None:
    """A frame that begins with 8, 9, 35, 49, 56, 34 and 52."""
    found = FRAME.match(frame)
    return Parts(*found.groups()) if found else None


def carried(parts: Parts, session_number: int | None, told: bytes = b"") -> bytes:
    """What stands from 1181 to the last field of the message that carries a frame of the venue,
    with a field that tells the firm what is noted beside it, if there is one.
    """
    body = parts.body
    if parts.kind == REJECT and session_number is not None:
        body = with_number(body, session_number)
    before = IN_FRONT_OF.get(parts.kind)
    at = body.find(before) if before else -1
    if at < 0:
        at = len(body)
    return CARRIED + parts.number + body[:at] + b"\x0160=" + parts.moment + body[at:] + told


def told_in(body: bytes, parts: Parts) -> bytes:
    """The field of what carries a frame of the venue that tells what is noted beside that, with an
    SOH before it; empty where there is none.
    """
    for tag in TOLD:
        _, found, rest = body.partition(tag)
        if found and tag not in parts.body:
            return tag + rest.partition(SOH)[0]
    return b""


def with_number(body: bytes, session_number: int) -> bytes:
    """The body of a Reject with the session's number in RefSeqNum (45)."""
    if not body.startswith(REFERS):
        return body
    _, soh, rest = body[1:].partition(SOH)
    return REFERS + b"%d" % session_number + soh + rest


def header_fault(data: bytes, number: int, firm: str, carries: bool) -> str | None:
    """What is wrong with a message of a session, whatever it carries."""
    fault = fault_of(data)
    if fault is not None:
        return fault
    header = HEADER.match(data)
    if header is not None:
        found = header.group(2, 3, 4)
    else:  # a message of the session itself may have other fields between them
        firsts = fields_of(data).firsts
        found = firsts.get(34), firsts.get(49), firsts.get(56)
    if found[0] != b"%d" % number:
        return "its 34 is another"
    if found[1:] != (b"VENUE", firm.encode()):
        return "it is not of the venue for this firm"
    if not carries and CARRIED in data:
        return "it carries what the log does not say"
    if not carries and not OWN.match(data):
        return "it carries nothing, and a session sends no such message of itself"
    return None


class WireReader:
    """Holds the messages of one session against what the venue gave for the firm."""

    header = HEADER  # of a message that carries one of the venue's, with its 35 as the first group

    def __init__(
        self,
        sent: Iterator[Sent],
        session_number: Callable[[int], int | None],
        reasons: Mapping[bytes, bytes] | None = None,
    ) -> None:
        """reasons has the names by their words, on a day that gives notes."""
        self._session_number = session_number  # of the message of an entry
        self._reasons = reasons or {}
        self._waiting = sent
        self._expected = next(sent, None)
        self._number = 0  # of the message that was taken last
        self.note = b""  # the line that the venue has to print beside the last message, or none

    def take(self, row: Outgoing) -> Finding | None:
        """What is wrong with the next message."""
        self._number += 1
        self.note = b""
        if row.number != self._number:
            text = "its session has no message %d; %d comes"
            return Finding(row.firm, text % (self._number, row.number))
        fault = header_fault(row.bytes, self._number, row.firm, row.sent is not None)
        if fault is not None:
            text = "message %d of its session: %s" % (row.number, fault)
            return Finding(row.firm, text, found=row.bytes)
        if row.sent is None:
            return None
        finding = self._carried_finding(row)
        self._expected = next(self._waiting, None)
        return finding

    def rest(self, firm: str) -> Finding | None:
        """What no message carried."""
        if self._expected is None:
            return None
        where = self._expected.place, self._expected.number
        return Finding(firm, "no message of its session carries it", *where)

    def _carried_finding(self, row: Outgoing) -> Finding | None:
        """Holds a message that carries one of the venue's against that."""
        expected = self._expected
        text = "message %d of its session carries number %s" % (row.number, row.sent)
        if expected is None:
            return Finding(row.firm, text + ", which the venue did not give", found=row.bytes)
        where = expected.place, expected.number
        if row.sent != expected.number:
            return Finding(row.firm, text + " where %d comes next" % expected.number, *where)
        if self._carries(row.bytes, expected):
            return None
        text = "message %d of its session carries another text" % row.number
        return Finding(
            row.firm,
            text,
            *where,
            expected.bytes,
            row.bytes,
            "`sent` has",
            "the session has",
            differing=self._differing(row.bytes, expected),
        )

    def _differing(self, data: bytes, expected: Sent) -> str:
        """In which fields of its body a message is another than what it should carry."""
        parts = parts_of(expected.bytes)
        if parts is None:
            return ""
        number = self._session_number(expected.place) if parts.kind == REJECT else None
        should = b"35=" + parts.kind + carried(parts, number)
        return differing(should, data, HEADER_TAGS, "%s in `sent`, %s left")

    def _carries(self, data: bytes, expected: Sent) -> bool:
        parts = parts_of(expected.bytes)
        if parts is None:
            return False
        head, mark, rest = data.partition(CARRIED)
        header = self.header.fullmatch(head)
        if header is None or header[1] != parts.kind:
            return False
        number = self._session_number(expected.place) if parts.kind == REJECT else None
        body = mark + rest[: -CHECKSUM_BYTES - 1]
        if body == carried(parts, number):
            return True
        told = told_in(body, parts) if self._reasons else b""
        self.note = self._note(told, expected)
        return bool(self.note) and body == carried(parts, number, told)

    def _note(self, told: bytes, expected: Sent) -> bytes:
        """The note that a field tells; empty where it tells none."""
        about = b"%b %d " % (expected.firm.encode(), expected.number)
        if TRADE_FIELD.fullmatch(told):
            return b"trade " + about + told.removeprefix(TRADE)
        name = self._reasons.get(told.removeprefix(WHY), b"")
        return b"why " + about + name if name else b""
