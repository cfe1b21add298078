"""Checks what a session keeps against `sent`: the messages of the venue, each once and in their
order, and those of its own that it may have to send again.

A message is kept without the header that it leaves with: 35, and after it the translation of
gateway/README.md. Numbers have gaps: what a session does not send again (Logon, Heartbeat,
TestRequest, Logout) leaves under numbers of its own, and 1 is left for the answer to the first
Logon. An operator may have the numbers begin again: each such epoch begins with copies of what the
firm is not known to have.
"""

import re
from collections.abc import Callable, Iterator, Mapping

from .findings import Finding
from .frame import fault_of
from .records import Outgoing, Sent
from .wire import CARRIED, WireReader

HEADER = re.compile(rb"8=FIXT\.1\.1\x019=\d+\x0135=([^\x01]*)")
TIME = re.compile(r"([01][0-9]|2[0-3]):[0-5][0-9]:([0-5][0-9]|60)\.[0-9]{3}")
FIRST = 2  # number of a message that is kept
TYPE, NUMBER = rb"[0-9A-Za-z]{1,4}", rb"[0-9]{1,9}"
# What stands between 35 and 10 in the session's own messages: an answer to a TestRequest that had
# to wait, a Reject, and a BusinessMessageReject of what the gateway does not take.
OWN = {
    "0": re.compile(rb"112=[^\x01]{1,1024}"),
    "3": re.compile(rb"45=%b\x01(371=%b\x01)?(372=%b\x01)?373=%b" % (NUMBER, NUMBER, TYPE, NUMBER)),
    "j": re.compile(
        rb"45=%b\x01372=%b\x01(379=[^\x01]{1,200}\x01)?380=%b\x0158=[^\x01]{1,200}"
        % (NUMBER, TYPE, NUMBER)
    ),
}
REJECTS = ("3", "j")  # what a firm that begins with number 1 again is not sent any more
TRAILER_BYTES = len(b"\x0110=000\x01")


class KeptReader(WireReader):
    """Holds what one session keeps against what the venue gave for the firm."""

    header = HEADER

    def __init__(
        self,
        sent: Iterator[Sent],
        session_number: Callable[[int], int | None],
        reasons: Mapping[bytes, bytes] | None,
        kept: Callable[[], Iterator[Outgoing]],
    ) -> None:
        """kept reads the same messages from the beginning."""
        super().__init__(sent, session_number, reasons)
        self._kept = kept
        self._number = FIRST - 1
        self._epoch = 0
        self._originals: Iterator[Outgoing] = iter(())  # of the copies of this epoch
        self._carried = 0  # the venue's number of the last message that is carried
        self._copied: int | None = None  # that of the last copy, while copies come

    def take(self, row: Outgoing) -> Finding | None:
        self.note = b""
        fault = self._place_fault(row) or mark_fault(row) or form_fault(row)
        if fault is not None:
            text = "message %d of its session: %s" % (row.number, fault)
            return Finding(row.firm, text, found=row.bytes)
        self._begin(row)
        if row.copy:
            return self._copy_finding(row)
        finding = self._uncopied(row.firm)
        if finding is not None or row.sent is None:
            return finding
        self._carried = row.sent
        finding = self._carried_finding(row)
        self._expected = next(self._waiting, None)
        return finding

    def rest(self, firm: str) -> Finding | None:
        return self._uncopied(firm) or super().rest(firm)

    def _place_fault(self, row: Outgoing) -> str | None:
        """What is wrong with its number and its epoch."""
        before = self._number if row.epoch == self._epoch else FIRST - 1
        if row.epoch < self._epoch:
            return "its epoch is %d" % row.epoch
        if row.number <= before:
            return "it comes after %d" % before
        return None

    def _begin(self, row: Outgoing) -> None:
        """Goes on with a message, perhaps the first of an epoch."""
        if row.epoch != self._epoch:
            self._originals = self._kept()
            self._copied = row.sent - 1 if row.copy and row.sent is not None else None
        self._epoch, self._number = row.epoch, row.number

    def _copy_finding(self, row: Outgoing) -> Finding | None:
        """Copies are the last messages of the venue in the epoch before, in their order."""
        text = "message %d of its session" % row.number
        if self._copied is None:
            return Finding(
                row.firm, text + ": a copy stands after a message that is none", found=row.bytes
            )
        if row.sent != self._copied + 1:
            text += " copies number %s where %d comes next" % (row.sent, self._copied + 1)
            return Finding(row.firm, text, found=row.bytes)
        self._copied = row.sent
        original = self._original(row)
        if original is not None and (original.bytes, original.moment) == (row.bytes, row.moment):
            return None
        text += " is no copy of the one that carried number %d" % row.sent
        given = None if original is None else original.bytes
        return Finding(row.firm, text, None, None, given, row.bytes, "it was", "the session has")

    def _original(self, row: Outgoing) -> Outgoing | None:
        """What a copy was in the epoch before."""
        for one in self._originals:
            if one.epoch >= row.epoch:
                return None
            if (one.epoch, one.sent) == (row.epoch - 1, row.sent):
                return one
        return None

    def _uncopied(self, firm: str) -> Finding | None:
        """Where copies end before the last message that is carried."""
        copied, self._copied = self._copied, None
        if copied is None or copied == self._carried:
            return None
        text = "the numbers of its session began again, and number %d was not copied"
        return Finding(firm, text % (copied + 1))


def mark_fault(row: Outgoing) -> str | None:
    """What is wrong with what is said of a message."""
    if row.copy not in (0, 1) or row.dropped not in (0, 1) or row.epoch < 0:
        return "it has marks %d, %d and epoch %d" % (row.copy, row.dropped, row.epoch)
    if row.copy and (row.sent is None or row.epoch == 0):
        return "it is a copy of nothing"
    if row.dropped and (row.sent is not None or row.kind not in REJECTS):
        return "it was dropped, and a session drops no such message"
    if not TIME.fullmatch(row.moment or ""):
        return "it was kept at %s, which is no time" % row.moment
    return None


def form_fault(row: Outgoing) -> str | None:
    """What is wrong with the bytes of a message."""
    fault = fault_of(row.bytes)
    if fault is not None:
        return fault
    header = HEADER.match(row.bytes)
    if header is None or header[1] != row.kind.encode():
        return "its 35 is not %s" % row.kind
    if row.sent is not None:
        return None
    own = OWN.get(row.kind)
    if CARRIED in row.bytes:
        return "it carries what the log does not say"
    if own is None or not own.fullmatch(row.bytes[header.end() + 1 : -TRAILER_BYTES]):
        return "it carries nothing, and a session keeps no such message of its own"
    return None
