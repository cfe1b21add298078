"""Checks who was at the door: what happened to connections, and on which one each message came.

Messages and events each have an order of their own, and each event says after which entry it
happened. So the audit reads the two side by side: a message has to stand between the Logon and the
end of the connection that it came on. Only the two orders count for that, and no clock.
"""

import re
from collections.abc import Iterator
from dataclasses import dataclass, field
from hashlib import sha256

from .findings import Finding
from .records import ConnectionEvent, Entry

NO_HASH = bytes(32)
EXACT = re.compile(r"[0-2][0-9]:[0-5][0-9]:[0-5][0-9]\.[0-9]{6}")
MILLISECOND = 12  # how many characters of an exact time name its millisecond
LOGON, END, REFUSED, STRANGER, LEFT_OUT = "logon", "end", "refused", "stranger", "left out"
HAS_NUMBER, HAS_FIRM = (LOGON, END), (LOGON, END, REFUSED)
DOOR = "door"  # where a finding is


def event_hash(event: ConnectionEvent) -> bytes:
    """The hash that an event must have, from its other columns."""
    texts = (event.event, event.address, event.certificate, event.why)
    data = [None if text is None else text.encode() for text in texts]
    lengths = " ".join("-" if one is None else "%d" % len(one) for one in data)
    number = "-" if event.number is None else event.number
    head = (
        f"{event.before.hex()} {event.place} {event.term} {event.moment} {event.entry} {number} "
        f"{event.firm or '-'} {event.left_out} {lengths}\n"
    )
    return sha256(head.encode() + b"".join(one or b"" for one in data)).digest()


@dataclass
class Door:
    """What one pass over the events found."""

    events: int = 0
    connections: int = 0
    last: bytes = NO_HASH  # the hash of the last event
    firms: set[str] = field(default_factory=set)  # that events name
    findings: list[Finding] = field(default_factory=list)


class DoorReader:
    """Takes all entries, and the events between them. Of each kind of fault the first is told."""

    def __init__(self, events: Iterator[ConnectionEvent]) -> None:
        self.found = Door()
        self._events = events
        self._next = next(events, None)
        self._before: ConnectionEvent | None = None
        self._moment, self._place = "", -1  # of the last entry
        self._open: dict[str, ConnectionEvent] = {}  # of each firm, the Logon of its connection
        self._receipts: dict[str, str] = {}  # the last one on it
        self._firms: dict[int, str] = {}  # of each connection that there was
        self._last_number = 0
        self._told: set[str] = set()

    def take(self, entry: Entry) -> None:
        """The next entry, and first the events before it."""
        while self._next is not None and self._next.entry < entry.place:
            self._take_event(self._next)
            self._next = next(self._events, None)
        self._take_entry(entry)
        self._moment, self._place = entry.moment, entry.place

    def end(self) -> Door:
        """The events behind the last entry."""
        while self._next is not None:
            event = self._next
            if event.entry > self._place:
                text = "it stands after entry %d, and the last one is %d"
                self._tell_event("behind", event, text % (event.entry, self._place))
            self._take_event(event)
            self._next = next(self._events, None)
        return self.found

    def _tell(self, kind: str, finding: Finding) -> None:
        if kind not in self._told:
            self._told.add(kind)
            self.found.findings.append(finding)

    def _tell_event(self, kind: str, event: ConnectionEvent, text: str) -> None:
        self._tell("row " + kind, Finding(DOOR, "row %d: %s" % (event.place, text)))

    def _tell_entry(self, kind: str, entry: Entry, text: str) -> None:
        self._tell(kind, Finding("entries", text, place=entry.place, named_items=(DOOR,)))

    # ------------------------------------------------------------ entries

    def _take_entry(self, entry: Entry) -> None:
        received = entry.received or ""
        if not EXACT.fullmatch(received):
            self._tell_entry("exact", entry, "it was received at %s, which is no time" % received)
        elif entry.number is None:
            self._check_made(entry, received)
        else:
            self._check_received(entry, received)
        if entry.number is None and entry.connection is not None:
            text = "it has connection %d, and is no message that came"
            self._tell_entry("no message", entry, text % entry.connection)
        elif entry.number is not None:
            self._check_connection(entry)

    def _check_made(self, entry: Entry, received: str) -> None:
        """What the gateway made itself it made at that moment."""
        if received[:MILLISECOND] != entry.moment:
            text = "it was made at %s, and its moment is %s"
            self._tell_entry("made", entry, text % (received, entry.moment))

    def _check_received(self, entry: Entry, received: str) -> None:
        if received[:MILLISECOND] > entry.moment:
            text = "it was received at %s, after its moment %s"
            self._tell_entry("received", entry, text % (received, entry.moment))
        if entry.firm is None:
            return
        last = self._receipts.get(entry.firm, "")
        if received < last:
            text = "it was received at %s, and what came before it on its connection at %s"
            self._tell_entry("falls", entry, text % (received, last))
        self._receipts[entry.firm] = max(received, last)

    def _check_connection(self, entry: Entry) -> None:
        """A message has to come on the connection that its firm has."""
        logon = None if entry.firm is None else self._open.get(entry.firm)
        if entry.connection is not None and logon and logon.number == entry.connection:
            return
        text = "number %d of %s's session came on %s"
        words = self._words_of(entry.connection, entry.firm)
        self._tell_entry("connection", entry, text % (entry.number or 0, entry.firm, words))

    def _words_of(self, number: int | None, firm: str | None) -> str:
        """A connection that is not the one on which a firm's message has to come."""
        if number is None:
            return "no connection"
        owner = self._firms.get(number)
        if owner is None:
            return "connection %d, and no Logon was accepted on that before it" % number
        if owner != firm:
            return "connection %d, which is %s's" % (number, owner)
        return "connection %d, which had ended" % number

    # ------------------------------------------------------------ events

    def _take_event(self, event: ConnectionEvent) -> None:
        self._check_order(event)
        self._check_times(event)
        self._check_columns(event)
        self._follow(event)
        found = self.found
        found.events += 1
        found.last = event.hash
        if event.firm is not None:
            found.firms.add(event.firm)
        self._before = event

    def _check_order(self, event: ConnectionEvent) -> None:
        before = self._before
        place = 1 if before is None else before.place + 1
        if event.place != place:
            text = "row %d is missing: in its place comes %d" % (place, event.place)
            self._tell("row order", Finding(DOOR, text))
        if event.hash != event_hash(event):
            text = "it was changed: its SHA-256 is another than it says"
            self._tell_event("hash", event, text)
        elif event.before != (NO_HASH if before is None else before.hash):
            text = "it does not follow on the row before it, as that is now"
            self._tell_event("before", event, text)
        if before is not None and event.entry < before.entry:
            text = "it stands after entry %d, and the row before it after %d"
            self._tell_event("entry", event, text % (event.entry, before.entry))
        if before is not None and event.term < before.term:
            text = "its term %d is before %d, that of the row before it"
            self._tell_event("term", event, text % (event.term, before.term))

    def _check_times(self, event: ConnectionEvent) -> None:
        """An event is not before an event or an entry in front of it. The entry behind it may have an
        earlier moment: that of its receipt, since when it has waited for its turn.
        """
        before = "" if self._before is None else self._before.moment
        if not EXACT.fullmatch(event.moment):
            self._tell_event("exact", event, "its moment %s is no time" % event.moment)
        elif event.moment < before:
            text = "its moment %s is before %s, that of the row before it"
            self._tell_event("moment", event, text % (event.moment, before))
        elif event.moment[:MILLISECOND] < self._moment:
            text = "its moment %s is before %s, that of entry %d, after which it stands"
            words = text % (event.moment, self._moment, event.entry)
            self._tell_event("moment of entry", event, words)

    def _check_columns(self, event: ConnectionEvent) -> None:
        """Which columns each event has."""
        if event.event not in (LOGON, END, REFUSED, STRANGER, LEFT_OUT):
            self._tell_event("event", event, "it is `%s`, and there is no such event" % event.event)
            return
        for column, is_there, should in (
            ("number", event.number is not None, event.event in HAS_NUMBER),
            ("firm", event.firm is not None, event.event in HAS_FIRM),
            ("why", event.why is not None, event.event != LOGON),
        ):
            if is_there != should:
                text = "it is `%s`, %s %s" % (event.event, "without" if should else "with", column)
                self._tell_event("columns", event, text)

    def _follow(self, event: ConnectionEvent) -> None:
        """What an event changes of which connection each firm has."""
        if event.firm is None or event.number is None:
            return
        if event.event == LOGON:
            self._begin(event, event.firm, event.number)
        elif event.event == END:
            self._end(event, event.firm, event.number)

    def _begin(self, event: ConnectionEvent, firm: str, number: int) -> None:
        if number <= self._last_number:
            text = "connection %d comes after connection %d"
            self._tell_event("number", event, text % (number, self._last_number))
        self._last_number = max(self._last_number, number)
        before = self._open.get(firm)
        if before is not None:
            text = "connection %d of %s begins, and its connection %d has not ended"
            self._tell_event("two", event, text % (number, firm, before.number or 0))
        self._open[firm] = event
        self._firms[number] = firm
        self._receipts.pop(firm, None)
        self.found.connections += 1

    def _end(self, event: ConnectionEvent, firm: str, number: int) -> None:
        logon = self._open.get(firm)
        if logon is None or logon.number != number:
            text = "connection %d of %s ends, and it has no such connection" % (number, firm)
            self._tell_event("end", event, text)
            return
        if (logon.address, logon.certificate) != (event.address, event.certificate):
            text = "connection %d ends as that of %s, and began as that of %s"
            self._tell_event("peer", event, text % (number, event.peer, logon.peer))
        last = self._receipts.get(firm, "")
        if event.moment < last:
            text = "connection %d ends at %s, and a message came on it at %s"
            self._tell_event("end", event, text % (number, event.moment, last))
        del self._open[firm]
