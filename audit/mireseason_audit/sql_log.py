"""What reading a log in SQLite and one in PostgreSQL have in common."""

import itertools
from abc import abstractmethod
from collections.abc import Iterator, Sequence
from typing import Any

from .faults import Unreadable
from .kept_rows import Given, kept_rows, own_rows
from .log import Log
from .records import (
    SOH,
    Carried,
    Checkpoint,
    ConnectionEvent,
    Entries,
    Entry,
    EntryRow,
    Kept,
    Messages,
    Outgoing,
    SealRow,
)
from .session_notes import RESET, Note, NotesByFirm

DOOR_FORM = 3  # of the tables: since it, a log says who connected
SEAL_FORM = 4  # since it, it is sealed and signed
EPOCH_FORM = 5  # since it, its sessions have what they keep, and not all that they sent
# Since it, checkpoints are numbered without a gap, one says where a day ended, and seals have notes.
END_FORM = 6
ENTRY = "SELECT place, term, moment, firm, number, line, before, hash, %s FROM entry"
DOOR_COLUMNS, NO_DOOR_COLUMNS = "received, connection", "NULL, NULL"
EVENT = (
    "SELECT place, term, moment, event, entry, number, firm, address, certificate, why, left_out,"
    " before, hash FROM connection"
)
EVENTS = EVENT + " ORDER BY place"
LOGONS = EVENT + " WHERE event = 'logon' AND firm = ? ORDER BY place"
CHECKPOINTS = """SELECT checkpoint.number, checkpoint.term, checkpoint.place, entry.hash,
    checkpoint.event, connection.hash, signature, %s FROM checkpoint
    LEFT JOIN entry ON entry.place = checkpoint.place
    LEFT JOIN connection ON connection.place = checkpoint.event %s ORDER BY checkpoint.number"""
END_COLUMNS, NO_END_COLUMNS = "is_end, checkpoint.seal, seal.hash", "0, 0, NULL"
END_JOIN = "LEFT JOIN seal ON seal.number = checkpoint.seal"
SEALS = "SELECT number, place, event%s FROM seal ORDER BY number"
NOTE_COLUMNS = ", notes, hash"
LAST_SEAL = "SELECT place, event FROM seal ORDER BY number DESC LIMIT 1"
LINES = "SELECT line FROM entry WHERE place > 0 ORDER BY place"
SENT = "SELECT number, place, bytes FROM sent WHERE firm = ? ORDER BY number"
OUTGOING = "SELECT number, sent, bytes FROM outgoing WHERE firm = ? ORDER BY number"
GIVEN = """SELECT sent.number, sent.bytes, told, entry.moment, entry.number FROM sent
    LEFT JOIN entry ON entry.place = sent.place WHERE sent.firm = ? AND sent.number >= ? ORDER BY sent.number"""
TOLD = "SELECT number, told FROM sent WHERE firm = ? AND told IS NOT NULL ORDER BY number"
LAST_CAME = "SELECT max(number) FROM entry WHERE firm = ? AND place > ?"
KEPT_ROWS = "SELECT number, sent, bytes, epoch, copy, dropped, type, moment FROM outgoing"
KEPT = KEPT_ROWS + " WHERE firm = ? ORDER BY epoch, number"
KEPT_OWN = KEPT_ROWS + " WHERE firm = ? AND sent IS NULL ORDER BY epoch, number"
TARGETS, EXPECTED = "SELECT firm, target FROM session", "SELECT firm, expected FROM session"
# The highest of each firm: of the session itself, or of what it keeps.
EPOCHS = """SELECT firm, max(epoch) FROM (SELECT firm, epoch FROM session
    UNION ALL SELECT firm, epoch FROM outgoing) AS kept GROUP BY firm"""
EXTENT = "SELECT count(*), min(place), max(place) FROM entry"
NUMBERS = "SELECT place, number FROM entry WHERE number IS NOT NULL AND place IN (%s)"
# From each firm to the next one by the index, since there are few and they have many rows.
FIRMS = """WITH RECURSIVE found(firm) AS (SELECT min(firm) FROM TABLE_ UNION ALL
    SELECT (SELECT min(firm) FROM TABLE_ WHERE firm > found.firm) FROM found
    WHERE found.firm IS NOT NULL) SELECT firm FROM found WHERE firm IS NOT NULL"""

Types = Sequence[set[type]]  # of each column, those that its values may have
NONE: type = type(None)
OLD_TYPES: Types = ({int}, {int}, {str}, {str, NONE}, {int, NONE}, {bytes}, {bytes}, {bytes})
DOOR_TYPES: Types = (*OLD_TYPES, {str}, {int, NONE})
NO_DOOR_TYPES: Types = (*OLD_TYPES, {NONE}, {NONE})
SENT_TYPES: Types = ({int}, {int}, {bytes})
OUTGOING_TYPES: Types = ({int}, {int, NONE}, {bytes})
KEPT_TYPES: Types = (*OUTGOING_TYPES, {int}, {int}, {int}, {str}, {str})

Rows = list[tuple[Any, ...]]
KEPT_AT_A_TIME = 128
NO_HASH = bytes(32)  # of a row that is not there


class SqlLog(Log):
    """One transaction over the tables of gateway/schema.sql."""

    @abstractmethod
    def blocks(self, query: str, *values: object) -> Iterator[Rows]:
        """The rows of a query, so many at a time; Unreadable where the database has a fault."""

    @staticmethod
    @abstractmethod
    def bytes_of(value: Any) -> bytes:
        """The bytes of a column."""

    def _take_form(self, form: int) -> None:
        """Sets what a log of this form has."""
        self.form = form
        self.has_door, self.has_seals = form >= DOOR_FORM, form >= SEAL_FORM
        self.has_epochs, self.numbers_checkpoints = form >= EPOCH_FORM, form >= END_FORM
        self.has_notes = form >= END_FORM
        self._of_firms: NotesByFirm | None = None

    def close(self, failed: bool = False) -> None:
        if self._of_firms is not None:
            self._of_firms.close()

    def rows(self, query: str, *values: object) -> Iterator[tuple[Any, ...]]:
        """The rows of a query, one by one."""
        for rows in self.blocks(query, *values):
            yield from rows

    def _query(self, rest: str) -> str:
        """A SELECT of entries."""
        columns = DOOR_COLUMNS if self.has_door else NO_DOOR_COLUMNS
        return "%s %s" % (ENTRY % columns, rest)

    def entry_blocks(self) -> Iterator[Entries]:
        return map(self._as_entries, self.blocks(self._query("ORDER BY place")))

    def came(self, firm: str) -> Iterator[Entry]:
        for rows in self.blocks(self._query("WHERE firm = ? ORDER BY place"), firm):
            yield from map(Entry._make, self._as_entries(rows).rows())

    def entry_at(self, place: int) -> Entry | None:
        for rows in self.blocks(self._query("WHERE place = ?"), place):
            return self._as_entries(rows).entry(0)
        return None

    def _as_entries(self, rows: Rows) -> Entries:
        """The rows with each column as it should be."""
        block = Entries.of(rows)
        if are_of(block, DOOR_TYPES if self.has_door else NO_DOOR_TYPES):
            return block
        return Entries.of(self._entry(*row) for row in rows)

    def _entry(
        self, place: int, term: int, moment: Any, firm: Any, number: int | None, *data: Any
    ) -> EntryRow:
        *texts, received, connection = data
        numbers = (one for one in (number, connection) if one is not None)
        check_numbers("entry", place, place, term, *numbers)
        line, before, hash_ = map(self.bytes_of, texts)
        if self.has_door:
            received = as_text(received)
        row = place, term, as_text(moment), text_or_none(firm), number, line, before, hash_
        return *row, received, connection

    def connection_events(self) -> Iterator[ConnectionEvent]:
        return (self._event(*row) for row in self.rows(EVENTS))

    def logons(self, firm: str) -> dict[int, ConnectionEvent]:
        events = (self._event(*row) for row in self.rows(LOGONS, firm)) if self.has_door else ()
        return {event.number: event for event in events if event.number is not None}

    def _event(self, *row: Any) -> ConnectionEvent:
        """An event with each column as it should be."""
        event = ConnectionEvent(*row)
        numbers = (event.term, event.entry, event.left_out)
        given = () if event.number is None else (event.number,)
        check_numbers("connection", event.place, event.place, *numbers, *given)
        return event._replace(
            moment=as_text(event.moment),
            event=as_text(event.event),
            firm=text_or_none(event.firm),
            address=as_text(event.address),
            certificate=text_or_none(event.certificate),
            why=text_or_none(event.why),
            before=self.bytes_of(event.before),
            hash=self.bytes_of(event.hash),
        )

    def checkpoints(self) -> Iterator[Checkpoint]:
        has_ends = self.numbers_checkpoints
        query = CHECKPOINTS % ((END_COLUMNS, END_JOIN) if has_ends else (NO_END_COLUMNS, ""))
        rows = self.rows(query) if self.has_seals else ()
        return (self._checkpoint(*row) for row in rows)

    def _checkpoint(
        self, number: int, term: int, place: int, hash_: Any, event: int, *data: Any
    ) -> Checkpoint:
        """A checkpoint with each column as it should be."""
        event_hash, signature, is_end, seal, notes_hash = data
        check_numbers("checkpoint", number, number, term, place, event, is_end, seal)
        hashes = hash_, event_hash, notes_hash
        entry, door, notes = (NO_HASH if one is None else self.bytes_of(one) for one in hashes)
        mark = self.bytes_of(signature)
        return Checkpoint(number, term, place, entry, event, door, mark, is_end != 0, seal, notes)

    def seals(self) -> Iterator[SealRow]:
        query = SEALS % (NOTE_COLUMNS if self.has_notes else "")
        for number, place, event, *notes in self.rows(query) if self.has_seals else ():
            check_numbers("seal", number, number, place, event)
            yield SealRow(number, place, event, *map(self.bytes_of, notes))

    def last_seal(self) -> tuple[int, int]:
        for place, event in self.rows(LAST_SEAL) if self.has_seals else ():
            check_numbers("seal", "of the end", place, event)
            return place, event
        return -1, 0

    def notes_hash_at(self, seal: int) -> bytes:
        rows = self.rows("SELECT hash FROM seal WHERE number = ?", seal) if self.has_notes else ()
        return next((self.bytes_of(hash_) for hash_, in rows), b"")

    def last_event(self) -> int:
        ((place,),) = self.rows("SELECT max(place) FROM connection") if self.has_door else ((0,),)
        return 0 if place is None else int(place)

    def event_hash_at(self, place: int) -> bytes:
        rows = self.rows("SELECT hash FROM connection WHERE place = ?", place)
        return next((self.bytes_of(hash_) for hash_, in rows), b"")

    def sent_blocks(self, firm: str) -> Iterator[Messages]:
        return self._messages(SENT, "sent", firm, SENT_TYPES)

    def outgoing_blocks(self, firm: str) -> Iterator[Carried]:
        if self.has_notes:
            return self._noted(firm)
        if self.has_epochs:
            return self._kept(firm)
        return self._messages(OUTGOING, "outgoing", firm, OUTGOING_TYPES)

    def own_messages(self, firm: str) -> Iterator[Outgoing]:
        if self.has_notes:
            yield from own_rows(firm, self.notes_of(firm))
        elif not self.has_epochs:
            yield from super().own_messages(firm)
        else:
            for block in self._kept(firm, KEPT_OWN):
                yield from map(Outgoing, itertools.repeat(firm), *block)

    def told_beside(self, firm: str) -> Iterator[tuple[int, bytes]]:
        if not self.has_notes:
            yield from super().told_beside(firm)
            return
        for number, told in self.rows(TOLD, firm):
            check_numbers("sent %s" % firm, number, number)
            yield number, SOH + bytes_in(told)

    def notes_of(self, firm: str) -> list[Note]:
        return list(self._notes().of(firm)) if self.has_notes else []

    def _notes(self) -> NotesByFirm:
        """All, once somebody asks."""
        if self._of_firms is None:
            self._of_firms = NotesByFirm(self.seals())
        return self._of_firms

    def _noted(self, firm: str) -> Iterator[Kept]:
        """What a firm's session keeps, by its notes."""
        rows = kept_rows(firm, self.notes_of(firm), lambda number: self._given(firm, number))
        while block := list(itertools.islice(rows, KEPT_AT_A_TIME)):
            columns = zip(*(row[1:] for row in block))
            yield Kept._make(columns)

    def _given(self, firm: str, first: int) -> Iterator[Given]:
        """What the venue gave for a firm, from a number on."""
        for number, data, told, moment, came in self.rows(GIVEN, firm, first):
            check_numbers("sent %s" % firm, number, number, *(() if came is None else (came,)))
            told = None if told is None else bytes_in(told)
            yield Given(number, self.bytes_of(data), told, text_or_none(moment), came)

    def _kept(self, firm: str, query: str = KEPT) -> Iterator[Kept]:
        """What a firm's session keeps."""
        for rows in self.blocks(query, firm):
            block = Kept._make(zip(*rows))
            if not are_of(block, KEPT_TYPES):
                for number, sent, _, *marks in rows:
                    values = (number, *marks[:3], *(() if sent is None else (sent,)))
                    check_numbers("outgoing %s" % firm, number, *values)
                block = block._replace(
                    bytes=tuple(map(self.bytes_of, block.bytes)),
                    kinds=tuple(map(as_text, block.kinds)),
                    moments=tuple(map(as_text, block.moments)),
                )
            yield block

    def _messages(self, query: str, table: str, firm: str, types: Types) -> Iterator[Messages]:
        """The messages of a firm, as rows of a table."""
        for rows in self.blocks(query, firm):
            numbers, others, data = zip(*rows)
            if not are_of((numbers, others, data), types):
                for number, other in zip(numbers, others):
                    may_lack = other is None and NONE in types[1]
                    values = (number,) if may_lack else (number, other)
                    check_numbers("%s %s" % (table, firm), number, *values)
                data = tuple(map(self.bytes_of, data))
            yield Messages(numbers, others, data)

    def line_blocks(self) -> Iterator[list[bytes]]:
        for rows in self.blocks(LINES):
            lines = [line for line, in rows]
            yield lines if are_of([lines], [{bytes}]) else list(map(self.bytes_of, lines))

    def places(self) -> Iterator[int]:
        return (row[0] for row in self.rows("SELECT place FROM entry ORDER BY place"))

    def last_place(self) -> int:
        ((place,),) = self.rows("SELECT max(place) FROM entry")
        return -1 if place is None else int(place)

    def hash_at(self, place: int) -> bytes:
        rows = self.rows("SELECT hash FROM entry WHERE place = ?", place)
        return next((self.bytes_of(hash_) for hash_, in rows), b"")

    def has_gaps(self) -> bool:
        ((count, first, last),) = self.rows(EXTENT)
        return (first, last) != (0, count - 1)

    def session_numbers(self, places: Sequence[int]) -> dict[int, int]:
        if not places:
            return {}
        query = NUMBERS % ", ".join("%d" % place for place in places)
        found = {}
        for place, number in self.rows(query):
            check_numbers("entry", place, number)
            found[place] = number
        return found

    def targets(self) -> dict[str, int]:
        if self.has_notes:
            return {firm: self._expected(firm) for firm in self._notes().firms()}
        found = {}
        for firm, target in self.rows(EXPECTED if self.has_epochs else TARGETS):
            check_numbers("session", as_text(firm), target)
            found[as_text(firm)] = target
        return found

    def _expected(self, firm: str) -> int:
        """Behind its last note, and behind the last message that came since its last reset."""
        expected, since = 1, -1
        for note in self.notes_of(firm):
            is_reset = note.kind == RESET
            expected, since = (1, note.last) if is_reset else (note.expected, since)
        ((last,),) = self.rows(LAST_CAME, firm, since)
        if last is not None:
            check_numbers("entry", firm, last)
        return expected if last is None else max(expected, int(last) + 1)

    def epochs(self) -> dict[str, int]:
        if self.has_notes:
            resets = {
                firm: sum(note.kind == RESET for note in self.notes_of(firm))
                for firm in self._notes().firms()
            }
            return resets
        found = {}
        for firm, epoch in self.rows(EPOCHS) if self.has_epochs else ():
            check_numbers("session", as_text(firm), epoch)
            found[as_text(firm)] = epoch
        return found

    def firms(self) -> set[str]:
        tables = ("sent",) if self.has_notes else ("sent", "outgoing")
        queries = [FIRMS.replace("TABLE_", table) for table in tables]
        return {as_text(firm) for query in queries for firm, in self.rows(query)}

    def last_number_of(self, firm: str) -> object:
        ((number,),) = self.rows("SELECT max(number) FROM sent WHERE firm = ?", firm)
        return number

    def count_of(self, firm: str) -> int:
        ((count,),) = self.rows("SELECT count(*) FROM sent WHERE firm = ?", firm)
        return int(count)


def are_of(columns: Any, types: Types) -> bool:
    """Whether each column has values of its types and no others."""
    return all(set(map(type, column)) <= wanted for column, wanted in zip(columns, types))


def form_of(name: str, rows: Rows, old: int) -> int:
    """The one row of the table `form`: the form of old logs in this database, or a later one."""
    forms = (old, DOOR_FORM, SEAL_FORM, EPOCH_FORM, END_FORM)
    for form in forms:
        if [tuple(row) for row in rows] == [(form,)] and type(rows[0][0]) is int:
            return form
    text = "%s: the form of its tables is none of %d, %d, %d, %d and %d"
    raise Unreadable(text % (name, *forms))


def check_numbers(table: str, row: object, *values: object) -> None:
    for value in values:
        if type(value) is not int:
            raise Unreadable("%s %s: %r stands where a number should" % (table, row, value))


def text_or_none(value: object) -> str | None:
    return None if value is None else as_text(value)


def bytes_in(value: object) -> bytes:
    """The bytes of a text; of what is none, of how it is written."""
    return as_text(value).encode("utf-8", "backslashreplace")


def as_text(value: object) -> str:
    """A text; of what is none, how it is written: no name and no time is like it."""
    return value if isinstance(value, str) else repr(value)
