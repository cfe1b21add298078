"""Changes a log by hand, as anybody with its file could. A seed draws the changes, each with the place
at which the audit must find it.
"""

import hashlib
import random
import re
import sqlite3
from collections.abc import Callable
from contextlib import closing
from dataclasses import dataclass
from pathlib import Path
from typing import Any

Row = tuple[int, int, str, str | None, int | None, bytes, bytes, bytes, str, int | None]
COLUMNS = "place, term, moment, firm, number, line, before, hash, received, connection"
ENTRIES = "SELECT %s FROM entry ORDER BY place" % COLUMNS
CARRIED = "SELECT firm, number, sent FROM outgoing WHERE sent IS NOT NULL"
LAST_OF = "SELECT max(number) FROM outgoing WHERE firm = ?"

# What the report has to have.
CHANGED = r"entries: entry %d: it was changed"
ANOTHER = r"%s: entry %d, number %d: the log has another message"


@dataclass(frozen=True)
class Change:
    """What was done, and a pattern that the audit's report has to have."""

    what: str
    pattern: str
    needs_seal: bool = False  # the log is whole without its seal


def hash_of(row: Row, before: bytes) -> bytes:
    """The hash of a row as gateway/schema.sql has it."""
    place, term, moment, firm, number, line, _, _, received, connection = row
    parts = [before.hex(), place, term, moment, received, firm or "-", number or "-"]
    parts += [connection or "-", len(line)]
    return hashlib.sha256(" ".join(map(str, parts)).encode() + b"\n" + line).digest()


def changed_byte(data: bytes, draw: random.Random, first: int = 0) -> bytes:
    at = draw.randrange(first, len(data))
    return data[:at] + bytes([data[at] ^ draw.randrange(1, 256)]) + data[at + 1 :]


def framed(body: bytes) -> bytes:
    """The frame of a body that has a bar for each SOH."""
    head = b"8=FIXT.1.1\x019=%d\x01" % len(body) + body.replace(b"|", b"\x01")
    return head + b"10=%03d\x01" % (sum(head) % 256)


class Tamperer:
    """Changes one log."""

    def __init__(self, path: Path, draw: random.Random) -> None:
        self.connection = sqlite3.connect(path, isolation_level=None)
        self.draw = draw

    def rows(self, query: str, *values: object) -> list[Any]:
        return self.connection.execute(query, values).fetchall()

    def do(self, query: str, *values: object) -> None:
        self.connection.execute(query, values)

    def change(self, kinds: "list[Kind]") -> Change:
        """One change, of a kind that is drawn."""
        with closing(self.connection):
            return self.draw.choice(kinds)(self)

    # ------------------------------------------------------------ entries

    def some_entry(self, kinds: bytes = b"") -> Row:
        """An entry behind place 0; with a kind, one whose message has that 35 or that verb."""
        rows: list[Row] = self.rows(ENTRIES)[1:]
        fitting = [row for row in rows if not kinds or kinds in row[5]]
        return self.draw.choice(fitting or rows)

    def entry_byte(self) -> Change:
        row = self.some_entry(self.draw.choice(ENTRY_KINDS))
        line = changed_byte(row[5], self.draw)
        self.do("UPDATE entry SET line = ? WHERE place = ?", line, row[0])
        return Change("a byte of entry %d" % row[0], CHANGED % row[0])

    def entry_column(self) -> Change:
        row = self.some_entry()
        column, value = self.draw.choice(
            [
                ("term", row[1] + 1),
                ("moment", "23:59:59.999"),
                ("firm", "NOBODY"),
                ("number", (row[4] or 0) + 1),
                ("received", "07:59:59.999999"),
                ("connection", (row[9] or 0) + 1),
            ]
        )
        self.do("UPDATE entry SET %s = ? WHERE place = ?" % column, value, row[0])
        what = "%s of entry %d" % (column, row[0])
        return Change(what, CHANGED % row[0])

    def entry_hash(self) -> Change:
        row = self.some_entry()
        column = self.draw.choice(["before", "hash"])
        value = changed_byte(row[6] if column == "before" else row[7], self.draw)
        self.do("UPDATE entry SET %s = ? WHERE place = ?" % column, value, row[0])
        return Change("%s of entry %d" % (column, row[0]), CHANGED % row[0])

    def entry_out(self) -> Change:
        row = self.some_entry()
        self.do("DELETE FROM entry WHERE place = ?", row[0])
        last = self.rows("SELECT max(place) FROM entry")[0][0]
        if row[0] > last:
            pattern = r"entries: entry %d: .* sealed; the log ends at entry %d" % (row[0], last)
            return Change("entry %d, the last, taken out" % row[0], pattern, needs_seal=True)
        return Change("entry %d taken out" % row[0], r"entry %d is missing" % row[0])

    def entry_doubled(self) -> Change:
        row = self.some_entry()
        self.shift(row[0])
        self.insert((row[0] + 1, *row[1:]))
        return Change("entry %d doubled" % row[0], CHANGED % (row[0] + 1))

    def entry_moved(self) -> Change:
        first, second = self.some_entry(), self.some_entry()
        while first[0] == second[0]:
            second = self.some_entry()
        for place, row in ((first[0], second), (second[0], first)):
            self.do("DELETE FROM entry WHERE place = ?", place)
            self.insert((place, *row[1:]))
        low = min(first[0], second[0])
        what = "entries %d and %d in each other's place" % (first[0], second[0])
        return Change(what, CHANGED % low)

    def entry_put_in(self) -> Change:
        """A message that nobody sent, with a chain that is right up to it."""
        row = self.some_entry()
        self.shift(row[0] - 1)
        before = self.rows("SELECT hash FROM entry WHERE place = ?", row[0] - 1)[0][0]
        made = (*row[:6], before, b"", *row[8:])
        self.insert((*row[:6], before, hash_of(made, before), *row[8:]))
        pattern = CHANGED % (row[0] + 1)
        return Change("an entry put in at %d" % row[0], pattern)

    def shift(self, behind: int) -> None:
        """Moves all entries behind a place one further."""
        self.do("UPDATE entry SET place = -place WHERE place > ?", behind)
        self.do("UPDATE entry SET place = 1 - place WHERE place < 0")

    def insert(self, row: Row) -> None:
        query = "INSERT INTO entry (%s) VALUES (?, ?, ?, ?, ?, ?, ?, ?, ?, ?)"
        self.do(query % COLUMNS, *row)

    # ------------------------------------------------------------ the chain made anew

    def chain_anew(self, first: int) -> None:
        """Makes all hashes from a place on as they should be."""
        before = bytes(32)
        for row in self.rows(ENTRIES):
            digest = hash_of(row, before)
            if row[0] >= first:
                query = "UPDATE entry SET before = ?, hash = ? WHERE place = ?"
                self.do(query, before, digest, row[0])
            before = digest

    def anew_entry(self) -> Change:
        """The time of a message and its row, and all hashes behind it made anew."""
        row = self.some_entry()
        line = changed_byte(row[5], self.draw, row[5].rfind(b" ") + 1)
        self.do("UPDATE entry SET line = ? WHERE place = ?", line, row[0])
        self.chain_anew(row[0])
        what = "a byte of entry %d, and the chain made anew" % row[0]
        return Change(what, r"they are not those that were sealed", needs_seal=True)

    def anew_out(self) -> Change:
        row = self.some_entry()
        self.do("DELETE FROM entry WHERE place = ?", row[0])
        self.do("UPDATE entry SET place = -place WHERE place > ?", row[0])
        self.do("UPDATE entry SET place = -place - 1 WHERE place < 0")
        self.chain_anew(row[0])
        what = "entry %d taken out, and the chain made anew" % row[0]
        return Change(what, r"they are not those that were sealed", needs_seal=True)

    def configuration(self) -> Change:
        """A number of the configuration."""
        line = self.rows("SELECT line FROM entry WHERE place = 0")[0][0]
        numbers = list(re.finditer(rb"= ([0-9]+)\n", line))
        found = self.draw.choice(numbers)
        value = b"%d" % (int(found[1]) + 1)
        changed = line[: found.start(1)] + value + line[found.end(1) :]
        self.do("UPDATE entry SET line = ? WHERE place = 0", changed)
        return Change("a number of the configuration", r"entry 0 was changed: its configuration")

    def configuration_anew(self) -> Change:
        """A number of the configuration, its SHA-256, and the chain made anew."""
        line = self.rows("SELECT line FROM entry WHERE place = 0")[0][0]
        head, _, text = line.partition(b"%%\n")
        numbers = list(re.finditer(rb"(?:quotes|exposure|requests) = ([0-9]+)\n", text))
        found = self.draw.choice(numbers)
        text = text[: found.start(1)] + b"%d" % (int(found[1]) - 1) + text[found.end(1) :]
        digest = hashlib.sha256(text).hexdigest().encode()
        head = re.sub(rb"configuration [0-9a-f]{64}", b"configuration " + digest, head)
        self.do("UPDATE entry SET line = ? WHERE place = 0", head + b"%%\n" + text)
        self.chain_anew(0)
        pattern = r"from entry 0 to 0 they are not those that were sealed"
        return Change("the configuration, and the chain made anew", pattern, needs_seal=True)

    # ------------------------------------------------------------ what was sent

    def some_sent(self) -> Any:
        """A message of a kind that is drawn."""
        rows = self.rows("SELECT firm, number, place, bytes FROM sent")
        kind = self.draw.choice(SENT_KINDS)
        return self.draw.choice([row for row in rows if kind in row[3]] or rows)

    def sent_byte(self) -> Change:
        firm, number, place, data = self.some_sent()
        data = changed_byte(data, self.draw)
        self.do("UPDATE sent SET bytes = ? WHERE firm = ? AND number = ?", data, firm, number)
        what = "a byte of number %d to %s" % (number, firm)
        return Change(what, ANOTHER % (firm, place, number))

    def sent_place(self) -> Change:
        firm, number, place, _ = self.some_sent()
        self.do("UPDATE sent SET place = place + 1 WHERE firm = ? AND number = ?", firm, number)
        pattern = r"%s: entry %d, number %d: it is given for entry %d"
        what = "the place of number %d to %s" % (number, firm)
        return Change(what, pattern % (firm, place + 1, number, place))

    def sent_out(self) -> Change:
        firm, number, place, _ = self.some_sent()
        last = self.rows("SELECT max(number) FROM sent WHERE firm = ?", firm)[0][0]
        self.do("DELETE FROM sent WHERE firm = ? AND number = ?", firm, number)
        text = "the log has number %d where %d" % (number + 1, number)
        if number == last:
            text = "the log lacks a message"
        pattern = r"%s: entry \d+, number %d: %s" % (firm, number, text)
        return Change("number %d to %s taken out" % (number, firm), pattern)

    def sent_swapped(self) -> Change:
        """Two messages of a firm in each other's place."""
        firm, number, _, data = self.some_sent()
        query = "SELECT number, bytes FROM sent WHERE firm = ? AND number <> ?"
        others = self.rows(query, firm, number)
        other, its = self.draw.choice(others)
        for one, text in ((number, its), (other, data)):
            self.do("UPDATE sent SET bytes = ? WHERE firm = ? AND number = ?", text, firm, one)
        low = min(number, other)
        what = "numbers %d and %d to %s in each other's place" % (number, other, firm)
        return Change(what, r"%s: entry \d+, number %d: the log has another message" % (firm, low))

    def sent_of_another(self) -> Change:
        """A message of one firm in the place of another's."""
        firm, number, _, _ = self.some_sent()
        others = self.rows("SELECT bytes FROM sent WHERE firm <> ?", firm)
        data = self.draw.choice(others)[0]
        self.do("UPDATE sent SET bytes = ? WHERE firm = ? AND number = ?", data, firm, number)
        pattern = r"%s: entry \d+, number %d: the log has another message" % (firm, number)
        return Change("another firm's message as number %d to %s" % (number, firm), pattern)

    def sent_added(self) -> Change:
        """A message behind a firm's last."""
        firm, number, place, data = self.some_sent()
        last = self.rows("SELECT max(number) FROM sent WHERE firm = ?", firm)[0][0]
        query = "INSERT INTO sent (firm, number, place, bytes) VALUES (?, ?, ?, ?)"
        self.do(query, firm, last + 1, place, data)
        pattern = r"%s: entry %d, number %d: the log has a message that the venue does not give"
        return Change("a message put in for %s" % firm, pattern % (firm, place, last + 1))

    # ------------------------------------------------------------ what sessions carried

    def some_outgoing(self) -> Any:
        rows = self.rows("SELECT firm, number, sent, bytes FROM outgoing")
        kind = self.draw.choice(OUTGOING_KINDS)
        return self.draw.choice([row for row in rows if kind in row[3]] or rows)

    def outgoing_byte(self) -> Change:
        firm, number, _, data = self.some_outgoing()
        data = changed_byte(data, self.draw)
        self.do("UPDATE outgoing SET bytes = ? WHERE firm = ? AND number = ?", data, firm, number)
        pattern = r"%s: .*message %d of its session" % (firm, number)
        return Change("a byte of message %d of %s's session" % (number, firm), pattern)

    def outgoing_out(self) -> Change:
        last = LAST_OF.replace("?", "one.firm")
        query = "SELECT firm, number, sent FROM outgoing one WHERE number < (%s)" % last
        firm, number, sent = self.draw.choice(self.rows(query))
        self.do("DELETE FROM outgoing WHERE firm = ? AND number = ?", firm, number)
        # Of the session's own no number says that it was there: only a seal does.
        is_own = sent is None
        pattern = r"%s: .*(of its session carries number|no message of its session)" % firm
        if is_own:
            pattern = r"%s: its messages of its session are not those that were sealed" % firm
        what = "message %d of %s's session taken out" % (number, firm)
        return Change(what, pattern, needs_seal=is_own)

    def outgoing_last(self) -> Change:
        """The last message that a session keeps."""
        firm = self.draw.choice(self.rows("SELECT DISTINCT firm FROM outgoing"))[0]
        self.do("DELETE FROM outgoing WHERE firm = ? AND number = (%s)" % LAST_OF, firm, firm)
        pattern = r"%s: .*(no message of its session carries it|are not those that were sealed)"
        return Change("the last message of %s's session" % firm, pattern % firm, needs_seal=True)

    def outgoing_added(self) -> Change:
        """A message of the venue's types that carries none of them, behind a session's last."""
        firm = self.draw.choice(self.rows("SELECT DISTINCT firm FROM outgoing"))[0]
        ((number,),) = self.rows(LAST_OF, firm)
        kind = self.draw.choice([b"AI", b"AJ", b"S", b"R", b"AG", b"8"])
        data = framed(b"35=%b|131=R1|117=x1|297=0|" % kind)
        query = "INSERT INTO outgoing (firm, epoch, number, copy, dropped, type, moment, bytes)"
        query += " VALUES (?, 0, ?, 0, 0, ?, '17:00:00.000', ?)"
        self.do(query, firm, number + 1, kind.decode(), data)
        pattern = r"%s: message %d of its session: it carries nothing" % (firm, number + 1)
        return Change("a message put into %s's session" % firm, pattern)

    def outgoing_of_another(self) -> Change:
        firm, number, _, _ = self.some_outgoing()
        data = self.draw.choice(self.rows("SELECT bytes FROM outgoing WHERE firm <> ?", firm))[0]
        self.do("UPDATE outgoing SET bytes = ? WHERE firm = ? AND number = ?", data, firm, number)
        pattern = r"%s: .*message %d of its session" % (firm, number)
        return Change("another firm's message in %s's session" % firm, pattern)

    def outgoing_carried(self) -> Change:
        """What a message is said to carry."""
        firm, number, sent = self.draw.choice(self.rows(CARRIED))
        query = "UPDATE outgoing SET sent = ? WHERE firm = ? AND number = ?"
        self.do(query, sent + 1, firm, number)
        pattern = r"%s: .*message %d of its session carries number %d" % (firm, number, sent + 1)
        return Change("what message %d of %s's session carries" % (number, firm), pattern)

    def target(self) -> Change:
        """The number that a session expects next."""
        firm = self.draw.choice(self.rows("SELECT firm FROM entry WHERE number IS NOT NULL"))[0]
        self.do("UPDATE session SET expected = 1 WHERE firm = ?", firm)
        pattern = r"%s: .*its session expects number 1" % firm
        return Change("what %s's session expects" % firm, pattern)


def types(*kinds: bytes) -> list[bytes]:
    """How 35 stands in the bytes of messages of these types."""
    return [b"\x0135=" + kind + b"\x01" for kind in kinds]


SENT_KINDS = types(b"3", b"R", b"AI", b"AJ", b"S", b"AG")
OUTGOING_KINDS = SENT_KINDS + types(b"j")
CAME_KINDS = types(b"R", b"S", b"Z", b"AG", b"AJ")
ENTRY_KINDS = [b"clock", *(kind.hex().upper().encode() for kind in CAME_KINDS)]
Kind = Callable[[Tamperer], Change]
KINDS: list[Kind] = [
    Tamperer.entry_byte,
    Tamperer.entry_byte,
    Tamperer.entry_column,
    Tamperer.entry_hash,
    Tamperer.entry_out,
    Tamperer.entry_doubled,
    Tamperer.entry_moved,
    Tamperer.entry_put_in,
    Tamperer.anew_entry,
    Tamperer.anew_out,
    Tamperer.configuration,
    Tamperer.configuration_anew,
    Tamperer.sent_byte,
    Tamperer.sent_byte,
    Tamperer.sent_place,
    Tamperer.sent_out,
    Tamperer.sent_swapped,
    Tamperer.sent_of_another,
    Tamperer.sent_added,
]
# Of what sessions kept in tables of their own, before form 6.
SESSION_KINDS: list[Kind] = [
    Tamperer.outgoing_byte,
    Tamperer.outgoing_byte,
    Tamperer.outgoing_out,
    Tamperer.outgoing_last,
    Tamperer.outgoing_added,
    Tamperer.outgoing_of_another,
    Tamperer.outgoing_carried,
    Tamperer.target,
]
