"""The rows of a log, as gateway/schema.sql has them, and the day that entry 0 has."""

import hashlib
import re
from collections.abc import Iterable, Sequence
from dataclasses import dataclass, replace
from typing import Any, NamedTuple

from bounded_toml import table_of

from .faults import Wrong

SOH = b"\x01"
DIVIDER = b"%%\n"
VENUE = b"venue "  # since form 4
GATEWAY = b"gateway "  # where the gateway that began the day says what it is
HEAD = (VENUE, b"version ", GATEWAY, b"program ", b"configuration ")
REASON = b"reason "  # of a day with notes: a name, and the words for it
REASON_LINE = re.compile(rb"reason ([A-Za-z]{1,40}) ([ -{}~]{1,100})")
MOST_SHOWN = 60  # bytes of a line that is none
NO_NAME = "-"  # of a venue that is the only one
NAME = re.compile(r"[A-Z][A-Z0-9]{0,7}")  # of a firm


class Entry(NamedTuple):
    """What the venue was given at one place of its order."""

    place: int
    term: int
    moment: str
    firm: str | None
    number: int | None  # of the session
    line: bytes
    before: bytes
    hash: bytes
    # Since form 3, None before:
    received: str | None = None  # to the microsecond
    connection: int | None = None  # the number of the one that its message came on


# As an Entry has it.
EntryRow = tuple[int, int, str, str | None, int | None, bytes, bytes, bytes, str | None, int | None]


class Entries(NamedTuple):
    """Some entries, column by column."""

    places: tuple[int, ...]
    terms: tuple[int, ...]
    moments: tuple[str, ...]
    firms: tuple[str | None, ...]
    numbers: tuple[int | None, ...]
    lines: tuple[bytes, ...]
    befores: tuple[bytes, ...]
    hashes: tuple[bytes, ...]
    receipts: tuple[str | None, ...]
    connections: tuple[int | None, ...]

    @staticmethod
    def of(rows: Iterable[tuple[Any, ...]]) -> "Entries":
        """Those of rows, of which there is at least one."""
        return Entries(*zip(*rows))

    def rows(self) -> Iterable[EntryRow]:
        rows: Iterable[Any] = zip(*self)
        return rows

    def entry(self, at: int) -> Entry:
        return Entry._make(column[at] for column in self)


class ConnectionEvent(NamedTuple):
    """What happened to a connection."""

    place: int
    term: int
    moment: str  # to the microsecond
    event: str
    entry: int  # the last one before it
    number: int | None  # of the connection
    firm: str | None
    address: str
    certificate: str | None
    why: str | None
    left_out: int
    before: bytes
    hash: bytes

    @property
    def peer(self) -> str:
        """Who it was, as far as the connection says."""
        return self.address + (", certificate %s" % self.certificate if self.certificate else "")


class SealRow(NamedTuple):
    """Up to where a gateway has sealed a log."""

    number: int
    place: int  # of the last entry then
    event: int  # of the last row of what happened to connections
    notes: bytes = b""  # since form 6: the session notes of its batch, a line feed behind each
    hash: bytes = b""  # and the running hash of all session notes up to these


class Checkpoint(NamedTuple):
    """Where a gateway has signed that the log stood, with the hashes that stand there now."""

    number: int
    term: int
    place: int  # of the last entry
    hash: bytes
    event: int  # of the last row of what happened to connections, 0 without one
    event_hash: bytes
    signature: bytes
    is_end: bool = False  # since form 6: whether the log ended here,
    seal: int = 0  # the number of the last seal then,
    notes_hash: bytes = b""  # and the hash that it has now


class Messages(NamedTuple):
    """Some messages of a firm, column by column."""

    numbers: tuple[int, ...]
    others: tuple[Any, ...]  # of `sent` the places; of `outgoing` which message each carries
    bytes: tuple[bytes, ...]

    def picked(self, kept: Sequence[int]) -> "Messages":
        """Some of them."""
        return Messages._make(tuple(column[at] for at in kept) for column in self)


class Kept(NamedTuple):
    """What a session has kept of some messages, column by column: those that it may have to send
    again, each without the header that it leaves with.
    """

    numbers: tuple[int, ...]
    others: tuple[int | None, ...]  # the message of the venue that each carries
    bytes: tuple[bytes, ...]
    epochs: tuple[int, ...]
    copies: tuple[int, ...]
    drops: tuple[int, ...]
    kinds: tuple[str, ...]
    moments: tuple[str, ...]

    def picked(self, kept: Sequence[int]) -> "Kept":
        """Some of them."""
        return Kept._make(tuple(column[at] for at in kept) for column in self)


Carried = Messages | Kept  # the messages of a firm's session


class Sent(NamedTuple):
    """What the venue gave for a firm: its frame, as the venue wrote it."""

    firm: str
    number: int  # the venue's, to that firm
    place: int  # of the entry that it answers
    bytes: bytes


class Outgoing(NamedTuple):
    """A message of a session: as it stood on the wire, or, with a moment, as the session keeps it."""

    firm: str
    number: int  # of the session
    sent: int | None  # the number of the row of `sent` that it carries
    bytes: bytes
    epoch: int = 0  # how often an operator had the session's numbers begin again
    copy: int = 0  # 1: it had another number in the epoch before
    dropped: int = 0  # 1: of the session's own, when the firm began with number 1 again
    kind: str = ""  # MsgType (35)
    moment: str | None = None  # at which it was kept first


@dataclass(frozen=True)
class Firm:
    """A firm of the day's configuration."""

    name: str
    is_dealer: bool

    @property
    def kind(self) -> str:
        return "dealer" if self.is_dealer else "investor"


@dataclass(frozen=True)
class Day:
    """What entry 0 says of the day."""

    version: str
    program: str
    configuration: bytes
    firms: tuple[Firm, ...]  # dealers, then investors, in the order of their rows
    date: str
    venue: str = ""  # its name at the gateway, where it is not the only one
    gateway: str = ""  # the one that began the day, where it says so
    # The names of reasons with their words; none on a day that gives no notes.
    reasons: tuple[tuple[str, str], ...] = ()

    @property
    def notes_flag(self) -> tuple[str, ...]:
        """The program's flag for the notes of a day that gives them: firms are told why they are
        refused (58), and the names of trades (1003).
        """
        return ("--notes",) if self.reasons else ()

    @property
    def names_of_reasons(self) -> dict[bytes, bytes]:
        """The names by their words."""
        return {words.encode(): name.encode() for name, words in self.reasons}

    @property
    def dealers(self) -> tuple[Firm, ...]:
        return tuple(firm for firm in self.firms if firm.is_dealer)

    @property
    def head(self) -> bytes:
        """The configuration and its divider, as the venue reads them."""
        text = self.configuration
        return text + (b"" if text.endswith(b"\n") else b"\n") + DIVIDER

    def firm(self, name: str) -> Firm | None:
        return next((firm for firm in self.firms if firm.name == name), None)


def day_of(line: bytes) -> Day:
    """Reads the line of entry 0."""
    values = []
    rest = line
    for word in HEAD:
        if word in (VENUE, GATEWAY) and not rest.startswith(word):
            values.append("")
            continue
        first, feed, rest = rest.partition(b"\n")
        if not feed or not first.startswith(word):
            raise Wrong("entry 0 has no line `%s`" % word.decode().strip())
        values.append(first[len(word) :].decode("utf-8", "replace"))
    reasons, rest = reasons_of(rest)
    if not rest.startswith(DIVIDER):
        raise Wrong("entry 0 has no line `%%`")
    configuration = rest[len(DIVIDER) :]
    venue, version, gateway, program, digest = values
    if hashlib.sha256(configuration).hexdigest() != digest:
        raise Wrong("entry 0 was changed: its configuration has another SHA-256 than it says")
    day = configured(version, program, configuration, "" if venue == NO_NAME else venue)
    return replace(day, gateway=gateway, reasons=reasons)


def reasons_of(text: bytes) -> tuple[tuple[tuple[str, str], ...], bytes]:
    """The names of reasons with their words, and what stands behind them."""
    reasons: list[tuple[str, str]] = []
    while text.startswith(REASON):
        line, feed, text = text.partition(b"\n")
        found = REASON_LINE.fullmatch(line)
        if not feed or not found:
            raise Wrong("entry 0 has a wrong line `reason`: %r" % line[:MOST_SHOWN])
        reasons.append((found[1].decode(), found[2].decode()))
    names, words = zip(*reasons) if reasons else ((), ())
    if len(set(names)) != len(names) or len(set(words)) != len(words):
        raise Wrong("entry 0 has a reason twice")
    return tuple(reasons), text


def configured(version: str, program: str, configuration: bytes, venue: str = "") -> Day:
    """The day of a configuration. Names are looked at here, since files are called by them; all
    else is for the venue to say.
    """
    try:
        table = table_of(configuration)
        firms = [Firm(str(row["name"]), True) for row in table.get("dealer", [])]
        firms += [Firm(str(row["name"]), False) for row in table.get("investor", [])]
        date = str(table["date"])
    except (ValueError, KeyError, TypeError, AttributeError) as fault:
        raise Wrong("entry 0: the configuration can't be read: %s" % fault) from None
    for firm in firms:
        if not NAME.fullmatch(firm.name):
            raise Wrong("entry 0: the configuration has a firm named %r" % firm.name)
    return Day(version, program, configuration, tuple(firms), date, venue)
