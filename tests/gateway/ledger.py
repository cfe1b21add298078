"""Reads the gateway's log from its database, and asks the venue for its own answers over it."""

import sqlite3
import subprocess
from dataclasses import dataclass
from pathlib import Path
from typing import Any

from tests.gateway.noted import noted
from tests.model.frames import SOH, read_frame


TEXT, TRADE_ID = 58, 1003
NOTES = "SELECT notes FROM seal ORDER BY number"
Told = dict[
    int, tuple[int, bytes]
]  # by the venue's number of a message, the field that tells what is noted beside it


@dataclass(frozen=True)
class Entry:
    place: int
    firm: str | None
    number: int | None  # of the session
    line: bytes

    @property
    def session_number(self) -> int:
        """The number of a message that came from a session."""
        assert self.number is not None, "entry %d is no message" % self.place
        return self.number

    @property
    def is_clock(self) -> bool:
        return self.line.startswith(b"clock ")

    @property
    def moment(self) -> str:
        """The TIME of a step line."""
        return self.line.split(b" ")[1 if self.is_clock else 2].decode()

    @property
    def message(self) -> bytes:
        """The bytes that the venue was given: those of a `hex` line."""
        return bytes.fromhex(self.line.rsplit(b" ", 1)[1].decode())


@dataclass(frozen=True)
class Ledger:
    """All that a gateway's log holds."""

    entries: tuple[Entry, ...]
    sent: dict[str, list[tuple[int, bytes]]]  # of each firm, the venue's number and its frame
    notes: tuple[bytes, ...]  # of each seal its session notes

    @property
    def expected(self) -> dict[str, int]:
        """Of each firm, the number that its session expects next: behind its last note, and behind each message that came."""
        sessions = noted(self.notes)
        found = {firm: session.expected for firm, session in sessions.items()}
        for entry in self.entries:
            if entry.firm in found and entry.number is not None:
                if entry.place > sessions[entry.firm].since:
                    found[entry.firm] = max(found[entry.firm], entry.number + 1)
        return found

    @property
    def configuration(self) -> bytes:
        return self.entries[0].line.split(b"%%\n", 1)[1]

    @property
    def reasons(self) -> dict[bytes, bytes]:
        """The words for each name of a reason, as entry 0 has them; none on a day that gives no notes."""
        head = self.entries[0].line.split(b"%%\n", 1)[0]
        lines = [line.split(b" ", 2) for line in head.splitlines() if line.startswith(b"reason ")]
        return {name: words for _, name, words in lines}

    def messages_of(self, firm: str) -> list[Entry]:
        """The messages that came from a firm's session."""
        return [entry for entry in self.entries if entry.firm == firm and entry.number is not None]

    def day(self) -> bytes:
        """The day as the venue reads it."""
        configuration = self.configuration
        if not configuration.endswith(b"\n"):
            configuration += b"\n"
        return configuration + b"%%\n" + b"".join(entry.line + b"\n" for entry in self.entries[1:])


@dataclass(frozen=True)
class PostgresLog:
    """A log in a schema of PostgreSQL, read by psql."""

    connection: str
    schema: str

    def rows(self, query: str) -> list[list[str]]:
        words = ["psql", "-X", "-q", "-A", "-t", "-F", "|", "-P", "null=-", "-d", self.connection]
        text = "SET search_path TO %s; %s" % (self.schema, query)
        run = subprocess.run([*words, "-c", text], capture_output=True, check=True, text=True)
        return [line.split("|") for line in run.stdout.splitlines()]


def rows(database: Path, query: str) -> list[tuple[Any, ...]]:
    connection = sqlite3.connect("file:%s?mode=ro" % database, uri=True, timeout=60)
    try:
        return connection.execute(query).fetchall()
    finally:
        connection.close()


def as_bytes(value: bytes | str) -> bytes:
    """What somebody has put there may be a text."""
    return value.encode() if isinstance(value, str) else value


def read_ledger(database: Path | PostgresLog) -> Ledger:
    if isinstance(database, PostgresLog):
        return read_postgres(database)
    entries = rows(database, "SELECT place, firm, number, line FROM entry ORDER BY place")
    sent: dict[str, list[tuple[int, bytes]]] = {}
    for firm, number, data in rows(
        database, "SELECT firm, number, bytes FROM sent ORDER BY firm, number"
    ):
        sent.setdefault(firm, []).append((number, bytes(data)))
    return Ledger(
        tuple(Entry(place, firm, number, bytes(line)) for place, firm, number, line in entries),
        sent,
        tuple(as_bytes(notes) for notes, in rows(database, NOTES)),
    )


def read_postgres(log: PostgresLog) -> Ledger:
    entries = []
    for place, firm, number, line in log.rows(
        "SELECT place, firm, number, encode(line, 'hex') FROM entry ORDER BY place"
    ):
        entries.append(
            Entry(
                int(place),
                None if firm == "-" else firm,
                None if number == "-" else int(number),
                bytes.fromhex(line),
            )
        )
    sent: dict[str, list[tuple[int, bytes]]] = {}
    for firm, number, data in log.rows(
        "SELECT firm, number, encode(bytes, 'hex') FROM sent ORDER BY firm, number"
    ):
        sent.setdefault(firm, []).append((int(number), bytes.fromhex(data)))
    notes = log.rows("SELECT encode(notes, 'hex') FROM seal ORDER BY number")
    return Ledger(tuple(entries), sent, tuple(bytes.fromhex(line) for line, in notes))


def answers(program: list[str], day: bytes) -> dict[str, list[bytes]]:
    """The frames that a program of the venue gives each firm over a day, by `replay --live`."""
    return by_firm(printed([*program, "replay", "--live", "--frames"], day))


def answers_to(program: list[str], day: bytes, firm: str) -> list[bytes]:
    """The frames that a program of the venue gives one firm over a day, by `replay --live FIRM`."""
    return by_firm(printed([*program, "replay", "--live", "--frames", firm], day)).get(firm, [])


def told_over(program: list[str], ledger: Ledger) -> dict[str, Told]:
    """What each firm has to be told beside its messages, by what a program of the venue notes over a day."""
    found: dict[str, Told] = {}
    if not ledger.reasons:
        return found
    for line in printed([*program, "replay", "--live", "--notes"], ledger.day()).splitlines():
        kind, *words = line.split(b" ")
        if kind in (b"why", b"trade"):
            firm, number, name = words
            field = (TEXT, ledger.reasons[name]) if kind == b"why" else (TRADE_ID, name)
            found.setdefault(firm.decode(), {})[int(number)] = field
    return found


def by_firm(text: bytes) -> dict[str, list[bytes]]:
    found: dict[str, list[bytes]] = {}
    for line in text.splitlines():
        firm, _, frame = line.partition(b" ")
        found.setdefault(firm.decode(), []).append(frame.replace(b"|", SOH))
    return found


def printed(words: list[str], day: bytes) -> bytes:
    return subprocess.run(words, input=day, capture_output=True, check=True).stdout


@dataclass(frozen=True)
class Mark:
    """Where the venue stands after an entry."""

    given: dict[str, int]  # how many messages each firm was given until then
    deadline: str | None  # the earliest of a room that has not ended


def marks(program: list[str], day: bytes) -> list[Mark]:
    """The marks after the entries of a day, by their places; after place 0 nothing has come about."""
    given: dict[str, int] = {}
    found = [Mark({}, None)]
    for line in printed([*program, "live", "--frames", "--marks"], day).splitlines():
        words = line.decode(errors="replace").split(" ")
        if words[0] in ("done", "fault"):
            found.append(
                Mark(dict(given), words[2] if words[0] == "done" and len(words) > 2 else None)
            )
        else:
            given[words[0]] = given.get(words[0], 0) + 1
    return found


def fields_of(frame: bytes) -> tuple[tuple[int, bytes], ...]:
    fields = read_frame(frame)
    if fields is None:
        raise ValueError("no frame: %r" % frame)
    return tuple(fields)
