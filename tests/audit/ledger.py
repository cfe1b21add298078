"""Writes a log as the gateway does: entries with their chain, what happened to connections, what
the venue gave, and the sessions that carried it.

It is written from gateway/README.md and gateway/schema.sql, and shares nothing with the audit.
"""

import hashlib
import hmac
import sqlite3
from dataclasses import dataclass, field
from pathlib import Path

from cryptography.hazmat.primitives.asymmetric.ed25519 import Ed25519PrivateKey
from cryptography.hazmat.primitives.serialization import Encoding, PublicFormat

ROOT = Path(__file__).resolve().parent.parent.parent
SCHEMA = ROOT / "gateway" / "schema.sql"
VERSION = "rfq_venue 1.0.0"
PROGRAM = hashlib.sha256(b"the program of a drawn day").hexdigest()
PLACES_OF_TIME = {"S": "537", "AI": "297", "R": "453"}
TABLE = ROOT / "fix" / "reasons.txt"
TOLD = {"why": "58", "trade": "1003"}  # the fields that tell what is noted beside a message
SECRET = hashlib.sha256(b"the secret of the gateways of drawn days").digest()
KEY = Ed25519PrivateKey.from_private_bytes(hashlib.sha256(b"and what one signs with").digest())
SEALED = 40  # entries from one seal to the next
# Before form 6 a log had what sessions keep, and where they stood.
OLD_SENT = """DROP TABLE sent;
    CREATE TABLE sent (firm TEXT NOT NULL, number INTEGER NOT NULL, place INTEGER NOT NULL,
        bytes BYTEA NOT NULL, PRIMARY KEY (firm, number));"""
SESSIONS = """CREATE TABLE outgoing (firm TEXT NOT NULL, epoch INTEGER NOT NULL,
        number INTEGER NOT NULL, sent INTEGER, copy INTEGER NOT NULL, dropped INTEGER NOT NULL,
        type TEXT NOT NULL, moment TEXT NOT NULL, bytes BYTEA NOT NULL,
        PRIMARY KEY (firm, epoch, number));
    CREATE TABLE session (firm TEXT PRIMARY KEY, epoch INTEGER NOT NULL,
        entries_from INTEGER NOT NULL, logged_on INTEGER NOT NULL, expected INTEGER NOT NULL,
        next INTEGER NOT NULL, had INTEGER NOT NULL, first_given INTEGER NOT NULL,
        last_given INTEGER NOT NULL, last_kept INTEGER NOT NULL, is_one_free INTEGER NOT NULL,
        was_taken INTEGER NOT NULL, is_reset INTEGER NOT NULL, reset_at BIGINT NOT NULL,
        is_locked INTEGER NOT NULL, last_logon BIGINT NOT NULL, is_suspended INTEGER NOT NULL);"""
# Before form 5 it had all that a session sent, as it stood on the wire.
OLD_SESSIONS = """CREATE TABLE outgoing (firm TEXT NOT NULL, number INTEGER NOT NULL, sent INTEGER,
        bytes BYTEA NOT NULL, PRIMARY KEY (firm, number));
    CREATE TABLE session (firm TEXT PRIMARY KEY, target INTEGER NOT NULL,
        logged_on INTEGER NOT NULL);"""
# Before form 6 no checkpoint said that a day had ended.
OLD_CHECKPOINTS = """DROP TABLE checkpoint;
    CREATE TABLE checkpoint (number INTEGER PRIMARY KEY, term INTEGER NOT NULL,
        place INTEGER NOT NULL, event INTEGER NOT NULL, signature BYTEA NOT NULL);"""
# Nor had a seal session notes.
OLD_SEALS = """DROP TABLE seal;
    CREATE TABLE seal (number INTEGER PRIMARY KEY, term INTEGER NOT NULL, place INTEGER NOT NULL,
        event INTEGER NOT NULL, mac BYTEA NOT NULL);"""
UNSEALED = "DROP TABLE seal; DROP TABLE checkpoint;"
TABLES = {
    3: "UPDATE form SET number = 3;" + UNSEALED + OLD_SENT + OLD_SESSIONS,
    4: "UPDATE form SET number = 4;" + OLD_SEALS + OLD_CHECKPOINTS + OLD_SENT + OLD_SESSIONS,
    5: "UPDATE form SET number = 5;" + OLD_SEALS + OLD_CHECKPOINTS + OLD_SENT + SESSIONS,
    6: "",
}

Fields = list[tuple[str, str]]


def reasons() -> dict[str, str]:
    """The words for each name of a reason."""
    lines = [line for line in TABLE.read_text().splitlines() if line and not line.startswith("#")]
    return {name: words for name, _, words in (line.partition(" ") for line in lines)}


def public_key() -> bytes:
    """That of the gateway of drawn days, in PEM."""
    return KEY.public_key().public_bytes(Encoding.PEM, PublicFormat.SubjectPublicKeyInfo)


def time_text(moment: int) -> str:
    seconds, milliseconds = divmod(moment, 1000)
    minutes, seconds = divmod(seconds, 60)
    hours, minutes = divmod(minutes, 60)
    return "%02d:%02d:%02d.%03d" % (hours, minutes, seconds, milliseconds)


def exact_text(microseconds: int) -> str:
    milliseconds, rest = divmod(microseconds, 1000)
    return "%s%03d" % (time_text(milliseconds), rest)


def frame(fields: Fields) -> bytes:
    body = "".join("%s=%s\x01" % pair for pair in fields)
    head = "8=FIXT.1.1\x019=%d\x01%s" % (len(body), body)
    return (head + "10=%03d\x01" % (sum(head.encode()) % 256)).encode()


def fields_of(data: bytes) -> Fields:
    parts = data.decode().removesuffix("\x01").split("\x01")
    return [(tag, value) for tag, _, value in (part.partition("=") for part in parts)]


@dataclass
class Session:
    """One firm's session: what it sent, and what is expected of the firm."""

    next: int = 2  # of what it sends; 1 is left for the answer to the first Logon
    has_answered: bool = False
    kept: list[int] = field(default_factory=list)
    given: list[int] = field(default_factory=list)  # of these, those of the venue
    came: int = 0
    messages: int = 0  # of the venue,
    messages_hash: bytes = bytes(32)  # and their running hash
    connection: int | None = None
    peer: tuple[str, str | None] = "", None  # its address and certificate
    received: int = 0  # microseconds, the last message on it


@dataclass
class Ledger:
    """A log that is being written."""

    path: Path
    date: str
    configuration: bytes
    place: int = -1
    before: bytes = bytes(32)
    sessions: dict[str, Session] = field(default_factory=dict)
    events: int = 0
    connections: int = 0
    before_event: bytes = bytes(32)
    clock_at: int = 0  # microseconds, the last that it said
    form: int = 6  # or one before; 3 has no seals
    notes: bool = False  # the day gives reasons and the names of trades
    seals: int = 0
    session_notes: bytes = b""  # that no seal covers yet, a line feed behind each
    before_note: bytes = bytes(32)
    checkpoints: int = 0
    signature: bytes = bytes(64)  # of the last checkpoint
    signed: str = ""  # and what it signed
    all_outside: list[str] = field(default_factory=list)  # of each, the text that is kept outside

    def __post_init__(self) -> None:
        self.database = sqlite3.connect(self.path, isolation_level=None)
        self.database.executescript(SCHEMA.read_text() + TABLES[self.form])
        self.database.execute("BEGIN")
        digest = hashlib.sha256(self.configuration).hexdigest()
        head = "version %s\nprogram %s\nconfiguration %s\n" % (VERSION, PROGRAM, digest)
        if self.form > 3:
            head = "venue -\n" + head
        if self.notes:
            head += "".join("reason %s %s\n" % reason for reason in sorted(reasons().items()))
        line = head.encode() + b"%%\n" + self.configuration
        self.entry(time_text(28_800_000), None, None, line)

    def entry(
        self, moment: str, firm: str | None, number: int | None, line: bytes, received: str = ""
    ) -> int:
        """Puts an entry behind the others; answers its place. What is not said to have been
        received the gateway makes, in the millisecond of the moment.
        """
        self.place += 1
        received = received or self.made_in(moment)
        connection = None if number is None or firm is None else self.sessions[firm].connection
        shown = [self.before.hex(), self.place, 0, moment, received, firm or "-", number or "-"]
        shown += [connection or "-", len(line)]
        text = " ".join(str(part) for part in shown).encode() + b"\n" + line
        digest = hashlib.sha256(text).digest()
        row = (self.place, 0, moment, received, firm, number, connection, line)
        self.database.execute(
            "INSERT INTO entry VALUES (?, ?, ?, ?, ?, ?, ?, ?, ?, ?)", (*row, self.before, digest)
        )
        self.before = digest
        if self.place % SEALED == 0:
            self.seal()
        return self.place

    # ------------------------------------------------------------ seals

    def sealed_text(self) -> str:
        text = "mireseason log %d\nvenue -\nday %s\nconfiguration %s\nterm 0\nentry %d %s\n"
        configuration = hashlib.sha256(self.configuration).hexdigest()
        title = 6 if self.form > 5 else 4
        text %= title, self.date, configuration, self.place, self.before.hex()
        text += "connection %d %s\n" % (self.events, self.before_event.hex())
        return text + ("seal %d %s\n" % (self.seals, self.before_note.hex()) if title > 5 else "")

    def seal(self) -> None:
        """A seal of all that there is, and each third time the gateway's signature, too."""
        if self.form == 3:
            return
        self.seals += 1
        mac = hmac.new(SECRET, self.sealed_text().encode(), hashlib.sha256).digest()
        row = [self.seals, 0, self.place, self.events, mac]
        if self.form > 5:
            row[4:4] = self.session_notes, self.before_note
        self.session_notes = b""
        self.database.execute("INSERT INTO seal VALUES (%s)" % ", ".join("?" * len(row)), row)
        if self.seals % 3 == 1:
            self.sign()

    def sign(self, is_end: bool = False) -> None:
        self.checkpoints += 1
        text = self.sealed_text() + "checkpoint %d\n" % self.checkpoints
        if self.form > 5:
            text += "before %s\nend %s\n" % (self.signature.hex(), "yes" if is_end else "no")
        self.signed, self.signature = text, KEY.sign(text.encode())
        self.all_outside.append(self.outside)
        row = [self.checkpoints, 0, self.place, self.events, self.signature]
        if self.form > 5:
            row[4:4] = self.seals, int(is_end)
        self.database.execute("INSERT INTO checkpoint VALUES (%s)" % ", ".join("?" * len(row)), row)

    @property
    def outside(self) -> str:
        """The file of the last checkpoint, as a gateway keeps it outside."""
        return self.signed + "signature %s\n" % self.signature.hex()

    # ------------------------------------------------------------ times

    def made_in(self, moment: str) -> str:
        """A time of this millisecond, not before the last that the clock said."""
        hours, minutes, seconds = moment.split(":")
        whole, _, milliseconds = seconds.partition(".")
        at = (int(hours) * 60 + int(minutes)) * 60 + int(whole)
        self.clock_at = max(self.clock_at, at * 1_000_000 + int(milliseconds) * 1000)
        return exact_text(self.clock_at)

    def received_by(self, firm: str, moment: int) -> str:
        """When a message was received that is an entry of this moment: not before the one before
        it on its connection, and on some days a while before it was an entry.
        """
        session = self.sessions[firm]
        waited = (0, 120, 2_500)[self.place % 3]  # microseconds
        at = moment * 1000 + self.place * 7919 % 1000 - waited
        session.received = max(session.received, at)
        self.clock_at = max(self.clock_at, session.received)
        return exact_text(session.received)

    # ------------------------------------------------------------ connections

    def event(
        self,
        event: str,
        moment: int,
        firm: str | None,
        number: int | None,
        peer: tuple[str, str | None],
        why: str | None,
        left_out: int = 0,
    ) -> None:
        """Something that happened to a connection."""
        self.events += 1
        self.clock_at = max(self.clock_at, moment * 1000)
        texts = [event, peer[0], peer[1], why]
        lengths = ["-" if text is None else len(text.encode()) for text in texts]
        shown = [self.before_event.hex(), self.events, 0, exact_text(self.clock_at), self.place]
        shown += [number or "-", firm or "-", left_out, *lengths]
        data = " ".join(str(part) for part in shown) + "\n" + "".join(one or "" for one in texts)
        digest = hashlib.sha256(data.encode()).digest()
        row = (self.events, 0, exact_text(self.clock_at), event, self.place, number, firm, *peer)
        self.database.execute(
            "INSERT INTO connection VALUES (?, ?, ?, ?, ?, ?, ?, ?, ?, ?, ?, ?, ?)",
            (*row, why, left_out, self.before_event, digest),
        )
        self.before_event = digest

    def begin_connection(self, firm: str, moment: int) -> None:
        self.connections += 1
        session = self.sessions.setdefault(firm, Session())
        session.connection, session.received = self.connections, 0
        has_certificate = self.connections % 4 != 0
        session.peer = "192.0.2.%d:%d" % (len(self.sessions), 40_000 + self.connections), None
        if has_certificate:
            session.peer = session.peer[0], firm
        self.event("logon", moment, firm, self.connections, session.peer, None)

    def end_connection(self, firm: str, moment: int, why: str) -> None:
        session = self.sessions[firm]
        self.event("end", moment, firm, session.connection, session.peer, why)
        session.connection = None

    def refuse(self, firm: str, left_out: int, moment: int) -> None:
        """A Logon in a firm's name, of somebody who has not its password."""
        peer = "198.51.100.7:41000", None
        self.event("refused", moment, firm, None, peer, "wrong password", left_out)

    def stranger(self, moment: int) -> None:
        """Somebody who is nobody, and others whose rows were left out."""
        peer = "198.51.100.8:41001", "<b>nobody</b>"
        self.event("stranger", moment, None, None, peer, "no Logon")
        self.event("left out", moment, None, None, ("", None), "no Logon", 490)

    # ------------------------------------------------------------ sessions

    def log_on(self, firm: str, moment: int) -> None:
        """The Logon of a firm, and the TestRequest behind it."""
        self.begin_connection(firm, moment)
        session = self.sessions[firm]
        session.came += 2
        self.session_message(firm, "A", moment, [("98", "0"), ("108", "30"), ("1137", "9")])
        self.session_message(firm, "1", moment, [("112", "%d" % session.next)])

    def log_on_again(self, firm: str, moment: int) -> None:
        """Its connection is lost, and it has another one."""
        self.end_connection(firm, moment, "Connection reset by peer")
        self.log_on(firm, moment)

    def log_off(self, firm: str, moment: int) -> None:
        self.sessions[firm].came += 1
        self.session_message(firm, "5", moment, [])
        self.end_connection(firm, moment, "the firm has closed it")
        session = self.sessions[firm]
        if self.form > 5:
            return
        if self.form < 5:
            row = (firm, session.came + 1)
            self.database.execute("INSERT INTO session VALUES (?, ?, 0)", row)
            return
        columns = {
            "expected": session.came + 1,
            "next": session.next,
            "had": session.next - 1,
            "first_given": min(session.given, default=0),
            "last_given": max(session.given, default=0),
            "last_kept": max(session.kept, default=0),
            "was_taken": int(session.came > 2),
            "last_logon": moment,
        }
        query = "INSERT INTO session (firm, epoch, entries_from, logged_on, is_one_free, is_reset,"
        query += " reset_at, is_locked, is_suspended, %s) VALUES (?, 0, 0, 0, 0, 0, 0, 0, 0%s)"
        query %= ", ".join(columns), ", ?" * len(columns)
        self.database.execute(query, (firm, *columns.values()))

    def reject(self, firm: str, moment: int) -> None:
        """A message of the firm that is no frame: the session's Reject."""
        session = self.sessions[firm]
        session.came += 1
        body = [("45", str(session.came)), ("371", "58"), ("372", "Z"), ("373", "17")]
        self.session_message(firm, "3", moment, body, is_kept=True)

    def not_take(self, firm: str, kind: str, moment: int) -> None:
        """A quote or a request that the gateway does not take: a BusinessMessageReject."""
        session = self.sessions[firm]
        session.came += 1
        body = [("45", str(session.came)), ("372", kind), ("379", "<%d>" % session.came)]
        body += [("380", "4"), ("58", "the clock of the venue was set")]
        self.session_message(firm, "j", moment, body, is_kept=True)

    def session_message(
        self,
        firm: str,
        kind: str,
        moment: int,
        body: Fields,
        carried: int | None = None,
        is_kept: bool = False,
    ) -> None:
        """A message of a session; it keeps what it may have to send again."""
        session = self.sessions[firm]
        number = session.next
        if kind == "A" and not session.has_answered:
            number, session.has_answered = 1, True
        else:
            session.next += 1
        if self.form < 5:
            head = [("35", kind), ("34", str(number)), ("49", "VENUE")]
            head += [("52", "%s-%s" % (self.date, time_text(moment))), ("56", firm)]
            row = (firm, number, carried, frame(head + body))
            self.database.execute("INSERT INTO outgoing VALUES (?, ?, ?, ?)", row)
        elif carried is not None or is_kept:
            session.kept.append(number)
            session.given += [] if carried is None else [number]
            kept = frame([("35", kind), *body])
            if self.form == 5:
                query = "INSERT INTO outgoing (firm, epoch, number, sent, copy, dropped, type,"
                query += " moment, bytes) VALUES (?, 0, ?, ?, 0, 0, ?, ?, ?)"
                values = (firm, number, carried, kind, time_text(moment), kept)
                self.database.execute(query, values)
            if carried is not None:
                text = "%s %d\n" % (session.messages_hash.hex(), len(kept))
                session.messages_hash = hashlib.sha256(text.encode() + kept).digest()
        if carried is None and self.form > 5:
            self.note(firm, kind, number, moment, body)

    def note(self, firm: str, kind: str, number: int, moment: int, body: Fields) -> None:
        """A session note of a message of the session's own (docs/RECOVERY.md)."""
        session = self.sessions[firm]
        fields = "".join("%s=%s\\x01" % pair for pair in body)
        more = {"A": " %d N" % moment, "3": " " + fields, "j": " " + fields}.get(kind, "")
        hash_, at = session.messages_hash.hex(), time_text(moment)
        counts = number, session.came + 1, 0, session.messages
        line = "%s 0 %s %d %d %d %d %s %s%s" % (firm, kind, *counts, hash_, at, more)
        text = "%s %s\n" % (self.before_note.hex(), line)
        self.before_note = hashlib.sha256(text.encode()).digest()
        self.session_notes += line.encode() + b"\n"

    def came(self, firm: str, moment: int, data: bytes, number: bool = True) -> int:
        """A message of a firm; without a number the gateway's own, for a firm that is gone."""
        session = self.sessions[firm]
        session.came += 1 if number else 0
        line = "hex %s %s %s" % (firm, time_text(moment), data.hex().upper())
        count = session.came if number else None
        received = self.received_by(firm, moment) if number else ""
        return self.entry(time_text(moment), firm, count, line.encode(), received)

    def clock(self, moment: int) -> int:
        return self.entry(time_text(moment), None, None, b"clock " + time_text(moment).encode())

    def given(
        self,
        firm: str,
        data: bytes,
        place: int,
        moment: int,
        answered: int | None,
        note: tuple[str, str] | None = None,
    ) -> None:
        """A message of the venue, with what is noted beside it, and the session's that carries it."""
        session = self.sessions[firm]
        session.messages += 1
        told = [] if note is None else [(TOLD[note[0]], reasons().get(note[1], note[1]))]
        row: tuple[object, ...] = (firm, session.messages, place, data)
        if self.form > 5:
            row = *row, "%s=%s" % told[0] if told else None
        query = "INSERT INTO sent VALUES (%s)" % ", ".join("?" * len(row))
        self.database.execute(query, row)
        fields = fields_of(data)
        kind, own, time = fields[2][1], fields[5][1], fields[6][1]
        body: Fields = [("1181", own)]
        for tag, value in fields[7:-1]:
            if tag == PLACES_OF_TIME.get(kind) and "60" not in dict(body):
                body.append(("60", time))
            body.append((tag, str(answered) if kind == "3" and tag == "45" else value))
        if "60" not in dict(body):
            body.append(("60", time))
        body += told
        self.session_message(firm, kind, moment + 1, body, session.messages)

    def close(self) -> None:
        self.seal()
        if self.form > 3:
            self.sign(is_end=True)
        self.database.execute("COMMIT")
        self.database.execute("VACUUM")
        self.database.close()
