"""Forgeries by hand. Each row is consistent in itself, and all chains are made anew: which evidence finds
each, and what only evidence from outside the log shows.

What the venue's program says of the messages is not asked here: test_tampered.py does that.
"""

import sqlite3
import subprocess
from collections.abc import Callable
from contextlib import closing
from pathlib import Path

import pytest
from mireseason_audit.chain import Chained, hash_of
from mireseason_audit.check import Checker, judged
from mireseason_audit.checkpoints import check_numbers_of, today_in_utc
from mireseason_audit.door import event_hash
from mireseason_audit.evidence import Evidence
from mireseason_audit.findings import Finding
from mireseason_audit.jobs import Audited, ChainJob, Files, SentJob
from mireseason_audit.outside import read_outside
from mireseason_audit.progress import Progress
from mireseason_audit.records import ConnectionEvent, Entry
from mireseason_audit.seal import read_seal, sealed, write_seal
from mireseason_audit.sqlite_log import SqliteSource
from mireseason_audit.venue import Venue
from mireseason_audit.verdict import Verdict

from tests.audit import ledger
from tests.audit.common import ROOT, keys, venue_words
from tests.audit.more_forgeries import BARE, KEYS, MORE, NOTHING, SEAL

Database = sqlite3.Connection
NO_HASH = bytes(32)
ENTRIES = (
    "SELECT place, term, moment, firm, number, line, before, hash, received, connection FROM entry"
)
EVENTS = (
    "SELECT place, term, moment, event, entry, number, firm, address, certificate, why, left_out,"
    " before, hash FROM connection"
)
SCRIPTS = {  # what is done to the log, and what finds it
    "a stranger's count": ("UPDATE connection SET left_out = 0", KEYS, "signed by none"),
    "a stranger's address": (
        "UPDATE connection SET address = '203.0.113.9:1' WHERE event = 'stranger'",
        KEYS,
        "signed by none",
    ),
    "a Logon's address": (
        "UPDATE connection SET address = '203.0.113.9:1' WHERE place ="
        " (SELECT min(place) FROM connection WHERE event = 'logon')",
        BARE,
        "and began as that of 203.0.113.9:1",
    ),
    "when a message was read": (
        "UPDATE entry SET received = substr(received, 1, 9) || '000001' WHERE place ="
        " (SELECT max(place) FROM entry WHERE number IS NOT NULL)",
        KEYS,
        "signed by none",
    ),
    "the program of entry 0": (
        "UPDATE entry SET line = CAST(replace(CAST(line AS TEXT), 'program 5', 'program 6') AS BLOB)"
        " WHERE place = 0",
        KEYS,
        "checkpoint 1 is signed by none",
    ),
    "the version of entry 0": (
        "UPDATE entry SET line = CAST(replace(CAST(line AS TEXT), 'rfq_venue 1', 'rfq_venue 9')"
        " AS BLOB) WHERE place = 0",
        KEYS,
        "checkpoint 1 is signed by none",
    ),
    "a checkpoint in the middle": (
        "DELETE FROM checkpoint WHERE number = 2",
        BARE,
        "checkpoint 2 is missing",
    ),
    "a checkpoint's number": (
        "DELETE FROM checkpoint WHERE number = 2;"
        "UPDATE checkpoint SET number = 2 WHERE number = 3",
        KEYS,
        "checkpoint 2 is signed by none",
    ),
    "the last checkpoint": (
        "DELETE FROM checkpoint WHERE is_end = 1",
        BARE,
        "its end may have been cut off",
    ),
    "an end that is none": (
        "UPDATE checkpoint SET is_end = 1 WHERE number = 1",
        KEYS,
        "checkpoint 1 is signed by none",
    ),
    "two signatures": (
        "UPDATE checkpoint SET signature = (SELECT signature FROM checkpoint c WHERE c.number = 2)"
        " WHERE number = 1",
        KEYS,
        "checkpoint 1 is signed by none",
    ),
    "a seal in the middle": ("DELETE FROM seal WHERE number = 2", BARE, "seal 2 is missing"),
    "the last seal": (
        "DELETE FROM seal WHERE number = (SELECT max(number) FROM seal)",
        BARE,
        "it is not sealed",
    ),
    "session notes taken out": (
        "UPDATE seal SET notes = x'' WHERE number = (SELECT min(number) FROM seal"
        " WHERE length(notes) > 0)",
        BARE,
        "the session notes of seal",
    ),
    "the hash of session notes": (
        "UPDATE seal SET hash = zeroblob(32) WHERE number = 2",
        BARE,
        "the session notes of seal 2",
    ),
    "a seal's mac": ("UPDATE seal SET mac = zeroblob(32)", NOTHING, ""),
    "what a firm was told": (
        "UPDATE sent SET told = '58=too late' WHERE firm = 'ALPHA' AND number = 3",
        BARE,
        "of its session carries another text",
    ),
    "a message under another number of the venue": (
        "UPDATE sent SET number = number + 1 WHERE firm = 'ALPHA' AND number ="
        " (SELECT max(number) FROM sent WHERE firm = 'ALPHA')",
        BARE,
        "where",
    ),
    "the form": (
        ledger.SESSIONS + "UPDATE form SET number = 5",
        BARE,
        "column is_end of checkpoint",
    ),
    "a table beside": ("CREATE TABLE entry_old AS SELECT * FROM entry", BARE, "table entry_old"),
    "a trigger": (
        "CREATE TRIGGER t AFTER INSERT ON entry BEGIN DELETE FROM sent; END",
        BARE,
        "trigger t of entry",
    ),
}


@pytest.fixture(scope="module")
def place(tmp_path_factory: pytest.TempPathFactory) -> Path:
    """A drawn day, its last checkpoint, and a seal that was taken in time."""
    found = tmp_path_factory.mktemp("forged")
    words = ["/usr/bin/python3", "-m", "tests.audit.draw_day", str(found / "day.db")]
    words += [
        "--requests",
        "14",
        "--seed",
        "7",
        "--dealers",
        "3",
        "--investors",
        "2",
    ]  # 3 checkpoints
    words += ["--checkpoint"]
    words += [str(found / "day.checkpoint"), "--", *venue_words()]
    subprocess.run(words, check=True, cwd=ROOT)
    (found / "gateway.pub").write_bytes(ledger.public_key())
    private, _ = keys(found)
    with SqliteSource(found / "day.db").open() as log:
        day, chained = log.day(), ChainJob(SqliteSource(found / "day.db"))()
        write_seal(sealed(log, day, chained), private, found / "day.seal")
    return found


def chain_anew(log: Database) -> None:
    """Both chains, from their first rows on."""
    before = NO_HASH
    for row in log.execute(ENTRIES + " ORDER BY place").fetchall():
        digest = hash_of(Entry._make(row)._replace(before=before), True)
        change = "UPDATE entry SET before = ?, hash = ? WHERE place = ?"
        log.execute(change, (before, digest, row[0]))
        before = digest
    before = NO_HASH
    for row in log.execute(EVENTS + " ORDER BY place").fetchall():
        digest = event_hash(ConnectionEvent._make(row)._replace(before=before))
        change = "UPDATE connection SET before = ?, hash = ? WHERE place = ?"
        log.execute(change, (before, digest, row[0]))
        before = digest


def reworded(line: bytes, old: str, new: str) -> bytes:
    """An entry's line with another text in its message, whose sum is right."""
    word, firm, moment, digits = line.split(b" ")
    message = bytes.fromhex(digits.decode()).replace(old.encode(), new.encode())
    body = message[: message.rindex(b"10=")]
    message = body + b"10=%03d\x01" % (sum(body) % 256)
    return b" ".join((word, firm, moment, message.hex().upper().encode()))


def renoted(notes: bytes, field: int, new: str | bytes) -> bytes:
    """Session notes with another field in the first of them."""
    first, feed, rest = notes.partition(b"\n")
    words = first.split(b" ")
    words[field] = new.encode() if isinstance(new, str) else new
    return b" ".join(words) + feed + rest


def forged(
    place: Path, folder: Path, change: Callable[[Database], object], is_same: bool = False
) -> Path:
    log = folder / "forged.db"
    whole = (place / "day.db").read_bytes()
    log.write_bytes(whole)
    with closing(sqlite3.connect(log, isolation_level=None)) as database:
        database.create_function("reworded", 3, reworded)
        database.create_function("renoted", 3, renoted)
        change(database)
        assert is_same or log.read_bytes() != whole, "nothing was changed"
        chain_anew(database)
    return log


def of_form_5(database: Database, place: Path) -> None:
    """What a log of that form has of its sessions, as they stand."""
    with SqliteSource(place / "day.db").open() as log:
        for firm, expected in log.targets().items():
            kept = [tuple(row) for row in log.outgoing(firm)]
            query = "INSERT INTO outgoing (firm, number, sent, bytes, epoch, copy, dropped, type, moment)"
            database.executemany(query + " VALUES (?, ?, ?, ?, ?, ?, ?, ?, ?)", kept)
            query = "INSERT INTO session VALUES (?, 0, 0, 0, ?%s)" % (", 0" * 12)
            database.execute(query, (firm, expected))


def verdict_of(log: Path, folder: Path, evidence: Evidence) -> Verdict:
    """The verdict without the venue's program."""
    source, venue = SqliteSource(log), Venue(("/nowhere",))
    checker = Checker(source, venue, Files(folder), 1, Progress())
    verdict = checker.begun()
    audited = Audited(source, venue, checker.files, verdict.day)
    firms = tuple(firm.name for firm in verdict.day.firms)
    results: list[Chained | list[Finding]] = [ChainJob(source)(), SentJob(audited, firms)()]
    with source.open() as opened:
        verdict.messages = {firm: opened.count_of(firm) for firm in firms}
        verdict.addressed, verdict.targets = opened.firms(), opened.targets()
        verdict.epochs, verdict.beyond = opened.epochs(), tuple(opened.beyond_form())
        verdict.numbered = check_numbers_of(opened, verdict.day.date, today_in_utc())
    return evidence.judge(source, judged(verdict, results))


def told(log: Path, folder: Path, evidence: Evidence) -> str:
    findings = verdict_of(log, folder, evidence).findings
    return "\n".join(line for finding in findings for line in finding.lines())


def evidences(place: Path) -> dict[str, Evidence]:
    key = (place / "gateway.pub",)
    return {
        BARE: Evidence(),
        KEYS: Evidence(keys=key),
        SEAL: Evidence(seal=read_seal(place / "day.seal", place / "public.pem")),
    }


@pytest.mark.parametrize("name", ["nothing", *SCRIPTS, *MORE])
def test_a_forgery(place: Path, tmp_path: Path, name: str) -> None:
    """It is found by the evidence that is named, and by none that is less."""
    script, found_by, text = (SCRIPTS | MORE).get(name, ("", NOTHING, ""))

    def change(database: Database) -> None:
        database.executescript(script)
        if ledger.SESSIONS in script:
            of_form_5(database, place)

    log = forged(place, tmp_path, change, is_same=not script)
    for at, (what, evidence) in enumerate(evidences(place).items()):
        folder = tmp_path / str(at)
        folder.mkdir()
        said = told(log, folder, evidence)
        if what == found_by:
            assert text in said, (what, said)
            return
        assert said == "", (what, said)
    assert found_by == NOTHING


def test_a_day_that_is_cut(place: Path, tmp_path: Path) -> None:
    """Without the real end a seal or the checkpoint that was kept shows where it was cut."""

    def cut(database: Database) -> None:
        query = "SELECT number, place, event FROM checkpoint ORDER BY number LIMIT 1"
        ((number, last, event),) = database.execute(query).fetchall()
        database.execute("DELETE FROM entry WHERE place > ?", (last,))
        database.execute("DELETE FROM sent WHERE place > ?", (last,))
        database.execute("DELETE FROM connection WHERE place > ?", (event,))
        database.execute("DELETE FROM seal WHERE place > ?", (last,))
        database.execute("DELETE FROM checkpoint WHERE number > ?", (number,))

    log = forged(place, tmp_path, cut)
    kept = Evidence(kept=tuple(read_outside(place / "day.checkpoint")))
    said = told(log, tmp_path, kept)
    assert "its end was cut off" in said and "its end may have been cut off" in said
