"""What somebody who may write to the log's database, and has no key of a gateway, can make a start believe: entries put in or
changed while no gateway runs, a log cut off or put back. And what an operator can do then.
"""

import hashlib
import re
import shutil
import sqlite3
import subprocess
from collections.abc import Callable
from pathlib import Path

import pytest

from tests.audit.more_forgeries import REWORDED
from tests.audit.two_answers import behind_its_index, without_key
from tests.gateway.door import Door
from tests.gateway.market import moment_in
from tests.gateway.stage import DEALER, Stage, check
from tests.gateway.test_log import ended_day, goes_on, nothing_sent
from tests.gateway.wait import LONG, until
from tests.harness.budget import Budget, seconds_of
from tests.limits.flood import cancel, logged_on
from tests.model.frames import write_frame

ROOT = Path(__file__).resolve().parent.parent.parent
COLUMNS = "place, term, moment, received, firm, number, connection"


class Intruder:
    """Somebody with write access to the log's database, whichever it is."""

    def __init__(self, door: Door) -> None:
        self.door = door

    def rows(self, query: str) -> list[list[str]]:
        """The rows of a query, as texts; nothing is a dash, bytes are hexadecimal digits (HEX(..))."""
        if self.door.postgres is not None:
            return self.door.postgres.rows(re.sub(r"HEX\((\w+)\)", r"encode(\1, 'hex')", query))
        connection = sqlite3.connect(self.door.database, isolation_level=None)
        found = connection.execute(query).fetchall()
        connection.close()
        return [["-" if value is None else str(value) for value in row] for row in found]

    def literal(self, data: bytes) -> str:
        """Bytes as they stand in a statement."""
        return ("'\\x%s'" if self.door.postgres is not None else "x'%s'") % data.hex()

    def put_in(self, firm: str, moment: str, message: bytes) -> int:
        """Puts an entry behind the last one: a message of a firm, on the connection that it had, with everything right that
        one can know; its place."""
        ((term, connection, number),) = self.rows(
            "SELECT max(term), max(connection), max(number) + 1 FROM entry WHERE firm = '%s'" % firm
        )
        ((place, before),) = self.rows(
            "SELECT place, HEX(hash) FROM entry ORDER BY place DESC LIMIT 1"
        )
        line = b"hex %s %s %s" % (firm.encode(), moment.encode(), message.hex().upper().encode())
        row = int(place) + 1, term, moment, moment + "000", firm, number, connection
        text = " ".join([before.lower(), *map(str, row), str(len(line))]).encode() + b"\n" + line
        values = [
            "%d" % row[0],
            term,
            "'%s'" % row[2],
            "'%s'" % row[3],
            "'%s'" % firm,
            number,
            connection,
        ]
        values += [
            self.literal(line),
            self.literal(bytes.fromhex(before)),
            self.literal(hashlib.sha256(text).digest()),
        ]
        self.rows(
            "INSERT INTO entry (%s, line, before, hash) VALUES (%s)" % (COLUMNS, ", ".join(values))
        )
        return row[0]

    def chain_anew(self, first: int) -> None:
        """Makes the hashes of all entries from a place on as they should be."""
        ((before,),) = self.rows("SELECT HEX(hash) FROM entry WHERE place = %d" % (first - 1))
        query = "SELECT %s, HEX(line) FROM entry WHERE place >= %d ORDER BY place"
        for row in self.rows(query % (COLUMNS, first)):
            line = bytes.fromhex(row.pop())
            text = " ".join([before.lower(), *row, str(len(line))]).encode() + b"\n" + line
            now = hashlib.sha256(text).digest()
            change = "UPDATE entry SET before = %s, hash = %s WHERE place = %s"
            self.rows(change % (self.literal(bytes.fromhex(before)), self.literal(now), row[0]))
            before = now.hex()

    def put_seal(self, place: int) -> None:
        """A seal for it, whose bytes nobody without the secret can know."""
        self.rows(
            "INSERT INTO seal SELECT number + 1, term, %d, event, %s, hash, %s FROM seal ORDER BY number DESC LIMIT 1"
            % (place, self.literal(b""), self.literal(hashlib.sha256(b"guessed").digest()))
        )


def asked_and_quoted(stage: Stage) -> bytes:
    """A quote that stands on an investor's request when the gateway ends; how the investor knows it."""
    stage.open(*stage.firms)
    request = stage.ask()
    stage.quote(stage.dealer, request)
    quote = stage.answer(
        stage.investor,
        "a quote",
        lambda message: message.kind == b"S" and message.value(131) == stage.asked,
    )
    check(stage.door.stop() == 0, "the gateway does not end well")
    return quote.value(117) or b""


def hit_of(stage: Stage, quote: bytes, moment: str) -> bytes:
    """The investor's hit of a quote, as the gateway writes it."""
    count = stage.entries_of(stage.investor) + 1
    fields = [
        (35, b"AJ"),
        (49, b"INV1"),
        (56, b"VENUE"),
        (34, b"%d" % count),
        (52, b"%s-%s" % (moment_in(0)[:8], moment.encode())),
    ]
    fields += [(50, b"V1"), (693, b"stolen"), (694, b"1"), (117, quote)]
    return bytes(write_frame(fields))


def now_text() -> str:
    return moment_in(0)[9:].decode()


def audit_of(door: Door, *words: str) -> subprocess.CompletedProcess[str]:
    """The audit's check of a gateway's log as it stands."""
    log = (
        [str(door.database)]
        if door.postgres is None
        else ["postgres:" + door.postgres.connection, "--schema", door.postgres.schema]
    )
    program = " ".join(door.programs.venue)
    command = [str(ROOT / "audit" / "mireseason-audit"), "check", *log, "--venue", program, *words]
    return subprocess.run(command, capture_output=True, text=True, check=False)


def audited(stage: Stage, *words: str) -> subprocess.CompletedProcess[str]:
    return audit_of(stage.door, *words)


def mute(intruder: Intruder) -> None:
    """From now on the table of entries takes no row, and the database calls each INSERT done."""
    if intruder.door.postgres is not None:
        body = "LANGUAGE plpgsql AS 'BEGIN RETURN NULL; END'"
        intruder.rows(
            "CREATE FUNCTION mute() RETURNS TRIGGER %s; CREATE TRIGGER mute BEFORE INSERT ON entry "
            "FOR EACH ROW EXECUTE FUNCTION mute()" % body
        )
        return
    connection = sqlite3.connect(intruder.door.database, isolation_level=None, timeout=LONG)
    ((version,),) = connection.execute("PRAGMA schema_version")
    ((text,),) = connection.execute("SELECT sql FROM sqlite_schema WHERE name = 'entry'")
    connection.execute("PRAGMA writable_schema = ON")
    never = "z INTEGER NOT NULL ON CONFLICT IGNORE"
    muted = text[: text.rindex(")")] + ", %s)" % never
    connection.execute("UPDATE sqlite_schema SET sql = ? WHERE name = 'entry'", (muted,))
    connection.execute("PRAGMA schema_version = %d" % (version + 1))
    connection.close()


@pytest.mark.parametrize("runs", [True, False], ids=["while it runs", "between two starts"])
def test_a_table_that_drops_rows(stage_of_log: Stage, runs: bool) -> None:
    """The firm is answered nothing that is not in the log: the gateway ends at the commit, or does not start."""
    stage = stage_of_log
    stage.open()
    with logged_on(stage, DEALER) as wire:
        if not runs:
            check(stage.door.stop() == 0, "the gateway does not end well")
        mute(Intruder(stage.door))
        entries = len(stage.door.ledger().entries)
        if runs:
            assert wire.raw(cancel(wire, wire.number))
        else:
            stage.door.start()
        check(stage.door.wait_end() == 1, "it goes on: %s" % stage.door.last_words())
        answered = wire.read_kind(b"AI", 1) if runs else None
        check(answered is None, "it is answered %r" % answered)
    causes = (
        "NOT NULL constraint failed: entry.z",
        "the table entry has fewer rows than were put there",
    )
    told = stage.door.last_words()
    check(not runs or any(cause in told for cause in causes), told)
    check(len(stage.door.ledger().entries) == entries, "there are more entries")


@pytest.mark.parametrize("with_seal", [False, True], ids=["without a seal", "with a seal"])
def test_an_entry_that_is_put_in(stage_of_log: Stage, with_seal: bool) -> None:
    """A hit in an investor's name, put in while no gateway runs: no start takes it, and the audit finds it."""
    stage = stage_of_log
    quote = asked_and_quoted(stage)
    key = str(stage.door.keys / "gateway.pub")
    before = audited(stage, "--gateway-key", key)
    check(before.returncode == 0, "the log is not whole before: %s" % before.stdout)
    intruder, moment = Intruder(stage.door), now_text()
    place = intruder.put_in("INV1", moment, hit_of(stage, quote, moment))
    if with_seal:
        intruder.put_seal(place)
    words = (
        "entry %d is not sealed" if not with_seal else "the log was changed at or before entry %d"
    )
    nothing_sent(stage, lambda: stage.refused(words % place))
    found = audited(stage, "--gateway-key", key)
    check(
        found.returncode == 1
        and "entry %d: 1 entry follows the last checkpoint" % place in found.stdout,
        found.stdout,
    )


# Whichever of a start's queries the index answers: one of what it reads does not fit the rest.
OTHER_ROWS = (
    r"entry \d+ (?:was changed|does not follow|is not sealed|was in the log, and is not any more)"
)


def test_an_index_that_says_what_stood_there(stage: Stage) -> None:
    """The seals are right by the index, and the rows are others: no start takes them, and the audit finds it."""
    asked_and_quoted(stage)
    key = str(stage.door.keys / "gateway.pub")
    without_key(stage.door.database, "entry")
    index = "entry (place, hash) WHERE place IS NOT NULL"
    change = REWORDED % ("50=V1", "50=V2", "INV1")
    behind_its_index(stage.door.database, index, "sqlite_autoindex_entry_1", change)
    nothing_sent(stage, lambda: stage.refused(OTHER_ROWS))
    found = audited(stage, "--gateway-key", key)
    check(
        found.returncode == 1 and "is signed by none of the keys" in found.stdout,
        found.stdout,
    )


FIRST_NOTES = "(SELECT min(number) FROM seal WHERE length(notes) > 0)"
CHANGES = {
    "taken out": ("notes = NOTHING", FIRST_NOTES),
    "twice": ("notes = notes || notes", FIRST_NOTES),
    "put in": ("notes = OTHERS", "(SELECT max(number) FROM seal)"),
    "hash": ("hash = mac", "(SELECT max(number) FROM seal)"),
}


@pytest.mark.parametrize("change", CHANGES)
def test_session_notes_that_are_changed(stage_of_log: Stage, change: str) -> None:
    """What sessions did is sealed with the entries: no start takes another line, and the audit needs no key to find it."""
    stage = stage_of_log
    asked_and_quoted(stage)
    intruder = Intruder(stage.door)
    what, number = CHANGES[change]
    line = b"DLR1 0 M 0 99 0 0 %s 00:00:00.000\n" % (b"0" * 64)
    values = {"NOTHING": intruder.literal(b""), "OTHERS": intruder.literal(line)}
    for word, value in values.items():
        what = what.replace(word, value)
    intruder.rows("UPDATE seal SET %s WHERE number = %s" % (what, number))
    nothing_sent(stage, lambda: stage.refused("the log was changed at or before entry"))
    found = audited(stage)
    check(
        found.returncode == 1 and "were changed: their hash is another" in found.stdout,
        found.stdout,
    )


def kept_aside(stage: Stage) -> Path:
    """The log as it is now, as a backup has it."""
    backup = stage.folder / "backup.db"
    source, target = sqlite3.connect(stage.door.database), sqlite3.connect(backup)
    source.backup(target)
    source.close()
    target.close()
    return backup


def put_back(stage: Stage, backup: Path) -> None:
    for ending in ("-wal", "-shm"):
        stage.door.database.with_name(stage.door.database.name + ending).unlink(missing_ok=True)
    shutil.copyfile(backup, stage.door.database)


def not_accepted(stage: Stage, *words: str) -> None:
    """A start that leaves the log alone, ends with status 3, and names the way out."""
    stage.door.start()
    check(stage.door.wait_end() == 3, "it ended with another status: %s" % stage.door.last_words())
    text = stage.door.last_words()
    for word in (*words, "mireseason-gateway --accept-loss"):
        check(word in text, "it does not say %r: %s" % (word, text))


def accept(stage: Stage) -> str:
    words = [str(stage.door.programs.gateway), "--accept-loss", str(stage.folder / "gateway.toml")]
    done = subprocess.run(words, capture_output=True, text=True, check=True)
    return done.stdout


def backup_put_back(stage: Stage) -> int:
    """A day that went on after a backup, which is put back; the last entry that there was."""
    ended_day(stage)
    backup = kept_aside(stage)
    goes_on(stage)  # and is ended
    last = stage.door.ledger().entries[-1].place
    put_back(stage, backup)
    return last


def test_a_backup_that_is_put_back(stage: Stage) -> None:
    """It opens no day until an operator has accepted what is lost; then it goes on at its end."""
    last = backup_put_back(stage)
    end = stage.door.ledger().entries[-1].place
    check(end < last, "the backup lacks nothing")
    nothing_sent(
        stage, lambda: not_accepted(stage, "the log ends at entry %d" % end, "had entry %d" % last)
    )
    said = accept(stage)
    check("entry %d" % last in said and "entry %d" % end in said, said)
    stage.door.start()
    stage.door.wait_open()


def test_a_log_that_is_gone(stage: Stage) -> None:
    """A day that had begun does not begin anew."""
    ended_day(stage)
    last = stage.door.ledger().entries[-1].place
    stage.door.database.unlink()
    for ending in ("-wal", "-shm"):
        stage.door.database.with_name(stage.door.database.name + ending).unlink(missing_ok=True)
    nothing_sent(stage, lambda: not_accepted(stage, "the log is empty", "had entry %d" % last))


def test_a_checkpoint_that_is_gone(stage: Stage) -> None:
    """Without it nobody knows whether the log was cut off."""
    ended_day(stage)
    stage.door.kept.unlink()
    nothing_sent(stage, lambda: not_accepted(stage, "there is no checkpoint"))


def test_a_day_that_was_killed(stage: Stage) -> None:
    """A gateway that was killed leaves a log that goes on beyond its last checkpoint: the day goes on."""
    stage.open(*stage.firms)
    stage.auction()
    stage.door.kill()
    goes_on(stage)


SPOILT: list[tuple[str, Callable[[Path], object]]] = [
    ("seal.key: has the mode 0644", lambda keys: (keys / "seal.key").chmod(0o644)),
    ("gateway.pem: has the mode 0604", lambda keys: (keys / "gateway.pem").chmod(0o604)),
    ("seal.key: No such file", lambda keys: (keys / "seal.key").unlink()),
    ("seal.key: is no key", lambda keys: (keys / "seal.key").write_text("00" * 31)),
    (
        "gateway.pub: is no public key of Ed25519",
        lambda keys: (keys / "gateway.pub").write_text("none"),
    ),
]


@pytest.mark.parametrize("words, spoil", SPOILT, ids=[words for words, _ in SPOILT])
def test_keys_that_are_none(stage: Stage, words: str, spoil: Callable[[Path], object]) -> None:
    """Nothing is opened where a key can't be used, or others may read it."""
    stage.door.write()
    spoil(stage.door.keys)
    stage.refused(re.escape(words))


def test_another_secret(stage: Stage) -> None:
    """A log that was sealed under another secret is none of this gateway."""
    ended_day(stage)
    (stage.door.keys / "seal.key").write_text("5a" * 32 + "\n")
    nothing_sent(stage, lambda: stage.refused("the log was changed at or before entry 0"))


DOUBT = "[seal] gateways: none of them is the public key of signing_key"


def list_another_key(stage: Stage) -> Path:
    """Has [seal] gateways name the public key of another pair alone, which is returned."""
    other = stage.folder / "other"
    words = [str(stage.door.programs.gateway), "--make-keys", str(other)]
    subprocess.run(words, capture_output=True, check=True)
    file = stage.folder / "gateway.toml"
    listed, others = '["keys/gateway.pub"]', '["other/gateway.pub"]'
    text = file.read_text()
    check(text.count(listed) == 1, text)
    file.write_text(text.replace(listed, others))
    return other / "gateway.pub"


def checked(stage: Stage) -> subprocess.CompletedProcess[str]:
    words = [str(stage.door.programs.gateway), "--check", str(stage.folder / "gateway.toml")]
    return subprocess.run(words, capture_output=True, text=True, timeout=LONG, check=False)


def test_a_key_that_is_not_listed(stage: Stage) -> None:
    """The day opens, since a gateway knows its own signatures; --check and a start say that who checks it would not."""
    stage.door.write()
    right = checked(stage)
    check((right.returncode, right.stderr) == (0, ""), repr(right))
    listed = list_another_key(stage)
    doubtful = checked(stage)
    check(doubtful.returncode == 0 and DOUBT in doubtful.stderr, repr(doubtful))
    stage.door.start()
    stage.door.wait_open()
    told = stage.door.told.read_text()
    check(told.count(" configuration in doubt: " + DOUBT) == 1, told)
    check(stage.door.stop() == 0, stage.door.last_words())
    by_own = audited(stage, "--gateway-key", str(stage.door.keys / "gateway.pub"))
    check(by_own.returncode == 0, by_own.stdout)
    by_listed = audited(stage, "--gateway-key", str(listed))
    check(by_listed.returncode == 1, by_listed.stdout)


def test_a_key_that_the_next_day_does_not_list(stage: Stage) -> None:
    """It is told as soon as the files say so, while there is time to mend them."""
    stage.door.write()
    config, venue = stage.folder / "gateway.toml", stage.folder / "venue.toml"
    config.write_text(config.read_text().replace('"day.db"', '"day-{date}.db"'))
    lines = venue.read_text().splitlines(keepends=True)
    venue.write_text("".join(line for line in lines if not line.startswith("date")))
    stage.door.start()
    stage.door.wait_open()
    check("in doubt" not in stage.door.told.read_text(), "keys that are right are in doubt")
    list_another_key(stage)
    until("it is told", LONG, lambda: DOUBT in stage.door.told.read_text(errors="replace"))
    until(
        "the files apply all the same",
        LONG,
        lambda: "configuration changed: it is right" in stage.door.told.read_text(errors="replace"),
    )


def test_a_checkpoint_is_in_time(stage: Stage) -> None:
    """The last checkpoint outside of the database is a second late at most."""
    stage.open(*stage.firms)

    def kept() -> int:
        found = re.search(r"^entry (\d+) ", stage.door.kept.read_text(), re.MULTILINE)
        return int(found[1]) if found else -1

    def late() -> float:
        stage.ping(stage.dealer)
        place = stage.door.ledger().entries[-1].place
        return seconds_of(lambda: until("it is kept", LONG, lambda: kept() >= place))

    Budget("the last checkpoint is kept outside of the database", most=1).hold(late)
