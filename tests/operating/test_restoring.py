"""What mireseason-restore takes from a backup, and what it tells the operator, with logs that are made here.

`test_backup.py` has a gateway's own backups, and a gateway that goes on with one.
"""

import fcntl
import io
import os
import re
import shutil
import sqlite3
import subprocess
import sys
import tarfile
from collections.abc import Iterable
from contextlib import closing
from dataclasses import dataclass
from importlib.machinery import SourceFileLoader
from importlib.util import module_from_spec, spec_from_loader
from pathlib import Path
from typing import Any

import pytest

from tests.admin.operator import is_root
from tests.gateway.wait import LONG
from tests.harness.options import ROOT

SCRIPT = ROOT / "install" / "packages" / "sbin" / "mireseason-restore"
ONE = '[venue]\ncommand = ["x"]\n[log]\nsqlite = "logs/day-{date}.db"\n'
TWO = '[venue.north]\n[venue.south]\n[log]\nsqlite = "logs/{venue}-{date}.db"\n'
LOG, CHECKPOINT = "day-20261127.db", "day-20261127.checkpoint"
HASHES = [bytes([number]) * 32 for number in range(4)]  # of entries 0, 1, ..
WAITS = "the gateway waits for `mireseason-admin log accept-loss`"


def log_of(place: Path, entries: int, checkpoints: int = 0, *, moment: str = "10:00:00") -> bytes:
    """A log in SQLite, as far as it is read here."""
    file = place / "made.db"
    file.unlink(missing_ok=True)
    with closing(sqlite3.connect(file)) as database, database:
        database.execute("CREATE TABLE entry (place INTEGER PRIMARY KEY, moment TEXT, hash BLOB)")
        database.execute("CREATE TABLE checkpoint (number INTEGER)")
        rows = [(number, moment, HASHES[number]) for number in range(entries)]
        database.executemany("INSERT INTO entry VALUES (?, ?, ?)", rows)
        numbers = [(number,) for number in range(1, checkpoints + 1)]
        database.executemany("INSERT INTO checkpoint VALUES (?)", numbers)
    return file.read_bytes()


def signed(entry: int, number: int, hash_of: bytes | None = None) -> bytes:
    """A checkpoint: what it signs last, and its own number."""
    words = "checkpoint %d\nentry %d %s\n" % (number, entry, (hash_of or HASHES[entry]).hex())
    return words.encode()


def backup(files: Iterable[tuple[str, bytes]]) -> bytes:
    made = io.BytesIO()
    with tarfile.open(fileobj=made, mode="w", format=tarfile.USTAR_FORMAT) as archive:
        for name, data in files:
            member = tarfile.TarInfo(name)
            member.size = len(data)
            archive.addfile(member, io.BytesIO(data))
    return made.getvalue()


@dataclass(frozen=True)
class Machine:
    """Where a gateway stands, with its configuration."""

    place: Path

    @property
    def config(self) -> Path:
        return self.place / "gateway.toml"

    @property
    def logs(self) -> Path:
        return self.place / "logs"

    def has(self, text: str) -> None:
        self.config.write_text(text)

    def keeps(self, data: bytes, name: str = CHECKPOINT) -> None:
        """A checkpoint of this machine's own."""
        (self.place / "checkpoints").mkdir(exist_ok=True)
        (self.place / "checkpoints" / name).write_bytes(data)

    def restore(self, *files: tuple[str, bytes]) -> "subprocess.CompletedProcess[str]":
        return self.call("-", str(self.config), given=backup(files))

    def call(self, *words: str, given: bytes = b"") -> "subprocess.CompletedProcess[str]":
        command = ["/usr/bin/python3", str(SCRIPT), *words]
        done = subprocess.run(
            command, input=given, capture_output=True, timeout=LONG, check=False, cwd=self.place
        )
        out, err = done.stdout.decode(), done.stderr.decode()
        return subprocess.CompletedProcess(done.args, done.returncode, out, err)

    def restored(self, *files: tuple[str, bytes]) -> list[str]:
        """What it says of a backup that it takes."""
        done = self.restore(*files)
        assert done.returncode == 0 and done.stderr == "", done
        return done.stdout.splitlines()

    def refused(self, words: str, *files: tuple[str, bytes]) -> None:
        """It says why, and changes nothing; nothing of its own is left."""
        before = self.content()
        done = self.restore(*files)
        assert done.returncode == 1 and done.stdout == "", done
        assert done.stderr.startswith("mireseason-restore: nothing is restored: "), done
        assert words in done.stderr and "Traceback" not in done.stderr, done
        assert self.content() == before

    def content(self) -> dict[str, bytes]:
        """All but the files that a gateway locks."""
        files = [path for path in self.logs.rglob("*") if path.is_file() and path.suffix != ".lock"]
        return {str(path.relative_to(self.logs)): path.read_bytes() for path in files}


@pytest.fixture
def machine(place: Path) -> Machine:
    made = Machine(place / "machine")
    made.logs.mkdir(parents=True)
    made.has(ONE)
    return made


def test_a_log_in_its_place(machine: Machine, place: Path) -> None:
    """With its last entry and its moment; what stood there is beside it, under its names, and a gateway's group reads the log."""
    old = {LOG: b"log", LOG + "-wal": b"wal", LOG + "-shm": b"shm"}
    for name, data in {**old, "day-20261126.db": b"another day"}.items():
        (machine.logs / name).write_bytes(data)
    machine.keeps(signed(2, 5))
    log = log_of(place, 3, checkpoints=5, moment="10:00:01")
    told = machine.restored((LOG, log), (CHECKPOINT, signed(1, 4)))
    (lost,) = (machine.logs / "lost").iterdir()
    assert re.fullmatch(r"20261127-[0-2][0-9][0-5][0-9][0-5][0-9]-\w+", lost.name)
    assert {path.name: path.read_bytes() for path in lost.iterdir()} == old
    assert told == [
        *("what was there is now %s" % (lost / name) for name in old),
        "%s goes up to entry 2, of 10:00:01" % (machine.logs / LOG),
        "no entry that was signed is missing",
    ]
    assert set(machine.content()) == {
        LOG,
        "day-20261126.db",
        *("lost/%s/%s" % (lost.name, name) for name in old),
    }
    assert (machine.logs / LOG).read_bytes() == log
    assert (machine.logs / LOG).stat().st_mode & 0o777 == 0o640


def script(monkeypatch: pytest.MonkeyPatch) -> Any:
    """The program as a module of this process, for one test."""
    monkeypatch.setattr(sys, "dont_write_bytecode", True)
    loader = SourceFileLoader("restoring", str(SCRIPT))
    spec = spec_from_loader("restoring", loader)
    assert spec is not None
    made = module_from_spec(spec)
    monkeypatch.setitem(sys.modules, "restoring", made)
    loader.exec_module(made)
    return made


def test_what_is_on_disk_before_a_log_is_in_its_place(
    machine: Machine, place: Path, monkeypatch: pytest.MonkeyPatch
) -> None:
    """All that the backup has; and the name, too, when it says that it is done."""
    did: list[str] = []
    synced, renamed = os.fsync, Path.rename

    def fsync(number: int) -> None:
        did.append("on disk: " + Path(os.readlink("/proc/self/fd/%d" % number)).name)
        synced(number)

    def rename(path: Path, to: Path) -> Path:
        did.append("named: %s" % path.name)
        return renamed(path, to)

    monkeypatch.setattr(os, "fsync", fsync)
    monkeypatch.setattr(os, "umask", lambda bits: bits)
    monkeypatch.setattr(Path, "rename", rename)
    data = backup([(LOG, log_of(place, 1)), (CHECKPOINT, signed(0, 1))])
    script(monkeypatch).restore(io.BytesIO(data), machine.config)
    assert did == ["on disk: " + LOG, "on disk: " + CHECKPOINT, "named: " + LOG, "on disk: logs"]


TOLD = {
    "nothing is kept here": (
        None,
        "this machine has no checkpoint of that day: " + WAITS,
    ),
    "as much": (signed(2, 3), "no entry that was signed is missing"),
    "less": (signed(1, 2), "no entry that was signed is missing"),
    "an entry more": (signed(3, 4), "entry 3 was signed, so 3 and more are lost: " + WAITS),
    "checkpoints more": (
        signed(2, 5),
        "no entry that was signed is missing, but what sessions did after it (2 checkpoints) is: "
        + WAITS,
    ),
}


@pytest.mark.parametrize("name", TOLD)
def test_what_is_lost(name: str, machine: Machine, place: Path) -> None:
    """By what this machine has signed: of a backup of three entries (0 to 2) and three checkpoints."""
    kept, words = TOLD[name]
    if kept is not None:
        machine.keeps(kept)
    assert machine.restored((LOG, log_of(place, 3, 3)))[-1] == words


def test_a_log_without_checkpoints(machine: Machine, place: Path) -> None:
    """Its number is none yet."""
    machine.keeps(signed(0, 1))
    words = "no entry that was signed is missing, but what sessions did after it (1 checkpoints) is"
    assert machine.restored((LOG, log_of(place, 1)))[-1].startswith(words)


def test_what_stands_beside_a_log(machine: Machine, place: Path) -> None:
    """Its last rows may stand there alone: they are put into the log. The later of two counts."""
    file = place / "open.db"
    with closing(sqlite3.connect(file)) as database:
        database.execute("PRAGMA journal_mode = WAL")
        database.executescript(
            "CREATE TABLE entry (place INTEGER, moment TEXT, hash BLOB);"
            "CREATE TABLE checkpoint (number INTEGER);"
            "INSERT INTO entry VALUES (0, 'm', x'00'), (1, 'm', x'01')"
        )
        wal = Path(str(file) + "-wal")
        files = [(LOG, file.read_bytes()), (LOG + "-wal", b"x"), (LOG + "-wal", wal.read_bytes())]
    assert "goes up to entry 1, of m" in machine.restored(*files)[0]
    assert not (machine.logs / (LOG + "-wal")).exists()


def test_what_a_log_says_to_a_terminal(machine: Machine, place: Path) -> None:
    log = log_of(place, 1, moment="~ \x1b[2J\x7f" + "x" * 100)
    told = machine.restored((LOG, log))
    assert told[0].endswith(", of ~ ?[2J?" + "x" * 73)


def test_several_venues(machine: Machine, place: Path) -> None:
    """All of a backup, or none: each under its name, with its own checkpoint."""
    machine.has(TWO)
    north, south = log_of(place, 2), log_of(place, 3)
    machine.keeps(signed(1, 0), "north-20261127.checkpoint")
    machine.refused(
        "the backup has no south-20261127.db",
        ("north-20261127.db", north),
        ("south-20261127.checkpoint", signed(2, 1)),
    )
    told = machine.restored(("south-20261127.db", south), ("north-20261127.db", north))
    assert told == [
        "%s goes up to entry 1, of 10:00:00" % (machine.logs / "north-20261127.db"),
        "no entry that was signed is missing",
        "%s goes up to entry 2, of 10:00:00" % (machine.logs / "south-20261127.db"),
        TOLD["nothing is kept here"][1],
    ]


REFUSED: dict[str, tuple[list[tuple[str, int | bytes]], str]] = {
    "no file": ([], "the backup has no file"),
    "a checkpoint alone": ([(CHECKPOINT, signed(0, 1))], "the backup has no " + LOG),
    "no entry": ([(LOG, 0)], LOG + " has no entry"),
    "no log": ([(LOG, b"x" * 600)], "file is not a database"),
    "no checkpoint": ([(LOG, 1), (CHECKPOINT, b"entry 1 x")], CHECKPOINT + " is no checkpoint"),
    "a checkpoint without a number": (
        [(LOG, 1), (CHECKPOINT, signed(0, 1).replace(b"checkpoint 1", b""))],
        CHECKPOINT + " is no checkpoint",
    ),
    "an entry that it has not": (
        [(LOG, 2), (CHECKPOINT, signed(2, 1))],
        "is not the one that its checkpoint signs",
    ),
    "another entry": (
        [(LOG, 2), (CHECKPOINT, signed(1, 1, HASHES[0]))],
        "is not the one that its checkpoint signs",
    ),
    "a checkpoint twice": (
        [(LOG, 1), (CHECKPOINT, signed(0, 1)), (CHECKPOINT, signed(0, 1))],
        "the backup has %s too often" % CHECKPOINT,
    ),
    "what stands beside it, three times": (
        [(LOG, 1), *[(LOG + "-wal", b"x")] * 3],
        "the backup has %s-wal too often" % LOG,
    ),
    "another venue's": ([(LOG, 1), ("north-20261127.checkpoint", b"")], "is no file of a backup"),
    "a day of nine digits": ([("day-202611270.db", 1)], "is no file of a backup"),
    "a name that is longer": ([("x" * 90, 1)], "%r is no file" % ("x" * 80)),
}


@pytest.mark.parametrize("name", REFUSED)
def test_what_is_refused(name: str, machine: Machine, place: Path) -> None:
    """A number stands for a log of so many entries."""
    (machine.logs / LOG).write_bytes(b"as it was")
    files, words = REFUSED[name]
    made = [(file, log_of(place, data) if isinstance(data, int) else data) for file, data in files]
    machine.refused(words, *made)


MORE = {
    "a trigger": "CREATE TRIGGER more AFTER INSERT ON entry BEGIN DELETE FROM entry; END",
    "a view": "CREATE VIEW more AS SELECT * FROM entry",
    "a table of a module": "CREATE VIRTUAL TABLE more USING fts5(a)",
    "an index": "CREATE INDEX more ON entry (moment)",
}


@pytest.mark.parametrize("name", MORE)
def test_more_than_tables(name: str, machine: Machine, place: Path) -> None:
    log_of(place, 1)
    assert machine.restore((LOG, (place / "made.db").read_bytes())).returncode == 0
    with closing(sqlite3.connect(place / "made.db")) as database:
        database.executescript(MORE[name])
    shutil.rmtree(machine.logs / "lost")
    machine.refused("has more than tables", (LOG, (place / "made.db").read_bytes()))


CONFIGURATIONS = {
    "no TOML": ("[log", "gateway.toml: "),
    "too deep": ("a" + ".a" * 40 + " = 1\n", "gateway.toml: "),
    "no log in SQLite": ('[log]\npostgres = "x"\n', "[log] sqlite has no {date}"),
    "a log of all days": ('[log]\nsqlite = "day.db"\n', "[log] sqlite has no {date}"),
    "a part that is none": ("log = 1\n", "[log] sqlite has no {date}"),
    "a log that is no text": ("[log]\nsqlite = 1\n", "[log] sqlite has no {date}"),
    "a reserve of words": (ONE + 'reserve = "x"\n', "[log] reserve has to be a whole number"),
    "a reserve that no disk has": (ONE + "reserve = %d\n" % (1 << 60), "the log's disk has"),
    "no venue": ('[log]\nsqlite = "day-{date}.db"\n', "are in several folders"),
    "several folders": (TWO.replace("/{venue}-", "/{venue}/"), "are in several folders"),
    "no folder": (ONE.replace("logs/", "none/"), "none"),
}


@pytest.mark.parametrize("name", CONFIGURATIONS)
def test_a_configuration_at_fault(name: str, machine: Machine, place: Path) -> None:
    text, words = CONFIGURATIONS[name]
    machine.has(text)
    machine.refused(words, (LOG, log_of(place, 1)))


def test_other_places(machine: Machine, place: Path) -> None:
    """Of the checkpoints and of the log, from the folder of the configuration; and a disk's own reserve."""
    machine.has(ONE + 'reserve = 0\n[seal]\ncheckpoints = "signed"\n')
    (machine.place / "signed").mkdir()
    (machine.place / "signed" / CHECKPOINT).write_bytes(signed(3, 1))
    (place / "a.tar").write_bytes(backup([(LOG, log_of(place, 1))]))
    done = machine.call(str(place / "a.tar"), "gateway.toml")
    assert done.returncode == 0 and "entry 3 was signed, so 1 and more" in done.stdout, done


def test_a_gateway_at_work(machine: Machine, place: Path) -> None:
    """It locks its log. Another day's is nobody's matter."""
    with (machine.logs / (LOG + ".lock")).open("w") as file:
        fcntl.flock(file, fcntl.LOCK_EX)
        machine.refused("is at work with %s: stop it first" % (machine.logs / LOG), (LOG, b""))
        log = log_of(place, 1)
        assert machine.restored(("day-20261126.db", log))


@pytest.mark.parametrize("words", [[], ["--help"], ["-", "gateway.toml", "more"]])
def test_wrong_words(words: list[str], machine: Machine) -> None:
    """How it is called; nothing is read."""
    done = machine.call(*words)
    assert done.returncode == 2 and done.stdout == "" and "mireseason-restore BACKUP" in done.stderr


def test_a_backup_that_is_not_there(machine: Machine) -> None:
    done = machine.call("none.tar", str(machine.config))
    assert done.returncode == 1 and "none.tar" in done.stderr and "Traceback" not in done.stderr


@pytest.mark.skipif(not is_root(), reason="a folder of another user's needs root")
@pytest.mark.parametrize("is_readable", [True, False])
def test_whose_the_log_is(is_readable: bool, machine: Machine, place: Path) -> None:
    """The folder's owner's, in whose name all is done: what that user may not read is not read."""
    for path in (machine.logs, machine.place, place):
        path.chmod(0o755)
    shutil.chown(machine.logs, "daemon", "mail")
    machine.keeps(signed(3, 3))
    kept = machine.place / "checkpoints" / CHECKPOINT
    shutil.chown(kept, "daemon", "root")
    kept.chmod(0o400 if is_readable else 0)
    done = machine.restore((LOG, log_of(place, 1)))
    assert (done.returncode == 0) == is_readable, done
    if is_readable:
        log = machine.logs / LOG
        assert (log.owner(), log.group(), log.stat().st_mode & 0o777) == ("daemon", "mail", 0o640)
        assert (machine.logs / "lost").stat().st_mode & 0o777 == 0o750
    assert os.geteuid() == 0
