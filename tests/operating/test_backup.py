"""A backup of a day that goes on, whoever trades meanwhile: a stream of one moment. tar reads it, the audit checks it, and
mireseason-restore puts it back."""

import io
import json
import shutil
import socket
import sqlite3
import subprocess
import tarfile
import tempfile
from collections.abc import Callable
from contextlib import closing
from pathlib import Path
from typing import Any

import pytest

from tests.admin.operator import (
    admin,
    audit,
    connected,
    did,
    is_root,
    rows,
    said_as,
    socket_of,
    wait_open,
)
from tests.admin.stream import Stream
from tests.gateway.door import today
from tests.gateway.firm import Firm
from tests.gateway.midnight import wait_for_room
from tests.gateway.stage import DEALER, Stage
from tests.gateway.wait import LONG, until
from tests.harness.options import ROOT
from tests.limits.flood import logged_on
from tests.operating.test_configuration import VENUE, write
from tests.operating.test_operators import MAY

RESTORE = ROOT / "install" / "packages" / "sbin" / "mireseason-restore"
AUDIT = ROOT / "audit" / "mireseason-audit"
BLOCK = 512  # of tar


def opened(stage: Stage, *firms: Firm) -> None:
    stage.door.operators = ""
    wait_for_room("a day")
    write(stage, VENUE)
    stage.open(*firms)


def backup(stage: Stage) -> bytes:
    """What the command writes to standard output."""
    program = stage.door.programs.gateway.parent / "mireseason-admin"
    command = [str(program), "--socket", str(socket_of(stage)), "backup"]
    done = subprocess.run(command, capture_output=True, timeout=LONG, check=False)
    assert done.returncode == 0, done.stderr
    assert not done.stderr
    return done.stdout


def unpacked(data: bytes, folder: Path) -> Path:
    """Its log, beside what else it has."""
    folder.mkdir()
    with tarfile.open(fileobj=io.BytesIO(data)) as archive:
        archive.extractall(folder)
    names = {path.name for path in folder.iterdir()}
    log = "day-%s.db" % today()
    assert names == {log, log + "-wal", "day-%s.checkpoint" % today()}, names
    return folder / log


def checked(stage: Stage, log: Path) -> str:
    """What the audit says of it: it has to be whole, and as its checkpoint signs it."""
    words = [str(AUDIT), "check", str(log), "--venue", " ".join(stage.tools.programs.venue)]
    words += ["--gateway-key", str(stage.folder / "keys" / "gateway.pub")]
    words += ["--checkpoint", str(log.with_suffix(".checkpoint"))]
    done = subprocess.run(words, capture_output=True, text=True, timeout=LONG, check=False)
    assert done.returncode == 0, done.stdout + done.stderr
    return done.stdout


def restored(stage: Stage, data: bytes) -> "subprocess.CompletedProcess[bytes]":
    """By the one command, from standard input."""
    words = [str(RESTORE), "-", str(stage.folder / "gateway.toml")]
    return subprocess.run(words, input=data, capture_output=True, timeout=LONG, check=False)


def lose_the_log(stage: Stage) -> None:
    for file in stage.folder.glob("day-*.db*"):
        file.unlink()


def last_place(log: Path) -> int:
    with closing(sqlite3.connect(log)) as database:
        ((place,),) = database.execute("SELECT max(place) FROM entry")
    return int(place)


def test_a_backup_while_firms_trade(stage: Stage, tmp_path: Path) -> None:
    """Each is of one moment, and has no less than what was answered before it was asked for. The last one is restored: the gateway
    goes on with it, once an operator has accepted that what came behind is lost, and the day is whole.
    """
    opened(stage, stage.other, stage.investor)
    stage.auction([stage.other])
    with logged_on(stage, DEALER) as wire:
        stage.ask_of([stage.dealer, stage.other])
        assert wire.read_kind(b"R") is not None
        with Stream(wire) as stream:
            for nth in range(3):
                stream.wait_for_more()
                before = stage.door.ledger().entries[-1].place
                data = backup(stage)
                log = unpacked(data, tmp_path / str(nth))
                assert last_place(log) >= before
                assert integrity(log) == "ok"
    stage.door.kill()
    done = restored(stage, data)
    assert done.returncode == 0, done.stderr
    stage.door.start()
    until("the day is open", LONG, lambda: is_open(stage))
    assert stage.door.stop() == 0, stage.door.last_words()
    assert audit(stage, "check").status == 0, audit(stage, "check").text


def integrity(log: Path) -> str:
    with closing(sqlite3.connect(log)) as database:
        return str(database.execute("PRAGMA integrity_check").fetchone()[0])


def is_open(stage: Stage) -> bool:
    """Whether the gateway has opened the day, where it has to with an operator's word."""
    said = admin(stage, "--json", "status")
    if said.status != 0:
        return False
    (row,) = json.loads(said.out)["rows"]
    if "accept-loss" in str(row.get("for")):
        did(stage, "log", "accept-loss", "--because", "the disk is gone, and this is its backup")
    return str(row["state"]) == "open"


def test_a_backup_that_is_restored(stage: Stage, tmp_path: Path) -> None:
    """The log is lost with its disk, and one command puts it back. Nothing came behind the backup, so nothing is lost, and the day
    goes on as far as what the gateway keeps outside of its database is no further; else once an operator has accepted it.
    """
    opened(stage, *stage.firms)
    stage.auction()
    last = stage.door.ledger().entries[-1].place
    until("all is signed", LONG, lambda: signed_entry(stage) >= last)
    data = backup(stage)
    checked(stage, unpacked(data, tmp_path / "now"))
    told = admin_told(stage)
    done = restored(stage, data)
    assert done.returncode == 1 and b"a gateway is at work with" in done.stderr, done
    stage.door.kill()
    lose_the_log(stage)
    done = restored(stage, data)
    assert done.returncode == 0, done.stderr
    assert b"no entry that was signed is missing" in done.stdout, done.stdout
    assert not list(stage.folder.glob(".restore-*"))
    again(stage)
    stage.auction()
    assert admin_told(stage)["entries"] > told["entries"]
    stage.whole()


def admin_told(stage: Stage) -> dict[str, Any]:
    return rows(stage, "status")[0]


def signed_entry(stage: Stage) -> int:
    """Up to where the day is signed outside of its database."""
    return int(admin_told(stage)["signed_entry"])


def again(stage: Stage) -> None:
    """The gateway has opened the day, and all firms are back."""
    stage.door.start()
    until("the day is open", LONG, lambda: is_open(stage))
    until("all are back", LONG, lambda: all(firm.logged_on() for firm in stage.firms))


def test_a_backup_from_before_a_stop(stage: Stage) -> None:
    """No entry came behind it, and yet the gateway has signed more: what it told firms at its end. The command says that it waits."""
    opened(stage, *stage.firms)
    stage.auction()
    last = stage.door.ledger().entries[-1].place
    until("all is signed", LONG, lambda: signed_entry(stage) >= last)
    data = backup(stage)
    assert stage.door.stop() == 0
    assert stage.door.ledger().entries[-1].place == last
    done = restored(stage, data)
    assert done.returncode == 0, done.stderr
    assert b"but what sessions did after it" in done.stdout and b"accept-loss" in done.stdout, done
    stage.door.start()
    until("it waits", LONG, lambda: "log accept-loss" in admin(stage, "status").out)


def test_a_backup_that_is_old(stage: Stage) -> None:
    """A trade came behind it. The command says so, the gateway waits for the operator, and what stood there is kept aside."""
    opened(stage, *stage.firms)
    stage.auction()
    data = backup(stage)
    stage.auction()
    entries = stage.door.ledger().entries
    until("all is signed", LONG, lambda: signed_entry(stage) >= entries[-1].place)
    stage.door.kill()
    done = restored(stage, data)
    assert done.returncode == 0, done.stderr
    assert b"was signed, so" in done.stdout and b"accept-loss" in done.stdout, done.stdout
    (kept,) = (stage.folder / "lost").glob("*/day-%s.db" % today())
    assert last_place(kept) == entries[-1].place, "what stood there is not kept"
    stage.door.start()
    until("it waits", LONG, lambda: "log accept-loss" in admin(stage, "status").out)
    assert not stage.investor.logged_on()


def of_another_day(data: bytes) -> bytes:
    return data.replace(today().encode(), b"20200101")


def cut(data: bytes) -> bytes:
    return data[: len(data) // 2]


def cut_behind(file: int) -> Callable[[bytes], bytes]:
    """Where a file ends, so that all that is there is whole."""

    def made(data: bytes) -> bytes:
        with tarfile.open(fileobj=io.BytesIO(data)) as archive:
            members = archive.getmembers()
        end = members[file].offset_data + members[file].size
        return data[: -(-end // BLOCK) * BLOCK]

    return made


def without_end(size: int) -> Callable[[bytes], bytes]:
    """A header that says so many bytes, of which none are there: more than a disk has."""

    def made(data: bytes) -> bytes:
        member = tarfile.TarInfo("day-%s.db" % today())
        member.size = size
        return member.tobuf(tarfile.GNU_FORMAT) + data

    return made


def sparse(data: bytes) -> bytes:
    """A file of a terabyte whose bytes are all left out."""
    member = tarfile.TarInfo("day-%s.db" % today())
    header = bytearray(member.tobuf(tarfile.GNU_FORMAT))
    header[156:157] = tarfile.GNUTYPE_SPARSE
    header[483:495] = b"%011o\0" % (1 << 32)
    header[148:156] = b" " * 8
    header[148:156] = b"%06o\0 " % sum(header)
    return bytes(header) + data


def with_trigger(data: bytes) -> bytes:
    """A log that does something when the gateway writes there."""
    with tempfile.TemporaryDirectory() as name:
        log = unpacked(data, Path(name) / "now")
        with closing(sqlite3.connect(log)) as database, database:
            database.execute(
                "CREATE TRIGGER more AFTER INSERT ON entry BEGIN DELETE FROM seal; END"
            )
        file = io.BytesIO()
        with tarfile.open(fileobj=file, mode="w", format=tarfile.USTAR_FORMAT) as archive:
            for path in sorted(log.parent.iterdir()):
                archive.add(path, path.name)
        return file.getvalue()


def another_log(data: bytes) -> bytes:
    """The log of another moment beside this checkpoint: one byte of a hash that it signs is another."""
    at = data.rindex(b"\nentry ")
    at = data.index(b" ", at + 7) + 1
    return data[:at] + (b"0" if data[at : at + 1] != b"0" else b"1") + data[at + 1 :]


def with_member(name: str, kind: bytes = tarfile.REGTYPE) -> Callable[[bytes], bytes]:
    """A file more, of any name and kind."""

    def made(data: bytes) -> bytes:
        file = io.BytesIO()
        with tarfile.open(fileobj=file, mode="w", format=tarfile.USTAR_FORMAT) as archive:
            member = tarfile.TarInfo(name)
            member.type, member.linkname = kind, "/etc/passwd"
            archive.addfile(member)
        return file.getvalue()[:BLOCK] + data

    return made


def given_again(end: str, times: int) -> Callable[[bytes], bytes]:
    """The file with this end comes so often more, ahead of its own place, with other bytes."""

    def made(data: bytes) -> bytes:
        file = io.BytesIO()
        with (
            tarfile.open(fileobj=io.BytesIO(data)) as backup,
            tarfile.open(fileobj=file, mode="w", format=tarfile.USTAR_FORMAT) as archive,
        ):
            for member in backup:
                content = backup.extractfile(member)
                assert content is not None
                own = content.read()
                for _ in range(times if member.name.endswith(end) else 0):
                    archive.addfile(member, io.BytesIO(own[::-1]))
                archive.addfile(member, io.BytesIO(own))
        return file.getvalue()

    return made


FORGED = {
    "a log that comes twice": (given_again(".db", 1), "too often"),
    "what stands beside it, three times": (given_again("-wal", 2), "too often"),
    "cut": (cut, "nothing is restored"),
    "cut behind the log": (cut_behind(0), "the backup is cut off"),
    "cut behind all files": (cut_behind(-1), "the backup is cut off"),
    "a file that is too long": (without_end(1 << 60), "the log's disk has"),
    "a file of holes": (sparse, "is no file of a backup"),
    "a trigger": (with_trigger, "has more than tables"),
    "another log": (another_log, "is not the one that its checkpoint signs"),
    "a way out": (with_member("../day-20261127.db"), "is no file of a backup"),
    "a whole path": (with_member("/etc/cron.d/x"), "is no file of a backup"),
    "another file": (with_member("gateway.toml"), "is no file of a backup"),
    "a link": (with_member("day-20261127.db", tarfile.SYMTYPE), "is no file of a backup"),
    "a device": (with_member("day-20261127.db", tarfile.CHRTYPE), "is no file of a backup"),
    "two days": (with_member("day-20200101.db"), "the backup is of 2 days"),
    "nothing": (lambda data: b"", "nothing is restored"),
    "no archive": (lambda data: data[7:], "nothing is restored"),
}


@pytest.fixture(scope="module")
def kept() -> dict[str, bytes]:
    """A backup that the cases below share."""
    return {}


@pytest.mark.parametrize("name", FORGED)
def test_what_is_no_backup(stage: Stage, kept: dict[str, bytes], name: str) -> None:
    """It changes nothing: the log stands as it was, and nothing is left beside it."""
    forge, because = FORGED[name]
    opened(stage)
    if not kept:
        kept["data"] = backup(stage)
    stage.door.kill()
    before = {path.name: path.read_bytes() for path in stage.folder.glob("day-*.db*")}
    done = restored(stage, forge(kept["data"]))
    assert done.returncode == 1 and because.encode() in done.stderr, done
    after = {path.name: path.read_bytes() for path in stage.folder.glob("day-*.db*")}
    assert after == before
    assert not list(stage.folder.glob(".restore-*")) and not (stage.folder / "lost").exists()


@pytest.mark.skipif(not is_root(), reason="to call as another user needs root")
def test_who_may_take_one(stage: Stage) -> None:
    """It has what every firm said: an operator who may do all else may not."""
    stage.door.operators = MAY[1]
    wait_for_room("a day")
    write(stage, VENUE)
    stage.open()
    path = socket_of(stage)
    path.chmod(0o666)
    assert said_as(*MAY, path, b"1 text status\n").startswith("ok\n")
    for line in (b"1 text backup\n", b"1 json backup\n"):
        assert said_as(*MAY, path, line).startswith("error\na backup has what every firm said")
    for line in (b"1 text backup all\n", b"1 text backup --because x\n"):
        assert said_as(*MAY, path, line).startswith("error\nusage: backup")


@pytest.mark.parametrize("log_place", ["postgres"], indirect=True)
def test_a_log_in_postgres(stage_of_log: Stage) -> None:
    """The server's own tools copy it, and the command names them."""
    stage = stage_of_log
    stage.door.operators = ""
    stage.open()
    said = admin(stage, "backup")
    assert said.status == 1 and not said.out
    assert (
        "pg_dump -n day_" in said.err and "pg_basebackup" in said.err and ".checkpoint" in said.err
    )


def test_who_takes_nothing(stage: Stage) -> None:
    """As many as one user may have ask for a backup and take nothing of it: firms trade meanwhile, each is left after some seconds,
    and then the next one is answered."""
    opened(stage, *stage.firms)
    idle = [connected(socket_of(stage)) for _ in range(4)]
    for each in idle:
        each.sendall(b"1 text backup\n")
    stage.auction()
    until("they are left", LONG, lambda: told(stage).count("operator did not take") == 4)
    for each in idle:
        each.close()
    stage.auction()
    assert len(backup(stage)) % BLOCK == 0
    stage.whole()


def told(stage: Stage) -> str:
    return stage.door.told.read_text(errors="replace")


def test_a_backup_that_nobody_reads_to_its_end(stage: Stage) -> None:
    """Where standard output takes no more, or the gateway ends, the command says that what was written is not whole."""
    opened(stage)
    program = stage.door.programs.gateway.parent / "mireseason-admin"
    command = [str(program), "--socket", str(socket_of(stage)), "backup"]
    with open("/dev/full", "wb") as full:
        done = subprocess.run(
            command, stdout=full, stderr=subprocess.PIPE, timeout=LONG, check=False
        )
    assert done.returncode == 1 and b"is not whole" in done.stderr, done
    with subprocess.Popen(command, stdout=subprocess.PIPE, stderr=subprocess.PIPE) as process:
        assert process.stdout is not None and process.stderr is not None
        assert process.stdout.read(1)
        stage.door.kill()
        process.stdout.read()
        assert b"is not whole" in process.stderr.read()
    assert process.returncode == 1


def test_what_status_says(stage: Stage) -> None:
    """Beside the day: up to where it is signed, the reserve, copies, the keeper, and whether a restart would go well."""
    opened(stage)
    row = admin_told(stage)
    assert row["log_disk_reserve_bytes"] == 256 << 20
    assert (row["days_without_copy"], row["days_without_seal"]) == ("no [copies]", "no keeper")
    assert row["restart_goes_well"] is True
    assert "a restart now goes on with %s to " % today() in did(stage, "status")
    last = stage.door.ledger().entries[-1].place
    until("all is signed", LONG, lambda: signed_entry(stage) >= last)
    credentials = stage.folder / "credentials.toml"
    credentials.write_text(credentials.read_text().replace("password", "pasword"))
    assert admin_told(stage)["restart_goes_well"] is False
    assert "a restart now ends with status 1: " in did(stage, "status")


def test_status_of_copies(stage: Stage) -> None:
    """How many days wait for the keeper, of those that are copied."""
    stage.door.operators = ""
    wait_for_room("a day")
    write(stage, VENUE)
    copies, sealed = stage.folder / "copies", stage.folder / "sealed"
    for folder in (copies, sealed, copies / "20261126", copies / "20261127", copies / "20261127.1"):
        folder.mkdir()
    (sealed / "20261126").write_text("")
    file = stage.folder / "gateway.toml"
    text = file.read_text().replace(
        "[metrics]", '[copies]\nfolder = "copies"\nsealed = "sealed"\n[metrics]'
    )
    file.write_text(text)
    stage.door.start()
    wait_open(stage)
    row = admin_told(stage)
    assert (row["days_without_copy"], row["days_without_seal"]) == (0, 1)


ANSWERS = {
    "a length that is none": b"stream\nzzzzzzzz",
    "a piece that is too long": b"stream\nffffffff" + b"x" * 4096,
    "an end in the midst": b"stream\n00000010abc",
    "no end": b"stream\n00000003abc",
    "a fault": b"stream\n00000003abc--------the disk is gone",
}


@pytest.mark.parametrize("name", ANSWERS)
def test_a_stream_of_somebody_else(stage: Stage, place: Path, name: str) -> None:
    """Whoever stands at the socket in the place of a gateway: the command says that what was written is not whole, and takes no more
    memory than a piece has."""
    path = place / "false.sock"
    with socket.socket(socket.AF_UNIX) as listening:
        listening.bind(str(path))
        listening.listen()
        program = stage.door.programs.gateway.parent / "mireseason-admin"
        command = [str(program), "--socket", str(path), "backup"]
        with subprocess.Popen(command, stdout=subprocess.PIPE, stderr=subprocess.PIPE) as asked:
            with listening.accept()[0] as connection:
                assert connection.recv(1024) == b"1 text backup\n"
                connection.sendall(ANSWERS[name])
            out, err = asked.communicate(timeout=LONG)
    assert asked.returncode == 1 and b"is not whole" in err, err
    assert out in (b"", b"abc")


@pytest.mark.skipif(not is_root(), reason="a folder of another user's needs root")
def test_who_has_what_is_restored(stage: Stage) -> None:
    """The gateway's user, as the folder of the log has it; what the backup has is read as that user, and not as root."""
    opened(stage)
    data = given_again("-wal", 1)(backup(stage))  # as where SQLite begins that file anew meanwhile
    stage.door.kill()
    lose_the_log(stage)
    (stage.folder / "gateway.toml").chmod(0o644)
    for file in [
        stage.folder,
        *stage.folder.glob("day-*"),
        *(stage.folder / "checkpoints").iterdir(),
    ]:
        shutil.chown(file, "daemon", "daemon")
    (stage.folder / "checkpoints").chmod(0o755)
    done = restored(stage, data)
    assert done.returncode == 0, done.stderr
    log = stage.folder / ("day-%s.db" % today())
    assert (log.owner(), log.group(), log.stat().st_mode & 0o777) == ("daemon", "daemon", 0o640)
