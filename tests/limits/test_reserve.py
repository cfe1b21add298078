"""The reserve on the log's disk: a small file system of the test's own, first nearly full, and then full indeed."""

import os
import subprocess
from collections.abc import Iterator
from pathlib import Path

import pytest

from tests.admin.operator import audit, is_root, rows
from tests.admin.stream import quote_fields
from tests.admin.test_orders import quoted, request_fields, started_again
from tests.gateway.market import moment_in
from tests.gateway.stage import DEALER, INVESTOR, Stage
from tests.gateway.wait import LONG, until
from tests.gateway.wire import Wire
from tests.limits.flood import cancel, logged_on, not_taken, responded
from tests.operating.test_configuration import told
from tests.operating.test_service import asked as seen

DISK, RESERVE = 48 << 20, 16 << 20  # bytes
NOT_AVAILABLE = b"4"  # BusinessRejectReason (380)
FULL = b"the disk of the venue's log is nearly full"
REACHED, FREE = "mireseason_log_disk_reserve_reached", "mireseason_log_disk_free_bytes"


@pytest.fixture
def disk(place: Path) -> Iterator[Path]:
    """A folder that is a file system of DISK bytes."""
    folder = place / "disk"
    folder.mkdir()
    size = "size=%d" % DISK
    made = subprocess.run(
        ["mount", "-t", "tmpfs", "-o", size, "tmpfs", folder], capture_output=True, check=False
    )
    if made.returncode != 0:
        reason = made.stderr.decode(errors="replace").strip()
        assert not is_root() or "permitted" in reason or "denied" in reason, reason
        pytest.skip("no file system can be mounted here: %s" % reason)
    yield folder
    subprocess.run(["umount", "-l", folder], check=True)


def free(disk: Path) -> int:
    found = os.statvfs(disk)
    return found.f_bavail * found.f_frsize


def leave(disk: Path, left: int) -> None:
    """Fills the disk by a file of another program, until so much is left."""
    with (disk / "other").open("ab") as file:
        while free(disk) > left:
            try:
                file.write(bytes(min(1 << 16, max(4096, free(disk) - left))))
                file.flush()
            except OSError:
                return


def make_room(disk: Path) -> None:
    (disk / "other").unlink()


def opened(stage: Stage, reserve: int = RESERVE) -> None:
    """A gateway whose log is on that disk."""
    stage.door.operators = ""
    stage.door.write()
    file = stage.folder / "gateway.toml"
    log = 'sqlite = "disk/day.db"\nreserve = %d\n' % reserve
    file.write_text(file.read_text().replace('sqlite = "day.db"\n', log))
    (stage.folder / "day.db").symlink_to("disk/day.db")
    stage.door.start()
    stage.door.wait_open()


def reached(stage: Stage, wanted: int) -> None:
    until("the reserve is %d" % wanted, LONG, lambda: stage.counters()[REACHED] == wanted)


def events(stage: Stage) -> str:
    return stage.door.told.read_text(errors="replace")


def at_the_edge(stage: Stage, dealer: Wire, investor: Wire) -> None:
    """A quote and a request are not taken; a cancel and a hit are, and a pass."""
    not_taken(dealer, b"S", quote_fields(b"q9"), NOT_AVAILABLE, FULL)
    not_taken(investor, b"R", request_fields(b"A9", moment_in(600)), NOT_AVAILABLE, FULL)
    assert dealer.raw(cancel(dealer, dealer.number, b"x9"))
    dealer.number += 1
    assert dealer.got_until(lambda message: message.value(117) == b"x9").value(297) == b"9"
    assert rows(stage, "status")[0]["log_disk_reserve_reached"] is True


def test_at_the_edge_of_the_reserve(disk: Path, stage: Stage) -> None:
    """What begins something is not taken, what ends it is, and the operator sees it; with room again all goes on."""
    opened(stage)
    with logged_on(stage, DEALER) as dealer, logged_on(stage, INVESTOR) as investor:
        for name, request in ((b"A1", b"q1"), (b"A2", b"q2")):
            fields = request_fields(name, moment_in(600))
            assert investor.raw(investor.message(b"R", b"INV1", fields))
            asked = dealer.got(b"R")
            quoted(dealer, request, asked.given(131))
        shown = [investor.got(b"S") for _ in range(2)]
        assert stage.counters()[REACHED] == 0
        leave(disk, RESERVE - (1 << 20))
        reached(stage, 1)
        assert (
            'no request and no quote is taken until="there is room on the log\'s disk"'
            in events(stage)
        )
        assert "until there is room on the log" in seen(stage.door, "/")[1]
        assert stage.counters()[FREE] < RESERVE
        at_the_edge(stage, dealer, investor)
        assert responded(investor, [(693, b"h1"), (694, b"1"), (117, shown[0].given(117))]) == b"0"
        assert responded(investor, [(693, b"p1"), (694, b"6"), (131, b"A2")]) == b"11"
        make_room(disk)
        reached(stage, 0)
        assert "there is room on the log's disk again" in events(stage)
        fields = request_fields(b"A3", moment_in(600))
        assert investor.raw(investor.message(b"R", b"INV1", fields))
        quoted(dealer, b"q3", dealer.got(b"R").given(131))
        assert rows(stage, "status")[0]["log_disk_reserve_reached"] is False
    assert audit(stage, "check").status == 0


def test_the_disk_is_full_behind_the_reserve(disk: Path, stage: Stage) -> None:
    """Cancels use the reserve up, until a commit fails: the gateway ends and says why, and with room again nothing was lost."""
    opened(stage)
    with logged_on(stage, DEALER) as dealer:
        leave(disk, 0)
        reached(stage, 1)
        count = 0
        while count < 40_000 and not stage.door.has_ended():
            piece = b"".join(cancel(dealer, dealer.number + at, b"c%d" % at) for at in range(100))
            if not dealer.raw(piece):
                break
            dealer.number, count = dealer.number + 100, count + 100
            if dealer.read_until(lambda message: message.value(117) == b"c99") is None:
                break  # the gateway ends, or says nothing any more
    assert stage.door.wait_end() == 1
    # SQLite says `database or disk is full`, or `disk I/O error` where it was the index of its WAL that had no room; or it was the
    # spool that had none.
    words = stage.door.last_words()
    assert any(
        cause in words
        for cause in (
            "the log could not be written: SQLite",
            "the spool can't be written: No space left on device",
        )
    ), words
    make_room(disk)
    started_again(stage)
    number = 1 + max(entry.number or 0 for entry in stage.door.ledger().messages_of("DLR1"))
    with logged_on(stage, DEALER, number=number) as dealer:
        assert dealer.raw(cancel(dealer, dealer.number, b"last"))
        dealer.number += 1
        assert dealer.got_until(lambda message: message.value(117) == b"last").value(297) == b"9"
    assert audit(stage, "check").status == 0


def test_a_reserve_that_the_disk_does_not_have(disk: Path, stage: Stage) -> None:
    """--check says so: such a gateway would take no request."""
    opened(stage, reserve=DISK + 1)
    assert stage.door.stop() == 0
    found = told(stage)
    assert found.returncode == 1
    assert "[log] reserve = %d: the disk of " % (DISK + 1) in found.stderr, found.stderr


def test_a_log_whose_disk_is_known(stage: Stage) -> None:
    """`disk` is for PostgreSQL alone."""
    stage.door.write()
    file = stage.folder / "gateway.toml"
    log = 'sqlite = "day.db"\ndisk = "."\n'
    file.write_text(file.read_text().replace('sqlite = "day.db"\n', log))
    found = told(stage)
    assert (found.returncode, "[log] disk is for a log in PostgreSQL" in found.stderr) == (1, True)
