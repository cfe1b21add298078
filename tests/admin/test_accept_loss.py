"""A log whose end is lost: the gateway opens its operator's socket alone, until the loss is accepted."""

import re
import socket
import sqlite3
import subprocess
from collections.abc import Callable

import pytest

from tests.admin.operator import acts, admin, audit, did, rows, socket_of, wait_open
from tests.admin.test_orders import halt_is_seen
from tests.gateway.stage import Stage
from tests.gateway.test_seals import kept_aside, put_back
from tests.gateway.wait import LONG, until


def cut_off(stage: Stage) -> None:
    """An old backup in the log's place."""
    backup = stage.folder / "backup.db"
    put_back(stage, backup)


def gone(stage: Stage) -> None:
    for ending in ("", "-wal", "-shm"):
        stage.door.database.with_name(stage.door.database.name + ending).unlink(missing_ok=True)


def kept_gone(stage: Stage) -> None:
    stage.door.kept.unlink()


LOSSES: list[Callable[[Stage], None]] = [cut_off, gone, kept_gone]
NAMES = ["an old backup", "no log", "no checkpoint"]


def until_it_waits(stage: Stage, lose: Callable[[Stage], None]) -> None:
    """A day with a trade loses the end of its log, and the gateway is started again."""
    stage.door.operators = ""
    stage.open(*stage.firms)
    stage.auction()
    stage.log_off(*stage.firms)
    stage.door.stop()
    kept_aside(stage)
    stage.door.start()
    wait_open(stage)
    did(stage, "limit", "DLR1", "day_bytes=700000")
    stage.door.stop()
    lose(stage)
    stage.door.start()
    until("it waits", LONG, lambda: "waits for the operator" in stage.door.last_words())


@pytest.mark.parametrize("lose", LOSSES, ids=NAMES)
def test_a_loss_that_is_accepted(stage: Stage, lose: Callable[[Stage], None]) -> None:
    """Nothing but the operator's socket is open; nothing of the day can be changed; once the loss is accepted the day opens, and
    the log says by whom and why."""
    until_it_waits(stage, lose)
    (row,) = rows(stage, "status")
    assert row["state"] == "waits" and row["for"].startswith("log accept-loss: "), row
    with socket.socket() as probe:
        assert probe.connect_ex(("127.0.0.1", stage.door.port)) != 0, "the door is open"
    for words in (
        ("limit", "DLR1", "day_bytes=800000"),
        ("clock", "accept"),
        ("reload",),
        ("firms",),
    ):
        said = admin(stage, *words)
        assert said.status == 1 and "no day is open" in said.err, said.text
    did(stage, "log", "accept-loss", "--because", "the disk of db1 is gone")
    stage.door.wait_open()
    lines = acts(stage)
    assert lines[-1].endswith(b' log accept-loss because="the disk of db1 is gone"'), lines
    if lose is gone:
        assert stage.door.ledger().entries[1].line == lines[-1]
    if lose is not kept_gone:
        assert len(lines) == 1, "an act that was lost is there: %r" % lines
    assert admin(stage, "log", "accept-loss").status == 1
    stage.door.stop()
    stage.door.start()
    stage.door.wait_open()
    found = audit(stage, "acts")
    assert found.status == 0 and "log accept-loss, because" in found.out, found.text


@pytest.mark.parametrize("lose", LOSSES, ids=NAMES)
def test_a_day_that_opens_halted(stage: Stage, lose: Callable[[Stage], None]) -> None:
    """The halt stands in the log with the acceptance, so no firm is there before it; it holds until the operator ends it, also
    over a restart."""
    until_it_waits(stage, lose)
    said = admin(stage, "log", "accept-loss", "--halt", "--because", "until the firms agree")
    assert said.status == 0 and "the venue is halted until `resume`" in said.out, said.text
    stage.door.wait_open()
    (accepted, halted) = acts(stage)[-2:]
    assert accepted.endswith(b' log accept-loss because="until the firms agree"'), accepted
    assert halted.endswith(b' halt because="until the firms agree"'), halted
    halt_is_seen(stage, "yes", takes_business=False)
    stage.door.stop()
    stage.door.start()
    stage.door.wait_open()
    halt_is_seen(stage, "yes", takes_business=False)
    did(stage, "resume")
    halt_is_seen(stage, "no", takes_business=True)
    until("the record is whole", LONG, lambda: audit(stage, "check").status == 0)


@pytest.mark.parametrize("lose", LOSSES, ids=NAMES)
def test_a_gateway_that_is_killed_behind_its_answer(
    stage: Stage, lose: Callable[[Stage], None]
) -> None:
    """What the operator was told holds: the next start finds the halt, and who ordered it."""
    until_it_waits(stage, lose)
    did(stage, "log", "accept-loss", "--halt", "--because", "until the firms agree")
    stage.door.kill()
    stage.door.start()
    stage.door.wait_open()
    (accepted, halted) = acts(stage)[-2:]
    assert accepted.endswith(b' log accept-loss because="until the firms agree"'), accepted
    assert halted.endswith(b' halt because="until the firms agree"'), halted
    halt_is_seen(stage, "yes", takes_business=False)


def test_without_a_socket(stage: Stage) -> None:
    """--accept-loss says who did it, in a log that is gone too."""
    stage.open(*stage.firms)
    stage.auction()
    stage.log_off(*stage.firms)
    stage.door.stop()
    gone(stage)
    words = [stage.door.programs.gateway, "--accept-loss", stage.folder / "gateway.toml"]
    subprocess.run([str(word) for word in words], check=True, capture_output=True)
    stage.door.start()
    stage.door.wait_open()
    line = stage.door.ledger().entries[1].line
    assert b" log accept-loss" in line, line
    until("the record is whole", LONG, lambda: audit(stage, "check").status == 0)


def test_without_a_socket_and_a_venue(stage: Stage) -> None:
    """Where the venue's program ends before it has read the configuration, --accept-loss says so, and accepts nothing."""
    stage.open()
    stage.door.stop()
    gone(stage)
    kept = stage.door.kept.read_bytes()
    file = stage.folder / "gateway.toml"
    other = re.sub("(?m)^command = .*$", 'command = ["/bin/false"]', file.read_text())
    file.write_text(other)
    for venue in ("venue.toml", "longer"):
        words = [str(stage.door.programs.gateway), "--accept-loss", str(file)]
        said = subprocess.run(words, check=False, capture_output=True, text=True)
        assert said.returncode == 1, "%s: %r" % (venue, said)
        assert "/bin/false does not take the configuration" in said.stderr, said.stderr
        assert stage.door.kept.read_bytes() == kept
        # More than a pipe takes: it is still being written when the program ends.
        with (stage.folder / "venue.toml").open("a") as configuration:
            configuration.write(("# " + "x" * 98 + "\n") * 2000)


def test_a_gateway_that_waits_is_ended(stage: Stage) -> None:
    """By SIGTERM, with status 0 and its socket removed; and nothing was accepted."""
    stage.door.operators = ""
    stage.open()
    stage.door.stop()
    kept_gone(stage)
    stage.door.start()
    until("it waits", LONG, lambda: "waits for the operator" in stage.door.last_words())
    assert stage.door.stop() == 0
    assert not socket_of(stage).exists()
    assert not stage.door.kept.exists()


def test_a_log_that_somebody_changed_is_not_accepted(stage: Stage) -> None:
    """What no gateway has sealed is no loss: the gateway ends with its fault, and there is nothing to accept."""
    stage.door.operators = ""
    stage.open(*stage.firms)
    stage.auction()
    stage.door.stop()
    with sqlite3.connect(stage.door.database) as log:
        log.execute("DELETE FROM seal WHERE number = (SELECT max(number) FROM seal)")
    log.close()
    stage.door.start()
    assert stage.door.wait_end() == 1
    assert "is not sealed" in stage.door.last_words()
