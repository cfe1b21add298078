"""Somebody who may write to the log's database, and has no key, cuts the day back to an earlier checkpoint, or takes a checkpoint
out. All that is left is right, but the checkpoint that the gateway keeps outside of the database says otherwise: no day is opened,
and the audit tells it."""

import subprocess

from tests.gateway.stage import Stage, check
from tests.gateway.test_log import ended_day, goes_on
from tests.gateway.test_seals import Intruder, audited, not_accepted

LAST_BUT_ONE = (
    "SELECT number, place, event, seal FROM checkpoint ORDER BY number DESC LIMIT 1 OFFSET 1"
)


def count(intruder: Intruder, table: str) -> int:
    ((found,),) = intruder.rows("SELECT count(*) FROM " + table)
    return int(found)


def cut(intruder: Intruder) -> int:
    """Ends each table where the last checkpoint but one was signed; the place of the last entry that is left."""
    ((number, place, event, seal),) = intruder.rows(LAST_BUT_ONE)
    for statement in (
        "checkpoint WHERE number > %s" % number,
        "seal WHERE number > %s" % seal,
        "entry WHERE place > %s" % place,
        "connection WHERE place > %s" % event,
        "sent WHERE place > %s" % place,
    ):
        intruder.rows("DELETE FROM " + statement)
    return int(place)


def looked_at(stage: Stage) -> subprocess.CompletedProcess[str]:
    """The audit's check, with the public key and the checkpoint that was kept."""
    keys = ("--gateway-key", str(stage.door.keys / "gateway.pub"))
    return audited(stage, *keys, "--checkpoint", str(stage.door.kept))


def two_sittings(stage: Stage) -> Intruder:
    """A day whose gateway ended twice; the log is whole."""
    ended_day(stage)
    goes_on(stage)  # and is ended
    told = looked_at(stage)
    check(told.returncode == 0, "the audit finds: %s" % told.stdout)
    return Intruder(stage.door)


def test_a_day_that_is_cut_back(stage_of_log: Stage) -> None:
    """To each checkpoint that there was, the last ones first."""
    stage = stage_of_log
    intruder = two_sittings(stage)
    last, checkpoints = stage.door.ledger().entries[-1].place, count(intruder, "checkpoint")
    check(checkpoints >= 4, "there are %d checkpoints" % checkpoints)
    for left in range(checkpoints - 1, 0, -1):
        place = cut(intruder)
        check(count(intruder, "checkpoint") == left, "another checkpoint is gone")
        check(count(intruder, "entry") == place + 1, "another entry is gone")
        told = looked_at(stage)
        check(told.returncode == 1 and "found wrong cut-off end" in told.stdout, told.stdout)
        not_accepted(stage)
    check(place < last, "no entry is gone")


def test_a_checkpoint_that_is_taken_out(stage_of_log: Stage) -> None:
    """Neither the first, nor one in the middle, nor the last is missed without a word."""
    stage = stage_of_log
    intruder = two_sittings(stage)
    ((last,),) = intruder.rows("SELECT max(number) FROM checkpoint")
    for number in (last, "2", "1"):
        intruder.rows("DELETE FROM checkpoint WHERE number = " + number)
        told = looked_at(stage)
        check(told.returncode == 1 and "NOT AS THEY SHOULD BE" in told.stdout, told.stdout)
