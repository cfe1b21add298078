"""An engine that lost its store, whatever refuses its Logons. It is locked out until an operator lets it in, also if the
gateway was killed meanwhile. The gateway tells of an engine that nobody could lock out."""

from tests.admin.operator import audit, did
from tests.admin.test_orders import WHY, check, is_refused, lost_store, opened, started_again
from tests.gateway.stage import DEALER, Stage
from tests.gateway.wait import LONG, until
from tests.gateway.wire import Wire
from tests.limits.flood import logged_on
from tests.operating.test_service import asked

LOST = 'dropped what="lost store" text="DLR1"'


def told(stage: Stage) -> str:
    return stage.door.told.read_text(errors="replace")


def is_locked(stage: Stage, times: int) -> None:
    """The operator was told so often that the engine has lost its store."""
    until("it is told", LONG, lambda: told(stage).count(LOST) >= times)
    check(told(stage).count(LOST) == times, told(stage))


def with_numbers(stage: Stage) -> int:
    """A dealer that has sent something; the number of its next message."""
    opened(stage)
    with logged_on(stage, DEALER) as wire:
        wire.ask()
        return wire.number


def test_a_lock_behind_a_release(stage_of_log: Stage) -> None:
    """The firm found its store, and loses it once more: a start does not repeat the release that came before the second lock."""
    stage = stage_of_log
    number = lost_store(stage)
    did(stage, "release", "DLR1")
    with logged_on(stage, DEALER, number=number) as wire:
        wire.ask()
        number = wire.number
    is_refused(stage, 1)
    is_locked(stage, 2)
    is_refused(stage, number)
    for _ in range(2):
        started_again(stage)
        is_refused(stage, number)
    did(stage, "release", "DLR1")
    started_again(stage)
    with logged_on(stage, DEALER, number=number) as wire:
        wire.ask()
    check(audit(stage, "check").status == 0, audit(stage, "check").text)


def test_resume_leaves_the_lock(stage_of_log: Stage) -> None:
    """To let a suspended firm in again says nothing of its store, at once and at a start."""
    stage = stage_of_log
    number = lost_store(stage)
    did(stage, "suspend", "DLR1", "--because", WHY)
    did(stage, "resume", "DLR1")
    is_refused(stage, number)
    started_again(stage)
    is_refused(stage, number)
    did(stage, "release", "DLR1")
    with logged_on(stage, DEALER, number=number) as wire:
        wire.ask()


def test_release_leaves_the_suspension(stage: Stage) -> None:
    """And the other way round."""
    number = lost_store(stage)
    did(stage, "suspend", "DLR1", "--because", WHY)
    did(stage, "release", "DLR1")
    is_refused(stage, number)
    did(stage, "resume", "DLR1")
    with logged_on(stage, DEALER, number=number) as wire:
        wire.ask()


def test_a_suspended_engine_that_lost_its_store(stage_of_log: Stage) -> None:
    """Its refused Logons climb to the number that is expected, and it is locked out all the same, and told of once."""
    stage = stage_of_log
    number = with_numbers(stage)
    did(stage, "suspend", "DLR1", "--because", WHY)
    for climbing in range(1, number):
        is_refused(stage, climbing)
    is_locked(stage, 1)
    did(stage, "resume", "DLR1")
    is_refused(stage, number)
    started_again(stage)
    is_refused(stage, number)
    did(stage, "release", "DLR1")
    with logged_on(stage, DEALER, number=number) as wire:
        wire.ask()


def test_an_engine_that_climbs_with_a_wrong_password(stage: Stage) -> None:
    """Anybody could send that, so nothing is locked: an event and the page say what may have happened."""
    number = with_numbers(stage)
    for climbing in range(1, number):
        with Wire(stage.door.port) as wire:
            wire.number = climbing
            assert wire.logon(b"DLR1", b"an old password")
            check(wire.closed_within(LONG), "a wrong password leaves a connection")
    with logged_on(stage, DEALER, number=number) as wire:
        wire.ask()
    doubt = "may have lost its store from=1 to=%d refused=%d" % (number, number - 1)
    until("it is told", LONG, lambda: doubt + " firm=DLR1" in told(stage))
    check(", %s</td>" % doubt in asked(stage.door, "/")[1], "the page does not say it")
    check(LOST not in told(stage), told(stage))
