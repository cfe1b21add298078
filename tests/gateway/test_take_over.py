"""Another gateway takes over: while somebody changes the log's copy for readers, after the first was killed at any call, with a
clock that is behind the first one's. It goes on with what is sealed."""

import random
from collections.abc import Iterator
from contextlib import contextmanager

from tests.admin.test_orders import request_fields
from tests.gateway.door import Door, is_running
from tests.gateway.firm import Received
from tests.gateway.market import moment_in
from tests.gateway.settle import wait_all_on
from tests.gateway.stage import INVESTOR, OTHER, Stage, check
from tests.gateway.test_copy import Day, changes, rejected
from tests.gateway.test_disk import shim
from tests.gateway.test_each_call import REST
from tests.gateway.test_gaps import answered_messages, check_sent_again
from tests.gateway.test_messages import answered, cancel, on_a_wire
from tests.gateway.test_reasons import (  # noqa: F401, the fixtures are called by their names
    follow,
    followed,
    keeps_checkpoints,
    noting,
)
from tests.gateway.test_second_attack import TRADE, sent_again
from tests.gateway.test_seals import Intruder, audited
from tests.gateway.wait import LONG, until, within
from tests.gateway.wire import Wire, now
from tests.harness.options import Form
from tests.limits.flood import logged_on

AHEAD = 100  # seconds: a firm's 52 may be two minutes off


def test_one_that_follows_reads_no_copy(followed: tuple[Stage, Door]) -> None:  # noqa: F811
    """The first is killed, and the second has the log: each firm is sent again what it was sent, under the same numbers; and so it
    is by the first, which takes over from the second."""
    stage, second = followed
    first, day = stage.door, Day(stage)
    follow(stage, second)
    keeps_checkpoints(second)
    intruder = Intruder(first)
    for statement in changes(intruder.literal(TRADE)).values():
        intruder.rows(statement)
    first.kill()
    second.wait_open()
    stage.door = second
    day.check("another gateway")
    first.start()
    second.kill()
    first.wait_open()
    stage.door = first
    day.check("the first one again")
    check(first.stop() == 0, first.last_words())


class Killed:
    """The second gateway of a stage, which can be ended by SIGKILL in the place of one of its next calls."""

    def __init__(self, stage: Stage, second: Door) -> None:
        self.stage, self.second, self.ended = stage, second, 0
        self.ends = second.folder / "ends"
        second.environment = shim(stage, DISK_END=str(self.ends))
        follow(stage, second)

    def follows(self) -> int:
        """How often it has said that it stands by."""
        return self.second.told.read_text(errors="replace").count("stands by")

    @contextmanager
    def at(self, call: int) -> Iterator[None]:
        """From here on its calls are counted; one that was not ended behind it is ended there."""
        fresh = self.ends.with_suffix(".fresh")
        fresh.write_text("%d %d" % (self.second.running.pid, call))
        fresh.rename(self.ends)
        venues = self.second.children()
        yield
        self.ended += self.second.has_ended()
        self.second.running.kill()
        check(self.second.wait_end() == -9, "it ends: %s" % self.second.last_words())
        self.ends.unlink()
        until("its venue ends", LONG, lambda: not any(is_running(pid) for pid in venues))

    def follow_again(self) -> None:
        before = self.follows()
        self.second.start()
        until("it stands by again", LONG, lambda: self.follows() > before)
        keeps_checkpoints(self.second)


def calls_of(form: Form, seed: int, words: str) -> list[int]:
    """At which of its next calls it is ended, one after the other."""
    if form is Form.LONG:
        return list(range(1, 100))
    return sorted(random.Random("%s %d" % (words, seed)).sample(range(1, 60), 4))


def is_whole(stage: Stage) -> None:
    """Each firm has all, once, and the audit finds nothing."""
    stage.auction()
    stage.whole()
    told = audited(stage, "--gateway-key", str(stage.door.keys / "gateway.pub"))
    check(told.returncode == 0, "the audit finds: %s" % told.stdout)


def test_killed_while_it_follows(
    followed: tuple[Stage, Door], form: Form, seed: int  # noqa: F811
) -> None:
    """The second gateway is ended in the place of one call after the other: the first goes on, and in the end the second takes over
    with all that there is."""
    stage, second = followed
    stage.open(*stage.firms)
    killed = Killed(stage, second)
    for call in calls_of(form, seed, "follows"):
        with killed.at(call):
            stage.auction()
            within(REST, second.has_ended)
        killed.follow_again()
    check(killed.ended > 0, "it was never ended")
    print("ended %d times at a call" % killed.ended)
    stage.door.kill()
    second.wait_open()
    stage.door = second
    wait_all_on(second, stage.firms)
    is_whole(stage)


def test_killed_while_it_takes_over(
    followed: tuple[Stage, Door], form: Form, seed: int  # noqa: F811
) -> None:
    """The first gateway is killed, and the second in the place of one of its next calls, before it listens or soon after: the first
    comes back, and goes on with what either has put there."""
    stage, second = followed
    stage.open(*stage.firms)
    first, killed = stage.door, Killed(stage, second)
    keeps_checkpoints(second)
    for call in calls_of(form, seed, "takes over"):
        stage.auction()
        with killed.at(call):
            first.kill()
            until("it opens or ends", LONG, lambda: second.has_ended() or second.is_open())
            within(REST, second.has_ended)
        first.start()
        first.wait_open()
        wait_all_on(first, stage.firms)
        killed.follow_again()
    check(killed.ended > 0, "it was never ended")
    print("ended %d times at a call" % killed.ended)
    # Else it takes over once the first ends, and the audit finds what it has not signed yet.
    check(second.stop() == 0, second.last_words())
    is_whole(stage)


def check_is_not_before(message: Received, tag: int) -> None:
    """A moment that was the first gateway's is still to come by the second's clock; 52 is not before it all the same."""
    moment = message.given(tag)
    check(moment > now(), "%d is no moment to come: %r" % (tag, message.raw))
    check(moment <= message.given(52), "52 is before %d: %r" % (tag, message.raw))


def ask_one_that_is_away(investor: Wire) -> None:
    """A request to the other dealer alone, which it is shown later."""
    dealer = [(448, b"DLR2"), (447, b"D"), (452, b"35")]
    fields = [*request_fields(b"A1", moment_in(600))[: -len(dealer)], *dealer]
    assert investor.raw(investor.message(b"R", b"INV1", fields))
    investor.ask()


def test_a_clock_that_is_behind(followed: tuple[Stage, Door]) -> None:  # noqa: F811
    """The second gateway's clock is behind the first one's, by which the log has its entries. Of what the second sends (what a firm
    had, what it was away for, and an answer of its own), no 52 is before 122, nor before the moment of the entry (60).
    """
    stage, second = followed
    first = stage.door
    first.environment = {"LD_PRELOAD": str(stage.tools.shim), "CLOCK_AHEAD": "%d" % AHEAD}
    stage.open()
    follow(stage, second)
    with logged_on(stage, INVESTOR) as investor, on_a_wire(stage) as dealer:
        ask_one_that_is_away(investor)
        said = answered_messages(dealer)
        rejected(dealer)
        number = dealer.number
    keeps_checkpoints(second)
    first.kill()
    second.wait_open()
    stage.door = second
    with logged_on(stage, OTHER) as other:
        (request,) = sent_again(other)
        check(request.kind == b"R", "it is sent %r" % request.raw)
        check_is_not_before(request, 122)
    with on_a_wire(stage, number) as dealer:
        dealer.raw(dealer.message(b"Z", b"DLR1", cancel(b"new")))
        check_is_not_before(answered(dealer, b"new"), 60)
        again = sent_again(dealer)
        of_session = [message for message in again if message.value(1181) is None]
        check(len(again) == len(said) + 2 and len(of_session) == 1, "again come %r" % again)
        for message in again:
            check_is_not_before(message, 122)
        check_sent_again(dealer, said)
