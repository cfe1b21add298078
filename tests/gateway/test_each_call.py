"""SIGKILL ends the gateway instead of one call that would change something outside of it: of a batch, of a checkpoint and its
file, of a start. The next start goes on. Each message that left is sent again as it was, none gets the number of another, and
what each firm sent is in the log once."""

import random
import re
from collections.abc import Callable, Iterator
from contextlib import contextmanager

import pytest

from tests.gateway.door import is_running
from tests.gateway.firm import Received
from tests.gateway.ledger import rows
from tests.gateway.settle import wait_all_on
from tests.gateway.stage import DEALER, Stage, check
from tests.gateway.test_disk import shim
from tests.gateway.test_seals import audited
from tests.gateway.wait import LONG, until, within
from tests.gateway.wire import Wire, now
from tests.harness.options import Form

REST = 0.3  # seconds: by then a batch of marks behind a message is committed, too
KEPT = re.compile(rb"\x0135=(?!(?:A|0|1|2|5)\x01)")
NOT_ITS_OWN = re.compile(rb"\x01(?:8|9|52|43|122|97|10)=[^\x01]*")


class Ends:
    """A stage whose gateway can be ended at its next calls."""

    def __init__(self, stage: Stage) -> None:
        self.stage, self.file = stage, stage.folder / "ends"
        stage.door.environment = shim(stage, DISK_END=str(self.file))

    @contextmanager
    def at(self, number: int) -> Iterator[None]:
        """From here on the gateway's calls are counted. Behind it another one runs: one that was not ended is ended there."""
        door = self.stage.door
        started = door.children()
        fresh = self.file.with_suffix(".fresh")
        fresh.write_text("%d %d" % (door.running.pid, number))
        fresh.rename(self.file)
        yield
        door.running.kill()
        check(door.wait_end() == -9, "the gateway ends: %s" % door.last_words())
        self.file.unlink()
        until("its venue ends", LONG, lambda: not any(is_running(pid) for pid in started))
        door.start()
        door.wait_open()

    def ended_or(self, is_done: Callable[[], bool]) -> bool:
        """Waits until the gateway has ended, or it is done and some more is; whether it has ended."""
        until("it is done", LONG, lambda: self.stage.door.has_ended() or is_done())
        return within(REST, self.stage.door.has_ended)


def is_whole(stage: Stage) -> None:
    """Each firm has all, once, and the audit finds nothing."""
    stage.whole()
    told = audited(stage, "--gateway-key", str(stage.door.keys / "gateway.pub"))
    check(told.returncode == 0, "the audit finds: %s" % told.stdout)


def calls_of(
    form: Form, seed: int, words: str, first: int = 24, all_of_them: int = 140
) -> list[int]:
    """At which of its next calls it is ended, one after the other: in the short form at some of the first of them."""
    if form is Form.LONG:
        return list(range(1, all_of_them))
    return sorted(random.Random("%s %d" % (words, seed)).sample(range(1, first), 4))


# ---------------------------------------------------------------- a message, its answers, and the marks behind


def test_a_message_and_its_answers(stage_of_log: Stage, form: Form, seed: int) -> None:
    """An investor asks two dealers, who run stock engines as it does: in the end each has what the venue gives, once."""
    stage = stage_of_log
    ends, ended = Ends(stage), 0
    stage.open(*stage.firms)
    # PostgreSQL is given a small batch by one call.
    first = 24 if stage.door.postgres is None else 8
    for call in calls_of(form, seed, "a message", first):
        before = [len(firm.looked()) for firm in stage.firms]

        def is_answered() -> bool:
            counts = [len(firm.looked()) for firm in stage.firms]
            return all(count > old for count, old in zip(counts, before, strict=True))

        with ends.at(call):
            stage.ask_of([stage.dealer, stage.other])
            ended += ends.ended_or(is_answered)
        wait_all_on(stage.door, stage.firms)
    check(ended > 0, "the gateway was never ended")
    is_whole(stage)


# ---------------------------------------------------------------- the session's own messages


class Own:
    """A firm that keeps what it got under each number, and holds what comes again against it."""

    def __init__(self, stage: Stage) -> None:
        self.stage, self.number, self.asked = stage, 1, 0
        self.got: dict[int, bytes] = {}

    @contextmanager
    def on(self) -> Iterator[Wire]:
        """A connection on which it logs on."""
        with Wire(self.stage.door.port) as wire:
            wire.number = self.number
            wire.logon(DEALER.name.encode(), DEALER.password.encode())
            yield wire
            self.number = wire.number

    def talk(self, wire: Wire) -> bool:
        """It has a message rejected, cancels no quote, and asks for a Heartbeat; whether all was answered."""
        self.asked += 1
        name = b"n%d" % self.asked
        trader = (50, DEALER.trader.encode())
        wire.raw(wire.message(b"1", wire.name, [(112, b"")]))
        wire.raw(wire.message(b"Z", wire.name, [trader, (298, b"5"), (117, name)]))
        wire.raw(wire.message(b"1", wire.name, [(112, name)]))
        missing = {b"0", b"3", b"AI"}
        while missing and (message := wire.read()) is not None:
            self.take(wire, message)
            if message.kind == b"3" or name in (message.value(112), message.value(117)):
                missing.discard(message.kind)
        return not missing

    def settle(self, wire: Wire) -> None:
        """It says that it sends nothing again, where the gateway asks, until a question of its own is answered: what it says before
        that may stand ahead of a gap."""
        until("it is answered", LONG, lambda: self._is_answered(wire))

    def _is_answered(self, wire: Wire) -> bool:
        name = b"settled%d" % wire.number
        wire.raw(wire.message(b"1", wire.name, [(112, name)]))
        while (message := wire.read(1)) is not None:
            self.take(wire, message)
            if message.value(112) == name:
                return True
        check(not wire.is_over, "its connection ends")
        return False

    def has_again(self, wire: Wire) -> None:
        """It asks for all again: each number that it got comes, or is filled."""
        had, behind = set(self.got), b"behind%d" % wire.number
        wire.raw(wire.message(b"2", wire.name, [(7, b"1"), (16, b"0")]))
        wire.raw(wire.message(b"1", wire.name, [(112, behind)]))
        came: set[int] = set()
        is_last = False
        while not is_last:
            message = wire.read()
            assert message is not None, "it is not sent all again"
            came |= self.take(wire, message)
            is_last = message.value(112) == behind
        check(had <= came, "these are not sent again: %r" % sorted(had - came))

    def take(self, wire: Wire, message: Received) -> set[int]:
        """The numbers that it stands for: under each is what was there before, or nothing that a session keeps."""
        number, body = message.session_number, NOT_ITS_OWN.sub(b"", message.raw)
        check(message.kind != b"5", "it is logged out: %r" % message.raw)
        if message.kind == b"2":
            self._fill(wire, message)
        if message.kind == b"4":
            filled = set(range(number, int(message.given(36))))
            kept = [self.got[each] for each in filled if KEPT.search(self.got.get(each, b""))]
            check(not kept, "these are filled: %r" % kept)
            return filled
        before = self.got.setdefault(number, body)
        check(before == body, "%d is %r, and was %r" % (number, body, before))
        return {number}

    def _fill(self, wire: Wire, asked: Received) -> None:
        """It sends nothing again."""
        fields = [(43, b"Y"), (122, now()), (123, b"Y"), (36, b"%d" % wire.number)]
        wire.raw(wire.message(b"4", wire.name, fields, number=int(asked.given(7))))


def test_messages_of_the_session(stage_of_log: Stage, form: Form, seed: int) -> None:
    """A Logon, a Reject, a message of the venue and a Heartbeat: what a firm got under a number it gets again under that number."""
    stage = stage_of_log
    ends, own, ended = Ends(stage), Own(stage), 0
    stage.open()
    for call in calls_of(form, seed, "the session's"):
        with ends.at(call):
            with own.on() as wire:
                was_answered = own.talk(wire)
            ended += ends.ended_or(lambda: was_answered)
        with own.on() as wire:
            own.settle(wire)
            own.has_again(wire)
    check(ended > 0, "the gateway was never ended")
    numbers = [entry.number for entry in stage.door.ledger().messages_of("DLR1")]
    check(len(set(numbers)) == len(numbers), "a number is twice in the log: %r" % numbers)
    check(stage.door.stop() == 0, "the gateway does not end well")
    told = audited(stage, "--gateway-key", str(stage.door.keys / "gateway.pub"))
    check(told.returncode == 0, "the audit finds: %s" % told.stdout)


# ---------------------------------------------------------------- a checkpoint, a start


def has_one_more(stage: Stage) -> Callable[[], bool]:
    """Whether there is a checkpoint that is not there now."""
    count = "SELECT count(*) FROM checkpoint"
    before = rows(stage.door.database, count)
    return lambda: rows(stage.door.database, count) != before


def test_a_checkpoint_and_its_file(stage: Stage, form: Form, seed: int) -> None:
    """A checkpoint is due: the next start takes the log, whether the checkpoint is there or not."""
    ends, ended = Ends(stage), 0
    stage.open(stage.dealer)
    for call in calls_of(form, seed, "a checkpoint", 12, 24):
        stage.ping(stage.dealer)
        with ends.at(call):
            ended += ends.ended_or(has_one_more(stage))
        stage.dealer.wait_on()
    check(ended > 0, "the gateway was never ended")
    is_whole(stage)


def test_a_start(stage: Stage, form: Form, seed: int) -> None:
    """A start is ended, and the one after it too."""
    ends = Ends(stage)
    stage.open(*stage.firms)
    stage.auction()
    for call in calls_of(form, seed, "a start", 60):
        stage.door.kill()
        stage.door.start()
        with ends.at(call):
            ends.ended_or(stage.door.is_open)
        wait_all_on(stage.door, stage.firms)
    stage.auction()
    is_whole(stage)
