"""The table `sent` is a copy for readers. Somebody who may write to the database, and has no key, changes it. No gateway
reads it: each firm is sent again what it was sent, under the same numbers."""

import re

from tests.admin.operator import did
from tests.admin.test_orders import quoted
from tests.gateway.firm import Identity
from tests.gateway.stage import DEALER, INVESTOR, Stage, check
from tests.gateway.test_second_attack import PUT_IN, TRADE, asked, hit, sent_again
from tests.gateway.test_seals import Intruder, audited
from tests.gateway.wire import Wire
from tests.limits.flood import logged_on

FIRMS = (DEALER, INVESTOR)
WHEN_IT_LEFT = re.compile(rb"\x01(?:9|52|10)=[^\x01]*")


def kept(wire: Wire) -> list[bytes]:
    """What a firm is sent again of all that it was sent, but for when it leaves."""
    return [WHEN_IT_LEFT.sub(b"", message.raw) for message in sent_again(wire)]


def rejected(wire: Wire) -> None:
    """A message that the session rejects."""
    assert wire.raw(wire.message(b"1", wire.name, [(112, b"")]))
    wire.got(b"3")


def denied(wire: Wire) -> None:
    """A message that the gateway does not take: no firm may send its type."""
    assert wire.raw(wire.message(b"D", wire.name, []))
    wire.got(b"j")


class Day:
    """A day with a trade, a Reject and a BusinessMessageReject: what each firm was sent, and the number of its next Logon."""

    def __init__(self, stage: Stage) -> None:
        self.stage = stage
        stage.open()
        with logged_on(stage, DEALER) as dealer, logged_on(stage, INVESTOR) as investor:
            asked(dealer, investor)
            quoted(dealer, b"q1")
            hit(investor, b"h1", investor.got(b"S").given(117))
            dealer.got_until(lambda message: message.value(694) == b"1")
            rejected(investor)
            denied(dealer)
            self.has = {wire.name: kept(wire) for wire in (dealer, investor)}
            self.numbers = {wire.name: wire.number for wire in (dealer, investor)}
        trades = [message for message in self.has[b"DLR1"] if b"\x01694=1\x01" in message]
        check(len(trades) == 1, "the dealer was told %d trades" % len(trades))

    def check(self, what: str) -> None:
        """Each firm logs on, and is sent again what it was sent."""
        for who in FIRMS:
            self._check_one(who, what)

    def _check_one(self, who: Identity, what: str) -> None:
        name = who.name.encode()
        with logged_on(self.stage, who, number=self.numbers[name]) as wire:
            again = kept(wire)
            self.numbers[name] = wire.number
        had = self.has[name]
        check(again == had, "%s: %s has %r, and had %r" % (what, who.name, again, had))


def changes(trade: str) -> dict[str, str]:
    """What somebody does, one after the other. `trade` is a trade's notice that never was, as it stands in a statement."""
    last = "firm = 'DLR1' AND number = (SELECT max(number) FROM sent WHERE firm = 'DLR1')"
    return {
        "the last message is taken out": "DELETE FROM sent WHERE " + last,
        "bodies are others": "UPDATE sent SET bytes = %s" % trade,
        "what was told is another": "UPDATE sent SET told = '1003=20261128-INV1-DLR1-9'",
        "numbers are higher": "UPDATE sent SET number = number + 1000",
        "places are others": "UPDATE sent SET place = place + 1000000",
        "all is taken out": "DELETE FROM sent",
    }


def test_what_a_start_does_not_read(stage_of_log: Stage) -> None:
    """It is changed while no gateway runs: the day goes on as if it were not, and the audit tells it."""
    stage = stage_of_log
    day = Day(stage)
    check(stage.door.stop() == 0, "the gateway does not end well")
    intruder = Intruder(stage.door)
    for what, statement in changes(intruder.literal(TRADE)).items():
        intruder.rows(statement)
        stage.door.start()
        stage.door.wait_open()
        day.check(what)
        check(stage.door.stop() == 0, "%s: the gateway does not end well" % what)
    key = str(stage.door.keys / "gateway.pub")
    told = audited(stage, "--gateway-key", key)
    check(told.returncode == 1, "the audit ends with %d: %s" % (told.returncode, told.stdout))


def test_what_a_gateway_does_not_read(stage_of_log: Stage) -> None:
    """The same of one that runs."""
    stage = stage_of_log
    day = Day(stage)
    intruder = Intruder(stage.door)
    for what, statement in changes(intruder.literal(TRADE)).items():
        intruder.rows(statement)
        day.check(what)


def test_copies_of_a_reset(stage_of_log: Stage) -> None:
    """A reset gives what the firm is not known to have new numbers: after a start the same, whatever the copy says."""
    stage = stage_of_log
    stage.door.operators = ""
    day = Day(stage)
    did(stage, "reset-session", "DLR1")
    with logged_on(stage, DEALER) as dealer:
        day.has[b"DLR1"], day.numbers[b"DLR1"] = kept(dealer), dealer.number
    check(any(b"\x01694=1\x01" in each for each in day.has[b"DLR1"]), "the trade has no copy")
    check(stage.door.stop() == 0, "the gateway does not end well")
    intruder = Intruder(stage.door)
    intruder.rows("UPDATE sent SET bytes = %s, told = NULL" % intruder.literal(TRADE))
    stage.door.start()
    stage.door.wait_open()
    day.check("after a reset")


def test_a_trade_put_in(stage_of_log: Stage) -> None:
    """It has the venue's next number for the firm: whether the gateway goes on or ends, no firm is told it."""
    stage = stage_of_log
    day = Day(stage)
    intruder = Intruder(stage.door)
    intruder.rows(PUT_IN % intruder.literal(TRADE))
    day.check("a trade is put in")
    check(stage.door.stop() == 0, "the gateway does not end well")
    stage.door.start()
    stage.door.wait_open()
    day.check("a trade is put in, and the gateway is another")
