"""Firms that are away: the gateway cancels their quotes, and deadlines pass."""

import ctypes
import re
import socket
import struct
import time
from collections.abc import Callable
from datetime import datetime, timedelta, timezone

from tests.admin.operator import did
from tests.gateway.door import today
from tests.gateway.held import milliseconds
from tests.gateway.market import moment_in
from tests.gateway.stage import DEALER, Stage, check
from tests.gateway.wait import LONG, until
from tests.gateway.wire import Wire

SOON = 25  # seconds: less than the gateway waits at most for a firm that fills a gap
AS_AUCTIONS = (
    30  # or for so many times what an auction takes, on a machine that is slower than that
)

SO_ATTACH_FILTER = 26  # of Linux

SILENT = b"nothing came"  # told of a firm that is silent
UNTOLD = re.compile(rb"connection ended .*firm=DLR1.*")  # of one that is told nothing itself

DEADLINE = 100  # seconds: a clock that is set forward by these is still one whose 52 is taken
ACCEPTED = 8.0  # seconds in which a request has come to the dealers, on a busy machine too


def test_reject_for_one_away(stage: Stage) -> None:
    """A dealer that ends after its message gets the Reject at its next Logon."""
    stage.open(*stage.firms)
    number = stage.say(stage.dealer, "Z", [(298, b"4")], trader="T9")
    stage.dealer.kill()
    until("the message is in the log", LONG, lambda: stage.entries_of(stage.dealer) == 1)
    until(
        "the venue has answered", LONG, lambda: len(stage.door.ledger().sent.get("DLR1", [])) == 1
    )
    stage.auction([stage.other])
    stage.log_on(stage.dealer)
    reject = stage.answer(stage.dealer, "a Reject", lambda message: message.kind == b"3")
    check(
        reject.value(45) == b"%d" % number, "it is %r, of the session's %d" % (reject.raw, number)
    )
    stage.auction()
    stage.whole()


def test_one_that_was_away(stage: Stage) -> None:
    """What a firm is sent while it is away waits for it, and comes in its order."""
    stage.open(*stage.firms)
    stage.log_off(stage.other)
    stage.ask_of([stage.dealer, stage.other])
    stage.answer(stage.dealer, "a request", lambda message: message.kind == b"R")
    stage.log_on(stage.other)
    stage.answer(stage.other, "a request", lambda message: message.kind == b"R")
    stage.auction()
    stage.whole()


def test_sent_while_away(stage: Stage) -> None:
    """What a firm's engine is told to send while the gateway is away comes to the venue once it is back, in its order."""
    stage.open(*stage.firms)
    stage.door.kill()
    for _ in range(20):
        stage.say(stage.dealer, "Z", [(298, b"5"), (117, stage.name("x"))])
    stage.door.start()
    until("20 answers", LONG, lambda: len(stage.dealer.looked()) >= 20)
    stage.whole()


def test_gaps_on_both_sides(stage: Stage) -> None:
    """A firm that missed messages, and whose own were not taken: both are made good within seconds of its Logon."""
    stage.open(*stage.firms)
    began = time.monotonic()
    stage.auction()
    soon = max(SOON, AS_AUCTIONS * (time.monotonic() - began))
    stage.dealer.kill()
    stage.ask_of([stage.dealer, stage.other])
    until(
        "the request is in the log",
        LONG,
        lambda: len(stage.door.ledger().sent.get("DLR1", [])) == 4,
    )
    stage.door.kill()
    stage.dealer.start()
    names = [stage.name("x") for _ in range(5)]
    for name in names:
        stage.say(stage.dealer, "Z", [(298, b"5"), (117, name)])
    stage.door.start()
    stage.dealer.wait_on()
    for name in names:
        stage.answer(
            stage.dealer,
            "what became of a cancel",
            lambda message: message.value(117) == name,
            limit=soon,
        )
    stage.answer(
        stage.dealer,
        "a request",
        lambda message: message.kind == b"R" and message.value(131) == b"R2",
    )
    stage.whole()


def test_deadline_passes(stage: Stage) -> None:
    """At a deadline one clock line is committed, and the request's end is told; without a deadline none is."""
    stage.open(*stage.firms)
    stage.ask(600)
    stage.ask(ACCEPTED)
    end = stage.answer(
        stage.investor, "that a request expired", lambda message: message.value(297) == b"7"
    )
    for dealer in (stage.dealer, stage.other):
        stage.answer(dealer, "that a request expired", lambda message: message.value(694) == b"3")
    clocks = [entry for entry in stage.door.ledger().entries if entry.is_clock]
    check(len(clocks) == 1, "%d clock lines" % len(clocks))
    before, after = milliseconds(clocks[0].moment) - milliseconds(stage.deadline), milliseconds(
        end.given(60)[9:].decode()
    )
    check(0 <= before < 1000 * LONG, "the clock line is %d ms after the deadline" % before)
    check(after == milliseconds(clocks[0].moment), "60 of the end is %r" % end.value(60))
    stage.whole()


def test_deadline_while_away(stage: Stage) -> None:
    """A deadline that passes while there is no gateway is told once it is back."""
    stage.open(*stage.firms)
    stage.ask(ACCEPTED)
    stage.door.kill()
    until("the deadline has passed", LONG, lambda: moment_in(0)[9:].decode() > stage.deadline)
    stage.door.start()
    stage.answer(
        stage.investor, "that a request expired", lambda message: message.value(297) == b"7"
    )
    stage.whole()


def clock_of(stage: Stage) -> Callable[[int], None]:
    """What sets the clock of the gateway, which is not started yet, by so many seconds against that of its firms."""
    step = stage.folder / "step"
    step.write_bytes(struct.pack("=q", 0))
    stage.door.environment = {"LD_PRELOAD": str(stage.tools.shim), "CLOCK_STEP": str(step)}

    def set_clock(seconds: int) -> None:
        with step.open("r+b") as file:
            file.write(struct.pack("=q", seconds))

    return set_clock


def test_clock_set_to_another_day(stage: Stage) -> None:
    """The machine's clock is set to tomorrow, and to yesterday: the gateway ends with a fault, so that it is started again, and nothing
    of the day is over. Once the clock is right the day goes on, and once an operator has said so, requests are taken.
    """
    set_clock = clock_of(stage)
    stage.door.operators = ""
    stage.open(*stage.firms)
    stage.ask(600)
    for days in (1, -1):
        set_clock(days * 24 * 60 * 60)
        status = stage.door.wait_end()
        check(
            status == 1, "the gateway ended with status %d: %s" % (status, stage.door.last_words())
        )
        other = (datetime.now(timezone.utc) + timedelta(days=days)).strftime("%Y%m%d")
        check(
            "the clock was set from %s to %s" % (today(), other) in stage.door.last_words(),
            "it says %s" % stage.door.last_words(),
        )
        stage.refused("today")
        for firm in stage.firms:
            until("%s is logged off" % firm.name, LONG, lambda: not firm.logged_on())
        set_clock(0)
        stage.door.start()
        for firm in stage.firms:
            firm.wait_on()
    check(
        not any(entry.is_clock for entry in stage.door.ledger().entries),
        "a deadline of the day has passed",
    )
    did(stage, "clock", "accept")
    stage.auction()
    stage.whole()


def test_clock_set_forward(stage: Stage) -> None:
    """The machine's clock is set forward over a deadline: the request's end is told soon, and not by the time that was left."""
    set_clock = clock_of(stage)
    stage.open(*stage.firms)
    stage.ask(DEADLINE)
    set_clock(DEADLINE + 2)
    stage.answer(
        stage.investor,
        "that a request expired",
        lambda message: message.value(297) == b"7",
        limit=DEADLINE - 20,
    )
    stage.whole()


def test_cancelled_for_one_gone(stage: Stage) -> None:
    """The quotes of a dealer that is gone are cancelled by the trader that the configuration names, if it names one."""
    stage.door.cancelled = {DEALER.name: DEALER.trader}
    stage.open(*stage.firms)
    request = stage.ask()
    for dealer in (stage.dealer, stage.other):
        stage.quote(dealer, request)
    stage.dealer.kill()
    stage.answer(
        stage.investor, "that a quote is gone", lambda message: message.value(297) == b"17"
    )
    stage.other.kill()
    stage.log_on(stage.dealer, stage.other)
    gone = stage.answer(
        stage.dealer, "that its quote is gone", lambda message: message.value(297) == b"17"
    )
    check(gone.kind == b"AI", "it is %r" % gone.raw)
    stage.ping(stage.other)
    check(
        not any(message.value(297) == b"17" for message in stage.other.received),
        "the other dealer's quote is gone too",
    )
    stage.door.stop()
    stage.door.cancelled = {}  # else the end of the gateway is one of the dealer too
    stage.door.write_credentials()
    stage.door.start()
    stage.whole()


def test_one_that_says_nothing(stage: Stage) -> None:
    """A firm that answers no TestRequest is disconnected, and the operator is told why."""
    stage.open(stage.other)
    with Wire(stage.door.port) as wire:
        wire.logon(DEALER.name.encode(), DEALER.password.encode(), heartbeat=b"1")
        check(wire.closed_within(LONG), "the connection stays")
        check(b"\x0135=5\x01" not in wire.waiting, "it is told why, and may miss a message")
        number = wire.number
    until("it is told", LONG, lambda: UNTOLD.search(stage.door.told.read_bytes()) is not None)
    check(logs_on(stage, number), "it is not logged on")


def test_one_that_falls_silent(stage: Stage) -> None:
    """One that had answered the TestRequest after its Logon is told why."""
    stage.open(stage.other)
    with Wire(stage.door.port) as wire:
        wire.logon(DEALER.name.encode(), DEALER.password.encode(), heartbeat=b"1")
        check(wire.read_kind(b"1") is not None, "no TestRequest after the Logon")
        wire.answers = False
        logout = wire.read_kind(b"5")
        check(logout is not None and logout.value(58), "no Logout with a text")
        check(wire.closed_within(LONG), "the connection stays")
    until("it is told", LONG, lambda: SILENT in stage.door.told.read_bytes())


def test_one_whose_line_is_cut(stage: Stage) -> None:
    """A firm's machine is gone without a word: its next Logon has the session once the old connection was asked and has said nothing,
    long before its heartbeat is missed."""
    stage.open(stage.other)
    with Wire(stage.door.port) as gone:
        gone.logon(DEALER.name.encode(), DEALER.password.encode(), heartbeat=b"300")
        check(gone.read_kind(b"1") is not None, "no TestRequest after the Logon")
        gone.ask()
        number = gone.number
        cut(gone)
        check(logs_on(stage, number), "it is not logged on")


def cut(wire: Wire) -> None:
    """From now on this machine drops what comes for the connection, so that it acknowledges nothing."""
    drop_all = ctypes.create_string_buffer(
        struct.pack("=HBBI", 0x06, 0, 0, 0)
    )  # BPF_RET | BPF_K: no byte of it is kept
    wire.socket.setsockopt(
        socket.SOL_SOCKET, SO_ATTACH_FILTER, struct.pack("@HP", 1, ctypes.addressof(drop_all))
    )


def logs_on(stage: Stage, number: int) -> bool:
    """Whether the dealer is logged on, on a connection of its own."""
    with Wire(stage.door.port) as wire:
        wire.number = number
        wire.logon(DEALER.name.encode(), DEALER.password.encode())
        return wire.read_kind(b"A") is not None
