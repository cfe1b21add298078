"""Promises in seconds, each with its budget, and promises of order."""

import math
import os
import signal
import time
from collections.abc import Callable

from tests.gateway.firm import Received
from tests.gateway.held import milliseconds
from tests.gateway.ledger import NOTES, rows
from tests.gateway.market import moment_in
from tests.gateway.noted import noted
from tests.gateway.stage import DEALER, Stage, check
from tests.gateway.wait import LONG, until, within
from tests.gateway.wire import Wire
from tests.harness.budget import Budget, seconds_until

SLOW_SYNC = 2000  # milliseconds
STALL = 15_000  # milliseconds
STALLS = b"log does not answer"
ACCEPTED = 8.0  # seconds in which a request has come to the dealers, on a busy machine too
NAME, PASSWORD = DEALER.name.encode(), DEALER.password.encode()

ASKED_AGAIN = Budget(
    "a firm that does not answer the TestRequest after its Logon is sent another after ten seconds",
    most=11,
    least=9.5,
)
UNSETTLED = Budget(
    "a firm that answers no TestRequest is disconnected a minute after its Logon",
    most=62,
    least=59.5,
)
SETTLED = Budget(
    "a Reject that waits comes once the TestRequest is answered, and not with the next one",
    most=5,
    slack=4,
)
GAP = Budget("a gap that is not filled is asked for again after ten seconds", most=11, least=9.5)
LEAVES = Budget("a connection is closed two seconds after a Logout at most", most=2.5)
SECOND = Budget(
    "a second connection of a firm waits for two seconds, and is closed", most=2.5, least=1.5
)
DEAD = Budget(
    "a firm whose old connection says nothing has its session on the new one after two seconds",
    most=2.5,
    least=1.5,
)
EXPIRES = Budget("a request ends at its deadline", most=1, slack=8)
SILENT = Budget(
    "the operator is told after five seconds that the venue does not answer",
    most=6,
    least=4,
    slack=20,
)
STALLED = Budget(
    "the operator is told after five seconds that the log does not answer",
    most=6,
    least=4,
    slack=20,
)
GONE = Budget("the quotes of a dealer that is gone are cancelled", most=1)
GONE_BEFORE = Budget(
    "the quotes of a dealer that was on when the gateway was killed are cancelled at its next start",
    most=5,
)


def on(stage: Stage, number: int = 1, answers: bool = True) -> Wire:
    """A connection of DLR1 that has logged on with this number."""
    wire = Wire(stage.door.port)
    wire.answers, wire.number = answers, number
    wire.logon(NAME, PASSWORD)
    check(wire.read_kind(b"A") is not None, "the Logon is not answered")
    if answers:
        check(wire.read_kind(b"1") is not None, "there is no TestRequest after the Logon")
    return wire


def quoted_by_one_gone(stage: Stage, dealer_ends: Callable[[], object]) -> float:
    """How long it takes from a dealer's end until its quote is gone for the investor."""
    request = stage.ask(dealers=[stage.dealer])
    stage.quote(stage.dealer, request)
    dealer_ends()

    def is_gone() -> bool:
        stage.investor.look()
        return any(
            each.value(297) == b"17" and each.value(131) == stage.asked
            for each in stage.investor.received
        )

    return seconds_until(is_gone, GONE_BEFORE.limit)


# ------------------------------------------------------------ before what


def test_own_messages_are_on_disk_before_they_leave(stage: Stage) -> None:
    """The session's own messages, too: when the answer to a Logon comes, its number is used up in the log, and so is the Logon's,
    however long the disk takes."""
    stage.door.write()
    stage.door.environment = {"LD_PRELOAD": str(stage.tools.shim), "DISK_SLOW": str(SLOW_SYNC)}
    stage.door.start()
    stage.door.wait_open()
    with Wire(stage.door.port) as wire:
        wire.logon(NAME, PASSWORD)
        check(wire.read_kind(b"A") is not None, "the Logon is not answered")
        stored = noted(notes for notes, in rows(stage.door.database, NOTES)).get("DLR1")
        is_stored = stored is not None and stored.expected == 2 and not stored.is_one_free
        check(is_stored, "it left before its number was on disk: %r" % stored)


def test_entries_are_on_disk_before_they_are_answered(stage: Stage) -> None:
    """When the venue's answer comes, the message is in the log, and its connection too."""
    stage.door.write()
    stage.door.environment = {"LD_PRELOAD": str(stage.tools.shim), "DISK_SLOW": str(SLOW_SYNC)}
    stage.door.start()
    stage.door.wait_open()
    with on(stage) as wire:
        wire.raw(wire.message(b"Z", NAME, [(50, DEALER.trader.encode()), (298, b"5"), (117, b"x")]))
        check(wire.read_kind(b"AI") is not None, "the cancel is not answered")
        found = rows(
            stage.door.database,
            "SELECT count(*) FROM entry JOIN connection ON entry.connection = connection.number "
            "WHERE entry.firm = 'DLR1' AND event = 'logon'",
        )
        check(found == [(1,)], "it was answered before it was on disk")


# ------------------------------------------------------------ a session settles


def next_of(wire: Wire, kind: bytes) -> Received | None:
    """A message of this kind that has come, if one has."""
    return wire.read_kind(kind, limit=0.05)


def test_a_firm_is_asked_again_while_it_settles(stage: Stage) -> None:
    """A firm that does not answer the TestRequest after its Logon is sent what the venue has for it, and asked again."""
    stage.open(stage.other, stage.investor)
    number = 1

    def measure() -> float:
        nonlocal number
        began = time.monotonic()
        with on(stage, number, answers=False) as wire:
            number = wire.number
            check(wire.read_kind(b"1") is not None, "there is no TestRequest after the Logon")
            stage.ask_of([stage.dealer, stage.other])
            check(wire.read_kind(b"R") is not None, "a request does not come")
            came = seconds_until(lambda: next_of(wire, b"1") is not None, ASKED_AGAIN.limit)
            return came if came == math.inf else time.monotonic() - began

    ASKED_AGAIN.hold(measure)


def test_a_firm_that_never_settles(stage: Stage) -> None:
    """It says something now and then, and answers no TestRequest."""
    stage.open(stage.other)
    number = 1

    def measure() -> float:
        nonlocal number
        began = time.monotonic()
        with on(stage, number, answers=False) as wire:
            took = seconds_until(lambda: wire.closed_within(0.5), UNSETTLED.limit)
            number = wire.number
            check(b"\x0135=5\x01" not in wire.waiting, "it is told, and may miss a message")
            return took if took == math.inf else time.monotonic() - began

    UNSETTLED.hold(measure)


def test_a_session_is_settled_by_its_answer(stage: Stage) -> None:
    """The venue's Reject waits for the answer to the TestRequest, and comes with it."""
    stage.open(stage.other, stage.investor)
    number = 1

    def measure() -> float:
        nonlocal number
        with on(stage, number, answers=False) as wire:
            question = wire.read_kind(b"1")
            assert question is not None
            before = len(stage.door.ledger().sent.get("DLR1", []))
            wire.raw(wire.message(b"Z", NAME, [(50, b"T9"), (298, b"4")]))
            wire.raw(wire.message(b"Z", NAME, [(50, b"T1"), (298, b"5"), (117, b"behind")]))
            until(
                "both are answered",
                LONG,
                lambda: len(stage.door.ledger().sent.get("DLR1", [])) == before + 2,
            )
            while (message := wire.read(limit=0.2)) is not None:
                # On a slow machine it may be asked again, which is what it has to answer then.
                check(message.kind == b"1", "%r leaves while a session settles" % message.raw)
                question = message
            began = time.monotonic()
            wire.heartbeat(question)
            number = wire.number
            came = seconds_until(lambda: next_of(wire, b"3") is not None, SETTLED.limit)
            check(wire.read_kind(b"AI") is not None, "what is numbered behind it does not come")
            return came if came == math.inf else time.monotonic() - began

    SETTLED.hold(measure)


def test_a_gap_is_asked_for_again(stage: Stage) -> None:
    """A message ahead of a gap that nobody fills: the gap is asked for at once, and once more ten seconds later."""
    stage.open(stage.other)
    number = 1

    def measure() -> float:
        nonlocal number
        with on(stage, number) as wire:
            lost, began = wire.number, time.monotonic()
            wire.raw(wire.message(b"0", NAME, [], number=lost + 1))
            check(wire.read_kind(b"2") is not None, "the gap is not asked for")
            number = lost
            came = seconds_until(lambda: wire.read_kind(b"2", limit=0.05) is not None, GAP.limit)
            return came if came == math.inf else time.monotonic() - began

    GAP.hold(measure)


# ------------------------------------------------------------ connections that end


def test_a_logout_ends_its_connection(stage: Stage) -> None:
    """A firm that does not answer the Logout with which it is logged out."""
    stage.open(stage.other)
    number = 1

    def measure() -> float:
        nonlocal number
        with on(stage, number) as wire:
            wire.raw(wire.message(b"0", NAME, []))
            stage.ping(stage.other)
            wire.raw(wire.message(b"0", NAME, [], number=1))  # it came before
            check(wire.read_kind(b"5") is not None, "it is not logged out")
            number = wire.number
            return seconds_until(lambda: wire.closed_within(0.05), LEAVES.limit)

    LEAVES.hold(measure)


def test_a_second_connection_waits(stage: Stage) -> None:
    stage.open(stage.dealer)

    def measure() -> float:
        began = time.monotonic()
        with Wire(stage.door.port) as wire:
            wire.logon(NAME, PASSWORD)
            return time.monotonic() - began if wire.closed_within(SECOND.limit) else math.inf

    SECOND.hold(measure)
    check(stage.dealer.logged_on(), "the first one ended")


def test_a_dead_connection_makes_room(stage: Stage) -> None:
    """The old connection stands, and nothing comes on it: the TestRequest on it is not answered."""
    stage.open(stage.other)
    number = 1

    def measure() -> float:
        nonlocal number
        with on(stage, number) as old:
            old.ask()
            began = time.monotonic()
            with Wire(stage.door.port) as wire:
                wire.number = old.number
                wire.logon(NAME, PASSWORD)
                came = seconds_until(lambda: next_of(wire, b"A") is not None, DEAD.limit)
                took = time.monotonic() - began
                number = wire.number
                check(old.closed_within(LONG), "the old one stays")
            return came if came == math.inf else took

    DEAD.hold(measure)


# ------------------------------------------------------------ deadlines, and who is gone


def test_a_request_ends_at_its_deadline(stage: Stage) -> None:
    """The clock line is committed within a second of the deadline."""
    stage.open(*stage.firms)
    ended = 0

    def measure() -> float:
        nonlocal ended
        stage.ask(ACCEPTED)
        ended += 1
        until("the deadline has passed", LONG, lambda: moment_in(0)[9:].decode() >= stage.deadline)
        within(EXPIRES.limit, lambda: len(clock_lines(stage)) >= ended)
        lines = clock_lines(stage)
        late = (
            milliseconds(lines[-1]) - milliseconds(stage.deadline)
            if len(lines) >= ended
            else 1000 * (EXPIRES.limit + 1)
        )
        return late / 1000

    EXPIRES.hold(measure)


def clock_lines(stage: Stage) -> list[str]:
    return [entry.moment for entry in stage.door.ledger().entries if entry.is_clock]


def test_quotes_of_one_gone(stage: Stage) -> None:
    stage.door.cancelled = {DEALER.name: DEALER.trader}
    stage.open(*stage.firms)

    def measure() -> float:
        took = quoted_by_one_gone(stage, stage.dealer.kill)
        stage.log_on(stage.dealer)
        return took

    GONE.hold(measure)


def test_quotes_of_one_gone_with_its_gateway(stage: Stage) -> None:
    """Gateway and dealer are killed together: at the gateway's next start the quotes are cancelled for it."""
    stage.door.cancelled = {DEALER.name: DEALER.trader}
    stage.open(*stage.firms)

    def both_end() -> None:
        stage.door.kill()
        stage.dealer.kill()
        stage.door.start()
        stage.investor.wait_on()

    def measure() -> float:
        took = quoted_by_one_gone(stage, both_end)
        stage.log_on(stage.dealer)
        return took

    GONE_BEFORE.hold(measure)


# ------------------------------------------------------------ what the operator is told


def told_since(stage: Stage, begin: int, words: bytes) -> bool:
    return words in stage.door.told.read_bytes()[begin:]


def test_a_silent_venue_is_told(stage: Stage) -> None:
    stage.open(stage.dealer)

    def measure() -> float:
        begin, venues = len(stage.door.told.read_bytes()), stage.door.venues()
        for pid in venues:
            os.kill(pid, signal.SIGSTOP)
        before, began = stage.entries_of(stage.dealer), time.monotonic()
        stage.say(stage.dealer, "Z", [(298, b"5"), (117, stage.name("x"))])
        until("the message is in the log", LONG, lambda: stage.entries_of(stage.dealer) > before)
        is_told = within(SILENT.limit, lambda: told_since(stage, begin, b"venue does not answer"))
        took = time.monotonic() - began if is_told else math.inf
        for pid in venues:
            os.kill(pid, signal.SIGCONT)
        stage.ping(stage.dealer)
        until("it answers again", LONG, lambda: told_since(stage, begin, b"venue answers again"))
        return took

    SILENT.hold(measure)


def test_a_slow_log_is_told(stage: Stage) -> None:
    """Once, however long the commit takes, and once more when it is done. A firm whose Logon waits for it has a HeartBtInt of one second,
    and could say nothing before the answer: it is not taken for silent."""
    slow, number = stage.folder / "slow", 1
    stage.door.environment = {"LD_PRELOAD": str(stage.tools.shim), "DISK_SLOW_IN": str(slow)}
    stage.open()

    def measure() -> float:
        nonlocal number
        begin = len(stage.door.told.read_bytes())
        slow.write_text(str(STALL))
        began = time.monotonic()
        with Wire(stage.door.port) as wire:
            wire.number = number
            wire.logon(NAME, PASSWORD, heartbeat=b"1")
            is_told = within(STALLED.limit, lambda: told_since(stage, begin, STALLS))
            took = time.monotonic() - began if is_told else math.inf
            slow.unlink()  # no sync but the one that is waited for takes so long
            check(wire.read_kind(b"A") is not None, "the Logon is not answered")
            wire.ask()
            number = wire.number
        until("it answers again", LONG, lambda: told_since(stage, begin, b"log answers again"))
        count = stage.door.told.read_bytes()[begin:].count(STALLS)
        check(count <= 1, "it is told %d times" % count)
        return took

    STALLED.hold(measure)


def test_a_slow_log_ends_no_connection(stage: Stage) -> None:
    """A second connection of the firm waits until the first one can be asked whether it is alive, and is closed when that answers."""
    slow = stage.folder / "slow"
    stage.door.environment = {"LD_PRELOAD": str(stage.tools.shim), "DISK_SLOW_IN": str(slow)}
    stage.open()
    with Wire(stage.door.port) as old, Wire(stage.door.port) as new:
        old.logon(NAME, PASSWORD)
        old.ask()
        begin = len(stage.door.told.read_bytes())
        slow.write_text(str(STALL))
        old.raw(old.message(b"1", NAME, [(112, b"waits")]))
        new.number = old.number
        new.logon(NAME, PASSWORD)
        until("a commit takes long", LONG, lambda: told_since(stage, begin, STALLS))
        slow.unlink()
        old.got_until(lambda message: message.value(112) == b"waits")
        old.ask()
        check(new.closed_within(LONG) and not new.waiting, "the second one is let in")
        old.ask()
