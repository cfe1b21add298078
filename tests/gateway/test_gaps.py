"""Gaps on either side of a session, and what is sent again."""

from tests.gateway.firm import Received
from tests.gateway.stage import DEALER, Stage, check
from tests.gateway.test_messages import answered, cancel, on_a_wire
from tests.gateway.wait import LONG, until
from tests.gateway.wire import Fields, Wire, now

GAP = 'mireseason_dropped_total{reason="gap"}'


def test_number_without_end(stage: Stage) -> None:
    """A SequenceReset past 999,999,999 is rejected, a message under such a number ends the session, and the number that is expected is
    the next one."""
    stage.open(stage.other, stage.investor)
    number = 1
    for past in (1_000_000_000, 2**31 - 1, 2**32 + 100):
        with on_a_wire(stage, number) as wire:
            number = wire.number
            wire.raw(wire.message(b"4", b"DLR1", [(36, b"%d" % past)]))
            reject = wire.got_until(lambda message: message.value(45) == b"%d" % number)
            check(
                reject is not None and (reject.value(371), reject.value(373)) == (b"36", b"6"),
                "no Reject of 36=%d" % past,
            )
            number = wire.number
            wire.raw(wire.message(b"Z", b"DLR1", cancel(b"far"), number=past))
            check(wire.read_kind(b"5") is not None, "no Logout")
            check(wire.closed_within(LONG), "the connection stays")
    check(stage.entries_of(stage.dealer) == 0, "a message under such a number is in the log")
    with on_a_wire(stage, number) as wire:
        wire.raw(wire.message(b"Z", b"DLR1", cancel(b"next")))
        check(answered(wire, b"next").value(297) == b"9", "the next is not answered as ever")
    stage.whole()


def asked_from(wire: Wire) -> int:
    """The first number of those that the gateway asks for."""
    request = wire.got(b"2")
    check(request is not None, "nothing is asked for")
    return int(request.given(7))


def again(wire: Wire, kind: bytes, number: int, fields: Fields) -> None:
    """Sends what was asked for under its number."""
    wire.raw(wire.message(kind, b"DLR1", [(43, b"Y"), (122, now()), *fields], number=number))


def test_ahead_of_a_gap(stage: Stage) -> None:
    """A Reject and a Logout of a firm whose message before them was not had: it is asked for all the same, and is not lost."""
    stage.open(stage.other, stage.investor)
    with on_a_wire(stage) as wire:
        lost = wire.number
        wire.number += 1
        wire.raw(wire.message(b"3", b"DLR1", [(45, b"1"), (373, b"5")]))
        wire.raw(wire.message(b"Z", b"DLR1", cancel(b"behind")))
        check(asked_from(wire) == lost, "the message before a Reject is not asked for")
        wire.raw(wire.message(b"5", b"DLR1", []))
        check(wire.read_kind(b"5") is not None, "a Logout is not answered")
        check(wire.closed_within(LONG), "the connection stays")
        number = wire.number
    with Wire(stage.door.port) as wire:
        wire.number = number
        wire.logon(DEALER.name.encode(), DEALER.password.encode())
        check(asked_from(wire) == lost, "the message before a Logout is not asked for")
        again(wire, b"Z", lost, cancel(b"lost"))
        again(wire, b"4", lost + 1, [(123, b"Y"), (36, b"%d" % (lost + 2))])
        again(wire, b"Z", lost + 2, cancel(b"behind"))
        again(wire, b"4", lost + 3, [(123, b"Y"), (36, b"%d" % wire.number)])
        for name in (b"lost", b"behind"):
            check(answered(wire, name).value(297) == b"9", "%r is not answered as ever" % name)
    numbers = [entry.number for entry in stage.door.ledger().messages_of("DLR1")]
    check(numbers == [lost, lost + 2], "the log has the session's %r" % numbers)
    stage.whole()


def test_gap_without_end(stage: Stage) -> None:
    """Messages of the session itself that come ahead of one that comes much later: none is kept."""
    count = 3000
    stage.open(stage.other, stage.investor)
    with on_a_wire(stage) as wire:
        before, lost = stage.memory(), wire.number
        wire.number += 1
        check(
            wire.raw(
                b"".join(wire.message(b"1", b"DLR1", [(112, b"x" * 1000)]) for _ in range(count))
            ),
            "they are not read",
        )
        check(asked_from(wire) == lost, "what is missing is not asked for")
        # Behind all of them.
        again(wire, b"Z", lost, cancel(b"lost"))
        check(answered(wire, b"lost").value(297) == b"9", "it is not answered as ever")
        check(stage.counters().get(GAP, 0) >= 1, "no gap is counted")
        check(
            stage.memory() - before < 16 * 2**20,
            "%d bytes of memory more" % (stage.memory() - before),
        )
    stage.ping(stage.other)
    stage.whole()


def answered_messages(wire: Wire) -> list[Received]:
    """What the venue gives for a message without a trader, and for five cancels."""
    wire.raw(wire.message(b"Z", b"DLR1", [(50, b"T9"), (298, b"4")]))
    found = [wire.got(b"3")]
    for number in range(5):
        wire.raw(wire.message(b"Z", b"DLR1", cancel(b"c%d" % number)))
        found.append(answered(wire, b"c%d" % number))
    return found


def check_sent_again(wire: Wire, first: list[Received]) -> None:
    """A ResendRequest of all: each message of the venue comes again under its number with 43=Y, its body, and in 122 the moment
    at which the venue gave it, which is not after its first 52."""
    wire.raw(wire.message(b"2", b"DLR1", [(7, b"1"), (16, b"0")]))
    for was in first:
        message = wire.got_until(
            lambda message: message.session_number == was.session_number
            and message.value(43) == b"Y"
        )
        check(message is not None, "%d does not come again" % was.session_number)
        check(
            (message.kind, message.body) == (was.kind, was.body),
            "%r is sent again as %r" % (was.raw, message.raw),
        )
        check(
            message.venue_number == was.venue_number and message.value(60) == was.value(60),
            "%r is sent again as %r" % (was.raw, message.raw),
        )
        check(
            message.value(122) == was.value(60) and was.given(60) <= was.given(52),
            "122 of %r is not the 60 of %r" % (message.raw, was.raw),
        )
        check(message.given(122) <= message.given(52), "52 is before 122: %r" % message.raw)


def test_resent_as_it_was(stage: Stage) -> None:
    stage.open(stage.other, stage.investor)
    with on_a_wire(stage) as wire:
        check_sent_again(wire, answered_messages(wire))
    stage.whole()


def test_resent_after_a_crash(stage: Stage) -> None:
    """The same after a SIGKILL of the gateway: what is sent again comes from its log."""
    stage.open(stage.other, stage.investor)
    with on_a_wire(stage) as wire:
        first, number = answered_messages(wire), wire.number
        until(
            "all of it is in the log",
            LONG,
            lambda: len(stage.door.ledger().sent.get("DLR1", [])) == len(first),
        )
        stage.door.kill()
    stage.door.start()
    stage.door.wait_open()
    with on_a_wire(stage, number) as wire:
        check_sent_again(wire, first)
    stage.whole()


def test_sent_on_another_day(stage: Stage) -> None:
    """A firm that goes on with yesterday's numbers is asked for those before, and sends yesterday's messages again: each is rejected
    by the session, and is no message of today. The Rejects come once it has answered a TestRequest.
    """
    stage.open(stage.other, stage.investor)
    with Wire(stage.door.port) as wire:
        wire.number = 3
        wire.logon(DEALER.name.encode(), DEALER.password.encode())
        check(asked_from(wire) == 1, "what is before its number is not asked for")
        for number in (1, 2):
            old = [(43, b"Y"), (122, b"20250314-09:00:00.000"), *cancel(b"old")]
            wire.raw(wire.message(b"Z", b"DLR1", old, number=number))
        again(wire, b"4", 3, [(123, b"Y"), (36, b"%d" % wire.number)])
        # They wait for the answer to a TestRequest, which is no answer as long as the gap is not filled.
        for number in (1, 2):
            reject = wire.got_until(lambda message: message.value(45) == b"%d" % number)
            check((reject.kind, reject.value(1181)) == (b"3", None), "no Reject of the session")
            check((reject.value(371), reject.value(373)) == (b"122", b"5"), "it is %r" % reject.raw)
        wire.raw(wire.message(b"Z", b"DLR1", cancel(b"new")))
        check(answered(wire, b"new").value(297) == b"9", "the next is not answered as ever")
    check(stage.entries_of(stage.dealer) == 1, "%d entries" % stage.entries_of(stage.dealer))
    stage.whole()


def test_broken_within_a_gap(stage: Stage) -> None:
    """One of the messages that were asked for can't be read when it comes: it is asked for again, with all after it, of which none
    was kept."""
    stage.open(stage.other, stage.investor)
    with Wire(stage.door.port) as wire:
        wire.number = 4
        wire.logon(DEALER.name.encode(), DEALER.password.encode())
        check(asked_from(wire) == 1, "what is before its number is not asked for")
        again(wire, b"Z", 1, cancel(b"one"))
        wire.raw(wire.message(b"Z", b"DLR1", cancel(b"two"), number=2)[:-4] + b"999\x01")
        again(wire, b"Z", 3, cancel(b"three"))
        check(answered(wire, b"one").value(297) == b"9", "the first is not answered as ever")
        check(asked_from(wire) == 2, "another one is asked for")
        again(wire, b"Z", 2, cancel(b"two"))
        again(wire, b"Z", 3, cancel(b"three"))
        for name in (b"two", b"three"):
            check(answered(wire, name).value(297) == b"9", "%r is not answered as ever" % name)
    numbers = [entry.number for entry in stage.door.ledger().messages_of("DLR1")]
    check(numbers == [1, 2, 3], "the log has the session's %r" % numbers)
    stage.whole()


def test_asked_for_no_gap(stage: Stage) -> None:
    """A ResendRequest of numbers that were never sent, or that end before they begin: the session's Reject, which uses up its number."""
    stage.open(stage.other, stage.investor)
    with on_a_wire(stage) as wire:
        sent = 2  # a Logon, and the TestRequest after it
        for first, last, tag in ((sent + 1, 0, b"7"), (sent, sent - 1, b"16")):
            number = wire.number
            wire.raw(wire.message(b"2", b"DLR1", [(7, b"%d" % first), (16, b"%d" % last)]))
            reject = wire.got_until(lambda message: message.value(45) == b"%d" % number)
            check(
                reject is not None and (reject.kind, reject.value(1181)) == (b"3", None),
                "%d to %d: no Reject of the session" % (first, last),
            )
            check((reject.value(371), reject.value(373)) == (tag, b"5"), "it is %r" % reject.raw)
            sent = reject.session_number
        wire.raw(wire.message(b"Z", b"DLR1", cancel(b"next")))
        check(answered(wire, b"next").value(297) == b"9", "the next is not answered as ever")
    stage.whole()
