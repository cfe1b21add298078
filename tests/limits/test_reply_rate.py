"""What a session says by itself to answer a firm: a thousand messages, and then ten a second; after that it logs the firm out.
"""

import time
from collections.abc import Callable
from concurrent.futures import ThreadPoolExecutor

import pytest

from tests.gateway.ledger import rows
from tests.gateway.noted import noted as sessions_by
from tests.gateway.stage import DEALER, Stage
from tests.gateway.test_gaps import again, asked_from
from tests.gateway.wait import LONG
from tests.gateway.wire import Wire
from tests.limits.flood import logged_on

MOST, A_SECOND = 1000, 10
SENT = 3000  # on a slow machine, too, more than ten a second beyond those
FLOOD = 5000  # numbers, of which a firm may send as many at once
TOLD = b"had to be answered by the session"
OF_A_NOTE = 400  # bytes of the log, at most, also where each note is committed alone
OF_A_CONNECTION = 2000  # bytes of it, with its Logon
OF_A_PING = 16384  # bytes of it, with what else is written meanwhile
ADDRESSES, TRIES = 16, 6  # from which a firm logs on at one time, and how often from each
IN_TIME = 5.0  # seconds, on a machine that has much else to do


def kept(stage: Stage) -> int:
    return len(sessions_by(stage.door.ledger().notes)["DLR1"].rejects)


def test_rejects_without_end(stage: Stage) -> None:
    """A SequenceReset that resets nothing costs a firm no number, and its Reject is a row of the log: the firm that sends them without end
    is logged out and told why, and another connection is no way around it."""
    stage.open()
    with logged_on(stage, DEALER) as wire:
        reset = wire.message(b"4", b"DLR1", [(36, b"0")], number=1)
        assert wire.raw(reset * SENT)
        logout = wire.got(b"5")
        assert TOLD in (logout.value(58) or b""), "it is told %r" % logout.raw
        assert wire.closed_within(LONG)
        number = wire.number
    first = kept(stage)
    assert MOST <= first < SENT - 100, "%d Rejects are kept" % first
    with logged_on(stage, DEALER, number=number) as wire:
        wire.raw(wire.message(b"4", b"DLR1", [(36, b"0")], number=1) * SENT)
        assert wire.closed_within(LONG)
    assert kept(stage) < first + 300, "%d more are kept" % (kept(stage) - first)


def question(wire: Wire) -> bytes:
    """A TestRequest."""
    return wire.message(b"1", wire.name, [(112, b"x")])


def gap(wire: Wire) -> bytes:
    """A message ahead of one that is missing, that one, and the first one again: what is missing is asked for each time."""
    first = wire.number
    numbers = (first + 1, first, first + 1)
    wire.number += 2
    return b"".join(wire.message(b"0", wire.name, [], number=number) for number in numbers)


def noted(stage: Stage) -> list[tuple[str, int]]:
    """The kind of each session note of the dealer, and the number that its message used."""
    texts = rows(stage.door.database, "SELECT notes FROM seal ORDER BY number")
    lines = b"".join(bytes(text) for (text,) in texts).decode().splitlines()
    words = [line.split(" ")[:4] for line in lines]
    return [(kind, int(number)) for firm, _, kind, number in words if firm == "DLR1"]


def said(stage: Stage, kind: str) -> int:
    """How many session notes the dealer has of this kind."""
    return sum(each == kind for each, _ in noted(stage))


def log_bytes(stage: Stage) -> int:
    """Of the pages that the log's file has in use."""
    names = ("page_count", "freelist_count", "page_size")
    pages, free, size = [int(rows(stage.door.database, "PRAGMA " + name)[0][0]) for name in names]
    return (pages - free) * size


def come_back(stage: Stage, number: int) -> Wire:
    """The dealer's connection that begins with this number, and has answered what it was asked: nothing of what it sent before comes
    again."""
    wire = logged_on(stage, DEALER, settles=False, number=number)
    if number > 1:
        missing = asked_from(wire)
        again(wire, b"4", missing, [(123, b"Y"), (36, b"%d" % wire.number)])
    wire.got(b"1")
    return wire


def flooded(stage: Stage, made: Callable[[Wire], bytes], number: int) -> int:
    """The dealer floods a connection that begins with this number, and reads nothing until another dealer is answered; then it reads
    why it is logged out. Its next number."""
    with come_back(stage, number) as wire:
        first, pieces = wire.number, []
        while wire.number < first + FLOOD:
            pieces.append(made(wire))
        wire.raw(b"".join(pieces))
        began = time.monotonic()
        stage.ping(stage.other)
        took = time.monotonic() - began
        assert took < IN_TIME, "another firm is answered after %.1f s" % took
        logout = wire.got(b"5")
        assert TOLD in (logout.value(58) or b""), "it is told %r" % logout.raw
        assert wire.closed_within(LONG)
        return wire.number


@pytest.mark.parametrize(("kind", "made"), [("0", question), ("2", gap)])
def test_said_without_end(stage: Stage, kind: str, made: Callable[[Wire], bytes]) -> None:
    """A small message has the session say something under a number, which is a note of the log. A firm that sends such ones without
    end is logged out and told why, other connections are no way around it, and the log grows by no more than it may. Another firm
    is answered in time."""
    stage.open(stage.other)
    stage.ping(stage.other)
    before, began, number, connections = log_bytes(stage), time.monotonic(), 1, 4
    for _ in range(connections):
        number = flooded(stage, made, number)
    # Of each connection one is too many, and of a ResendRequest one is the Logon's.
    most = MOST + A_SECOND * (time.monotonic() - began) + 2 * connections
    count = said(stage, kind)
    assert MOST <= count <= most, "%d notes of the kind %s, and %.0f may be" % (count, kind, most)
    grown = log_bytes(stage) - before
    room = OF_A_NOTE * most + (OF_A_CONNECTION + OF_A_PING) * connections
    assert grown < room, "the log has grown by %d bytes, and %.0f may be" % (grown, room)


def refused(stage: Stage, number: int, at: int) -> None:
    """A Logon of the dealer that can't be accepted (108=0), from one of its addresses: it is told so, or nothing."""
    with Wire(stage.door.port, source="127.0.0.%d" % (2 + at)) as wire:
        wire.number = number
        assert wire.logon(b"DLR1", DEALER.password.encode(), heartbeat=b"0")
        wire.read_kind(b"5")


def test_refused_without_end(stage: Stage) -> None:
    """A firm that has had all that it may have said goes on with Logons that are refused: it has ten Logouts a second. Each number of
    the session is in a note, and a start behind a kill goes on with the next."""
    stage.open(stage.other)
    began, number = time.monotonic(), flooded(stage, question, 1)
    with ThreadPoolExecutor(ADDRESSES) as pool:
        for _ in range(TRIES):
            list(pool.map(lambda at: refused(stage, number, at), range(ADDRESSES)))
    most = MOST + A_SECOND * (time.monotonic() - began) + ADDRESSES
    count = said(stage, "0") + said(stage, "5")
    assert MOST < count <= most, "it is told %d times, and %.0f may be" % (count, most)
    numbers = [used for _, used in noted(stage) if used > 0]
    assert numbers == list(range(1, len(numbers) + 1)), "a number is in no note: %r" % numbers
    stage.door.kill()
    stage.door.start()
    stage.door.wait_open()
    with Wire(stage.door.port) as wire:
        wire.number = number
        assert wire.logon(b"DLR1", DEALER.password.encode())
        assert wire.got(b"A").session_number == numbers[-1] + 1


def test_no_more_than_a_firm_may_have_said(stage: Stage) -> None:
    """A firm that has sent nearly as many at once has an answer to each, and goes on."""
    stage.open()
    with logged_on(stage, DEALER) as wire:
        assert wire.raw(b"".join(question(wire) for _ in range(MOST - 50)))
        for _ in range(MOST - 50):
            wire.got(b"0")
        wire.ask()
    assert said(stage, "0") == MOST - 49


def begun_again(stage: Stage) -> Wire:
    """The dealer's connection that begins its numbers again, and has answered the TestRequest behind its Logon."""
    wire = Wire(stage.door.port)
    assert wire.logon(b"DLR1", DEALER.password.encode(), more=[(141, b"Y")])
    wire.got(b"A")
    wire.got(b"1")
    wire.ask()
    return wire


def rejects(stage: Stage) -> tuple[int, int]:
    """How many were dropped, and how many are kept."""
    are_kept = list(sessions_by(stage.door.ledger().notes)["DLR1"].rejects.values())
    return are_kept.count(False), are_kept.count(True)


def test_rejects_are_dropped_whenever_numbers_begin_again(stage: Stage) -> None:
    """Each that was kept since the last time, and in what a gateway before has kept: the log is looked through for no more than these."""
    stage.open()
    for before in range(4):
        with begun_again(stage) as wire:
            assert rejects(stage) == (before, 0)
            assert wire.raw(wire.message(b"1", b"DLR1", []))  # without 112
            assert wire.got(b"3").value(371) == b"112"
        if before == 1:
            stage.door.kill()
            stage.door.start()
            stage.door.wait_open()
    assert rejects(stage) == (3, 1)
