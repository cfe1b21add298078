"""The machine's clock against the time since boot: what the gateway tells, and what it no longer takes."""

import ctypes
import re

import pytest

from tests.admin.stream import quote_fields
from tests.admin.test_orders import quoted, request_fields
from tests.gateway.market import moment_in
from tests.gateway.stage import DEALER, INVESTOR, Stage
from tests.gateway.wait import LONG, until
from tests.gateway.wire import Wire
from tests.harness.budget import Budget, seconds_of
from tests.harness.clock import Clock
from tests.limits.flood import cancel, logged_on, not_taken, responded
from tests.operating.test_service import asked

STEPS = "mireseason_clock_steps_total"
DOUBTFUL = "mireseason_clock_doubtful"
NOT_ACCEPTED = (
    "no request and no quote is taken, since the clock was set: mireseason-admin clock accept"
)
NOTHING_BEGINS = 'no request and no quote is taken until="an operator accepts the clock"'
NOT_AVAILABLE = b"4"  # BusinessRejectReason (380)
TIME_ERROR, STA_UNSYNC = 5, 0x40  # of adjtimex(2)


def tells(stage: Stage, pattern: str) -> bool:
    return re.search(pattern, stage.door.told.read_text()) is not None


def ends_alone_are_taken(stage: Stage, dealer: Wire, investor: Wire, shown: bytes) -> None:
    """No quote and no request is, and neither is in the log; a cancel is, a hit and a pass."""
    entries = len(stage.door.ledger().entries)
    words = NOT_AVAILABLE, b"the clock of the venue was set"
    not_taken(dealer, b"S", quote_fields(b"q9"), *words)
    not_taken(investor, b"R", request_fields(b"A9", moment_in(600)), *words)
    assert dealer.raw(cancel(dealer, dealer.number, b"x1"))
    dealer.number += 1
    assert dealer.got_until(lambda message: message.value(117) == b"x1").value(297) == b"9"
    assert responded(investor, [(693, b"h1"), (694, b"1"), (117, shown)]) == b"0"
    assert responded(investor, [(693, b"p1"), (694, b"6"), (131, b"A2")]) == b"11"
    lines = [entry.line for entry in stage.door.ledger().entries[entries:]]
    assert len([line for line in lines if line.startswith(b"hex ")]) == 3, lines


@pytest.mark.parametrize("step", [-40, 3])
def test_a_clock_that_is_set(stage: Stage, clock: Clock, step: int) -> None:
    """By more than two seconds, back or forward: told at once. What begins something is not taken, its number is used up, and the firm
    is told why; what ends something is."""
    stage.open()
    with logged_on(stage, DEALER) as dealer, logged_on(stage, INVESTOR) as investor:
        for name, quote in ((b"A1", b"q1"), (b"A2", b"q2")):
            fields = request_fields(name, moment_in(600))
            assert investor.raw(investor.message(b"R", b"INV1", fields))
            quoted(dealer, quote, dealer.got(b"R").given(131))
        shown = investor.got(b"S").given(117)
        clock.set(step)
        by = r"clock was set by=%s" % (
            r"-(39\.[5-9]|40\.[0-4])" if step < 0 else r"(2\.[5-9]|3\.[0-4])"
        )
        told = lambda: until("it is told", LONG, lambda: tells(stage, by))
        Budget("that the clock was set", most=2).hold(lambda: seconds_of(told))
        until("what it stops is told", LONG, lambda: tells(stage, NOTHING_BEGINS))
        assert stage.counters()[STEPS] == 1
        until("it is counted", LONG, lambda: stage.counters().get(DOUBTFUL) == 1)
        assert NOT_ACCEPTED in asked(stage.door, "/")[1]
        ends_alone_are_taken(stage, dealer, investor, shown)


class Timex(ctypes.Structure):
    """The begin of the kernel's `struct timex`, with room for the rest."""

    _fields_ = [
        ("modes", ctypes.c_uint),
        ("offset", ctypes.c_long),
        ("frequency", ctypes.c_long),
        ("greatest_error", ctypes.c_long),  # microseconds
        ("estimated_error", ctypes.c_long),
        ("status", ctypes.c_int),
        ("rest", ctypes.c_byte * 512),
    ]


def kernel_says() -> tuple[bool, float]:
    """Whether its clock is synchronised, and its greatest error in seconds."""
    found = Timex()
    state = ctypes.CDLL(None).adjtimex(ctypes.byref(found))
    is_synchronised = state not in (-1, TIME_ERROR) and not found.status & STA_UNSYNC
    return is_synchronised, found.greatest_error / 1e6


def is_the_kernels(counters: dict[str, float]) -> bool:
    """Both metrics are there from the gateway's first look on."""
    is_synchronised, error = kernel_says()
    told = counters.get("mireseason_clock_greatest_error_seconds", -1)
    return counters.get("mireseason_clock_synchronised") == is_synchronised and (
        abs(told - error) < 0.1
    )


def test_a_small_step_is_told_and_no_more(stage: Stage, clock: Clock) -> None:
    """By a second: told, and quotes are taken all the same. What the kernel says of its clock is among the metrics."""
    stage.open(*stage.firms)
    assert stage.counters()[STEPS] == 0
    until("it is the kernel's word", LONG, lambda: is_the_kernels(stage.counters()))
    clock.set(1)
    until("it is told", LONG, lambda: stage.counters()[STEPS] == 1)
    until("it is told", LONG, lambda: tells(stage, r"clock was set by=(0\.[5-9]|1\.[0-4])"))
    stage.auction()
    assert stage.counters()[DOUBTFUL] == 0
