"""A rate for what each firm is sent again: nobody waits for another firm's."""

import time

from tests.gateway.stage import DEALER, OTHER, Stage
from tests.gateway.wait import LONG
from tests.gateway.wire import Wire
from tests.harness.budget import Budget, seconds_of
from tests.limits.flood import cancel, logged_on

RATE, BURST, MANY = 500, 2000, 4000  # messages: a second, at once, and of a long day


def given(wire: Wire, count: int) -> None:
    """So many messages of the venue, each the answer to a cancel of no quote."""
    number = wire.number
    assert wire.raw(b"".join(cancel(wire, number + at, b"x%d" % at) for at in range(count)))
    wire.number += count
    last = b"x%d" % (count - 1)
    assert wire.read_until(lambda message: message.value(117) == last, LONG) is not None


def ask_again(wire: Wire) -> None:
    """A request for all of the day."""
    assert wire.raw(wire.message(b"2", wire.name, [(7, b"1"), (16, b"0")]))


def has_again(wire: Wire, count: int) -> bool:
    """Waits for the last of so many messages."""
    last = b"x%d" % (count - 1)
    return (
        wire.read_until(
            lambda message: message.value(117) == last and message.value(43) == b"Y", LONG
        )
        is not None
    )


def test_small_resends_count_too(stage: Stage) -> None:
    """A firm that asks for the same few numbers again and again is sent them at the rate, and has its other answers meanwhile."""
    stage.door.limits |= {"resends_per_second": 500, "resends_burst": 500}
    stage.open()
    asked, few = 8, 200
    with logged_on(stage, DEALER) as wire:
        given(wire, few)
        began = time.monotonic()
        for _ in range(asked):
            ask_again(wire)
            assert has_again(wire, few)
        took = time.monotonic() - began
        wire.ask()
    least = (asked * few - 500 - few) / 500  # the last piece is sent before it is counted
    assert took >= least, "%d messages are sent again within %.2f s" % (asked * few, took)


def has_begun(wire: Wire) -> None:
    """Reads what is sent again until the burst is over."""
    for _ in range(BURST + 1):
        again = wire.read_until(lambda message: message.value(43) == b"Y")
        assert again is not None


def all_again(wire: Wire, count: int) -> None:
    """Waits for the last of so many, by the bytes alone: to read a thousand messages takes a while."""
    last, came = b"\x01117=x%d\x01" % (count - 1), wire.waiting
    wire.waiting = b""
    while last not in came[-65536:]:
        data = wire.socket.recv(65536)
        assert data, "the connection ends"
        came += data


def test_resends_have_a_rate_of_their_firm(stage: Stage) -> None:
    """A firm that asks for its long day is sent it at the rate. Another one that asks meanwhile has its day at once, as fast as its own
    burst allows: at a rate that both share it would take three seconds at least."""
    stage.door.limits |= {"resends_per_second": RATE, "resends_burst": BURST}
    stage.open()
    # With a heartbeat that is longer than the test, since nobody answers for a firm whose messages are not read.
    with logged_on(stage, DEALER, b"300") as wire, logged_on(stage, OTHER, b"300") as other:
        given(wire, MANY)
        given(other, BURST)

        def measure() -> float:
            """From the other's request to its last message, while the first one is held."""
            began = time.monotonic()
            ask_again(wire)
            has_begun(wire)
            ask_again(other)
            met = seconds_of(lambda: all_again(other, BURST))
            assert has_again(wire, MANY)
            took = time.monotonic() - began
            least = (MANY - BURST - 256) / RATE  # a piece is sent before it is counted
            assert took >= least, "%d messages are sent again within %.2f s" % (MANY, took)
            return met

        # Both have paid off their bursts before it is measured again.
        Budget("another firm's resend", most=1, slack=(BURST - 512) / RATE - 1.1).hold(measure)
