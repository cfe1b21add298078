"""A rate for each firm: the gateway reads no faster, and tells and disconnects a firm that it has held back for five seconds.
"""

import time

import pytest

from tests.admin.operator import rows
from tests.gateway.firm import Received
from tests.gateway.stage import DEALER, Stage
from tests.gateway.wait import LONG, until
from tests.gateway.wire import Wire, now
from tests.limits.flood import Flood, cancel, logged_on

SLOW = {"messages_per_second": 500, "messages_burst": 500}
# docs/CONNECTING.md, "The rate of a firm" and "The bytes of a day"
NOT_CONFIGURED = {
    "messages_per_second": 2000,
    "messages_burst": 10_000,
    "bytes_per_second": 1 << 20,
    "bytes_burst": 8 << 20,
    "resends_per_second": 5000,
    "resends_burst": 20_000,
    "day_bytes": 1 << 30,
}
TOLD = b"58=more messages or bytes than the rate of a firm allows, for five seconds\x01"


def entries_within(stage: Stage, seconds: float) -> int:
    """How many messages of the dealer are in the log after so long."""
    end = time.monotonic() + seconds
    until("the time is over", LONG, lambda: time.monotonic() > end)
    return stage.entries_of(stage.dealer)


def test_a_flood_is_read_at_its_rate_and_ends(stage: Stage) -> None:
    """The log has of a flood what burst and rate allow; after five seconds the firm is logged out with the reason, its quotes are
    cancelled, and the rest is not counted: its next session begins where the log ends."""
    stage.door.limits |= SLOW
    stage.door.cancelled["DLR1"] = "T1"
    stage.open(stage.other, stage.investor)
    began = time.monotonic()
    with logged_on(stage, DEALER, heartbeat=b"1") as wire, Flood(wire) as flood:
        seen = entries_within(stage, 2)
        allowed = (
            500 + 500 * (time.monotonic() - began) + 1000
        )  # what is read at once before anything is counted
        assert seen <= allowed, "%d entries, and %d are allowed" % (seen, allowed)
        stage.ping(stage.other)
        until("the flood is ended", LONG, flood.has_ended)
        held = time.monotonic() - began
        assert held >= 5, "it is ended after %.1f s" % held
        assert TOLD in flood.came, "it is not told why: %r" % flood.came[-300:]
    until(
        "its quotes are cancelled",
        LONG,
        lambda: "cancel of all firm=DLR1" in stage.door.told.read_text(),
    )
    until(
        "the operator is told", LONG, lambda: "rate of a firm allows" in stage.door.told.read_text()
    )
    entries = stage.entries_of(stage.dealer)
    assert entries < flood.sent, "all %d messages of a flood are in the log" % flood.sent
    stage.auction([stage.other])


def test_what_is_not_configured(stage: Stage) -> None:
    """No firm that trades comes near to what it may send where its operator has configured nothing."""
    stage.door.operators = ""
    stage.open()
    assert {row["limit"]: row["value"] for row in rows(stage, "limit", "DLR1")} == NOT_CONFIGURED


def read_as_an_engine(wire: Wire, name: bytes) -> Received | None:
    """Reads until there is an answer to what is named so, and sends a Heartbeat each second; None where the session ends."""
    end, beat = time.monotonic() + LONG, time.monotonic()
    while time.monotonic() < end and not wire.is_over:
        message = wire.read(1)
        if message is not None and message.value(117) == name:
            return message
        if time.monotonic() >= beat:
            beat += 1
            wire.raw(wire.message(b"0", wire.name, []))
    return None


@pytest.mark.parametrize(
    ("sync", "count"),
    [(0, 2000), (300, 2000), (1000, 800)],  # the burst, and up to three seconds of what is owed
)
def test_held_back_is_no_silence(stage: Stage, sync: int, count: int) -> None:
    """A firm above its rate, whose heartbeat is a second, is not taken for silent while it is held, and what it sent is in the log
    once it is below its rate again. Where each sync takes so many milliseconds longer, no firm is to blame for the log.
    """
    stage.door.environment = {"LD_PRELOAD": str(stage.tools.shim), "DISK_SLOW": str(sync)}
    stage.door.limits |= SLOW
    stage.open(stage.other)
    with logged_on(stage, DEALER, heartbeat=b"1") as wire:
        before, number = stage.entries_of(stage.dealer), wire.number
        pieces = [cancel(wire, number + at, b"x%d" % at) for at in range(count)]
        assert wire.raw(b"".join(pieces))
        wire.number += count
        last = read_as_an_engine(wire, b"x%d" % (count - 1))
        assert last is not None, "its session has ended: %s" % stage.door.last_words()
        assert stage.entries_of(stage.dealer) - before == count
        wire.ask()


def test_the_sessions_own_messages_count(stage: Stage) -> None:
    """TestRequests with texts of 4,000 bytes are bytes of the firm, too."""
    stage.door.limits |= {"bytes_per_second": 65536, "bytes_burst": 65536}
    stage.open(stage.other)
    with logged_on(stage, DEALER) as wire:
        began = time.monotonic()
        for _ in range(60):  # 240,000 bytes
            assert wire.raw(wire.message(b"1", wire.name, [(112, b"y" * 3500), (58, now())]))
        assert wire.raw(wire.message(b"1", wire.name, [(112, b"last")]))
        assert wire.read_until(lambda message: message.value(112) == b"last") is not None
        took = time.monotonic() - began
        assert took >= 1, (
            "210,000 bytes at 65,536 a second after a burst of as many, in %.2f s" % took
        )
