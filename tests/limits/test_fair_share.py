"""A firm's share of the log: how much of a transaction one firm has, and how much the venue may still have to answer. What
waits for it is judged by when it came."""

import os
import signal
from collections import Counter
from collections.abc import Iterator
from contextlib import contextmanager

from tests.admin.operator import did
from tests.admin.test_orders import quoted, request_fields
from tests.gateway.ledger import rows
from tests.gateway.market import moment_in
from tests.gateway.stage import DEALER, INVESTOR, OTHER, Stage, check
from tests.gateway.wait import LONG, until
from tests.gateway.wire import Fields, Wire
from tests.harness.clock import Clock
from tests.limits.flood import cancel, logged_on

BATCH = 16  # entries_per_batch
OF_A_FIRM, OF_ALL = 40, 60  # unanswered_per_firm, unanswered
MANY = 200
UNATTENDED = b"300"  # seconds of a heartbeat: nobody answers for the firm meanwhile
BACKLOG = "mireseason_log_backlog_messages"
DEADLINE = (
    110  # seconds of a request: below what a message's 52 may differ from the gateway's clock
)


@contextmanager
def venue_stands_still(stage: Stage) -> Iterator[None]:
    """The venue reads and answers nothing."""
    venues = stage.door.venues()
    for pid in venues:
        os.kill(pid, signal.SIGSTOP)
    try:
        yield
    finally:
        for pid in venues:
            os.kill(pid, signal.SIGCONT)


def flood(wire: Wire, count: int = MANY) -> bytes:
    """Sends so many cancels; the name of the last one."""
    first = wire.number
    names = [b"x%d" % at for at in range(first, first + count)]
    assert wire.raw(b"".join(cancel(wire, first + at, name) for at, name in enumerate(names)))
    wire.number += count
    return names[-1]


def in_log(stage: Stage) -> dict[str, int]:
    """How many messages of each firm are in the log."""
    found = stage.door.ledger().entries
    return dict(Counter(entry.firm for entry in found if entry.firm and entry.number is not None))


def opened(stage: Stage) -> None:
    """With an operator, whose acts are no firm's, and a venue that may stand still for as long as the test takes."""
    stage.door.operators = ""
    stage.door.limits |= {"unanswered_per_firm": OF_A_FIRM, "unanswered": OF_ALL}
    stage.door.limits |= {"venue_seconds": 3600}
    stage.open()


def test_what_the_venue_has_not_answered(stage: Stage) -> None:
    """Of a firm that floods a venue which stands still so many messages come into the log and no more, and so many of all firms
    together; another firm's are there meanwhile. When it goes on, all come and are answered."""
    opened(stage)
    with logged_on(stage, DEALER, UNATTENDED) as one, logged_on(stage, OTHER, UNATTENDED) as other:
        with venue_stands_still(stage):
            last = flood(one)
            until("its share is there", LONG, lambda: in_log(stage).get("DLR1") == OF_A_FIRM)
            other_last = flood(other)
            rest = OF_ALL - OF_A_FIRM
            until("the other's are there", LONG, lambda: in_log(stage).get("DLR2") == rest)
            did(stage, "limit", "INV1", "day_bytes=700000")  # a commit behind all that may come
            check(in_log(stage) == {"DLR1": OF_A_FIRM, "DLR2": rest}, repr(in_log(stage)))
        one.got_until(lambda message: message.value(117) == last)
        other.got_until(lambda message: message.value(117) == other_last)
    check(in_log(stage) == {"DLR1": MANY, "DLR2": MANY}, repr(in_log(stage)))


def test_a_share_of_a_transaction(stage: Stage) -> None:
    """Commits are so slow that a whole flood waits for one: none has more than so many messages of the firm."""
    stage.door.limits |= {"entries_per_batch": BATCH}
    stage.door.environment = {"LD_PRELOAD": str(stage.tools.shim), "DISK_SLOW": "50"}
    stage.open()
    with logged_on(stage, DEALER, UNATTENDED) as wire:
        last = flood(wire)
        wire.got_until(lambda message: message.value(117) == last)
    found = stage.door.ledger().entries
    sealed = [place for (place,) in rows(stage.door.database, "SELECT place FROM seal")]
    # Each seal is that of a transaction, up to its last entry.
    ends = sorted(set(sealed))
    shares = Counter(
        next(end for end in ends if entry.place <= end) for entry in found if entry.number
    )
    check(max(shares.values()) <= BATCH, "transactions have %r of one firm" % shares)
    check(sum(shares.values()) == MANY, "%d are in the log" % sum(shares.values()))


def test_what_waits_is_judged_by_when_it_came(stage: Stage, clock: Clock) -> None:
    """An investor hits in time while others fill all that the venue may have to answer: its hit waits, the deadline passes, and it
    trades all the same."""
    opened(stage)
    with (
        logged_on(stage, DEALER, UNATTENDED) as dealer,
        logged_on(stage, OTHER, UNATTENDED) as other,
        logged_on(stage, INVESTOR, UNATTENDED) as investor,
    ):
        fields = request_fields(b"A1", moment_in(DEADLINE))
        assert investor.raw(investor.message(b"R", investor.name, fields))
        dealer.got(b"R")
        quoted(dealer, b"q1")
        shown = investor.got(b"S")
        with venue_stands_still(stage):
            for wire in (dealer, other):
                flood(wire)
            until("two firms wait", LONG, lambda: stage.counters().get(BACKLOG) == 2)
            hit: Fields = [(50, b"V1"), (693, b"h1"), (694, b"1"), (117, shown.given(117))]
            assert investor.raw(investor.message(b"AJ", b"INV1", hit))
            until("the hit waits too", LONG, lambda: stage.counters().get(BACKLOG) == 3)
            clock.set(DEADLINE + 1)
        answer = investor.got_until(lambda message: message.value(693) == b"h1")
    check(answer.value(297) == b"0", "a hit that came in time is answered %r" % answer.raw)
