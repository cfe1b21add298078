"""What a firm may still take back when the log has no other room for it: all that it has open, and not so much that it fills
the disk."""

import shutil
import time
from dataclasses import dataclass

import pytest

from tests.gateway.firm import Received
from tests.gateway.stage import DEALER, Stage, check
from tests.gateway.wait import LONG, until
from tests.gateway.wire import Wire
from tests.limits.flood import logged_on

DAY_BYTES = 65536
RESERVE = 1 << 40  # the most that may be held back
QUOTES = 4096  # of a dealer in a day
AT_ONCE, A_SECOND, OF_AN_ANSWER = 16_777_216, 16_384, 1024  # bytes
LINE = 18 + len("DLR1")  # of a message's line in the log, beside its bytes in hexadecimal
SLACK = 0.05  # the message in the log has another number and a shorter moment
TOLD = b"this is more than a firm may take back at once"
OTHER, NOTHING = b"0", b"9"  # BusinessRejectReason (380), QuoteStatus (297)


@dataclass
class Taker:
    """A dealer that takes back what it has not."""

    wire: Wire
    spent: int = 0
    count: int = 0

    def send(self, count: int, more: bytes = b"") -> bytes:
        """So many cancels of no quote; the name of the last one."""
        frames = []
        for _ in range(count):
            self.count += 1
            fields = [(50, b"T1"), (298, b"5"), (117, b"c%d" % self.count)]
            frames.append(self.wire.message(b"Z", b"DLR1", fields, tail=more))
        self.spent += sum(LINE + 2 * len(frame) + OF_AN_ANSWER for frame in frames)
        assert self.wire.raw(b"".join(frames))
        return b"c%d" % self.count

    def answer_to(self, name: bytes) -> Received:
        """The first that is not taken, or what the last one is answered."""
        return self.wire.got_until(
            lambda message: message.kind == b"j" or message.value(117) == name
        )


def opened(stage: Stage, scarce: str) -> None:
    """A gateway at which a firm soon has used up its bytes, or whose disk has no room from the beginning."""
    stage.door.limits |= {"bytes_burst": 1 << 28, "messages_burst": 100_000}
    if scarce == "day":
        stage.door.limits |= {"day_bytes": DAY_BYTES}
    stage.door.write()
    if scarce == "disk":
        if shutil.disk_usage(stage.folder).free > RESERVE:
            pytest.skip("the disk has more than may be held back")
        file = stage.folder / "gateway.toml"
        log = 'sqlite = "day.db"\nreserve = %d\n' % RESERVE
        file.write_text(file.read_text().replace('sqlite = "day.db"\n', log))
    stage.door.start()
    stage.door.wait_open()


@pytest.mark.parametrize("scarce", ["day", "disk"])
def test_what_takes_back_has_an_end(stage: Stage, scarce: str) -> None:
    """A dealer can cancel as often as it may quote in a day; one that sends long cancels without end is told to wait, has its session,
    and soon may cancel all again."""
    opened(stage, scarce)
    with logged_on(stage, DEALER) as wire:
        taker = Taker(wire)
        if scarce == "day":
            taker.answer_to(taker.send(DAY_BYTES // 200))
            taker.spent = 0
        began = time.monotonic()
        for _ in range(QUOTES // 256):
            answer = taker.answer_to(taker.send(256))
            check(answer.value(297) == NOTHING, "an ordinary cancel is answered %r" % answer.raw)
        while answer.kind != b"j" and taker.spent < 2 * AT_ONCE:
            answer = taker.answer_to(taker.send(50, b"58=" + b"x" * 3800 + b"\x01"))
        check(answer.kind == b"j", "%d bytes are taken back" % taker.spent)
        found = [answer.value(tag) for tag in (372, 380)]
        check(found == [b"Z", OTHER] and TOLD in answer.given(58), "it is %r" % answer.raw)
        check(answer.given(379).startswith(b"c"), "it names %r" % answer.value(379))
        least, most = AT_ONCE, AT_ONCE + A_SECOND * (time.monotonic() - began)
        check(taker.spent >= least * (1 - SLACK), "%d bytes are too much" % taker.spent)
        of_a_piece = 50 * (LINE + 2 * 4096 + OF_AN_ANSWER)
        check(taker.spent <= most * (1 + SLACK) + of_a_piece, "%d bytes are taken" % taker.spent)
        wire.ask()
        until("it may cancel all", LONG, lambda: cancels_all(wire))
    check(
        "takes back too much firm=DLR1" in stage.door.told.read_text(), "the operator is not told"
    )


def cancels_all(wire: Wire) -> bool:
    """Whether a cancel of all quotes is taken: there is none."""
    number = wire.number
    assert wire.raw(wire.message(b"Z", b"DLR1", [(50, b"T1"), (298, b"4")]))
    answer = wire.got_until(
        lambda message: message.value(45) == b"%d" % number
        or (message.kind == b"AI" and message.value(117) is None)
    )
    return answer.value(297) == NOTHING
