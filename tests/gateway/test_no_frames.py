"""A firm that is logged on sends what is no message: each line of docs/FORMATS.md, "What comes over the network"."""

from collections.abc import Iterator
from contextlib import contextmanager
from dataclasses import dataclass
from datetime import datetime, timedelta, timezone

from tests.gateway.firm import Received
from tests.gateway.stage import DEALER, Stage, check
from tests.gateway.test_away import clock_of
from tests.gateway.test_gaps import again, asked_from
from tests.gateway.test_messages import answered, cancel, on_a_wire
from tests.gateway.wait import LONG, until
from tests.gateway.wire import Fields, Wire, framed, now

NAME = DEALER.name.encode()
SOON = 90.0  # seconds: what a session answers at once, on a busy machine
LATER = 130  # seconds: a 52 is none of a message that came so much later
TWO_32 = 2**32  # what a number is taken modulo, by who reads it into 32 bits


@dataclass(frozen=True)
class Odd:
    """Fields of a message after 35, 49, 56, 34 and 52, and what the Reject says of them."""

    text: str
    tag: bytes | None
    reason: bytes | None


REJECTED = (
    Odd("58=a|b|", b"58", b"17"),
    Odd("58=a|=b|", None, None),
    Odd("058=a|", None, None),
    Odd("1234567890=a|", None, None),
    Odd("8=FIXT.1.1|", b"8", b"13"),
    Odd("9=5|", b"9", b"13"),
    Odd("10=000|", b"10", b"13"),
    *(
        Odd("%d=x|%d=x|" % (tag, tag), b"%d" % tag, b"13")
        for tag in (43, 97, 122, 50, 57, 553, 554, 98, 108, 141, 789, 1137, 7, 16, 36, 112, 123)
    ),
    *(Odd("%d=x|" % tag, b"%d" % tag, b"13") for tag in (35, 49, 56, 52)),
    Odd("112=%s|" % ("x" * 1025), b"112", b"5"),
    Odd("58=%s|" % ("x" * 4096), None, b"5"),
)


def odd_message(odd: Odd, number: int, kind: bytes = b"Z") -> bytes:
    head = b"35=%s\x0149=%s\x0156=VENUE\x0134=%d\x0152=%s\x01" % (kind, NAME, number, now())
    return framed(head + odd.text.replace("|", "\x01").encode())


def target_of(stage: Stage) -> int:
    """The number that the session expects next, as it stands in the log: that comes a moment later."""
    return stage.door.ledger().expected.get(DEALER.name, 1)


def expects(stage: Stage, number: int, what: str) -> None:
    until("%s: the session expects %d" % (what, number), LONG, lambda: target_of(stage) == number)


@contextmanager
def a_session(stage: Stage) -> Iterator[Wire]:
    """One of DLR1, which ends with a cancel that is answered: it goes on, whatever was said."""
    stage.open(stage.other, stage.investor)
    with on_a_wire(stage) as wire:
        yield wire
        goes_on(wire)
    stage.whole()


def goes_on(wire: Wire) -> None:
    name = b"n%d" % wire.number
    wire.raw(wire.message(b"Z", NAME, cancel(name)))
    answer = wire.read_until(lambda message: message.value(117) == name, SOON)
    check(answer is not None and answer.value(297) == b"9", "a cancel is not answered as ever")


def reject_of(wire: Wire, number: int) -> Received:
    found = wire.read_until(lambda message: message.kind in (b"3", b"5"), SOON)
    check(
        found is not None and found.kind == b"3",
        "no Reject of %d, but %r" % (number, found and found.raw),
    )
    assert found is not None
    check(found.value(45) == b"%d" % number and found.value(1181) is None, "it is %r" % found.raw)
    return found


def test_rejected_and_counted(stage: Stage) -> None:
    """A Reject with the field and the reason, the number is used up, and what comes next is answered."""
    with a_session(stage) as wire:
        for odd in REJECTED:
            wire.raw(odd_message(odd, wire.number))
            found = reject_of(wire, wire.number)
            check(
                odd.tag is None or found.value(371) == odd.tag,
                "%r is rejected by %r" % (odd.text[:40], found.raw),
            )
            check(
                odd.reason is None or found.value(373) == odd.reason,
                "%r is rejected by %r" % (odd.text[:40], found.raw),
            )
            wire.number += 1
        for kind in (b"ABCDE", b"A-", b"", b"\xc3\xa9"):
            wire.raw(odd_message(Odd("58=x|", None, None), wire.number, kind))
            found = reject_of(wire, wire.number)
            check(
                (found.value(371), found.value(373)) == (b"35", b"11"),
                "35=%r is rejected by %r" % (kind, found.raw),
            )
            wire.number += 1
        goes_on(wire)
        check(stage.entries_of(stage.dealer) == 1, "%d entries" % stage.entries_of(stage.dealer))


def test_ahead_and_no_frame(stage: Stage) -> None:
    """Ahead of a gap such a message is not counted: it is asked for, and rejected in its turn."""
    with a_session(stage) as wire:
        lost = wire.number
        wire.raw(odd_message(REJECTED[0], lost + 1))
        check(asked_from(wire) == lost, "the message before it is not asked for")
        expects(stage, lost, "it is not counted")
        again(wire, b"Z", lost, cancel(b"lost"))
        answered(wire, b"lost")
        wire.raw(odd_message(REJECTED[0], lost + 1))
        reject_of(wire, lost + 1)
        wire.number = lost + 2


def test_cancels_behind_a_soh(stage: Stage) -> None:
    """A quote that stands is withdrawn by the cancel behind a message with a SOH in its text."""
    stage.open(*stage.firms)
    request = stage.ask()
    stage.log_off(stage.dealer)
    until("its session is over", LONG, lambda: stage.counters()["mireseason_sessions"] == 2)
    number = target_of(stage)
    with Wire(stage.door.port) as wire:
        wire.number = number
        wire.logon(NAME, DEALER.password.encode())
        quote: Fields = [(50, DEALER.trader.encode()), *stage.quote_fields(request, b"firm")]
        wire.raw(wire.message(b"S", NAME, quote))
        check(answered(wire, b"firm").value(297) == b"0", "a lawful quote is not taken")
        wire.raw(odd_message(Odd("50=T1|58=all|out|298=4|", None, None), wire.number))
        wire.number += 1
        wire.raw(wire.message(b"Z", NAME, cancel(b"firm")))
        gone = wire.read_until(lambda message: message.value(297) == b"17", SOON)
        check(gone is not None, "the cancel is not answered")


def test_no_number(stage: Stage) -> None:
    """34 is missing, stands twice, or is no number of 1 to 999,999,999: a Logout says why, and nothing is counted."""
    stage.open(stage.other, stage.investor)
    number = 1
    for text in (
        "",
        "34=%d|34=%d|",
        "34=0|",
        "34=-1|",
        "34=|",
        "34=x|",
        "34=1000000000|",
        "34=%d|" % (TWO_32 + 3),
        "34=1 |",
        "34=+1|",
    ):
        with on_a_wire(stage, number) as wire:
            number = wire.number
            field = text.replace("%d", str(number)).replace("|", "\x01").encode()
            wire.raw(
                framed(b"35=Z\x0149=%s\x0156=VENUE\x01%s52=%s\x01298=4\x01" % (NAME, field, now()))
            )
            logout = wire.read_kind(b"5", SOON)
            check(logout is not None and logout.value(58), "no Logout with a text for %r" % text)
            check(wire.closed_within(LONG), "the connection stays for %r" % text)
        expects(stage, number, "%r moves no number" % text)
    with on_a_wire(stage, number) as wire:
        goes_on(wire)
    stage.whole()


def test_numbers_past_32_bits(stage: Stage) -> None:
    """36, 7, 16 and 108 that are small numbers modulo 2^32: no number is taken for another."""
    with a_session(stage) as wire:
        for kind, fields in (
            (b"4", [(36, b"%d" % (TWO_32 + 100))]),
            (b"4", [(123, b"Y"), (36, b"%d" % (TWO_32 + 100))]),
            (b"2", [(7, b"%d" % (TWO_32 + 1)), (16, b"0")]),
            (b"2", [(7, b"1"), (16, b"%d" % (TWO_32 + 1))]),
        ):
            wire.raw(wire.message(kind, NAME, fields))
            reject_of(wire, wire.number - 1)
            expects(stage, wire.number, "%r moves the number by one" % fields)


def test_heartbeat_past_32_bits(stage: Stage) -> None:
    """108=4294967326 is no 30, and is not echoed."""
    stage.open(stage.other)
    with Wire(stage.door.port) as wire:
        wire.logon(NAME, DEALER.password.encode(), heartbeat=b"%d" % (TWO_32 + 30))
        logout = wire.read_kind(b"5")
        check(logout is not None and logout.value(58), "no Logout with a text")
        check(
            b"4294967326" not in wire.waiting and wire.closed_within(LONG), "the connection stays"
        )
    stage.log_on(stage.dealer)
    stage.ping(stage.dealer)


def test_longer_than_a_frame(stage: Stage) -> None:
    """Messages past 4,096 bytes are passed over, rejected and counted; the session and the next Logon go on."""
    stage.open(stage.other, stage.investor)
    with on_a_wire(stage) as wire:
        for size in (4100, 5000, 20_000, 65_000):
            wire.raw(wire.message(b"Z", NAME, [*cancel(b"long"), (58, b"x" * size)]))
            reject_of(wire, wire.number - 1)
        goes_on(wire)
        number = wire.number
    with on_a_wire(stage, number) as wire:
        goes_on(wire)
    check(stage.entries_of(stage.dealer) == 2, "%d entries" % stage.entries_of(stage.dealer))
    stage.whole()


def test_without_end(stage: Stage) -> None:
    """Past 65,536 bytes a Logout ends the connection; the message is counted where it was the next, so that it never comes again."""
    stage.open(stage.other, stage.investor)
    with on_a_wire(stage) as wire:
        number = wire.number
        wire.raw(wire.message(b"Z", NAME, [*cancel(b"long"), (58, b"x" * 70_000)]))
        logout = wire.read_kind(b"5")
        check(logout is not None and logout.value(58), "no Logout with a text")
        check(wire.closed_within(LONG), "the connection stays")
    expects(stage, number + 1, "it is counted")
    with on_a_wire(stage, number + 1) as wire:
        wire.raw(
            wire.message(
                b"Z", NAME, [*cancel(b"long"), (58, b"x" * 70_000)], number=wire.number + 5
            )
        )
        check(wire.closed_within(LONG), "the connection stays")
        number = wire.number
    expects(stage, number, "one ahead of a gap is not counted")
    with on_a_wire(stage, number) as wire:
        goes_on(wire)
    stage.whole()


def test_as_long_as_may_be(stage: Stage) -> None:
    """A message of 4,096 bytes is taken when it comes again, too, with 43 and 122 beside."""
    with a_session(stage) as wire:
        number = wire.number
        room = (
            4096
            - len(wire.message(b"Z", NAME, [*cancel(b"longest"), (58, b"")], number=number))
            - 2
        )
        fields: Fields = [*cancel(b"longest"), (58, b"x" * room)]
        check(
            4094 <= len(wire.message(b"Z", NAME, fields, number=number)) <= 4096,
            "it is not as long as may be",
        )
        wire.raw(wire.message(b"1", NAME, [(112, b"ahead")], number=number + 1))
        check(asked_from(wire) == number, "it is not asked for")
        again(wire, b"Z", number, fields)
        again(wire, b"4", number + 1, [(123, b"Y"), (36, b"%d" % (number + 2))])
        check(answered(wire, b"longest").value(297) == b"9", "it is not answered as ever")
        wire.number = number + 2


def test_garbled(stage: Stage) -> None:
    """A wrong length or sum is passed over and not counted: the same number is taken when it comes right."""
    with a_session(stage) as wire:
        right = wire.message(b"Z", NAME, cancel(b"right"))
        wire.raw(right[:-4] + b"999\x01")
        wire.raw(right.replace(b"\x019=", b"\x019=1", 1)[:60])
        wire.raw(b"noise \x01\x01 8=FIXT.1.1\x01 9=x\x01")
        wire.raw(right)
        check(answered(wire, b"right").value(297) == b"9", "it is not answered as ever")


def test_glued_trailer(stage: Stage) -> None:
    """A `10=` without a SOH before it is no trailer: its field is not lost, the message is not taken."""
    with a_session(stage) as wire:
        body = b"35=Z\x0149=%s\x0156=VENUE\x0134=%d\x0152=%s\x0150=T1\x01298=5\x01117=glued" % (
            NAME,
            wire.number,
            now(),
        )
        wire.raw(framed(body))
        reject_of(wire, wire.number)
        wire.number += 1
        check(stage.entries_of(stage.dealer) == 0, "it is in the log")


def test_judged_when_it_came(stage: Stage) -> None:
    """Quotes ahead of a gap that is filled two minutes later are taken: 52 is held against the moment at which they came."""
    set_clock = clock_of(stage)
    stage.open()
    with on_a_wire(stage) as wire:
        lost = wire.number
        wire.number += 1
        frames = [wire.message(b"Z", NAME, cancel(b"in-time-%d" % place)) for place in range(3)]
        wire.raw(b"".join(frames))
        check(asked_from(wire) == lost, "the message before them is not asked for")
        set_clock(LATER)
        check(came_in_time(stage, wire, lost, frames), "what came in time is rejected later")


def came_in_time(stage: Stage, wire: Wire, lost: int, frames: list[bytes]) -> bool:
    """Fills the gap as an engine does that sends all again: each with its first 52 in 122. Whether all are answered."""
    later = moment_after(LATER)
    wire.raw(
        wire.message(
            b"Z", NAME, [(43, b"Y"), (122, now()), *cancel(b"lost")], sending=later, number=lost
        )
    )
    for place, frame in enumerate(frames):
        first = frame.split(b"\x0152=", 1)[1].split(b"\x01", 1)[0]
        fields: Fields = [(43, b"Y"), (122, first), *cancel(b"in-time-%d" % place)]
        wire.raw(wire.message(b"Z", NAME, fields, sending=later, number=lost + 1 + place))
    names = [b"in-time-%d" % place for place in range(len(frames))]
    answers = [wire.read_until(lambda message: message.value(117) in names, SOON) for _ in names]
    return all(answer is not None and answer.value(297) == b"9" for answer in answers)


def moment_after(seconds: int) -> bytes:
    return (
        (datetime.now(timezone.utc) + timedelta(seconds=seconds))
        .strftime("%Y%m%d-%H:%M:%S.000")
        .encode()
    )
