"""How many bytes of a day's log one firm may have, and how it goes on at the limit."""

from tests.admin.test_orders import quoted, request_fields
from tests.gateway.market import BOND, moment_in
from tests.gateway.stage import DEALER, INVESTOR, Stage
from tests.gateway.wait import LONG, until
from tests.gateway.wire import Fields, Wire
from tests.limits.flood import cancel, hang_up, logged_on, not_taken, responded, response

TOLD = b"this firm has sent all the bytes that it may send in a day"
OTHER = b"0"  # BusinessRejectReason (380)
MOST = 65536  # of the lines of its entries, some 260 bytes each


def quote(name: bytes) -> Fields:
    return [(50, b"T1"), (117, name), (131, b"R1"), (48, BOND), (22, b"4"), (133, b"99.5")]


def cancelled(wire: Wire, name: bytes) -> bool:
    """Whether a cancel of no quote is answered."""
    assert wire.raw(cancel(wire, wire.number, name))
    wire.number += 1
    return (
        wire.read_until(lambda message: message.value(117) == name and message.value(297) == b"9")
        is not None
    )


def refused(wire: Wire, name: bytes) -> None:
    """A quote that is not taken: the firm is told why, and its session goes on."""
    not_taken(wire, b"S", quote(name), OTHER, TOLD)


def test_at_the_limit_of_a_day(stage: Stage) -> None:
    """A firm that has used up its bytes can cancel and not quote: the number of a quote that is not taken is used up, and the session
    goes on, also after a start; the operator raises the limit while the gateway runs. What it was told comes again when it asks.
    """
    stage.door.limits |= {"day_bytes": MOST}
    stage.open(stage.other, stage.investor)
    with logged_on(stage, DEALER) as wire:
        stage.ask_of([stage.dealer, stage.other])
        for at in range(MOST // 200):
            assert wire.raw(cancel(wire, wire.number, b"c%d" % at))
            wire.number += 1
        assert (
            wire.read_until(lambda message: message.value(117) == b"c%d" % (MOST // 200 - 1))
            is not None
        )
        entries = stage.entries_of(stage.dealer)
        refused(wire, b"q1")
        assert cancelled(wire, b"x1"), "no cancel is taken"
        refused(wire, b"q2")
        number = wire.number
    entries += 1
    assert stage.entries_of(stage.dealer) == entries, "a quote beyond the limit is in the log"
    until(
        "the operator is told",
        LONG,
        lambda: "day's bytes used up firm=DLR1" in stage.door.told.read_text(),
    )
    stage.door.stop()
    stage.door.start()
    stage.door.wait_open()
    with logged_on(stage, DEALER, number=number) as wire:
        assert wire.raw(wire.message(b"2", wire.name, [(7, b"1"), (16, b"0")]))
        again = [wire.got(b"j") for _ in range(2)]
        assert [message.value(379) for message in again] == [b"q1", b"q2"]
        assert all(message.value(43) == b"Y" for message in again)
        refused(wire, b"q3")
        number = wire.number
    file = stage.door.folder / "credentials.toml"
    file.write_text(file.read_text().replace("[DLR1]\n", "[DLR1]\nday_bytes = 100000000\n"))
    hang_up(stage)
    until("it is read", LONG, lambda: "were read again" in stage.door.told.read_text())
    with logged_on(stage, DEALER, number=number) as wire:
        assert wire.raw(wire.message(b"S", wire.name, quote(b"q4")))
        answer = wire.read_until(lambda message: message.value(117) == b"q4")
        assert answer is not None and answer.value(297) == b"0", (
            "a quote below the new limit is answered %r" % answer
        )


def test_an_investor_at_its_limit(stage: Stage) -> None:
    """It asks for no more prices; it hits what it is shown, and passes on the rest."""
    stage.door.limits |= {"day_bytes": MOST}
    stage.open()
    with logged_on(stage, DEALER) as dealer, logged_on(stage, INVESTOR) as investor:
        for name, quote in ((b"A1", b"q1"), (b"A2", b"q2")):
            fields = request_fields(name, moment_in(600))
            assert investor.raw(investor.message(b"R", b"INV1", fields))
            quoted(dealer, quote, dealer.got(b"R").given(131))
        shown = investor.got(b"S").given(117)
        passes: list[Fields] = [
            [(693, b"n%d" % at), (694, b"6"), (131, b"none")] for at in range(MOST // 200)
        ]
        assert investor.raw(b"".join(response(investor, fields) for fields in passes))
        last = dict(passes[-1])[693]
        investor.got_until(lambda message: message.value(693) == last)
        fields = request_fields(b"A3", moment_in(600))
        not_taken(investor, b"R", fields, OTHER, TOLD)
        assert responded(investor, [(693, b"h1"), (694, b"1"), (117, shown)]) == b"0"
        assert responded(investor, [(693, b"p1"), (694, b"6"), (131, b"A2")]) == b"11"
