"""Nobody waits for another firm's mailbox."""

from tests.gateway.stage import DEALER, Stage
from tests.gateway.wait import LONG, until
from tests.harness.budget import Budget, seconds_of
from tests.limits.flood import logged_on


def test_a_firm_that_does_not_settle_keeps_nobody_waiting(stage: Stage) -> None:
    """The venue is killed while a message waits for a firm that leaves its TestRequest unanswered: another firm is answered at once,
    and that one has each message once."""
    stage.door.limits |= {"venue_starts": 20}  # it may be measured again
    stage.open(stage.other, stage.investor)
    stage.ping(stage.other)
    number = 1

    def measure() -> float:
        nonlocal number
        with logged_on(stage, DEALER, settles=False, number=number) as wire:
            asked = stage.entries_of(stage.investor)
            stage.ask_of([stage.dealer, stage.other])
            until(
                "the request is in the log", LONG, lambda: stage.entries_of(stage.investor) > asked
            )
            stage.ping(stage.other)
            assert stage.door.kill_venue()
            took = seconds_of(lambda: stage.ping(stage.other))
            # Now it answers, and is sent what waited.
            assert wire.read_kind(b"R") is not None
            number = wire.number
            return took

    Budget(
        "the answer of a venue that was killed, while another firm settles", most=1, slack=6
    ).hold(measure)
    with logged_on(stage, DEALER, number=number) as wire:
        assert wire.raw(wire.message(b"2", wire.name, [(7, b"1"), (16, b"0")]))
        again = wire.got(b"R")
        assert again.value(43) == b"Y" and again.venue_number == 1, again.raw
        wire.ask()
    stage.whole()
