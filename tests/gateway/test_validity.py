"""A quote that ends before its request does: docs/CONNECTING.md, "A hit or a pass"."""

from tests.gateway.market import moment_in
from tests.gateway.stage import Stage, check
from tests.harness.clock import Clock

VALID = (
    60  # seconds: less than the two minutes that a message's 52 may differ from the gateway's clock
)


def test_a_quote_that_has_expired(stage: Stage, clock: Clock) -> None:
    """A quote whose ValidUntilTime (62) has passed can't be hit, though its request is open: the hit is answered 297=5 with 58=Expired,
    and a quote without one can be hit after it."""
    stage.open(*stage.firms)
    stage.quote(stage.dealer, stage.ask(), more=[(62, moment_in(VALID))])
    shown = stage.answer(
        stage.investor,
        "the quote that ends",
        lambda message: message.kind == b"S" and message.value(62) is not None,
    )
    stage.quote(stage.other, b"R%d" % stage.shown(stage.other))
    lasting = stage.answer(
        stage.investor,
        "the quote that lasts",
        lambda message: message.kind == b"S" and message.value(62) is None,
    )

    clock.set(VALID + 1)
    refused = stage.hit(shown.given(117))
    said = [refused.value(tag) for tag in (297, 300, 58)]
    check(
        said == [b"5", b"4", b"Expired"],
        "a hit of a quote that has expired is answered %r" % refused.raw,
    )
    award = stage.hit(lasting.given(117))
    check(award.value(297) == b"0", "a lawful hit is answered %r" % award.raw)
    stage.whole()
