"""What an investor's cases have in common: the desk asks, played dealers quote, and the desk hits or passes."""

from __future__ import annotations

from collections.abc import Sequence
from decimal import Decimal

from .draw import text_of
from .frames import Message
from .own_venue import Bond
from .played import PlayedFirm
from .stage import Failed, Request, Stage, is_kind, is_reply

LONG_ENOUGH = 600  # seconds to the deadline that the desk is told to set


def told_to_ask(
    stage: Stage,
    bond: Bond,
    side: str,
    quantity: int,
    dealers: Sequence[str],
    seconds: float = LONG_ENOUGH,
    may_refuse: bool = False,
) -> None:
    """The developer's task."""
    way = "buy" if side == "1" else "sell"
    text = "Ask %s for %s: %s %d, with a deadline in %.0f seconds."
    needs = {"bond": bond.id, "side": side, "quantity": quantity, "dealers": ",".join(dealers)}
    said = text % (" and ".join(dealers), bond.id, way, quantity, seconds)
    stage.task(said, "ask", may_refuse, **needs, seconds=round(seconds))


def sent_request(
    stage: Stage, bond: Bond, side: str, quantity: int, dealers: Sequence[str]
) -> Message:
    """The QuoteRequest (35=R) that the desk was told to send."""
    request = stage.desk_sends("a QuoteRequest of %s" % bond.id, is_kind("R", _48=bond.id))
    check_request(request, side, quantity, dealers)
    return request


def check_request(request: Message, side: str, quantity: int, dealers: Sequence[str]) -> None:
    """Fails where the request is another than the one that the desk was told."""
    for tag, value in ((54, side), (38, str(quantity))):
        if request.get(tag) != value:
            raise Failed("the request's field %d is not %s: %s" % (tag, value, request.bars))
    named = [value for tag, value in request.fields if tag == 448]
    if sorted(named) != sorted(dealers):
        said = ", ".join(named) or "no dealer"
        raise Failed("the request names %s, and not %s (448)" % (said, ", ".join(dealers)))


def ask(
    stage: Stage,
    dealers: Sequence[PlayedFirm] = (),
    side: str = "",
    seconds: float = LONG_ENOUGH,
) -> Request:
    """The desk asks the dealers, and the venue accepts."""
    bond, side = stage.draw.bond(), side or stage.draw.side()
    quantity = stage.draw.quantity()
    names = [dealer.who.name for dealer in dealers or stage.dealers[:1]]
    told_to_ask(stage, bond, side, quantity, names, seconds)
    own = sent_request(stage, bond, side, quantity, names).get(131)
    answer = stage.venue_sends("what became of %s" % own, lambda one: one.get(131) == own)
    if answer.kind != "AI" or answer.get(297) != "0":
        raise Failed("the venue refuses the request: %s" % answer.bars)
    return Request(own, own, bond, side, quantity)


def sends_quote(stage: Stage, dealer: PlayedFirm, request: Request, price: Decimal) -> None:
    """A dealer quotes, and the venue accepts."""
    own = dealer.wait("the request", is_kind("R", _48=request.bond.id))
    name = stage.draw.name("quote")
    fields = [(131, own.get(131)), (117, name), (48, request.bond.id), (22, "4")]
    dealer.send("S", [*fields, (request.price_tag, text_of(price))])
    dealer.wait("that its quote is accepted", is_reply("117", name, "0"))


def dealer_quotes(stage: Stage, dealer: PlayedFirm, request: Request, price: Decimal) -> Message:
    """A dealer quotes, and the desk is shown the quote."""
    before = stage.relay.count()
    sends_quote(stage, dealer, request, price)
    return shown_quote(stage, dealer, request, before)


def shown_quote(stage: Stage, dealer: PlayedFirm, request: Request, before: int) -> Message:
    """The quote as it reaches the desk, behind this place."""
    place, stage.place = stage.place, before
    fits = is_kind("S", _131=request.id, _448=dealer.who.name)
    try:
        return stage.venue_sends("the quote of %s" % dealer.who.name, fits)
    finally:
        stage.place = place


def dealer_withdraws(stage: Stage, dealer: PlayedFirm) -> None:
    """A dealer cancels all its quotes."""
    del stage
    place = dealer.count()
    dealer.send("Z", [(298, "4")])
    dealer.wait("that its quote is withdrawn", is_kind("AI", _297="17"), place)


def told_to_hit(
    stage: Stage, request: Request, offer: Message, more: str = "", may_refuse: bool = False
) -> None:
    price = offer.get(request.price_tag)
    text = "Hit the quote %s of %s at %s on your request %s%s."
    said = text % (offer.get(117), offer.get(448), price, request.id, more)
    needs = {"quote": offer.get(117), "request": request.id, "bond": request.bond.id}
    stage.task(said, "hit", may_refuse, **needs)


def sent_hit(stage: Stage, offer: Message) -> str:
    """The QuoteRespID (693) of the hit that the desk was told to send."""
    return stage.desk_sends(
        "a hit (35=AJ, 694=1) of %s" % offer.get(117), is_kind("AJ", _694="1", _117=offer.get(117))
    ).get(693)


def hit(stage: Stage, request: Request, offer: Message) -> None:
    """The desk hits, and the venue awards."""
    told_to_hit(stage, request, offer)
    name = sent_hit(stage, offer)
    answer = stage.venue_sends("what became of the hit", is_kind("AI", _693=name))
    if answer.get(297) != "0":
        raise Failed("the venue refuses the hit: %s" % answer.bars)


def refused_hit(stage: Stage, request: Request, offer: Message, more: str) -> None:
    """A hit that the venue refuses, unless the desk does so first."""
    told_to_hit(stage, request, offer, more, may_refuse=True)
    fits = is_kind("AJ", _694="1", _117=offer.get(117))
    sent = stage.desk_sends_or_refuses("a hit (35=AJ, 694=1) of %s" % offer.get(117), fits)
    if sent is not None:
        stage.venue_sends("that the hit is refused", is_reply("693", sent.get(693), "5"))


def passes(stage: Stage, request: Request) -> None:
    """The desk passes, and the venue takes it."""
    stage.task("Pass your request %s." % request.id, "pass", request=request.id)
    fits = is_kind("AJ", _694="6", _131=request.id)
    name = stage.desk_sends("a pass (35=AJ, 694=6) of %s" % request.id, fits).get(693)
    stage.venue_sends("that the pass is taken", is_reply("693", name, "11"))
