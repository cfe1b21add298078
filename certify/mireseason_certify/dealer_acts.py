"""What a dealer's cases have in common: a request is shown, the desk quotes, the venue says what became of it."""

from __future__ import annotations

from collections.abc import Sequence
from datetime import datetime, timedelta, timezone
from decimal import Decimal

from .draw import text_of
from .frames import Fields, Message, time_text
from .own_venue import Bond
from .played import PlayedFirm
from .stage import Failed, Request, Stage, is_kind, is_reply, same_price

WHILE_OPEN = 1800.0  # seconds to the deadline of a request that no case lets expire
MOST_SMALL = 500_000  # a quantity of which ten fit into the desk's exposure
ENDS = {"1": "won", "3": "expired", "4": "cover", "5": "done away", "6": "passed"}  # 694


def asked(
    stage: Stage,
    quantity: int = 0,
    seconds: float = WHILE_OPEN,
    others: Sequence[PlayedFirm] = (),
    side: str = "",
) -> tuple[str, Bond, str, int]:
    """An investor's request of the desk, and of the other dealers that are named, once it is accepted."""
    own_id, bond = stage.draw.name("ask"), stage.draw.bond()
    side, quantity = side or stage.draw.side(), quantity or stage.draw.quantity(MOST_SMALL)
    names = [stage.desk, *(other.who.name for other in others)]
    investor = stage.investors[0]
    investor.send("R", request_fields(own_id, bond, side, quantity, seconds, names))
    investor.wait("that its request is accepted", is_reply("131", own_id, "0"))
    stage.open.append((investor, own_id))
    return own_id, bond, side, quantity


def ask(
    stage: Stage,
    quantity: int = 0,
    seconds: float = WHILE_OPEN,
    others: Sequence[PlayedFirm] = (),
    side: str = "",
) -> Request:
    """A request that the desk is shown."""
    return shown(stage, *asked(stage, quantity, seconds, others, side))


def shown(stage: Stage, own_id: str, bond: Bond, side: str, quantity: int) -> Request:
    """The request as the venue shows it to the desk. No other request has its bond."""
    message = stage.venue_sends("a request of %s" % bond.id, is_kind("R", _48=bond.id))
    return Request(message.get(131), own_id, bond, side, quantity)


def request_fields(
    own_id: str, bond: Bond, side: str, quantity: int, seconds: float, dealers: Sequence[str]
) -> Fields:
    """The body of a QuoteRequest (35=R)."""
    deadline = time_text(datetime.now(timezone.utc) + timedelta(seconds=seconds))
    fields = [(131, own_id), (146, "1"), (55, "[N/A]"), (48, bond.id), (22, "4"), (54, side)]
    fields += [(38, str(quantity)), (126, deadline), (453, str(len(dealers)))]
    for name in dealers:
        fields += [(448, name), (447, "D"), (452, "35")]
    return fields


def told_to_quote(
    stage: Stage, request: Request, price: Decimal, more: str = "", may_refuse: bool = False
) -> None:
    """The developer's task."""
    text = "Quote %s on your request %s (%s, %s of %d)%s."
    way = "the investor buys" if request.side == "1" else "the investor sells"
    said = text % (text_of(price), request.id, way, request.bond.id, request.quantity, more)
    needs = {"request": request.id, "bond": request.bond.id, "side": request.side}
    needs |= {"quantity": str(request.quantity), "price": text_of(price)}
    stage.task(said, "quote", may_refuse, **needs)


def sent_quote(stage: Stage, request: Request, price: Decimal) -> Message:
    """The Quote (35=S) that the desk was told to send."""
    quote = stage.desk_sends("a Quote (35=S) on %s" % request.id, is_kind("S", _131=request.id))
    check_quote(request, price, quote)
    return quote


def check_quote(request: Request, price: Decimal, quote: Message) -> None:
    """Fails where the quote is another than the one that the desk was told."""
    if quote.get(48) != request.bond.id:
        raise Failed("the Quote is of another bond (48): %s" % quote.bars)
    if not same_price(quote.get(request.price_tag), price):
        text = "the Quote's price (%d) is not %s: %s"
        raise Failed(text % (request.price_tag, text_of(price), quote.bars))
    if quote.get(265 - request.price_tag):
        raise Failed("the Quote has a price of the side that is not asked: %s" % quote.bars)


def quoted(stage: Stage, request: Request, price: Decimal) -> str:
    """The QuoteID (117) of a quote that the desk has sent and the venue has accepted."""
    quote = sent_quote(stage, request, price)
    name = quote.get(117)
    answer = stage.venue_sends("what became of %s" % name, is_kind("AI", _117=name))
    if answer.get(297) != "0":
        raise Failed("the venue refuses the quote: %s" % answer.bars)
    return name


def quote(stage: Stage, request: Request, price: Decimal | None = None, more: str = "") -> str:
    """The desk is told a price, quotes it, and the venue accepts."""
    price = price or stage.draw.price(request.bond)
    told_to_quote(stage, request, price, more)
    return quoted(stage, request, price)


def refused_quote(stage: Stage, request: Request, price: Decimal, more: str, reason: str) -> None:
    """A quote that the venue refuses with this QuoteRejectReason (300), unless the desk does so first."""
    told_to_quote(stage, request, price, more, may_refuse=True)
    fits = is_kind("S", _131=request.id)
    quote = stage.desk_sends_or_refuses("a Quote (35=S) on %s" % request.id, fits)
    if quote is not None:
        check_quote(request, price, quote)
        name = quote.get(117)
        stage.venue_sends("that it refuses %s" % name, is_reply("117", name, "5", reason))


def other_quotes(stage: Stage, dealer: PlayedFirm, request: Request, price: Decimal) -> None:
    """A dealer that this program plays quotes on the same request."""
    del stage
    own = dealer.wait("the request", is_kind("R", _48=request.bond.id))
    name = "other-%s" % request.own_id
    fields = [(131, own.get(131)), (117, name), (48, request.bond.id), (22, "4")]
    dealer.send("S", [*fields, (request.price_tag, text_of(price))])
    dealer.wait("that its quote is accepted", is_reply("117", name, "0"))


def offered(stage: Stage, request: Request, dealer: str, place: int = 0) -> Message:
    """The newest quote of a dealer, as the investor is shown it."""
    investor = stage.investors[0]
    return investor.wait(
        "the quote of %s" % dealer,
        lambda one: one.kind == "S" and one.get(131) == request.own_id and one.get(448) == dealer,
        place,
    )


def hit(stage: Stage, request: Request, offer: Message) -> None:
    """The investor takes an offer; it is awarded."""
    name = stage.draw.name("hit")
    stage.investors[0].send("AJ", [(693, name), (117, offer.get(117)), (694, "1")])
    stage.investors[0].wait("that its hit is awarded", is_reply("693", name, "0"))
    stage.closed(request.own_id)


def passed(stage: Stage, request: Request) -> None:
    """The investor passes, and the desk is told."""
    stage.investors[0].send(
        "AJ", [(693, stage.draw.name("pass")), (131, request.own_id), (694, "6")]
    )
    stage.closed(request.own_id)
    notice(stage, request, "6")


def notice(stage: Stage, request: Request, end: str, seconds: float = 10.0) -> Message:
    """The closing notice (35=AJ) with this QuoteRespType (694)."""
    what = "the notice of %s (%s)" % (request.id, ENDS[end])
    return stage.venue_sends(what, is_kind("AJ", _131=request.id, _694=end), seconds)


def worse(request: Request, price: Decimal, steps: int = 1) -> Decimal:
    """A price on the grid that is worse for the investor."""
    step = Decimal(steps) / request.bond.grid
    return price + step if request.side == "1" else price - step
