"""What a dealer's desk has to be able to do in the market."""

from __future__ import annotations

from .case import Cases
from .dealer_acts import (
    ask,
    hit,
    notice,
    offered,
    other_quotes,
    passed,
    quote,
    quoted,
    refused_quote,
    sent_quote,
    told_to_quote,
    worse,
)
from .stage import Failed, Stage, is_kind, is_reply

case = Cases()
QUOTES = ("quote-offer", "quote-bid")
WINS = ("won",)
WITHDRAWS = ("withdrawn",)
SHORT = 3.0  # seconds to a deadline that passes before the desk does anything
FULL = 5_000_000  # a quantity of which the desk's exposure holds two


@case("Quotes an offer to an investor that buys")
def quote_offer(stage: Stage) -> None:
    request = ask(stage, side="1")
    quote(stage, request)
    passed(stage, request)


@case("Quotes a bid to an investor that sells")
def quote_bid(stage: Stage) -> None:
    request = ask(stage, side="2")
    quote(stage, request)
    passed(stage, request)


@case("Accepts that a quote off the grid is refused, and quotes a price on it", needs=QUOTES)
def off_grid(stage: Stage) -> None:
    request = ask(stage)
    price = stage.draw.off_grid(request.bond)
    refused_quote(stage, request, price, ", which is off the bond's grid", "8")
    stage.goes_on()
    quote(stage, request)
    stage.goes_on()
    passed(stage, request)


@case("Accepts that a quote outside the bond's band is refused, and quotes its end", needs=QUOTES)
def outside_band(stage: Stage) -> None:
    request = ask(stage)
    low, high = request.bond.low, request.bond.high
    price = stage.draw.outside(request.bond)
    refused_quote(stage, request, price, ", which is outside the bond's band", "8")
    stage.goes_on()
    quote(stage, request, low if price < low else high)
    stage.goes_on()
    passed(stage, request)


@case("Accepts that a quote after the deadline is refused", needs=QUOTES)
def late(stage: Stage) -> None:
    request = ask(stage, seconds=SHORT)
    notice(stage, request, "3", SHORT + 10)
    stage.closed(request.own_id)
    price = stage.draw.price(request.bond)
    refused_quote(stage, request, price, ", though it has expired", "4")
    stage.holds(request.bond, 0)


@case("Accepts that a quote beyond its exposure is refused", needs=QUOTES)
def over_exposure(stage: Stage) -> None:
    requests = [ask(stage, quantity=FULL) for _ in range(3)]
    for request in requests[:2]:
        quote(stage, request)
    price = stage.draw.price(requests[2].bond)
    refused_quote(stage, requests[2], price, ", which is more than your exposure", "3")
    for request in requests:
        passed(stage, request)


@case("Trades at the price of its last quote after it replaced one", needs=WINS)
def replaced(stage: Stage) -> None:
    request = ask(stage)
    first = stage.draw.price(request.bond)
    name = quote(stage, request, first)
    offered(stage, request, stage.desk)
    place = stage.investors[0].count()
    stage.goes_on()
    second = quote(stage, request, worse(request, first, 3), ", in place of your first quote")
    if second == name:
        raise Failed("both quotes have one QuoteID (117), %s" % name)
    hit(stage, request, offered(stage, request, stage.desk, place))
    won = notice(stage, request, "1")
    if won.get(117) != second:
        raise Failed("the notice names %s, not the last quote" % won.get(117))
    stage.holds(request.bond, request.change(is_dealer=True))


@case("Withdraws one quote", needs=QUOTES)
def withdrawn(stage: Stage) -> None:
    request = ask(stage)
    name = quote(stage, request)
    stage.task("Withdraw your quote on %s." % request.id, "withdraw", quote=name)
    stage.desk_sends("a QuoteCancel (35=Z) of %s" % name, is_kind("Z", _298="5", _117=name))
    stage.venue_sends("that it is withdrawn", is_reply("117", name, "17"))
    passed(stage, request)


@case("Withdraws one of two quotes, and the other one stands, twice", needs=WITHDRAWS)
def withdrawn_one_of_two(stage: Stage) -> None:
    # Whoever goes by the order of its quotes withdraws another one, the first time or the second.
    for place in stage.draw.shuffled(range(2)):
        _withdraw_one(stage, place)


def _withdraw_one(stage: Stage, place: int) -> None:
    """Of two quotes this one goes."""
    requests = [ask(stage), ask(stage)]
    names = [quote(stage, request) for request in requests]
    stage.goes_on()
    own, name = requests[place].id, names[place]
    stage.task("Withdraw your quote on %s alone." % own, "withdraw", quote=name)
    cancel = stage.desk_sends("a QuoteCancel (35=Z)", is_kind("Z"))
    if cancel.get(298) != "5" or cancel.get(117) != name:
        raise Failed("the cancel is not of %s alone: %s" % (name, cancel.bars))
    stage.venue_sends("that it is withdrawn", is_reply("117", name, "17"))
    for request in requests:
        passed(stage, request)


@case("Withdraws all quotes at once", needs=("nothing-to-cancel", *QUOTES))
def cancelled_all(stage: Stage) -> None:
    requests = [ask(stage) for _ in range(3)]
    names = [quote(stage, request) for request in requests]
    stage.task("Cancel all quotes with one message.", "cancel all")
    stage.desk_sends("a QuoteCancel of all (298=4)", is_kind("Z", _298="4"))
    for name in names:
        stage.venue_sends("that %s is withdrawn" % name, is_reply("117", name, "17"))
    for request in requests:
        passed(stage, request)


@case("Cancels all without having a quote, and accepts the answer")
def nothing_to_cancel(stage: Stage) -> None:
    stage.task("Cancel all quotes, though you have none.", "cancel all", may_refuse=True)
    sent = stage.desk_sends_or_refuses("a QuoteCancel of all (298=4)", is_kind("Z", _298="4"))
    if sent is not None:
        stage.venue_sends("that nothing is to be cancelled", is_kind("AI", _297="9"))


@case("Declines a request")
def declined(stage: Stage) -> None:
    request = ask(stage)
    stage.task("Decline the request %s." % request.id, "decline", request=request.id)
    stage.desk_sends("a QuoteRequestReject (35=AG)", is_kind("AG", _131=request.id, _658="10"))
    stage.venue_sends("that it is declined", is_reply("131", request.id, "11"))
    passed(stage, request)


@case("Declines a request after it withdrew its quote", needs=("declined", "withdrawn"))
def declined_behind_a_quote(stage: Stage) -> None:
    request = ask(stage)
    name = quote(stage, request)
    stage.task("Withdraw your quote on %s." % request.id, "withdraw", quote=name)
    stage.venue_sends("that it is withdrawn", is_reply("117", name, "17"), stage.patience)
    stage.task("Decline the request %s." % request.id, "decline", request=request.id)
    stage.desk_sends("a QuoteRequestReject (35=AG)", is_kind("AG", _131=request.id, _658="10"))
    stage.venue_sends("that it is declined", is_reply("131", request.id, "11"))
    passed(stage, request)


@case("Books a trade when it has won", needs=QUOTES)
def won(stage: Stage) -> None:
    request = ask(stage)
    quote(stage, request)
    hit(stage, request, offered(stage, request, stage.desk))
    notice(stage, request, "1")
    stage.holds(request.bond, request.change(is_dealer=True))


@case("Books no trade when it is the cover", needs=QUOTES)
def cover(stage: Stage) -> None:
    _lost(stage, "4", steps=1)


@case("Books no trade when it is done away", needs=QUOTES)
def done_away(stage: Stage) -> None:
    _lost(stage, "5", steps=2)


def _lost(stage: Stage, end: str, steps: int) -> None:
    """Two other dealers quote, and one of them wins; the desk is the cover by one step, or is not by two."""
    request = ask(stage, others=stage.dealers[:2])
    best = stage.draw.price(request.bond)
    quote(stage, request, worse(request, best, 4 if steps > 1 else 1))
    other_quotes(stage, stage.dealers[0], request, best)
    other_quotes(stage, stage.dealers[1], request, worse(request, best, 2))
    hit(stage, request, offered(stage, request, stage.dealers[0].who.name))
    notice(stage, request, end)
    stage.holds(request.bond, 0)


@case("Books no trade when the investor passes", needs=QUOTES)
def passed_by(stage: Stage) -> None:
    request = ask(stage)
    quote(stage, request)
    passed(stage, request)
    stage.holds(request.bond, 0)


@case("Books no trade when the request expires", needs=QUOTES)
def expired(stage: Stage) -> None:
    request = ask(stage, seconds=stage.soon)
    quote(stage, request)
    notice(stage, request, "3", stage.soon + 10)
    stage.closed(request.own_id)
    stage.holds(request.bond, 0)


@case("Accepts a request that it does not answer, and its end")
def not_answered(stage: Stage) -> None:
    request = ask(stage, others=stage.dealers[:1])
    stage.task("Do nothing with the request %s." % request.id, "nothing", request=request.id)
    other_quotes(stage, stage.dealers[0], request, stage.draw.price(request.bond))
    hit(stage, request, offered(stage, request, stage.dealers[0].who.name))
    notice(stage, request, "5")
    stage.sends_nothing("a message on that request", lambda one: one.get(131) == request.id)
    stage.holds(request.bond, 0)


@case("Books the trade when its withdrawal comes too late", needs=("won", "withdrawn"))
def hit_in_the_race(stage: Stage) -> None:
    request = ask(stage)
    name = quote(stage, request)
    offer = offered(stage, request, stage.desk)
    stage.relay.hold()
    hit(stage, request, offer)
    stage.task("Withdraw your quote on %s." % request.id, "withdraw", quote=name)
    stage.desk_sends("a QuoteCancel (35=Z) of %s" % name, is_kind("Z", _298="5", _117=name))
    stage.relay.let_go()
    stage.venue_sends("that it is too late", is_reply("117", name, "5", "4"))
    notice(stage, request, "1")
    stage.holds(request.bond, request.change(is_dealer=True))


@case("Quotes two requests at once, each with its own price", needs=QUOTES)
def two_at_once(stage: Stage) -> None:
    _at_once(stage, 2)


@case("Quotes ten requests at once, each with its own price", needs=("two-at-once",))
def ten_at_once(stage: Stage) -> None:
    _at_once(stage, 10)


def _at_once(stage: Stage, count: int) -> None:
    requests = [ask(stage) for _ in range(count)]
    prices = [stage.draw.price(request.bond) for request in requests]
    for request, price in zip(requests, prices):
        told_to_quote(stage, request, price)
        sent_quote(stage, request, price)
    for request, price in zip(requests, prices):
        quoted(stage, request, price)
    for request in requests:
        passed(stage, request)


@case("Is told of a halt, and quotes once it is over", needs=QUOTES)
def halted(stage: Stage) -> None:
    request = ask(stage)
    price = stage.draw.price(request.bond)
    stage.venue.order("halt", "--because", "a conformance case")
    try:
        told_to_quote(stage, request, price, ", though the market is halted")
        name = sent_quote(stage, request, price).get(117)
        stage.venue_sends("that it is not taken", is_kind("j", _379=name))
    finally:
        stage.venue.order("resume")
    stage.goes_on()
    quote(stage, request)
    stage.goes_on()
    passed(stage, request)
