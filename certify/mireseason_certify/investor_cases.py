"""What an investor's desk has to be able to do in the market."""

from __future__ import annotations

from .case import Cases
from .dealer_acts import worse
from .frames import Message
from .investor_acts import (
    ask,
    check_request,
    dealer_quotes,
    dealer_withdraws,
    hit,
    passes,
    refused_hit,
    sent_hit,
    sent_request,
    told_to_ask,
    told_to_hit,
)
from .own_venue import Bond
from .stage import Request, Stage, is_kind, is_reply

case = Cases()
ASKS = ("ask-to-buy", "ask-to-sell")
HITS = ("hit-only",)


@case("Asks to buy")
def ask_to_buy(stage: Stage) -> None:
    passes(stage, ask(stage, side="1"))


@case("Asks to sell")
def ask_to_sell(stage: Stage) -> None:
    passes(stage, ask(stage, side="2"))


@case("Asks three dealers at once", needs=ASKS)
def ask_three(stage: Stage) -> None:
    passes(stage, ask(stage, stage.dealers))


@case("Accepts that a request for a bond that the venue does not have is refused", needs=ASKS)
def unknown_bond(stage: Stage) -> None:
    bond = Bond("XSNONE999999", 256)
    _refused(stage, bond, stage.draw.quantity(), "1", "a bond that the venue does not have")


@case("Accepts that a request above its quantity is refused", needs=ASKS)
def too_much(stage: Stage) -> None:
    most = stage.venue.cast.quantity
    _refused(stage, stage.draw.bond(), most + 100_000, "3", "more than your quantity")


def _refused(stage: Stage, bond: Bond, quantity: int, reason: str, why: str) -> None:
    names = [stage.dealers[0].who.name]
    told_to_ask(stage, bond, "1", quantity, names, may_refuse=True)
    fits = is_kind("R", _48=bond.id)
    request = stage.desk_sends_or_refuses("a QuoteRequest of %s" % bond.id, fits)
    if request is not None:
        check_request(request, "1", quantity, names)
        own = request.get(131)
        what = "that it is refused: it is of %s" % why
        stage.venue_sends(what, is_kind("AG", _131=own, _658=reason))
    stage.goes_on()
    passes(stage, ask(stage))


@case("Books a trade when it has hit the only quote", needs=ASKS)
def hit_only(stage: Stage) -> None:
    request = ask(stage)
    offer = dealer_quotes(stage, stage.dealers[0], request, stage.draw.price(request.bond))
    hit(stage, request, offer)
    stage.holds(request.bond, request.change(is_dealer=False))


@case(
    "Hits the one of three quotes that it is told to hit, on each of two requests",
    needs=("ask-three", "hit-only"),
)
def hit_one_of_three(stage: Stage) -> None:
    # Whoever goes by one place or one price, whichever it is, hits another quote on one of the two. They have one side: where
    # sides differ, the lowest price is the best of one and the worst of the other.
    side, each = stage.draw.side(), range(len(stage.dealers))
    places, ranks = stage.draw.shuffled(each), stage.draw.shuffled(each)
    for place, rank in list(zip(places, ranks))[:2]:
        _hit_one(stage, side, place, rank)


def _hit_one(stage: Stage, side: str, place: int, rank: int) -> None:
    """What is to be hit is shown at this place, and its price is the best (0), or worse by so many steps."""
    request = ask(stage, stage.dealers, side)
    best = stage.draw.price(request.bond)
    steps = stage.draw.shuffled([one for one in range(len(stage.dealers)) if one != rank])
    steps.insert(place, rank)
    offers = [
        dealer_quotes(stage, dealer, request, worse(request, best, step))
        for dealer, step in zip(stage.dealers, steps)
    ]
    hit(stage, request, offers[place])
    stage.holds(request.bond, request.change(is_dealer=False))


@case("Hits the quote that replaced another one", needs=HITS)
def hit_replaced(stage: Stage) -> None:
    request = ask(stage)
    price = stage.draw.price(request.bond)
    dealer_quotes(stage, stage.dealers[0], request, price)
    stage.goes_on()
    second = dealer_quotes(stage, stage.dealers[0], request, worse(request, price))
    text = "Hit the quote that stands on your request %s." % request.id
    stage.task(text, "hit what stands", request=request.id, bond=request.bond.id)
    name = sent_hit(stage, second)
    stage.venue_sends("that it is awarded", is_reply("693", name, "0"))
    stage.holds(request.bond, request.change(is_dealer=False))


@case("Accepts that a hit of a quote that is gone is refused", needs=HITS)
def hit_gone(stage: Stage) -> None:
    request = ask(stage)
    offer = dealer_quotes(stage, stage.dealers[0], request, stage.draw.price(request.bond))
    dealer_withdraws(stage, stage.dealers[0])
    stage.venue_sends("that it is gone", is_reply("117", offer.get(117), "17"))
    refused_hit(stage, request, offer, ", though it is gone")
    stage.holds(request.bond, 0)
    passes(stage, request)


@case("Accepts that a hit is refused if a withdrawal comes first", needs=("hit-gone",))
def hit_in_the_race(stage: Stage) -> None:
    request = ask(stage)
    offer = dealer_quotes(stage, stage.dealers[0], request, stage.draw.price(request.bond))
    stage.relay.hold()
    dealer_withdraws(stage, stage.dealers[0])
    told_to_hit(stage, request, offer)
    name = sent_hit(stage, offer)
    stage.relay.let_go()
    stage.venue_sends("that the hit is refused", is_reply("693", name, "5"))
    stage.holds(request.bond, 0)
    passes(stage, request)


@case("Hits the quote that stands once the other one is gone, twice", needs=("hit-one-of-three",))
def hit_the_other(stage: Stage) -> None:
    # Whoever goes by the order in which quotes were shown hits what is gone, the first time or the second; what goes was the
    # better price, on each.
    for place in stage.draw.shuffled(range(2)):
        _hit_the_other(stage, place)


def _hit_the_other(stage: Stage, place: int) -> None:
    """What stands was shown at this place, and is worse by two steps."""
    dealers = stage.dealers[:2]
    request = ask(stage, dealers)
    price = stage.draw.price(request.bond)
    offers = [
        dealer_quotes(stage, dealer, request, worse(request, price, 2 if at == place else 0))
        for at, dealer in enumerate(dealers)
    ]
    dealer_withdraws(stage, dealers[1 - place])
    text = "Hit the quote that stands on your request %s." % request.id
    stage.task(text, "hit what stands", request=request.id, bond=request.bond.id)
    name = sent_hit(stage, offers[place])
    stage.venue_sends("that it is awarded", is_reply("693", name, "0"))
    stage.holds(request.bond, request.change(is_dealer=False))


@case("Books no trade when it passes", needs=ASKS)
def passed(stage: Stage) -> None:
    request = ask(stage)
    dealer_quotes(stage, stage.dealers[0], request, stage.draw.price(request.bond))
    passes(stage, request)
    stage.holds(request.bond, 0)


@case("Books no trade when its request expires", needs=ASKS)
def expired(stage: Stage) -> None:
    request = ask(stage, seconds=stage.soon)
    dealer_quotes(stage, stage.dealers[0], request, stage.draw.price(request.bond))
    stage.task("Let your request %s expire." % request.id, "nothing", request=request.id)
    stage.venue_sends("that it has expired", is_reply("131", request.id, "7"), stage.soon + 10)
    stage.holds(request.bond, 0)


@case("Accepts that a hit on an expired request is refused", needs=("hit-gone", "expired"))
def hit_late(stage: Stage) -> None:
    request = ask(stage, seconds=stage.soon)
    offer = dealer_quotes(stage, stage.dealers[0], request, stage.draw.price(request.bond))
    stage.task("Let your request %s expire." % request.id, "nothing", request=request.id)
    stage.venue_sends("that it has expired", is_reply("131", request.id, "7"), stage.soon + 10)
    refused_hit(stage, request, offer, ", though it has expired")
    stage.holds(request.bond, 0)


@case("Is told that a dealer declines, and passes", needs=ASKS)
def declined(stage: Stage) -> None:
    request = ask(stage)
    dealer = stage.dealers[0]
    own = dealer.wait("the request", is_kind("R", _48=request.bond.id))
    dealer.send("AG", [(131, own.get(131)), (658, "10")])
    stage.venue_sends("that it declines", is_reply("131", request.id, "11"))
    passes(stage, request)


@case("Has two requests at once, and hits each by its own quote", needs=HITS)
def two_at_once(stage: Stage) -> None:
    requests = [ask(stage), ask(stage)]
    offers = [_quoted(stage, request) for request in requests]
    for request, offer in zip(reversed(requests), reversed(offers)):
        hit(stage, request, offer)
    for request in requests:
        stage.holds(request.bond, request.change(is_dealer=False))


@case("Has ten requests at once, and passes each", needs=ASKS)
def ten_at_once(stage: Stage) -> None:
    requests = [ask(stage) for _ in range(10)]
    for request in stage.draw.shuffled(requests):
        passes(stage, request)


def _quoted(stage: Stage, request: Request) -> Message:
    """The first dealer's quote."""
    return dealer_quotes(stage, stage.dealers[0], request, stage.draw.price(request.bond))


@case("Is told of a halt, and asks once it is over", needs=ASKS)
def halted(stage: Stage) -> None:
    bond, quantity = stage.draw.bond(), stage.draw.quantity()
    names = [stage.dealers[0].who.name]
    stage.venue.order("halt", "--because", "a conformance case")
    try:
        told_to_ask(stage, bond, "1", quantity, names)
        own = sent_request(stage, bond, "1", quantity, names).get(131)
        stage.venue_sends("that it is not taken", is_kind("j", _379=own))
    finally:
        stage.venue.order("resume")
    stage.goes_on()
    passes(stage, ask(stage))
