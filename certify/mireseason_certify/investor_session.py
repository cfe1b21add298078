"""The act by which an investor's desk shows that its session is in order: it hits the quote on a request of its own."""

from __future__ import annotations

from .frames import Message
from .investor_acts import ask, dealer_quotes, hit, sends_quote, sent_hit, told_to_hit
from .session_cases import Trade
from .stage import Failed, Request, Stage, is_kind, is_reply


class HitAct:
    """A request that the desk makes first, a dealer's quote on it, and the desk's hit."""

    def __init__(self, stage: Stage) -> None:
        self._request = ask(stage)

    def prepare(self, stage: Stage) -> None:
        """Where the desk has no line, the quote waits for it."""
        price = stage.draw.price(self._request.bond)
        sends_quote(stage, stage.dealers[0], self._request, price)

    def tell(self, stage: Stage) -> None:
        offer = stage.venue_sends("the quote", is_kind("S", _131=self._request.id))
        told_to_hit(stage, self._request, offer)

    def fits(self, message: Message) -> bool:
        return is_kind("AJ", _694="1")(message)

    def is_taken(self, stage: Stage) -> None:
        name = stage.desk_sends("its hit", self.fits).get(693)
        answer = stage.venue_sends("what became of the hit", is_kind("AI", _693=name))
        if answer.get(297) != "0":
            raise Failed("the venue refuses the hit: %s" % answer.bars)

    @staticmethod
    def trades(stage: Stage) -> Trade:
        request = ask(stage)
        offer = dealer_quotes(stage, stage.dealers[0], request, stage.draw.price(request.bond))
        hit(stage, request, offer)
        return trade_of(request, offer)

    @staticmethod
    def trades_away(stage: Stage) -> Trade:
        """Its line is cut between its hit and the answer."""
        request = ask(stage)
        dealer = stage.dealers[0]
        offer = dealer_quotes(stage, dealer, request, stage.draw.price(request.bond))
        place = dealer.count()
        stage.relay.hold()
        told_to_hit(stage, request, offer)
        sent_hit(stage, offer)
        dealer.wait("that it has won", is_kind("AJ", _694="1"), place)
        stage.telling.done()
        stage.relay.refuse(True)
        stage.relay.cut()
        stage.relay.let_go()
        return trade_of(request, offer)


def trade_of(request: Request, offer: Message) -> Trade:
    told = is_reply("117", offer.get(117), "0")
    return Trade(request.bond, request.change(is_dealer=False), told)
