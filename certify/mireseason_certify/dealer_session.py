"""The act by which a dealer's desk shows that its session is in order: it quotes a request."""

from __future__ import annotations

from .dealer_acts import ask, asked, hit, notice, offered, quote, shown, told_to_quote
from .frames import Message
from .own_venue import Bond
from .session_cases import Trade
from .stage import Failed, Request, Stage, is_kind


class QuoteAct:
    """A request of an investor, and the desk's quote on it."""

    def __init__(self, stage: Stage) -> None:
        del stage
        self._asked: tuple[str, Bond, str, int] | None = None

    def prepare(self, stage: Stage) -> None:
        """Where the desk has no line, the request waits for it."""
        self._asked = asked(stage)

    def tell(self, stage: Stage) -> None:
        assert self._asked
        request = shown(stage, *self._asked)
        told_to_quote(stage, request, stage.draw.price(request.bond))

    def fits(self, message: Message) -> bool:
        return self._asked is not None and is_kind("S", _48=self._asked[1].id)(message)

    def is_taken(self, stage: Stage) -> None:
        name = stage.desk_sends("its quote", self.fits).get(117)
        answer = stage.venue_sends("what became of %s" % name, is_kind("AI", _117=name))
        if answer.get(297) != "0":
            raise Failed("the venue refuses the quote: %s" % answer.bars)

    @staticmethod
    def trades(stage: Stage) -> Trade:
        request = ask(stage)
        quote(stage, request)
        hit(stage, request, offered(stage, request, stage.desk))
        notice(stage, request, "1")
        return trade_of(request)

    @staticmethod
    def trades_away(stage: Stage) -> Trade:
        """Its quote stands while it is away, and is hit."""
        request = ask(stage)
        quote(stage, request)
        offer = offered(stage, request, stage.desk)
        stage.relay.refuse(True)
        stage.relay.cut()
        hit(stage, request, offer)
        return trade_of(request)


def trade_of(request: Request) -> Trade:
    told = is_kind("AJ", _131=request.id, _694="1")
    return Trade(request.bond, request.change(is_dealer=True), told)
