"""Makes the facts of a day out of its exchanges, in their order."""

from .exchanges import Exchange, Told
from .facts import (
    NOTICES,
    AskedFact,
    Facts,
    QuoteFact,
    RequestFact,
    ResponseFact,
    Side,
    TradeFact,
    price_in,
    quantity_in,
)
from .frame import text_of
from .lines import Came
from .names import Names, is_hit, opens_request
from .reading import moment_of, price_text_of
from .records import Firm
from .requests import dealers_of
from .wire_texts import NOTHING, WireText, WireTexts

ENDS = {"7": "expired", "11": "passed", "0": "awarded"}  # 297, to the investor


class Collector:
    """Takes the exchanges of a day; `facts` has what is known so far."""

    def __init__(self, date: str, wires: dict[str, WireTexts]) -> None:
        """wires has what the gateway added on the wire, by firm."""
        self.facts = Facts()
        self._date, self._wires, self._names = date, wires, Names()
        self._asked: dict[tuple[int, str], AskedFact] = {}  # request and dealer
        self._live: dict[tuple[int, str], QuoteFact] = {}
        self._shown: dict[tuple[str, str], QuoteFact] = {}  # investor and Q
        self._counts: dict[tuple[str, str], int] = {}  # trades of an investor and a dealer

    def about(self, told: Told) -> RequestFact | None:
        """The request that a message of the venue is about."""
        key = self._names.about(told)
        return None if key is None else self.facts.requests[key]

    def own(self, came: Came | None) -> RequestFact | None:
        """The request that a firm's own message names."""
        key = self._names.own(came)
        return None if key is None else self.facts.requests[key]

    def take(self, exchange: Exchange) -> ResponseFact | None:
        """What an entry adds; answers the response that its message is, if it is one."""
        opened = self._opened(exchange)
        for told in exchange.told:
            self._names.learn(told, None if opened is None else opened.number - 1)
        for told in exchange.told:
            request = self.about(told)
            if request is not None:
                self._take_told(exchange, request, told)
        return self._response(exchange)

    def wire(self, told: Told) -> WireText:
        """What the gateway added to a message of the venue."""
        texts = self._wires.get(told.firm.name)
        return NOTHING if texts is None else texts.of(told.number)

    # ------------------------------------------------------------ what firms are told

    def _opened(self, exchange: Exchange) -> RequestFact | None:
        came = exchange.came
        if came is None or not opens_request(exchange):
            return None
        request = request_fact(len(self.facts.requests) + 1, exchange, came)
        self.facts.requests.append(request)
        self._names.open(exchange, request.number - 1)
        return request

    def _take_told(self, exchange: Exchange, request: RequestFact, told: Told) -> None:
        key = request.number, told.firm.name
        if told.firm.is_dealer and told.kind == "R":
            self._asked[key] = AskedFact(request, told.firm.name, told.text(131))
            self.facts.asked.append(self._asked[key])
        elif told.firm.is_dealer and key in self._asked:
            self._take_dealers(exchange, self._asked[key], told)
        elif not told.firm.is_dealer and told.kind == "AI":
            self._take_investors(exchange, request, told)

    def _take_dealers(self, exchange: Exchange, asked: AskedFact, told: Told) -> None:
        key = asked.request.number, asked.dealer
        status = told.text(297)
        if told.kind == "AJ":
            self._take_notice(exchange, asked, told)
        elif status == "0" and told.text(117):
            self._take_quote(exchange, asked, told)
        elif status == "11":
            asked.decline_entry, asked.decline_moment = exchange.place, exchange.moment
        elif status == "17" and key in self._live and self._live[key].name == told.text(117):
            ended(self._live.pop(key), "withdrawn", exchange)

    def _take_quote(self, exchange: Exchange, asked: AskedFact, told: Told) -> None:
        """A quote that is accepted; one that stood is replaced."""
        came, key = exchange.came, (asked.request.number, asked.dealer)
        if came is None:
            return
        if key in self._live:
            ended(self._live.pop(key), "replaced", exchange)
        investor = asked.request.investor
        shown = [one for one in exchange.told if one.kind == "S" and one.firm.name == investor]
        quote = QuoteFact(
            asked.request,
            exchange.place,
            exchange.moment,
            asked.dealer,
            text_of(came.fields, 50),
            told.text(117),
            shown[0].text(117) if shown else "",
            shown[0].number if shown else 0,
            price_in(price_text_of(came.fields)),
            moment_of(text_of(came.fields, 62)),
        )
        self.facts.quotes.append(quote)
        self._live[key] = quote
        if quote.shown:
            self._shown[investor, quote.shown] = quote
        asked.request.quotes += 1
        asked.quotes += 1
        if asked.quote_entry is None:
            asked.quote_entry, asked.quote_moment = exchange.place, exchange.moment

    def _take_notice(self, exchange: Exchange, asked: AskedFact, told: Told) -> None:
        """How a dealer was told that a request ended."""
        asked.notice = NOTICES.get(told.text(694), told.text(694))
        asked.notice_name, asked.notice_entry = told.text(693), exchange.place

    def _take_investors(self, exchange: Exchange, request: RequestFact, told: Told) -> None:
        """What an investor is told of its request: only its end is a fact of its own."""
        status, response = told.text(297), told.text(693)
        ends = status == "7" or (bool(response) and status in ("0", "11"))
        if not ends or request.end != "open":
            return
        request.end, request.end_entry = ENDS[status], exchange.place
        request.end_moment = exchange.moment
        if status == "0":
            self._take_trade(exchange, request, told)
        for key in [(request.number, dealer) for dealer in request.dealers]:
            if key in self._live:
                ended(self._live.pop(key), self._fate(exchange, key), exchange)

    def _fate(self, exchange: Exchange, key: tuple[int, str]) -> str:
        """What the dealer of a quote is told for the entry that ends its request."""
        for told in exchange.told:
            if told.kind == "AJ" and told.firm.name == key[1]:
                return NOTICES.get(told.text(694), told.text(694))
        return "ended"

    # ------------------------------------------------------------ trades

    def _take_trade(self, exchange: Exchange, request: RequestFact, told: Told) -> None:
        """An award, as the investor and the dealer are told of it for one entry."""
        quote = self._shown.get((request.investor, told.text(117)))
        notices = {
            one.firm.name: one
            for one in exchange.told
            if one.kind == "AJ" and self._names.about(one) == request.number - 1
        }
        won = next((one for one in notices.values() if one.text(694) == "1"), None)
        if quote is None or won is None or exchange.came is None:
            return
        pair = request.investor, quote.dealer
        self._counts[pair] = self._counts.get(pair, 0) + 1
        name = "-".join((self._date, *pair, str(self._counts[pair])))
        second = self._second(request, quote, exchange.moment)
        is_best = second is None or not is_better(second, quote, request.buys)
        trade = TradeFact(
            name,
            exchange.place,
            exchange.moment,
            request,
            quote,
            self._side(told, text_of(exchange.came.fields, 50)),
            self._side(won, quote.trader),
            quote if second is None or is_best else second,
            second,
        )
        covers = [firm for firm, one in notices.items() if one.text(694) == "4"]
        trade.cover = self._live.get((request.number, covers[0])) if covers else None
        trade.cover_lapsed = trade.cover is not None and trade.cover.has_lapsed(exchange.moment)
        self.facts.trades.append(trade)

    def _side(self, told: Told, trader: str) -> Side:
        names = told.text(131), told.text(117), told.text(693)
        return Side(told.firm.name, trader, *names, told.number, self.wire(told).trade)

    def _second(self, request: RequestFact, quote: QuoteFact, moment: str) -> QuoteFact | None:
        """The best of the other quotes that could be hit; of equal ones the first."""
        keys = [(request.number, dealer) for dealer in request.dealers if dealer != quote.dealer]
        standing = [self._live[key] for key in keys if key in self._live]
        standing.sort(key=lambda one: one.entry)
        best: QuoteFact | None = None
        for other in standing:
            if not other.has_lapsed(moment) and (
                best is None or is_better(other, best, request.buys)
            ):
                best = other
        return best

    # ------------------------------------------------------------ responses

    def _response(self, exchange: Exchange) -> ResponseFact | None:
        came = exchange.came
        if came is None or text_of(came.fields, 35) != "AJ":
            return None
        answer = next(iter(exchange.answers()), None)
        fact = response_fact(exchange, came, answer)
        fact.request = self.own(came)
        if fact.kind == "hit":
            fact.quote = self._shown.get((came.firm, fact.shown))
            if fact.request is not None:
                fact.request.last_hit_entry = exchange.place
        if answer is not None and fact.answer not in ("awarded", "passed"):
            fact.reason = answer.text(58) or self.wire(answer).reason
        return fact


def is_better(one: QuoteFact, other: QuoteFact, buys: bool) -> bool:
    """Whether a price is better for the investor."""
    return one.price < other.price if buys else one.price > other.price


def ended(quote: QuoteFact, how: str, exchange: Exchange) -> None:
    quote.end, quote.end_entry, quote.end_moment = how, exchange.place, exchange.moment
    quote.lapsed = quote.has_lapsed(exchange.moment)


def request_fact(number: int, exchange: Exchange, came: Came) -> RequestFact:
    fields = came.fields
    return RequestFact(
        number,
        exchange.place,
        exchange.moment,
        came.firm,
        text_of(fields, 50),
        text_of(fields, 131),
        text_of(fields, 48),
        text_of(fields, 54) == "1",
        quantity_in(text_of(fields, 38)),
        moment_of(text_of(fields, 126)),
        dealers_of(fields),
    )


ANSWERS = {"0": "awarded", "11": "passed", "5": "refused", "9": "not found"}


def response_fact(exchange: Exchange, came: Came, answer: Told | None) -> ResponseFact:
    fields = came.fields
    if answer is None:
        words = "unanswered"
    else:
        words = "rejected" if answer.kind == "3" else ANSWERS.get(answer.text(297), "")
    return ResponseFact(
        exchange.place,
        exchange.moment,
        came.firm,
        text_of(fields, 50),
        None,
        "hit" if is_hit(came) else "pass",
        text_of(fields, 693),
        None,
        text_of(fields, 117),
        words,
    )
