"""Says what happened to the orders of a day: each event of a request and of a quote, and each
message of a firm that made no such event.
"""

from collections.abc import Iterable, Iterator
from dataclasses import dataclass, replace
from decimal import Decimal

from .exchanges import Exchange
from .facts import Facts, QuoteFact, RequestFact, TradeFact
from .frame import Fields, fields_of, text_of
from .lines import Came
from .log import Log
from .not_taken import is_of_an_order
from .prices import number_of, quantity_of
from .reading import moment_of, price_text_of
from .records import Day, Outgoing
from .refusals import KINDS, Refusal, kind_of

NEW, REPLACED, CANCELLED = "new", "replaced", "cancelled"
ENDED, REFUSED, EXPIRED, FILLED = "ended", "refused", "expired", "filled"
BEFORE_ALL = -1  # as an entry: of what no entry tells


@dataclass(frozen=True)
class Order:
    """A request or a quote, as far as its messages say it."""

    firm: str
    trader: str
    kind: str  # request, quote, cancel, decline, hit, pass or message
    name: str  # the firm's own, which it uses once a day
    moment: str  # at which it came
    bond: str = ""
    buys: bool | None = None
    quantity: int | None = None
    price: Decimal | None = None
    until: str = ""


@dataclass(frozen=True)
class OrderEvent:
    """Something that happened to an order."""

    entry: int | None  # None of what no entry tells
    moment: str
    order: Order
    what: str
    trade: TradeFact | None = None
    refusal: Refusal | None = None
    message: str = ""  # 34 of the firm's message that was refused
    sequence: int = 0

    @property
    def is_open(self) -> bool:
        return self.what in (NEW, REPLACED)


def order_of_request(fact: RequestFact) -> Order:
    return Order(
        fact.investor,
        fact.trader,
        "request",
        fact.name,
        fact.moment,
        fact.bond,
        fact.buys,
        fact.quantity,
        None,
        fact.deadline,
    )


def order_of_quote(fact: QuoteFact) -> Order:
    request = fact.request
    return Order(
        fact.dealer,
        fact.trader,
        "quote",
        fact.name,
        fact.moment,
        request.bond,
        not request.buys,
        request.quantity,
        fact.price,
        fact.until or request.deadline,
    )


def order_of_message(came: Came, moment: str, request: RequestFact | None) -> Order:
    """What a message says of an order that did not come to be, or that it does not name."""
    fields, kind = came.fields, kind_of(came)
    names = {"request": 131, "decline": 131, "hit": 693, "pass": 693}
    name = text_of(fields, names.get(kind, 117)) or "34-" + text_of(fields, 34)
    until = moment_of(text_of(fields, 126 if kind == "request" else 62))
    order = Order(
        came.firm,
        text_of(fields, 50),
        kind,
        name,
        moment,
        text_of(fields, 48),
        side_said(fields, kind),
        quantity_of(text_of(fields, 38)),
        number_of(price_text_of(fields)) if kind == "quote" else None,
        until,
    )
    return order if request is None else with_request(order, request)


def side_said(fields: Fields, kind: str) -> bool | None:
    """Whether the firm buys: by 54 of a request, and by which price a quote has."""
    if kind == "quote":
        bid, offer = text_of(fields, 132), text_of(fields, 133)
        return None if bool(bid) == bool(offer) else bool(bid)
    return {"1": True, "2": False}.get(text_of(fields, 54))


def with_request(order: Order, request: RequestFact) -> Order:
    """An order with what the request says that its message names."""
    own = request.buys if order.firm == request.investor else not request.buys
    return replace(
        order,
        bond=request.bond,
        buys=own,
        quantity=request.quantity,
        until=order.until or request.deadline,
    )


# ------------------------------------------------------------ by the facts of a day


def fact_events(facts: Facts) -> Iterator[OrderEvent]:
    """All events of requests and quotes that were accepted."""
    yield from request_events(facts)
    yield from quote_events(facts)


def request_events(facts: Facts) -> Iterator[OrderEvent]:
    trades = {trade.request.number: trade for trade in facts.trades}
    ends = {"awarded": FILLED, "passed": CANCELLED, "expired": EXPIRED}
    for fact in facts.requests:
        order = order_of_request(fact)
        yield OrderEvent(fact.entry, fact.moment, order, NEW)
        if fact.end in ends:
            trade = trades.get(fact.number) if fact.end == "awarded" else None
            yield OrderEvent(fact.end_entry, fact.end_moment, order, ends[fact.end], trade)


def quote_events(facts: Facts) -> Iterator[OrderEvent]:
    trades = {trade.quote.entry: trade for trade in facts.trades}
    replaced = {(one.dealer, one.end_entry) for one in facts.quotes if one.end == "replaced"}
    for fact in facts.quotes:
        order = order_of_quote(fact)
        is_other = (fact.dealer, fact.entry) in replaced
        yield OrderEvent(fact.entry, fact.moment, order, REPLACED if is_other else NEW)
        if fact.lapsed:
            yield OrderEvent(None, fact.until, order, EXPIRED)
        elif fact.end == "won":
            trade = trades.get(fact.entry)
            yield OrderEvent(fact.end_entry, fact.end_moment, order, FILLED, trade)
        elif fact.end not in ("replaced", "standing"):
            how = CANCELLED if fact.end == "withdrawn" else ENDED
            yield OrderEvent(fact.end_entry, fact.end_moment, order, how)


# ------------------------------------------------------------ by the messages


class OtherEvents:
    """Collects the messages of firms that make no event of an accepted request or quote."""

    def __init__(self) -> None:
        self.refused: list[OrderEvent] = []
        self._accepted: list[OrderEvent] = []  # of which some are events of facts, too
        self._made: set[int] = set()  # entries that the gateway made for a firm that is gone

    def take(
        self, exchange: Exchange, refusal: Refusal | None, request: RequestFact | None
    ) -> None:
        came = exchange.came
        if came is None:
            return
        if exchange.entry.number is None and exchange.entry.connection is None:
            self._made.add(exchange.place)
        order = order_of_message(came, exchange.moment, request)
        event = OrderEvent(exchange.place, exchange.moment, order, CANCELLED)
        if refusal is None:
            self._accepted.append(event)
            return
        number = text_of(came.fields, 34)
        self.refused.append(replace(event, what=REFUSED, refusal=refusal, message=number))

    def rest(self, events: Iterable[OrderEvent]) -> Iterator[OrderEvent]:
        """Of the messages that were accepted, those that none of these events is of."""
        told = {(event.entry, event.order.firm) for event in events}
        for event in self._accepted:
            if (event.entry, event.order.firm) not in told:
                yield event

    def by_the_venue(self, event: OrderEvent) -> OrderEvent:
        """A withdrawal that the gateway made itself is the venue's."""
        is_made = event.what == CANCELLED and event.entry in self._made
        return replace(event, what=ENDED) if is_made else event


def not_taken_events(log: Log, day: Day) -> Iterator[OrderEvent]:
    """The messages that have no entry, since the gateway or the session refused them."""
    for firm in day.firms:
        for row in log.own_messages(firm.name) if log.has_epochs else ():
            event = None if row.copy else not_taken_event(firm.name, row)
            if event is not None:
                yield event


def not_taken_event(firm: str, row: Outgoing) -> OrderEvent | None:
    """What a Reject or a BusinessMessageReject says of the message that it refuses."""
    fields = fields_of(row.bytes)
    kind = text_of(fields, 372)
    if not is_of_an_order(row):
        return None
    moment, number = row.moment or "", text_of(fields, 45)
    what = KINDS.get(kind, "message")
    order = Order(firm, "", what, text_of(fields, 379) or "34-" + number, moment)
    code = "380=" + text_of(fields, 380) if row.kind == "j" else "373=" + text_of(fields, 373)
    refusal = Refusal(what, code, text_of(fields, 58))
    return OrderEvent(None, moment, order, REFUSED, refusal=refusal, message=number)


def in_order(events: Iterable[OrderEvent]) -> list[OrderEvent]:
    """The events with their sequence numbers. Of one entry those of its own firm's request stand
    first; what no entry tells stands before the first entry after it.
    """

    def key(event: OrderEvent) -> tuple[str, int, bool]:
        entry = BEFORE_ALL if event.entry is None else event.entry
        return event.moment, entry, event.order.kind == "quote"

    ordered = sorted(events, key=key)
    return [replace(event, sequence=number) for number, event in enumerate(ordered, 1)]
