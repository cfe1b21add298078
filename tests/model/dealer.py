"""The desk of one dealer: requests shown to it, its quotes, cancels and declines, and its closing notices.

A desk asks the word of an own quote by calling `ask_word(q)`, which answers 'withdrawn' or 'lifted'.
"""

from __future__ import annotations

from collections.abc import Callable, Iterator, Mapping
from dataclasses import dataclass
from typing import TYPE_CHECKING

from .desk import Desk, Duty, Reason, Trade, first, party, price_field, price_tag, terms
from .frames import moment_text
from .prices import in_band, is_price, on_grid, thirty_seconds
from .session import DEALER_TYPES, Message

if TYPE_CHECKING:
    from .configuration import Dealer
    from .desk import Ask

HIT, EXPIRED, COVER, DONE_AWAY, PASS = 1, 3, 4, 5, 6  # 694 of a closing notice
INVESTOR_ROLE = 13

# The names of the lines that refuse, each with the value of 300; of those that answer a cancel 297=9 without one.
QUOTE_REASONS = {
    "UnknownRequest": 99,
    "Declined": 99,
    "Closed": 4,
    "DeadlinePassed": 4,
    "OtherBond": 1,
    "InvalidPrice": 8,
    "OutsideBand": 8,
    "OtherQuantity": 99,
    "NotTradeable": 99,
    "DuplicateQuote": 6,
    "ValidityPassed": 99,
    "QuotesUsedUp": 3,
    "ExposureExceeded": 3,
    "Lifted": 4,
}
CANCEL_REASONS = {
    "UnknownCancelType": 99,
    "UnknownQuote": None,
    "Withdrawn": 99,
    "Closed": 4,
    "Lifted": 4,
    "NothingToCancel": None,
}
DECLINE_REASONS = {"UnknownRequest": 99, "Declined": 99, "Closed": 4, "LiveQuote": 99}


@dataclass
class Request:
    """A request that was shown to this dealer."""

    k: int  # the dealer's own number
    room: tuple[int, int] | None  # None where nothing is known of it
    ask: Ask
    declined: bool = False
    closed: int | None = None  # 694 of the closing notice


@dataclass
class Quote:
    """An accepted quote."""

    q: int
    id: bytes
    request: Request
    ticks: int
    moment: int
    trader: bytes
    ended: str | None = None  # withdrawn or replaced
    known_lifted: bool = False

    def is_live(self) -> bool:
        return self.ended is None and self.request.closed is None

    def is_droppable(self) -> bool:
        return self.is_live() and not self.known_lifted


class DealerDesk(Desk):
    types = DEALER_TYPES

    def __init__(self, date: bytes, row: Dealer, ask_word: Callable[[int], str]) -> None:
        super().__init__(date, row)
        self.ask_word = ask_word
        self.row: Dealer = row
        self.requests: list[Request] = []
        self.quotes: list[Quote] = []
        self.notices = 0

    # ------------------------------------------------------------ what the desk knows

    def request(self, name: bytes) -> Request | None:
        """The request shown under this name, R and its number."""
        return next((request for request in self.requests if name == b"R%d" % request.k), None)

    def request_in(self, room: tuple[int, int]) -> Request | None:
        return next((request for request in self.requests if request.room == room), None)

    def quote(self, name: bytes | None) -> Quote | None:
        return next((quote for quote in self.quotes if quote.id == name), None)

    def live_quote(self, request: Request) -> Quote | None:
        return next(
            (quote for quote in self.quotes if quote.request is request and quote.is_live()), None
        )

    def is_known_lifted(self, request: Request) -> bool:
        return any(quote.request is request and quote.known_lifted for quote in self.quotes)

    def exposure_without(self, request: Request) -> int:
        others = [
            quote for quote in self.quotes if quote.is_live() and quote.request is not request
        ]
        return sum(quote.request.ask.quantity for quote in others)

    def found_lifted(self, quote: Quote, ended: str) -> bool:
        """Asks the quote's word by a withdrawal; it has ended so, or is known to be lifted."""
        if self.ask_word(quote.q) == "lifted":
            quote.known_lifted = True
            return True
        quote.ended = ended
        return False

    # ------------------------------------------------------------ own messages; each answers the duties that follow

    def take_message(self, moment: int, message: Message) -> list[Duty]:
        if message[35] == b"S":
            return self.take_quote(moment, message)
        if message[35] == b"Z":
            return (
                self.take_cancel_all(moment, message)
                if message[298] == 4
                else self.take_cancel(moment, message)
            )
        return self.take_decline(moment, message)

    def take_quote(self, moment: int, message: Message) -> list[Duty]:
        request = self.request(message[131])
        refusal = first(self.quote_refusals(moment, message, request))
        answer: list[tuple[int, bytes | None]] = [(131, message[131]), (117, message[117])]
        if request is None or refusal is not None:
            self.refuse(moment, answer, refusal or "", QUOTE_REASONS)
            return []
        ticks, until = message[price_tag(request.ask.side)], message.get(62)
        quote = Quote(len(self.quotes) + 1, message[117], request, ticks, moment, message[50])
        self.quotes.append(quote)
        self.send(moment, b"AI", answer + [(297, b"0")])
        return [("Post", request.room, quote.q, ticks, until, moment)]

    def quote_refusals(
        self, moment: int, message: Message, request: Request | None
    ) -> Iterator[tuple[bool, str]]:
        yield request is None, "UnknownRequest"
        assert request is not None
        ask = request.ask
        yield request.declined, "Declined"
        yield request.closed is not None or self.is_known_lifted(request), "Closed"
        yield moment >= ask.deadline, "DeadlinePassed"
        yield message[48] != ask.bond, "OtherBond"
        yield not is_asked_price(message, ask), "InvalidPrice"
        yield not in_band(message[price_tag(ask.side)], ask.band), "OutsideBand"
        yield any(
            message.get(tag, ask.quantity) != ask.quantity for tag in (134, 135)
        ), "OtherQuantity"
        yield message.get(537, 1) != 1, "NotTradeable"
        yield self.quote(message[117]) is not None, "DuplicateQuote"
        yield 62 in message and message[62] <= moment, "ValidityPassed"
        yield len(self.quotes) >= self.row.quotes, "QuotesUsedUp"
        yield ask.quantity + self.exposure_without(request) > self.row.exposure, "ExposureExceeded"
        replaced = self.live_quote(request)
        yield replaced is not None and self.found_lifted(replaced, "replaced"), "Lifted"

    def take_cancel(self, moment: int, message: Message) -> list[Duty]:
        answer: list[tuple[int, bytes | None]] = [(117, message.get(117))]
        quote = self.quote(message.get(117))
        result = first(self.cancel_refusals(message, quote))
        if quote is not None and result is None:
            self.send(moment, b"AI", answer + [(297, b"17")])
            return [("Unpost", quote.request.room, quote.q, moment)]
        self.refuse(moment, answer, result or "", CANCEL_REASONS)
        return []

    def cancel_refusals(self, message: Message, quote: Quote | None) -> Iterator[tuple[bool, str]]:
        yield message[298] != 5, "UnknownCancelType"
        yield quote is None, "UnknownQuote"
        assert quote is not None
        yield quote.ended is not None, "Withdrawn"
        yield quote.request.closed is not None or quote.known_lifted, "Closed"
        yield self.found_lifted(quote, "withdrawn"), "Lifted"

    def take_decline(self, moment: int, message: Message) -> list[Duty]:
        request = self.request(message[131])
        refusal = first(self.decline_refusals(request))
        answer: list[tuple[int, bytes | None]] = [(131, message[131])]
        if request is None or refusal is not None:
            self.refuse(moment, answer, refusal or "", DECLINE_REASONS)
            return []
        request.declined = True
        self.send(moment, b"AI", answer + [(297, b"11")])
        return [("Decline", request.room, moment)]

    def decline_refusals(self, request: Request | None) -> Iterator[tuple[bool, str]]:
        yield request is None, "UnknownRequest"
        assert request is not None
        yield request.declined, "Declined"
        yield request.closed is not None, "Closed"
        yield self.live_quote(request) is not None, "LiveQuote"

    # ------------------------------------------------------------ the cancel of all quotes

    def take_cancel_all(self, moment: int, message: Message) -> list[Duty]:
        if not any(quote.is_droppable() for quote in self.quotes):
            self.refuse(moment, [(117, message.get(117))], "NothingToCancel", CANCEL_REASONS)
            return []
        return [("Drop", len(self.quotes), moment)]

    def drop(self, last: int, moment: int) -> list[Duty]:
        """Drops the first droppable quote up to number `last`, and goes on where another is left."""
        quotes = [quote for quote in self.quotes if quote.is_droppable() and quote.q <= last]
        if not quotes:
            return []
        quote = quotes[0]
        duties: list[Duty] = []
        if self.found_lifted(quote, "withdrawn"):
            self.refuse(moment, [(117, quote.id)], "Lifted", CANCEL_REASONS)
        else:
            self.send(moment, b"AI", [(117, quote.id), (297, b"17")])
            duties.append(("Unpost", quote.request.room, quote.q, moment))
        if len(quotes) > 1:
            duties.append(("Drop", last, moment))
        return duties

    # ------------------------------------------------------------ what comes from rooms

    def show(self, room: tuple[int, int] | None, ask: Ask, moment: int) -> None:
        request = Request(len(self.requests) + 1, room, ask)
        self.requests.append(request)
        fields = [(131, b"R%d" % request.k), (146, b"1")] + terms(ask)
        fields.append((126, moment_text(self.date, ask.deadline)))
        self.send(moment, b"R", fields + party(ask.investor, INVESTOR_ROLE))

    def tell(self, request: Request | None, close: int, moment: int) -> bool:
        """The closing notice; False, and nothing sent, where the request was not shown or was told already."""
        if request is None or request.closed is not None:
            return False
        quote = self.live_quote(request) if close == HIT else None
        self.notices += 1
        fields: list[tuple[int, bytes | None]] = [
            (693, b"N%d" % self.notices),
            (131, b"R%d" % request.k),
        ]
        fields += [(117, quote.id if quote else None), (694, b"%d" % close), *terms(request.ask)]
        if quote:
            fields.append(price_field(request.ask.side, quote.ticks))
        self.send(moment, b"AJ", fields, Trade(request.ask.investor) if close == HIT else None)
        request.closed = close
        return True

    def refuse(
        self,
        moment: int,
        answer: list[tuple[int, bytes | None]],
        name: str,
        reasons: Mapping[str, int | None],
    ) -> None:
        """Refuses a message by the line of this name: 297=5 with its value of 300, or 297=9 where it has none."""
        reason = reasons[name]
        status: list[tuple[int, bytes | None]] = (
            [(297, b"9")] if reason is None else [(297, b"5"), (300, b"%d" % reason)]
        )
        self.send(moment, b"AI", answer + status, Reason(name))

    def sides(self, other: bytes) -> tuple[bytes, bytes]:
        return other, self.row.name

    # ------------------------------------------------------------ the blotter

    def state(self, quote: Quote) -> str:
        if quote.ended:
            return quote.ended
        if quote.known_lifted or quote.request.closed == HIT:
            return "lifted"
        return "live" if quote.is_live() else "ended"

    def blotter(self) -> Iterator[tuple[Quote, bytes, str]]:
        """Each quote: its number, moment, trader, request, terms, price and state."""
        for quote in self.quotes:
            yield quote, thirty_seconds(quote.ticks), self.state(quote)


def is_asked_price(message: Message, ask: Ask) -> bool:
    """The price of the asked side, on the bond's grid, and none of the other."""
    asked = price_tag(ask.side)
    other = 132 + 133 - asked
    if asked not in message or other in message:
        return False
    return is_price(message[asked]) and on_grid(message[asked], ask.grid)
