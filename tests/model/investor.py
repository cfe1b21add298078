"""The desk of one investor: its requests, the quotes that it is shown, its hits and passes."""

from __future__ import annotations

from collections.abc import Iterator
from dataclasses import dataclass
from typing import TYPE_CHECKING

from .desk import Ask, Desk, Duty, Reason, Trade, first, instrument, party, price_field
from .frames import moment_text
from .prices import thirty_seconds
from .session import INVESTOR_TYPES, Message

if TYPE_CHECKING:
    from .configuration import Bond, Configuration, Investor

DEALER_ROLE = 35
MOST_DEALERS = 8

# The names of the lines that refuse a request, each with the value of 658.
REQUEST_REASONS = {
    "DuplicateRequest": 99,
    "UnknownBond": 1,
    "QuantityExceeded": 3,
    "NoDealer": 99,
    "UnknownDealer": 99,
    "DealerTwice": 99,
    "TooManyDealers": 99,
    "DeadlinePassed": 4,
    "RequestsUsedUp": 3,
    "TooManyOpen": 3,
}


@dataclass
class Request:
    """An accepted request."""

    n: int
    id: bytes
    ask: Ask
    moment: int
    trader: bytes
    closed: str | None = None  # passed, expired, or won and from whom

    def is_open(self) -> bool:
        return self.closed is None


@dataclass
class Shown:
    """A quote that the investor was shown."""

    k: int
    request: Request
    dealer: bytes
    word: tuple[int, int] | int  # a number where nothing is known of its dealer
    ticks: int
    gone: bool = False


class InvestorDesk(Desk):
    types = INVESTOR_TYPES

    def __init__(self, configuration: Configuration, firm: int) -> None:
        self.row: Investor = configuration.investor(firm)
        super().__init__(configuration.date, self.row)
        self.configuration, self.firm = configuration, firm
        self.requests: list[Request] = []
        self.shown: list[Shown] = []

    def request(self, name: bytes) -> Request | None:
        return next((request for request in self.requests if request.id == name), None)

    def quote(self, name: bytes) -> Shown | None:
        return next((quote for quote in self.shown if name == b"Q%d" % quote.k), None)

    def bond(self, name: bytes) -> Bond | None:
        return next((bond for bond in self.configuration.bonds if bond.id == name), None)

    def dealer(self, name: bytes) -> int | None:
        """The number of a dealer, or None: of an investor too."""
        firm = self.configuration.firm(name)
        return firm if firm is not None and self.configuration.is_dealer(firm) else None

    # ------------------------------------------------------------ own messages; each answers the duties that follow

    def take_message(self, moment: int, message: Message) -> list[Duty]:
        if message[35] == b"R":
            return self.take_request(moment, message)
        return (
            self.take_hit(moment, message) if message[694] == 1 else self.take_pass(moment, message)
        )

    def take_request(self, moment: int, message: Message) -> list[Duty]:
        refusal = first(self.request_refusals(moment, message))
        answer = [(131, message[131])]
        if refusal is not None:
            answer += [(658, b"%d" % REQUEST_REASONS[refusal]), (146, b"1")] + instrument(
                message[48]
            )
            self.send(moment, b"AG", answer, Reason(refusal))
            return []
        bond = self.bond(message[48])
        assert bond is not None
        terms = int(message[54]), message[38], message[126]
        ask = Ask(self.row.name, bond.id, *terms, bond.grid, bond.band)
        request = Request(len(self.requests) + 1, message[131], ask, moment, message[50])
        self.requests.append(request)
        self.send(moment, b"AI", answer + [(297, b"0")])
        dealers = [self.dealer(name) for name in message["dealers"]]
        return [("Open", (self.firm, request.n), ask, dealers, moment)]

    def request_refusals(self, moment: int, message: Message) -> Iterator[tuple[bool, str]]:
        dealers = message["dealers"]
        yield self.request(message[131]) is not None, "DuplicateRequest"
        yield self.bond(message[48]) is None, "UnknownBond"
        yield message[38] > self.row.quantity, "QuantityExceeded"
        yield not dealers, "NoDealer"
        yield any(self.dealer(name) is None for name in dealers), "UnknownDealer"
        yield len(set(dealers)) < len(dealers), "DealerTwice"
        yield len(dealers) > MOST_DEALERS, "TooManyDealers"
        yield message[126] <= moment, "DeadlinePassed"
        yield len(self.requests) >= self.row.requests, "RequestsUsedUp"
        yield sum(request.is_open() for request in self.requests) >= self.row.open, "TooManyOpen"

    def take_hit(self, moment: int, message: Message) -> list[Duty]:
        quote = self.quote(message[117])
        if quote is None:
            self.send(moment, b"AI", [(693, message[693]), (117, message[117]), (297, b"9")])
            return []
        return [("Hit", (self.firm, quote.request.n), (message[693], quote.k), quote.word, moment)]

    def take_pass(self, moment: int, message: Message) -> list[Duty]:
        request = self.request(message[131])
        if request is None:
            self.send(moment, b"AI", [(693, message[693]), (131, message[131]), (297, b"9")])
            return []
        return [("Pass", (self.firm, request.n), (message[693], None), moment)]

    # ------------------------------------------------------------ what comes from rooms

    def standing(self, request: Request) -> list[Shown]:
        """The quotes on a request that are not gone."""
        return [quote for quote in self.shown if quote.request is request and not quote.gone]

    def quote_came(
        self,
        n: int,
        dealer: bytes,
        word: tuple[int, int] | int,
        ticks: int,
        until: int | None,
        moment: int,
    ) -> None:
        request = self.requests[n - 1]
        if not request.is_open():
            return
        for quote in self.standing(request):
            if quote.dealer == dealer:
                self.report_gone(quote, moment)
        quote = Shown(len(self.shown) + 1, request, dealer, word, ticks)
        self.shown.append(quote)
        ask = request.ask
        fields: list[tuple[int, bytes | None]] = [
            (131, request.id),
            (117, b"Q%d" % quote.k),
            *instrument(ask.bond),
        ]
        fields += [(54, b"%d" % ask.side), price_field(ask.side, ticks)]
        fields.append((135 if ask.side == 1 else 134, b"%d" % ask.quantity))
        fields.append((62, None if until is None else moment_text(self.date, until)))
        self.send(moment, b"S", [*fields, (537, b"1"), *party(dealer, DEALER_ROLE)])

    def report_gone(self, quote: Shown, moment: int) -> None:
        quote.gone = True
        self.send(moment, b"AI", [(131, quote.request.id), (117, b"Q%d" % quote.k), (297, b"17")])

    def quote_gone(self, n: int, word: tuple[int, int] | int, moment: int) -> None:
        request = self.requests[n - 1]
        found = next((quote for quote in self.standing(request) if quote.word == word), None)
        if request.is_open() and found is not None:
            self.report_gone(found, moment)

    def dealer_declined(self, n: int, dealer: bytes, moment: int) -> None:
        request = self.requests[n - 1]
        if request.is_open():
            self.send(moment, b"AI", [(131, request.id), (297, b"11")] + party(dealer, DEALER_ROLE))

    def answered(self, n: int, response: tuple[bytes, int | None], reply: str, moment: int) -> None:
        """The room's answer to a hit or a pass."""
        request, (name, k) = self.requests[n - 1], response
        note: Trade | None = None
        fields: list[tuple[int, bytes | None]] = [
            (693, name),
            (131, request.id),
            (117, None if k is None else b"Q%d" % k),
        ]
        if reply == "Awarded":
            assert k is not None
            quote = self.shown[k - 1]
            self.close(
                request, "won %s %s" % (quote.dealer.decode(), thirty_seconds(quote.ticks).decode())
            )
            fields.append((297, b"0"))
            note = Trade(quote.dealer)
        elif reply == "Passed":
            self.close(request, "passed")
            fields.append((297, b"11"))
        else:
            fields += [(297, b"5"), (300, b"4"), (58, reply.encode())]
        self.send(moment, b"AI", fields, note)

    def sides(self, other: bytes) -> tuple[bytes, bytes]:
        return self.row.name, other

    def closed(self, n: int, moment: int) -> None:
        """The request has expired."""
        request = self.requests[n - 1]
        self.close(request, "expired")
        self.send(moment, b"AI", [(131, request.id), (297, b"7")])

    @staticmethod
    def close(request: Request, how: str) -> None:
        if request.is_open():
            request.closed = how
