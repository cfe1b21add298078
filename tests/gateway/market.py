"""Says what the firms of a drawn day do next, by what they were sent so far."""

import random
from collections.abc import Callable
from dataclasses import dataclass, field
from datetime import datetime, timedelta, timezone

from tests.gateway.firm import Firm, Received

BOND = b"BONDA0000001"
Fields = list[tuple[int, bytes]]


@dataclass(frozen=True)
class Act:
    """A message that a firm sends: its type and the fields after the header, the trader (50) among them."""

    firm: Firm
    kind: str
    fields: Fields


@dataclass
class DealerView:
    """A dealer's requests that have no notice yet, and the quotes that it may still withdraw."""

    open: dict[bytes, tuple[bytes, bytes]] = field(
        default_factory=dict
    )  # of R.. the side and the quantity
    quotes: list[bytes] = field(default_factory=list)

    def take(self, message: Received) -> None:
        request, quote, status = (
            message.value(131) or b"",
            message.value(117) or b"",
            message.value(297),
        )
        if message.kind == b"R":
            self.open[request] = message.given(54), message.given(38)
        elif message.kind == b"AJ":
            self.open.pop(request, None)
        elif message.kind == b"AI" and status == b"0":
            self.quotes.append(quote)
        elif message.kind == b"AI" and status == b"17" and quote in self.quotes:
            self.quotes.remove(quote)


@dataclass
class InvestorView:
    """An investor's requests that have not ended, and the quotes on them that stand."""

    open: list[bytes] = field(default_factory=list)
    quotes: dict[bytes, bytes] = field(default_factory=dict)  # of Q.. its request

    def take(self, message: Received) -> None:
        request, quote, status = (
            message.value(131) or b"",
            message.value(117) or b"",
            message.value(297),
        )
        if message.kind == b"S":
            self.quotes[quote] = request
        elif message.kind == b"AI" and message.value(693) is None and status == b"0":
            self.open.append(request)
        elif message.kind == b"AI" and status == b"17":
            self.quotes.pop(quote, None)
        elif message.kind == b"AI" and self.has_ended(message) and request in self.open:
            self.open.remove(request)

    @staticmethod
    def has_ended(message: Received) -> bool:
        status, answers = message.value(297), message.value(693) is not None
        return status == b"7" or (answers and status in (b"0", b"11"))


def moment_in(seconds: float, ahead: float = 0) -> bytes:
    """A UTC moment of the day, some seconds from now and before midnight, by a clock that is so far ahead of the machine's."""
    now = datetime.now(timezone.utc) + timedelta(seconds=ahead)
    then = now + timedelta(seconds=seconds)
    last = now.replace(hour=23, minute=59, second=59, microsecond=0)
    return min(then, last).strftime("%Y%m%d-%H:%M:%S.%f")[:-3].encode()


class Market:
    """Draws one message after the other for dealers and investors."""

    def __init__(self, seed: int, dealers: list[Firm], investors: list[Firm]) -> None:
        self.draw, self.dealers, self.investors = random.Random(seed), dealers, investors
        self.of_dealer = {firm.name: DealerView() for firm in dealers}
        self.of_investor = {firm.name: InvestorView() for firm in investors}
        self.named, self.asked = 0, 0
        self.seen: dict[str, set[int]] = {firm.name: set() for firm in dealers + investors}

    def look(self) -> None:
        """Takes what the firms were sent; what came again says nothing new."""
        for firm in self.dealers + self.investors:
            view = self.of_dealer.get(firm.name) or self.of_investor[firm.name]
            for message in firm.fresh():
                if message.venue_number not in self.seen[firm.name]:
                    self.seen[firm.name].add(message.venue_number)
                    view.take(message)

    def next(self) -> Act:
        """The next message of some firm."""
        draw = self.draw
        acts = [self.quote] * 10 + [self.ask] * 3 + [self.hit] * 2 + [self.cancel] * 3
        acts += [self.decline, self.leave, self.cancel_all, self.stranger]
        act = draw.choice(acts)()
        while act is None:
            act = draw.choice([self.ask, self.quote, self.quote])()
        return act

    def name(self, letter: str) -> bytes:
        self.named += 1
        return b"%s%d" % (letter.encode(), self.named)

    def act(self, firm: Firm, kind: str, fields: Fields, trader: bytes | None = None) -> Act:
        trader = firm.who.trader.encode() if trader is None else trader
        return Act(firm, kind, [(50, trader)] + fields)

    # ------------------------------------------------------------ investors

    def ask(self) -> Act:
        draw, firm = self.draw, self.draw.choice(self.investors)
        self.asked += 1
        chosen = draw.sample(self.dealers, draw.randint(1, len(self.dealers)))
        deadline = moment_in(draw.choice([1.5, 4, 10, 60, 600, 600]))
        fields = [
            (131, self.name("A")),
            (146, b"1"),
            (55, b"[N/A]"),
            (48, BOND),
            (22, b"4"),
            (54, draw.choice([b"1", b"2"])),
        ]
        fields += [
            (38, draw.choice([b"1000000", b"2000000", b"9000000"])),
            (126, deadline),
            (453, b"%d" % len(chosen)),
        ]
        for dealer in chosen:
            fields += [(448, dealer.name.encode()), (447, b"D"), (452, b"35")]
        return self.act(firm, "R", fields)

    def hit(self) -> Act | None:
        firm = self.draw.choice(self.investors)
        quotes = list(self.of_investor[firm.name].quotes)
        if not quotes:
            return None
        quote = self.draw.choice(quotes[-5:]) if self.draw.random() < 0.9 else b"Q999"
        return self.act(firm, "AJ", [(693, self.name("h")), (694, b"1"), (117, quote)])

    def leave(self) -> Act | None:
        firm = self.draw.choice(self.investors)
        requests = self.of_investor[firm.name].open
        if not requests:
            return None
        return self.act(
            firm, "AJ", [(693, self.name("p")), (694, b"6"), (131, self.draw.choice(requests))]
        )

    # ------------------------------------------------------------ dealers

    def quote(self) -> Act | None:
        draw, firm = self.draw, self.draw.choice(self.dealers)
        requests = list(self.of_dealer[firm.name].open.items())
        if not requests:
            return None
        request, (side, _) = draw.choice(requests[-6:])
        price = b"%d.%s" % (
            draw.randrange(90, 110),
            draw.choice([b"5", b"25", b"125", b"00390625", b"501"]),
        )
        fields = [
            (117, self.name("q")),
            (131, request),
            (48, BOND),
            (22, b"4"),
            (133 if side == b"1" else 132, price),
        ]
        if draw.random() < 0.1:
            fields.append((62, moment_in(draw.choice([0.5, 5, 300]))))
        return self.act(firm, "S", fields)

    def cancel(self) -> Act | None:
        firm = self.draw.choice(self.dealers)
        quotes = self.of_dealer[firm.name].quotes
        if not quotes:
            return None
        return self.act(firm, "Z", [(298, b"5"), (117, self.draw.choice(quotes[-4:]))])

    def cancel_all(self) -> Act:
        return self.act(self.draw.choice(self.dealers), "Z", [(298, b"4")])

    def decline(self) -> Act | None:
        firm = self.draw.choice(self.dealers)
        requests = list(self.of_dealer[firm.name].open)
        if not requests:
            return None
        return self.act(firm, "AG", [(131, self.draw.choice(requests)), (658, b"10")])

    def stranger(self) -> Act:
        """A message of a trader that the firm does not have: the venue rejects it."""
        return self.act(self.draw.choice(self.dealers), "Z", [(298, b"4")], trader=b"T99")


def play(market: Market, count: int, send: Callable[[Act], None]) -> None:
    """Sends so many messages, each by what is known then."""
    for _ in range(count):
        market.look()
        send(market.next())
