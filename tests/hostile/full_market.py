"""The messages of a day of 64 dealers and 64 investors at the limits of a configuration.

Each investor makes as many requests as its row allows. Each request asks seven of the fourteen makers and
one of the other dealers; the investor hits quotes by their numbers. The makers quote on the requests by
their numbers, round after round, before or after the moment at which a thread shows them to them, and
more often than their rows allow. The other dealers say nothing. The makers have the last rows, so they
are still at it when the threads of the investors begin.
"""

from collections.abc import Iterator
from typing import NamedTuple

DEALERS, INVESTORS, ASKED_AT_ONCE = 64, 64, 8
GROUPS, GROUP = 2, ASKED_AT_ONCE - 1
OTHERS = DEALERS - GROUPS * GROUP
QUOTES = 4_096  # of a maker
OTHERS_QUOTES = (65_536 - GROUPS * GROUP * QUOTES) // OTHERS
REQUESTS = 4_096 // INVESTORS
ROUNDS = 5  # of quotes on all requests of a maker; more where these are fewer
HITS = 1_024  # of an investor
PRICES = 199  # more than rounds
DEADLINE = "20250314-17:00:00.000"
ASKED, QUOTED, HIT = "09:00:00.000", "09:00:10.000", "09:00:20.000"

Fields = dict[int, str]


class Ask(NamedTuple):
    """A request: its investor, and its number there, from 1."""

    investor: int
    number: int

    def group(self) -> int:
        """The number of the makers' group, and of the bond."""
        return (self.investor + self.number) % GROUPS

    def dealers(self) -> list[int]:
        first = OTHERS + GROUP * self.group()
        makers = [first + (self.number + place) % GROUP for place in range(GROUP)]
        return [*makers, (self.investor + self.number) % OTHERS]

    def instrument(self) -> Fields:
        return {55: "[N/A]", 48: "BOND%08d" % self.group(), 22: "4"}

    def quantity(self) -> str:
        """By which a dealer tells the requests of an investor apart."""
        return str(10**9 + self.number)

    def terms(self) -> Fields:
        return self.instrument() | {54: "1", 38: self.quantity()}


class Quote(NamedTuple):
    """A quote of a dealer on the request that has this number at its desk."""

    request: int
    id: str
    price: str


def asks(requests: int) -> list[Ask]:
    return [Ask(investor, n + 1) for investor in range(INVESTORS) for n in range(requests)]


def asked_of(requests: int) -> list[list[Ask]]:
    """The requests that each dealer is to be shown; those of a maker are all of one bond."""
    asked: list[list[Ask]] = [[] for _ in range(DEALERS)]
    for ask in asks(requests):
        for dealer in ask.dealers():
            asked[dealer].append(ask)
    return asked


def quotes_of(dealer: int, requests: int) -> Iterator[Quote]:
    """What a dealer says to which so many are to be shown. No two on a request have one price."""
    most = ROUNDS * REQUESTS * INVESTORS // GROUPS
    for turn in range(most // requests if dealer >= OTHERS else 0):
        for n in range(1, requests + 1):
            yield Quote(n, "a%d.%d" % (n, turn), price_of((n + turn) % PRICES))


def price_of(halves: int) -> str:
    """So many half points above 50."""
    return "%d%s" % (50 + halves // 2, ".5" if halves % 2 else "")


def configuration() -> Iterator[str]:
    yield 'version = 1\ndate = "20250314"'
    for bond in range(1024):
        yield '[[bond]]\nid = "BOND%08d"' % bond
    traders = ", ".join('"T%d"' % trader for trader in range(16))
    for dealer in range(DEALERS):
        yield '[[dealer]]\nname = "DLR%d"\ntraders = [%s]' % (dealer, traders)
        yield "quotes = %d\nexposure = %d" % (
            OTHERS_QUOTES if dealer < OTHERS else QUOTES,
            10**15,
        )
    for investor in range(INVESTORS):
        yield '[[investor]]\nname = "INV%d"\ntraders = ["T1"]' % investor
        yield "requests = %d\nopen = 1024\nquantity = %d" % (REQUESTS, 10**12)


def requests_made(requests: int) -> Iterator[str]:
    for ask in asks(requests):
        parties = "|".join("448=DLR%d|447=D|452=35" % dealer for dealer in ask.dealers())
        terms = ask.number, ask.group(), ask.quantity(), DEADLINE, parties
        body = "131=q%d|146=1|48=BOND%08d|22=4|54=1|38=%s|126=%s|453=8|%s" % terms
        yield "say INV%d T1 %s R %s" % (ask.investor, ASKED, body)


def hits_made(requests: int) -> Iterator[str]:
    for investor in range(INVESTORS):
        for n in range(1, HITS + 1):
            yield "say INV%d T1 %s AJ 693=h%d|694=1|117=Q%d" % (investor, HIT, n, n)


def quotes_made(requests: int) -> Iterator[str]:
    for dealer, asked in enumerate(asked_of(requests)):
        for quote in quotes_of(dealer, len(asked)):
            terms = quote.id, quote.request, asked[0].group(), quote.price
            body = "117=%s|131=R%d|48=BOND%08d|22=4|133=%s" % terms
            yield "say DLR%d T1 %s S %s" % (dealer, QUOTED, body)


def day(requests: int) -> str:
    made = [*requests_made(requests), *hits_made(requests), *quotes_made(requests)]
    return "\n".join([*configuration(), "%%", *made]) + "\n"
