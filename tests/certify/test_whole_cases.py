"""Every case of a dealer's market, by a desk that does what it is told, on a venue that this file plays.

`test_desks.py` has the same with a gateway, and desks that are wrong in one thing. Here a case takes a millisecond.
"""

from __future__ import annotations

import re
from collections.abc import Callable
from dataclasses import dataclass, field
from datetime import datetime, timedelta, timezone
from decimal import Decimal
from typing import Any

import pytest
from mireseason_certify.case import Case
from mireseason_certify.dealer_cases import case as dealer_market
from mireseason_certify.dealer_session import QuoteAct
from mireseason_certify.frames import time_text
from mireseason_certify.stage import Failed

from tests.certify.scripted import DESK, Played, Script, fails, message

CASES: dict[str, Case] = {one.name: one for one in dealer_market.all}
EXPOSURE = 12_000_000


@dataclass
class Request:
    """As the venue has it."""

    own_id: str
    id: str
    bond: str
    side: str
    quantity: int
    dealers: list[str]
    is_short: bool
    quotes: dict[str, tuple[str, Decimal]] = field(
        default_factory=dict
    )  # by 117: whose, and how much
    is_open: bool = True

    @property
    def price_tag(self) -> int:
        return 133 if self.side == "1" else 132

    def ranked(self) -> list[str]:
        """The names of its quotes, the best for the investor first."""
        sign = 1 if self.side == "1" else -1
        return sorted(self.quotes, key=lambda name: sign * self.quotes[name][1])


class Firm(Played):
    """What it sends goes to the venue at once."""

    def __init__(
        self, name: str, hears: Callable[[Firm, str, list[tuple[int, str]]], None]
    ) -> None:
        super().__init__(name)
        self.hears = hears

    def send(self, kind: str, fields: list[tuple[int, str]]) -> None:
        self.hears(self, kind, fields)


class Market(Script):
    """The venue, and a desk that is right."""

    def __init__(self, seed: int = 1) -> None:
        super().__init__("dealer", seed)
        self.requests: list[Request] = []
        self.positions: dict[str, int] = {}
        self.count, self.is_halted = 0, False
        self.dealers = [Firm(name, self.of_dealer) for name in ("ELGIN", "CALDER", "HARLOW")]
        self.investors = [Firm("MERLIN", self.of_investor)]
        self.stage.dealers, self.stage.investors = self.dealers, self.investors  # type: ignore[assignment]
        acts = ("quote", "withdraw", "cancel all", "decline", "position")
        self.developer.acts |= {do: getattr(self, do.replace(" ", "_")) for do in acts}

    def order(self, *words: str) -> str:
        self.is_halted = words[0] == "halt"
        return super().order(*words)

    def next(self) -> int:
        self.count += 1
        return self.count

    # ------------------------------------------------------------ the firms that are played

    def of_investor(self, firm: Firm, kind: str, given: list[tuple[int, str]]) -> None:
        fields = dict(given)
        if kind == "R":
            self.asks(firm, fields, [value for tag, value in given if tag == 448])
        elif fields[694] == "6":
            request = next(one for one in self.requests if one.own_id == fields[131])
            self.ends(request, "6")
        else:
            self.hits(firm, fields)

    def asks(self, firm: Firm, fields: dict[int, str], dealers: list[str]) -> None:
        request = Request(
            fields[131],
            "R%d" % self.next(),
            fields[48],
            fields[54],
            int(fields[38]),
            dealers,
            fields[126] < moment_in(60),
        )
        self.requests.append(request)
        firm.got.append(message("AI", {131: request.own_id, 297: "0"}))
        shown = {131: request.id, 48: request.bond, 54: request.side, 38: fields[38]}
        self.line.venue("R", shown)
        for dealer in self.dealers:
            if dealer.who.name in dealers:
                dealer.got.append(message("R", shown))
        if fields[126] < moment_in(4):
            self.ends(request, "3")

    def of_dealer(self, firm: Firm, kind: str, given: list[tuple[int, str]]) -> None:
        fields = dict(given)
        request = next(one for one in self.requests if one.id == fields[131])
        name = firm.who.name + " " + fields[117]  # two dealers may give a quote one name
        self.stands(request, name, firm.who.name, Decimal(fields[request.price_tag]))
        firm.got.append(message("AI", {117: fields[117], 297: "0"}))

    def stands(self, request: Request, name: str, dealer: str, price: Decimal) -> None:
        """A dealer's quote, in the place of one before; the investor is shown it."""
        for other in [one for one, (whose, _) in request.quotes.items() if whose == dealer]:
            del request.quotes[other]
        request.quotes[name] = dealer, price
        shown = {131: request.own_id, 117: name, 448: dealer, request.price_tag: str(price)}
        self.investors[0].got.append(message("S", shown))

    def hits(self, firm: Firm, fields: dict[int, str]) -> None:
        request = next(one for one in self.requests if fields[117] in one.quotes)
        firm.got.append(message("AI", {693: fields[693], 297: "0"}))
        others = [name for name in request.ranked() if name != fields[117]]
        own = next((name for name, (whose, _) in request.quotes.items() if whose == DESK), "")
        end = "1" if own == fields[117] else "4" if others[:1] == [own] else "5"
        if end == "1":
            change = -request.quantity if request.side == "1" else request.quantity
            self.positions[request.bond] = self.positions.get(request.bond, 0) + change
        self.ends(request, end, own)

    def ends(self, request: Request, end: str, own: str = "") -> None:
        request.is_open = False
        self.line.venue("AJ", {131: request.id, 694: end, 117: own})

    # ------------------------------------------------------------ the desk, and what the venue says to it

    def quote(self, act: dict[str, str]) -> None:
        request = next(one for one in self.requests if one.id == act["request"])
        name, price = "Q%d" % self.next(), Decimal(act["price"])
        fields = {131: request.id, 48: request.bond, request.price_tag: act["price"], 117: name}
        self.line.desk("S", fields)
        if self.is_halted:
            self.line.venue("j", {379: name})
            return
        reason = self.reason(request, price)
        if reason:
            self.line.venue("AI", {117: name, 297: "5", 300: reason})
            return
        self.stands(request, name, DESK, price)
        self.line.venue("AI", {117: name, 297: "0"})
        if request.is_short:
            self.ends(request, "3")

    def reason(self, request: Request, price: Decimal) -> str:
        """Why the venue refuses a quote."""
        bond = next(one for one in self.stage.venue.cast.bonds if one.id == request.bond)
        live = sum(one.quantity for one in self.requests if one.is_open and self.own(one))
        if not request.is_open:
            return "4"
        if (price * bond.grid) % 1 or not bond.low <= price <= bond.high:
            return "8"
        return "3" if live + request.quantity > EXPOSURE and not self.own(request) else ""

    def own(self, request: Request) -> str:
        return next((name for name, (whose, _) in request.quotes.items() if whose == DESK), "")

    def withdraw(self, act: dict[str, str]) -> None:
        name = act["quote"]
        request = next(one for one in self.requests if name in one.quotes)
        self.line.desk("Z", {298: "5", 117: name})
        if not request.is_open:
            self.line.venue("AI", {117: name, 297: "5", 300: "4"})
            return
        del request.quotes[name]
        self.line.venue("AI", {117: name, 297: "17"})

    def cancel_all(self, _: object) -> None:
        self.line.desk("Z", {298: "4"})
        live = [one for one in self.requests if one.is_open and self.own(one)]
        for request in live:
            name = self.own(request)
            del request.quotes[name]
            self.line.venue("AI", {117: name, 297: "17"})
        if not live:
            self.line.venue("AI", {297: "9"})

    def decline(self, act: dict[str, str]) -> None:
        self.line.desk("AG", {131: act["request"], 658: "10"})
        self.line.venue("AI", {131: act["request"], 297: "11"})

    def position(self, act: dict[str, str]) -> None:
        self.developer.enters = [str(self.positions.get(act["bond"], 0))]


def moment_in(seconds: int) -> str:
    return time_text(datetime.now(timezone.utc) + timedelta(seconds=seconds))


@pytest.fixture
def market(script: Script) -> Market:
    del script  # whose seconds it has
    return Market()


@pytest.mark.parametrize("name", CASES)
def test_a_right_desk_passes(market: Market, name: str) -> None:
    """No request stays open behind a case."""
    market.stage.begins(name, is_first=False)
    CASES[name].play(market.stage)
    assert market.stage.note == "" and market.stage.open == []
    assert all(not one.is_open for one in market.requests)


def test_one_case_behind_the_other(market: Market) -> None:
    """What was said in a case before is not taken for an answer in this one."""
    for name, one in CASES.items():
        market.stage.begins(name, is_first=False)
        one.play(market.stage)
    assert all(not one.is_open for one in market.requests)


def test_which_side_is_asked(market: Market) -> None:
    for name in ("quote-offer", "quote-bid"):
        CASES[name].play(market.stage)
    assert [one.side for one in market.requests] == ["1", "2"]


def test_words_name_the_request_whose_quote_goes(market: Market) -> None:
    """Who reads them withdraws the same quote as who reads the act."""
    told = []

    def withdraws(act: dict[str, str]) -> None:
        (request,) = [one for one in market.requests if act["quote"] in one.quotes]
        told.append((request.id, market.developer.tasks[-1]))
        market.withdraw(act)

    market.developer.acts["withdraw"] = withdraws
    for name in ("withdrawn", "withdrawn-one-of-two", "hit-in-the-race"):
        market.stage.begins(name, is_first=False)
        CASES[name].play(market.stage)
    assert len(told) == 4
    for own, words in told:
        assert re.fullmatch("Withdraw your quote on %s( alone)?\\." % own, words)


@pytest.mark.parametrize("place", [0, -1])
def test_one_of_two_is_found_by_no_rule(script: Script, place: int) -> None:
    """Who withdraws the first of the quotes that stand, or the last, withdraws another one, whatever is drawn."""
    del script  # whose seconds it has
    for seed in range(1, 11):
        market = Market(seed)

        def withdraws(act: dict[str, str], of: Market = market) -> None:
            standing = [name for one in of.requests for name in one.quotes if one.is_open]
            of.withdraw({**act, "quote": standing[place]})

        market.developer.acts["withdraw"] = withdraws
        with fails("the cancel is not of Q[0-9]+ alone"):
            CASES["withdrawn-one-of-two"].play(market.stage)


def test_each_of_two_is_to_be_withdrawn(script: Script) -> None:
    """Which is the first is drawn."""
    del script  # whose seconds it has
    places = set()
    for seed in range(1, 21):
        market = Market(seed)

        def withdraws(act: dict[str, str], of: Market = market) -> None:
            standing = [name for one in of.requests for name in one.quotes if one.is_open]
            if len(of.requests) == 2:
                places.add(standing.index(act["quote"]))
            of.withdraw(act)

        market.developer.acts["withdraw"] = withdraws
        CASES["withdrawn-one-of-two"].play(market.stage)
    assert places == {0, 1}


# Which case sees that the desk does nothing of what it is told: the others ask for nothing of that kind.
DOES: dict[str, set[str]] = {
    "quote": set(CASES) - {"nothing-to-cancel", "declined", "not-answered"},
    "withdraw": {
        "withdrawn",
        "withdrawn-one-of-two",
        "declined-behind-a-quote",
        "hit-in-the-race",
    },
    "cancel all": {"cancelled-all", "nothing-to-cancel"},
    "decline": {"declined", "declined-behind-a-quote"},
}


@pytest.mark.parametrize("act", DOES)
def test_a_desk_that_does_nothing(market: Market, act: str) -> None:
    failed = set()
    for name, one in CASES.items():
        made = Market()
        made.developer.acts[act] = lambda _: None
        try:
            one.play(made.stage)
        except Failed:
            failed.add(name)
    assert failed == DOES[act]


def test_a_position_that_is_wrong(market: Market) -> None:
    """Each case at whose end the desk's position is known sees one that is another."""
    failed = set()
    for name, one in CASES.items():
        made = Market()

        def enters(act: Any, of: Market = made) -> None:
            of.developer.enters = [str(of.positions.get(act["bond"], 0) + 1)]

        made.developer.acts["position"] = enters
        try:
            one.play(made.stage)
        except Failed:
            failed.add(name)
    trades = {"won", "replaced", "hit-in-the-race"}
    none = {"cover", "done-away", "passed-by", "expired", "not-answered", "late"}
    assert failed == trades | none


def test_two_quotes_of_one_name(market: Market) -> None:
    market.next = lambda: 7  # type: ignore[assignment]
    with fails("both quotes have one QuoteID .117., Q7"):
        CASES["replaced"].play(market.stage)


def test_a_notice_of_another_quote(market: Market) -> None:
    ends = market.ends
    market.ends = lambda request, end, own="": ends(request, end, "other")  # type: ignore[assignment]
    with fails("the notice names other, not the last quote"):
        CASES["replaced"].play(market.stage)


def test_an_answer_to_what_is_left_alone(market: Market) -> None:
    """A message on a request with which the desk has to do nothing."""

    def speaks(act: dict[str, str]) -> None:
        market.line.desk("AG", {131: act["request"]})

    market.developer.acts["nothing"] = speaks
    with fails("the desk has sent a message on that request"):
        CASES["not-answered"].play(market.stage)


def test_a_case_that_the_desk_refuses_by_itself(market: Market) -> None:
    """What may be refused is noted, and the venue is asked for nothing."""
    for name in ("nothing-to-cancel", "off-grid", "outside-band", "late", "over-exposure"):
        made = Market()
        quote = made.quote

        def refuses(act: Any, of: Market = made, quote: Callable[[Any], None] = quote) -> None:
            task: Any = of.developer.now()["task"]
            if task["may_refuse"]:
                of.developer.enter(task["number"], "refused")
            else:
                quote(act)

        made.developer.acts |= {"quote": refuses, "cancel all": refuses}
        CASES[name].play(made.stage)
        assert made.stage.note == "the desk refuses it by itself", name


def test_a_trade_that_is_told(market: Market) -> None:
    """What it changes, and which notice tells it."""
    trade = QuoteAct.trades(market.stage)
    (request,) = market.requests
    assert trade.bond.id == request.bond
    assert trade.change == market.positions[request.bond] != 0
    assert trade.fits(message("AJ", {131: request.id, 694: "1"}))
    assert not trade.fits(message("AJ", {131: request.id, 694: "4"}))
    assert not trade.fits(message("AJ", {131: "other", 694: "1"}))


def test_a_trade_while_the_desk_is_away(market: Market) -> None:
    """Its quote stands, the line is cut, and the desk is not let in again before it was hit."""
    trade = QuoteAct.trades_away(market.stage)
    assert market.line.did == ["refuse True", "cut"]
    assert trade.change == market.positions[market.requests[0].bond] != 0
