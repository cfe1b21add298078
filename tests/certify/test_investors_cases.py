"""Every case of an investor's market, by a desk that does what it is told, on a venue that this file plays.

`test_whole_cases.py` has a dealer's.
"""

from __future__ import annotations

from collections.abc import Callable
from dataclasses import dataclass, field
from decimal import Decimal
from typing import Any

import pytest
from mireseason_certify.case import Case
from mireseason_certify.frames import message_of, written
from mireseason_certify.investor_cases import case as investor_market
from mireseason_certify.investor_session import HitAct
from mireseason_certify.relay import By, Seen
from mireseason_certify.stage import Failed

from tests.certify.scripted import DESK, Script, fails, message
from tests.certify.test_whole_cases import Firm

CASES: dict[str, Case] = {one.name: one for one in investor_market.all}
Act = Callable[[dict[str, str]], None]
SHORT = 60  # seconds: a request with less expires while the desk is told to do nothing


@dataclass
class Request:
    """As the venue has it."""

    id: str
    bond: str
    side: str
    quantity: int
    seconds: int
    dealers: list[str]
    quotes: dict[str, tuple[str, Decimal]] = field(
        default_factory=dict
    )  # by 117: whose, and how much
    shown: list[tuple[str, Decimal]] = field(default_factory=list)  # all quotes that there were
    is_open: bool = True

    @property
    def price_tag(self) -> int:
        return 133 if self.side == "1" else 132

    def is_better(self, one: Decimal, other: Decimal) -> bool:
        """For the investor."""
        return one < other if self.side == "1" else one > other


class Market(Script):
    """The venue, and a desk that is right."""

    def __init__(self, seed: int = 1) -> None:
        super().__init__("investor", seed)
        self.requests: list[Request] = []
        self.positions: dict[str, int] = {}
        self.did: list[tuple[str, dict[str, str]]] = []
        self.count, self.is_halted = 0, False
        self.dealers = [Firm(name, self.of_dealer) for name in ("ELGIN", "CALDER", "HARLOW")]
        self.stage.dealers = self.dealers  # type: ignore[assignment]
        acts: dict[str, Act] = {
            "ask": self.ask,
            "hit": self.hit,
            "hit what stands": self.hit_what_stands,
            "pass": self.passes,
            "position": self.position,
            "nothing": self.nothing,
        }
        self.developer.acts |= {do: self.noted(do, act) for do, act in acts.items()}

    def noted(self, do: str, act: Act) -> Act:
        def run(words: dict[str, str]) -> None:
            self.did.append((do, words))
            act(words)

        return run

    def order(self, *words: str) -> str:
        self.is_halted = words[0] == "halt"
        return super().order(*words)

    def next(self, kind: str) -> str:
        self.count += 1
        return "%s%d" % (kind, self.count)

    def of_name(self, name: str) -> Request:
        return next(one for one in self.requests if one.id == name)

    # ------------------------------------------------------------ the dealers that are played

    def of_dealer(self, firm: Firm, kind: str, given: list[tuple[int, str]]) -> None:
        fields, dealer = dict(given), firm.who.name
        if kind == "Z":
            self.withdraws(firm)
            return
        request = self.of_name(fields[131].removesuffix(" of " + dealer))
        if kind == "AG":
            if fields.get(658) == "10":  # the venue takes no decline without it
                self.line.venue("AI", {131: request.id, 297: "11"})
            return
        for other in [one for one, (whose, _) in request.quotes.items() if whose == dealer]:
            del request.quotes[other]
        name, price = self.next("V"), fields[request.price_tag]
        request.quotes[name] = dealer, Decimal(price)
        request.shown.append(request.quotes[name])
        firm.got.append(message("AI", {117: fields[117], 297: "0"}))
        self.line.venue("S", {131: request.id, 117: name, 448: dealer, request.price_tag: price})

    def withdraws(self, firm: Firm) -> None:
        for request in [one for one in self.requests if one.is_open]:
            for name in [
                one for one, (whose, _) in request.quotes.items() if whose == firm.who.name
            ]:
                del request.quotes[name]
                firm.got.append(message("AI", {117: name, 297: "17"}))
                self.line.venue("AI", {117: name, 297: "17"})

    # ------------------------------------------------------------ the desk, and what the venue says to it

    def ask(self, act: dict[str, str]) -> None:
        name, dealers = self.next("R"), act["dealers"].split(",")
        fields = [(131, name), (48, act["bond"]), (54, act["side"]), (38, act["quantity"])]
        fields += [(448, dealer) for dealer in dealers]
        self.line.seen.append(Seen(By.DESK, message_of(written("R", DESK, 1, fields)), 0.0, 1))
        quantity, seconds = int(act["quantity"]), int(act["seconds"])
        who = self.stage.venue.cast
        if self.is_halted:
            self.line.venue("j", {379: name})
        elif act["bond"] not in [bond.id for bond in who.bonds]:
            self.line.venue("AG", {131: name, 658: "1"})
        elif quantity > who.quantity:
            self.line.venue("AG", {131: name, 658: "3"})
        else:
            made = Request(name, act["bond"], act["side"], quantity, seconds, dealers)
            self.requests.append(made)
            self.line.venue("AI", {131: name, 297: "0"})
            for dealer in [one for one in self.dealers if one.who.name in dealers]:
                own = {131: "%s of %s" % (name, dealer.who.name), 48: act["bond"]}
                dealer.got.append(message("R", own))

    def hit(self, act: dict[str, str]) -> None:
        self.hits(self.of_name(act["request"]), act["quote"])

    def hit_what_stands(self, act: dict[str, str]) -> None:
        request = self.of_name(act["request"])
        (stands,) = request.quotes
        self.hits(request, stands)

    def hits(self, request: Request, quote: str) -> None:
        name = self.next("H")
        self.line.desk("AJ", {693: name, 694: "1", 117: quote})
        if not request.is_open or quote not in request.quotes:
            self.line.venue("AI", {693: name, 117: quote, 297: "5"})
            return
        request.is_open = False
        change = request.quantity if request.side == "1" else -request.quantity
        self.positions[request.bond] = self.positions.get(request.bond, 0) + change
        winner = next(one for one in self.dealers if one.who.name == request.quotes[quote][0])
        winner.got.append(message("AJ", {694: "1"}))
        self.line.venue("AI", {693: name, 117: quote, 297: "0"})

    def passes(self, act: dict[str, str]) -> None:
        name, request = self.next("P"), self.of_name(act["request"])
        request.is_open = False
        self.line.desk("AJ", {693: name, 694: "6", 131: request.id})
        self.line.venue("AI", {693: name, 131: request.id, 297: "11"})

    def nothing(self, act: dict[str, str]) -> None:
        request = self.of_name(act["request"])
        if request.seconds < SHORT:
            request.is_open = False
            self.line.venue("AI", {131: request.id, 297: "7"})

    def position(self, act: dict[str, str]) -> None:
        self.developer.enters = [str(self.positions.get(act["bond"], 0))]

    # ------------------------------------------------------------ what the desk was told to do

    def told(self, do: str) -> list[dict[str, str]]:
        return [words for done, words in self.did if done == do]


@pytest.fixture
def market(script: Script) -> Market:
    del script  # whose seconds it has
    return Market()


def failed_with(change: Any) -> set[str]:
    """The cases that fail on a market that was changed."""
    failed = set()
    for name, one in CASES.items():
        made = Market()
        change(made)
        try:
            one.play(made.stage)
        except Failed:
            failed.add(name)
    return failed


@pytest.mark.parametrize("name", CASES)
def test_a_right_desk_passes(market: Market, name: str) -> None:
    """No request stays open behind a case, nor a line that was held."""
    market.stage.begins(name, is_first=False)
    CASES[name].play(market.stage)
    assert market.stage.note == ""
    assert all(not one.is_open for one in market.requests)
    assert market.line.did.count("hold") == market.line.did.count("let_go")
    assert not market.is_halted


# How often each case has its desk ask, hit and pass; where it is told more, of how many dealers it asks.
SHAPES = {
    "ask-to-buy": (1, 0, 1),
    "ask-to-sell": (1, 0, 1),
    "ask-three": (1, 0, 1),
    "unknown-bond": (2, 0, 1),
    "too-much": (2, 0, 1),
    "hit-only": (1, 1, 0),
    "hit-one-of-three": (2, 2, 0),
    "hit-replaced": (1, 1, 0),
    "hit-gone": (1, 1, 1),
    "hit-in-the-race": (1, 1, 1),
    "hit-the-other": (2, 2, 0),
    "passed": (1, 0, 1),
    "expired": (1, 0, 0),
    "hit-late": (1, 1, 0),
    "declined": (1, 0, 1),
    "two-at-once": (2, 2, 0),
    "ten-at-once": (10, 0, 10),
    "halted": (2, 0, 1),
}
DEALERS = {"ask-three": 3, "hit-one-of-three": 3, "hit-the-other": 2}


@pytest.mark.parametrize("name", CASES)
def test_what_a_desk_is_told(market: Market, name: str) -> None:
    CASES[name].play(market.stage)
    hits = market.told("hit") + market.told("hit what stands")
    assert (len(market.told("ask")), len(hits), len(market.told("pass"))) == SHAPES[name]
    most = max(len(one["dealers"].split(",")) for one in market.told("ask"))
    assert most == DEALERS.get(name, 1)


def test_which_side_it_asks_for(market: Market) -> None:
    for name in ("ask-to-buy", "ask-to-sell"):
        CASES[name].play(market.stage)
    assert [one["side"] for one in market.told("ask")] == ["1", "2"]


def test_what_no_rule_of_thumb_finds(market: Market) -> None:
    """What replaces a quote is worse, and what stands beside one that is gone is worse than that was."""
    CASES["hit-replaced"].play(market.stage)
    (replaced,) = market.requests
    assert replaced.is_better(replaced.shown[0][1], replaced.shown[1][1])
    CASES["hit-the-other"].play(market.stage)
    for other in market.requests[1:]:
        (stands,) = other.quotes.values()
        (gone,) = [one for one in other.shown if one != stands]
        assert other.is_better(gone[1], stands[1])


@pytest.mark.parametrize("place", [0, -1])
def test_what_stands_is_found_by_no_rule(script: Script, place: int) -> None:
    """Who hits what was shown first, or last, hits what is gone, whatever is drawn; which comes first is drawn, too."""
    del script  # whose seconds it has
    first = set()
    for seed in range(1, 11):
        market = Market(seed)

        def hits(act: dict[str, str], of: Market = market) -> None:
            request = of.of_name(act["request"])
            ((name, stands),) = request.quotes.items()
            if len(of.requests) == 1:
                first.add(request.shown.index(stands))
            of.hits(request, name if request.shown[place] == stands else "gone")

        market.developer.acts["hit what stands"] = hits
        with fails("the desk has not sent a hit"):
            CASES["hit-the-other"].play(market.stage)
    assert first == {0, 1}


Shown = dict[str, Decimal]  # by 117, in the order in which they were shown
RULES: dict[str, Callable[[Shown], str]] = {
    "the first": lambda shown: list(shown)[0],
    "the second": lambda shown: list(shown)[1],
    "the last": lambda shown: list(shown)[-1],
    "the lowest": lambda shown: sorted(shown, key=shown.__getitem__)[0],
    "the middle": lambda shown: sorted(shown, key=shown.__getitem__)[1],
    "the highest": lambda shown: sorted(shown, key=shown.__getitem__)[-1],
}


@pytest.mark.parametrize("seed", range(1, 11))
def test_one_of_three_is_found_by_no_rule(script: Script, seed: int) -> None:
    """Whichever quotes are drawn, and whichever of them is to be hit."""
    del script  # whose seconds it has
    for rule, picks in RULES.items():
        market = Market(seed)

        def hit(act: dict[str, str], of: Market = market) -> None:
            request = of.of_name(act["request"])
            of.hits(request, picks({name: price for name, (_, price) in request.quotes.items()}))

        market.developer.acts["hit"] = hit
        with pytest.raises(Failed, match="has not sent a hit"):
            CASES["hit-one-of-three"].play(market.stage)
            pytest.fail("who hits %s passes" % rule)


def test_each_of_three_is_to_be_hit(script: Script) -> None:
    """So no desk has learnt which it is: each place and each price, on either side."""
    del script  # whose seconds it has
    places, ranks, sides = set(), set(), set()
    for seed in range(1, 21):
        market = Market(seed)
        CASES["hit-one-of-three"].play(market.stage)
        for at, (request, act) in enumerate(zip(market.requests, market.told("hit"))):
            prices = [price for _, price in request.shown]
            to_hit = request.quotes[act["quote"]][1]
            assert len(set(prices)) == 3
            places.add((at, prices.index(to_hit)))
            ranks.add((at, sorted(prices).index(to_hit)))
            sides.add(request.side)
    assert len(places) == len(ranks) == 6 and sides == {"1", "2"}


NOTHING = {
    "ask": set(CASES),
    "hit": {
        "hit-only",
        "hit-one-of-three",
        "hit-gone",
        "hit-in-the-race",
        "hit-late",
        "two-at-once",
    },
    "hit what stands": {"hit-replaced", "hit-the-other"},
    "pass": {name for name, (_, _, passes) in SHAPES.items() if passes},
    "nothing": {"expired", "hit-late"},
}


@pytest.mark.parametrize("act", NOTHING)
def test_a_desk_that_does_nothing(market: Market, act: str) -> None:
    """Where it is to let a request expire, it is the venue that does nothing."""
    del market

    def still(made: Market) -> None:
        made.developer.acts[act] = lambda _: None

    assert failed_with(still) == NOTHING[act]


def test_a_position_that_is_wrong(market: Market) -> None:
    """Each case at whose end it is known sees one that is another."""
    del market

    def wrong(made: Market) -> None:
        def enters(act: dict[str, str]) -> None:
            made.developer.enters = [str(made.positions.get(act["bond"], 0) + 1)]

        made.developer.acts["position"] = enters

    asks = {"ask-to-buy", "ask-to-sell", "ask-three", "unknown-bond", "too-much", "declined"}
    assert failed_with(wrong) == set(CASES) - asks - {"ten-at-once", "halted"}


def test_a_trade_of_the_other_side(market: Market) -> None:
    """Whoever buys has more."""
    del market

    def turned(made: Market) -> None:
        position = made.developer.acts["position"]

        def enters(act: dict[str, str]) -> None:
            position(act)
            made.developer.enters = [str(-int(made.developer.enters[0] or 0))]

        made.developer.acts["position"] = enters

    trades = {"hit-only", "hit-one-of-three", "hit-replaced", "hit-the-other", "two-at-once"}
    assert failed_with(turned) == trades


def test_a_venue_that_takes_each_hit(market: Market) -> None:
    """Three cases are about hits that it refuses."""
    del market

    def takes(made: Market) -> None:
        refused = made.line.venue

        def venue(kind: str, fields: Any = None, number: int = 1) -> Any:
            if kind == "AI" and fields and 693 in fields and fields[297] == "5":
                fields = {**fields, 297: "0"}
            return refused(kind, fields, number)

        made.line.venue = venue  # type: ignore[assignment]

    assert failed_with(takes) == {"hit-gone", "hit-in-the-race", "hit-late"}


def test_what_a_desk_refuses_by_itself(market: Market) -> None:
    """What may be refused is noted, and the desk goes on."""
    del market
    for name in ("unknown-bond", "too-much", "hit-gone", "hit-late"):
        made = Market()

        def refuses(act: Any, of: Market = made) -> None:
            task: Any = of.developer.now()["task"]
            if task["may_refuse"]:
                of.developer.enter(task["number"], "refused")
            elif act["do"] == "ask":
                of.ask(act)
            else:
                of.hit(act)

        made.developer.acts |= {"ask": refuses, "hit": refuses}
        CASES[name].play(made.stage)
        assert made.stage.note == "the desk refuses it by itself", name


@pytest.mark.parametrize(
    "field, words", [("dealers", "names"), ("side", "field 54"), ("quantity", "field 38")]
)
def test_a_request_that_is_another(market: Market, field: str, words: str) -> None:
    """Also one that the venue refuses is to be the one that was told."""
    other = {"dealers": "HARLOW", "side": "2", "quantity": "7"}[field]
    for name in ("ask-to-buy", "unknown-bond", "too-much"):
        made = Market()
        made.developer.acts["ask"] = lambda act, of=made: of.ask({**act, field: other})  # type: ignore[misc]
        with fails(words):
            CASES[name].play(made.stage)


def test_a_halt_ends_whatever_happens(market: Market) -> None:
    market.developer.acts["ask"] = lambda _: None
    with fails("has not sent a QuoteRequest"):
        CASES["halted"].play(market.stage)
    assert [one.split()[0] for one in market.orders] == ["halt", "resume"]


def test_a_trade_that_is_told(market: Market) -> None:
    """What it changes, and which message tells it."""
    trade = HitAct.trades(market.stage)
    (request,) = market.requests
    assert trade.bond.id == request.bond
    assert trade.change == market.positions[request.bond]
    (quote,) = request.quotes
    assert trade.fits(message("AI", {117: quote, 297: "0"}))
    assert not trade.fits(message("AI", {117: quote, 297: "5"}))
    assert not trade.fits(message("AI", {117: "other", 297: "0"}))


def test_a_trade_whose_answer_is_lost(market: Market) -> None:
    """The line is held until the dealer knows that it has won, then cut, and the desk is not let in again."""
    trade = HitAct.trades_away(market.stage)
    assert market.line.did == ["hold", "refuse True", "cut", "let_go"]
    assert trade.change == market.positions[market.requests[0].bond]
