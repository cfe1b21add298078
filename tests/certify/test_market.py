"""What a case takes for right and for wrong in the market, and what it asks of the developer, on a line whose both ends a test
speaks for."""

from __future__ import annotations

from dataclasses import replace
from datetime import datetime, timezone
from decimal import Decimal

import pytest
from mireseason_certify import dealer_acts, dealer_cases, dealer_session, investor_session
from mireseason_certify.dealer_acts import check_quote, quoted, refused_quote, worse
from mireseason_certify.dealer_session import QuoteAct
from mireseason_certify.frames import Message, time_text
from mireseason_certify.investor_acts import check_request, hit, refused_hit
from mireseason_certify.investor_session import HitAct
from mireseason_certify.own_venue import Bond
from mireseason_certify.stage import Request, is_kind, is_reply, same_price

from tests.certify.scripted import DESK, Played, Script, fails, message

BOND = Bond("XSABCD000001", 32)
BUY, SELL = (Request("R1", "own", BOND, side, 500) for side in "12")


def test_a_price_however_it_is_written() -> None:
    for text in ("99.5", "99.50", "0099.5", "9.95E1"):
        assert same_price(text, Decimal("99.5"))
    assert not any(same_price(text, Decimal("99.5")) for text in ("99.51", "", "x", "99,5"))


def test_a_moment_however_fine_it_is() -> None:
    """A UTCTimestamp has milliseconds, and is no later than the moment."""
    moment = datetime(2026, 11, 25, 9, 0, 10, 41_999, tzinfo=timezone.utc)
    assert time_text(moment) == "20261125-09:00:10.041"


def test_what_a_trade_changes() -> None:
    """The buyer has more."""
    assert (BUY.change(is_dealer=True), BUY.change(is_dealer=False)) == (-500, 500)
    assert (SELL.change(is_dealer=True), SELL.change(is_dealer=False)) == (500, -500)
    assert (BUY.price_tag, SELL.price_tag) == (133, 132)
    assert worse(BUY, Decimal(99), 4) == Decimal("99.125")
    assert worse(SELL, Decimal(99)) == Decimal("98.96875")


QUOTE = {131: "R1", 48: BOND.id, 133: "99.5", 117: "q"}
QUOTES = {
    "another bond": ({48: "XS"}, r"is of another bond \(48\)"),
    "another price": ({133: "99"}, r"the Quote's price \(133\) is not 99.5"),
    "a price of both sides": ({132: "99"}, "a price of the side that is not asked"),
}


@pytest.mark.parametrize("name", QUOTES)
def test_a_quote_that_is_another(name: str) -> None:
    fields, words = QUOTES[name]
    check_quote(BUY, Decimal("99.5"), message("S", QUOTE))
    with fails(words):
        check_quote(BUY, Decimal("99.5"), message("S", QUOTE | fields))


def test_a_bid() -> None:
    fields = {131: "R1", 48: BOND.id, 132: "99.5"}
    check_quote(SELL, Decimal("99.5"), message("S", fields))
    with fails("a price of the side that is not asked"):
        check_quote(SELL, Decimal("99.5"), message("S", fields | {133: "99.5"}))


def request(side: str, quantity: int, *dealers: str) -> Message:
    said = message("R", {54: side, 38: str(quantity)})
    return Message(said.raw, (*said.fields, *((448, name) for name in dealers)))


def test_a_request_that_is_another() -> None:
    check_request(request("1", 500, "B", "A"), "1", 500, ["A", "B"])
    with fails("the request's field 54 is not 1"):
        check_request(request("2", 500, "A"), "1", 500, ["A"])
    with fails("the request's field 38 is not 500"):
        check_request(request("1", 5000, "A"), "1", 500, ["A"])
    with fails(r"the request names A, and not A, B \(448\)"):
        check_request(request("1", 500, "A"), "1", 500, ["A", "B"])
    with fails("the request names no dealer, and not A"):
        check_request(request("1", 500), "1", 500, ["A"])


def test_a_quote_that_the_desk_refuses_by_itself(script: Script) -> None:
    """It is noted; and where it sends one, the venue has to refuse that."""
    tasks = script.developer.tasks
    script.developer.acts["quote"] = lambda act: script.developer.enter(len(tasks), "refused")
    refused_quote(script.stage, BUY, Decimal("99.5"), ", which is none", "8")
    assert script.stage.note == "the desk refuses it by itself"
    assert (
        "Quote 99.5 on your request R1 (the investor buys, XSABCD000001 of 500), which is none."
        in (script.developer.tasks)
    )
    refused_quote(script.stage, SELL, Decimal("100"), "", "8")
    words = "Quote 100 on your request R1 (the investor sells, XSABCD000001 of 500)."
    assert script.developer.tasks[-1] == words
    script.line.desk("S", QUOTE)
    with fails("the venue was to send that it refuses q"):
        refused_quote(script.stage, BUY, Decimal("99.5"), "", "8")
    script.line.venue("AI", {117: "q", 297: "5", 300: "4"})
    with fails("the venue was to send that it refuses q"):
        refused_quote(script.stage, BUY, Decimal("99.5"), "", "8")
    script.line.venue("AI", {117: "q", 297: "5", 300: "8"})
    refused_quote(script.stage, BUY, Decimal("99.5"), "", "8")


def test_what_the_venue_has_rejected_is_told(script: Script) -> None:
    """The last of them, where something does not come."""
    script.line.desk("3", {58: "of the desk"})
    script.line.venue("j", {58: "first"})
    script.line.venue("3", {58: "last"})
    with fails("which does not reach the desk; it has sent .*58=last"):
        script.stage.venue_sends("x", is_kind("Z"))
    script.stage.goes_on()
    with fails("which does not reach the desk$"):
        script.stage.venue_sends("x", is_kind("Z"))


def test_what_must_not_come(script: Script) -> None:
    script.stage.sends_nothing("a cancel", is_kind("Z"))
    script.line.desk("Z")
    with fails("the desk has sent a cancel: 8=FIXT"):
        script.stage.sends_nothing("a cancel", is_kind("Z"))


def test_replies() -> None:
    said = message("AI", {693: "h", 297: "5", 300: "4"})
    fit = [("693", "h", "5"), ("693", "h", "5", "4")]
    none = [("693", "x", "5"), ("117", "h", "5"), ("693", "h", "0"), ("693", "h", "5", "3")]
    assert all(is_reply(*words)(said) for words in fit)
    assert not any(is_reply(*words)(said) for words in none)
    assert not is_reply("693", "h", "5")(message("AJ", {693: "h", 297: "5"}))
    assert is_kind("AI", _297="5", _300="4")(said)
    assert not is_kind("AI", _297="5", _300="3")(said) and not is_kind("AJ")(said)


# ---------------------------------------------------------------- the developer


@pytest.mark.parametrize(
    "entered, held",
    [(["500"], 500), (["-1,500"], -1500), (["1_000"], 1000), (["x", "500"], None), ([None], None)],
)
def test_a_position(script: Script, entered: list[str | None], held: int | None) -> None:
    script.developer.enters = entered
    script.stage.case = "won"
    asked: list[object] = []
    act = {"position": lambda _: asked.append(script.developer.now()["task"])}
    script.developer.acts.update(act)
    if held is not None:
        assert script.stage.position(BOND) == held
        assert asked[0]["case"] == "won" and asked[0]["asks"]  # type: ignore[index]
        assert script.developer.now()["task"] is None
        assert BOND.id in script.developer.tasks[0]
        return
    with fails("no position was entered for XSABCD000001, but (None|'x')"):
        script.stage.position(BOND)


@pytest.mark.parametrize("entered, is_right", [(["5"], 1), (["0", "5"], 1), (["0", "4"], 0)])
def test_a_position_that_has_to_be(script: Script, entered: list[str], is_right: bool) -> None:
    """Whoever reads it off is asked once more."""
    script.developer.enters = [*entered]
    if is_right:
        script.stage.holds(BOND, 5)
        assert script.developer.enters == []
        return
    with fails("the desk's position in XSABCD000001 is 4, and has to be 5"):
        script.stage.holds(BOND, 5)


@pytest.mark.parametrize("held, note", [("500", ""), ("0", "lost with its store"), ("1000", None)])
def test_a_trade_that_is_told_twice(script: Script, held: str, note: str | None) -> None:
    script.developer.enters = [held]
    if note is None:
        with fails(r"is 1000, and has to be 500: the copy \(97=Y\) is no other trade"):
            script.stage.holds_once(BOND, 500)
        return
    script.stage.holds_once(BOND, 500)
    assert note in script.stage.note and bool(note) == bool(script.stage.note)


def test_what_a_case_begins_and_ends_with(script: Script) -> None:
    """The first one has all that was seen. At the end faults are over, and no request stays open."""
    script.line.desk("A")
    script.stage.begins("logon", is_first=True)
    assert (script.stage.case, script.stage.place) == ("logon", 0)
    script.stage.note = "x"
    script.stage.begins("won", is_first=False)
    assert (script.stage.place, script.stage.note) == (1, "")
    script.stage.task("Do nothing.", "nothing", more=7)
    assert script.developer.now()["task"]["act"] == {"do": "nothing", "more": "7"}  # type: ignore[index]
    investor = script.investors[0]
    script.stage.open = [(investor, "a"), (investor, "b")]  # type: ignore[list-item]
    script.stage.closed("a")
    script.stage.ends()
    assert script.line.did == ["forget_losses", "refuse False", "pause False", "let_go"]
    ((kind, fields),) = investor.sent
    assert (kind, sorted(fields), fields[131], fields[694]) == ("AJ", [131, 693, 694], "b", "6")
    assert script.stage.open == [] and script.developer.now()["task"] is None


def test_who_asked_takes_the_offer(script: Script) -> None:
    """Of several investors nobody else was shown it."""
    asked, other = script.investors[0], Played("OTHER")
    script.stage.investors = [asked, other]  # type: ignore[list-item]
    script.stage.open = [(asked, "own")]  # type: ignore[list-item]
    dealer_acts.hit(script.stage, BUY, message("S", {117: "Q1"}))
    ((kind, fields),) = asked.sent
    assert (kind, fields[117], fields[694], other.sent) == ("AJ", "Q1", "1", [])
    assert script.stage.open == []


def test_a_venue_that_is_killed(script: Script) -> None:
    """All firms that are played go, and come back once it is there."""
    script.stage.restart()
    firms = [*script.dealers, *script.investors]
    assert all(firm.did == ["log_out", "log_on"] for firm in firms)
    assert len(script.orders) == 2


def test_how_long_a_deadline_is(script: Script) -> None:
    script.stage.patience = 100.0
    assert script.stage.soon == 65.0 and script.stage.desk == DESK


# ---------------------------------------------------------------- whole cases, by a desk that a test plays


def withdraws(script: Script, **other: str) -> None:
    """The desk withdraws the quote that it is told, or what a field says in its place."""

    def act(needs: dict[str, str]) -> None:
        fields = {298: "5", 117: needs["quote"]}
        fields |= {int(name[1:]): value for name, value in other.items()}
        script.line.desk("Z", fields)
        script.line.venue("AI", {117: needs["quote"], 297: "17"})

    script.developer.acts["withdraw"] = act


@pytest.mark.parametrize("place", [0, 1])
@pytest.mark.parametrize("other", [{}, {"_117": "the other"}, {"_298": "4"}])
def test_one_quote_of_two_is_withdrawn(
    script: Script, other: dict[str, str], place: int, monkeypatch: pytest.MonkeyPatch
) -> None:
    """The first or the second, and it alone."""
    requests, names = iter([BUY, replace(SELL, id="R2")]), iter(["q1", "q2"])
    monkeypatch.setattr(script.stage.draw, "shuffled", lambda _: [place])
    monkeypatch.setattr(dealer_cases, "ask", lambda _: next(requests))
    monkeypatch.setattr(dealer_cases, "quote", lambda *_: next(names))
    ended: list[str] = []
    monkeypatch.setattr(dealer_cases, "passed", lambda _, request: ended.append(request.id))
    withdraws(
        script,
        **{tag: value.replace("the other", "q%d" % (2 - place)) for tag, value in other.items()},
    )
    if not other:
        dealer_cases.withdrawn_one_of_two(script.stage)
        assert script.developer.tasks == ["Withdraw your quote on R%d alone." % (place + 1)]
        assert ended == ["R1", "R2"]
        return
    with fails("the cancel is not of q%d alone" % (place + 1)):
        dealer_cases.withdrawn_one_of_two(script.stage)


@pytest.mark.parametrize("reply, words", [("0", ""), ("5", "the venue refuses the hit: 8=FIXT")])
def test_a_hit(script: Script, reply: str, words: str) -> None:
    offer = message("S", {117: "q", 448: "ELGIN", 133: "99.5"})

    def hits(_: object) -> None:
        script.line.desk("AJ", {693: "h", 694: "1", 117: "q"})
        script.line.venue("AI", {693: "h", 297: reply})

    script.developer.acts["hit"] = hits
    if not words:
        hit(script.stage, BUY, offer)
        assert script.developer.tasks == ["Hit the quote q of ELGIN at 99.5 on your request R1."]
        return
    with fails(words):
        hit(script.stage, BUY, offer)


def test_a_quote_that_the_venue_refuses(script: Script) -> None:
    script.line.desk("S", QUOTE)
    with fails("the venue was to send what became of q"):
        quoted(script.stage, BUY, Decimal("99.5"))
    script.line.venue("AI", {117: "q", 297: "5"})
    with fails("the venue refuses the quote: 8=FIXT"):
        quoted(script.stage, BUY, Decimal("99.5"))
    script.line.seen.pop()
    script.line.venue("AI", {117: "q", 297: "0"})
    assert quoted(script.stage, BUY, Decimal("99.5")) == "q"


def test_a_trade_of_an_investor_who_is_away(
    script: Script, monkeypatch: pytest.MonkeyPatch
) -> None:
    """What the venue says of its hit is held back until its line is cut."""
    offer = message("S", {117: "q", 448: "ELGIN", 133: "99.5"})
    monkeypatch.setattr(investor_session, "ask", lambda _: BUY)
    monkeypatch.setattr(investor_session, "dealer_quotes", lambda *_: offer)
    act = {"hit": lambda _: script.line.desk("AJ", {693: "h", 694: "1", 117: "q"})}
    script.developer.acts.update(act)
    trade = HitAct.trades_away(script.stage)
    assert script.line.did == ["hold", "refuse True", "cut", "let_go"]
    assert (trade.bond, trade.change) == (BOND, 500)
    assert trade.fits(message("AI", {117: "q", 297: "0"}))
    assert script.developer.now()["task"] is None


def test_a_hit_that_has_to_be_refused(script: Script) -> None:
    """By the venue, or by the desk itself."""
    offer = message("S", {117: "q", 448: "ELGIN", 133: "99.5"})
    script.developer.acts["hit"] = lambda _: script.developer.enter(1, "refused")
    refused_hit(script.stage, BUY, offer, ", though it is gone")
    assert script.stage.note == "the desk refuses it by itself"
    assert script.developer.tasks[0].endswith(" on your request R1, though it is gone.")
    script.line.desk("AJ", {693: "h", 694: "1", 117: "q"})
    script.line.venue("AI", {693: "h", 297: "0"})
    with fails("the venue was to send that the hit is refused"):
        refused_hit(script.stage, BUY, offer, "")
    script.line.venue("AI", {693: "h", 297: "5"})
    refused_hit(script.stage, BUY, offer, "")


def test_what_an_investors_act_looks_for(script: Script, monkeypatch: pytest.MonkeyPatch) -> None:
    """A hit of the quote on the request that the desk has made, which the venue awards."""
    monkeypatch.setattr(investor_session, "ask", lambda _: BUY)
    quoted_by: list[str] = []
    sends = lambda _, dealer, *__: quoted_by.append(dealer.who.name)  # noqa: E731
    monkeypatch.setattr(investor_session, "sends_quote", sends)
    act = HitAct(script.stage)
    act.prepare(script.stage)
    assert quoted_by == ["ELGIN"]
    with fails("the venue was to send the quote"):
        act.tell(script.stage)
    script.line.venue("S", {131: "R1", 117: "q", 448: "ELGIN", 133: "99.5"})
    act.tell(script.stage)
    assert script.developer.tasks == ["Hit the quote q of ELGIN at 99.5 on your request R1."]
    hit_, pass_ = message("AJ", {694: "1"}), message("AJ", {694: "6"})
    assert act.fits(hit_) and not act.fits(pass_) and not act.fits(message("S", {694: "1"}))
    script.line.desk("AJ", {693: "h", 694: "1", 117: "q"})
    with fails("the venue was to send what became of the hit"):
        act.is_taken(script.stage)
    script.line.venue("AI", {693: "h", 297: "5"})
    with fails("the venue refuses the hit"):
        act.is_taken(script.stage)
    script.line.seen.pop()
    script.line.venue("AI", {693: "h", 297: "0"})
    act.is_taken(script.stage)


def test_what_a_dealers_act_looks_for(script: Script, monkeypatch: pytest.MonkeyPatch) -> None:
    """A quote on the bond of the request that it was shown; none before there is one."""
    act = QuoteAct(script.stage)
    assert not act.fits(message("S", QUOTE))
    monkeypatch.setattr(dealer_session, "asked", lambda _: ("own", BOND, "1", 500))
    act.prepare(script.stage)
    assert act.fits(message("S", QUOTE)) and not act.fits(message("S", QUOTE | {48: "XS"}))
    assert not act.fits(message("AJ", QUOTE))
    script.line.venue("R", {48: BOND.id, 131: "R1"})
    act.tell(script.stage)
    assert "on your request R1 (the investor buys, XSABCD000001 of 500)" in (
        script.developer.tasks[0]
    )
    script.line.desk("S", QUOTE)
    script.line.venue("AI", {117: "q", 297: "5"})
    with fails("the venue refuses the quote"):
        act.is_taken(script.stage)


def test_a_halt_is_over_whatever_comes(script: Script, monkeypatch: pytest.MonkeyPatch) -> None:
    """The desk quotes while the market is halted, which is not taken, and again behind it."""
    did: list[str] = []
    monkeypatch.setattr(dealer_cases, "ask", lambda _: BUY)
    monkeypatch.setattr(dealer_cases, "quote", lambda *_: did.append("quote"))
    monkeypatch.setattr(dealer_cases, "passed", lambda *_: did.append("passed"))
    monkeypatch.setattr(script.stage.draw, "price", lambda _: Decimal("99.5"))
    with fails("the desk has not sent a Quote"):
        dealer_cases.halted(script.stage)
    assert script.orders == ["halt --because a conformance case", "resume"] and did == []

    def quotes(_: object) -> None:
        assert script.orders[-1].startswith("halt")
        script.line.desk("S", QUOTE)
        script.line.venue("j", {379: "q"})

    script.developer.acts["quote"] = quotes
    dealer_cases.halted(script.stage)
    assert script.orders[-2:] == ["halt --because a conformance case", "resume"]
    assert did == ["quote", "passed"]
    assert ", though the market is halted." in script.developer.tasks[-1]
