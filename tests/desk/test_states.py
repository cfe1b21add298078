"""The state is the server's: windows, restarts, lost connections, races. No browser is needed for most of it."""

import json
import os
import random
import signal
import time

from selenium.webdriver.common.keys import Keys

from tests.desk.conftest import House, hash_of
from tests.desk.desks import PASSWORD
from tests.desk.view import Json, View, ask, log_in, own, upgrade
from tests.gateway.door import bring_to_a_stop
from tests.gateway.wait import LONG, until

POINT = 256
ANOTHER = "another password"
LASTS = 12 * 3600  # seconds that a login lasts
UPDATE = 2048  # bytes of a message that tells one quote
DELIVERED_WITHIN = 5  # seconds: what was not delivered by then never is


def one_open(house: House) -> tuple[View, View, str, str]:
    """The views of an investor and a dealer, and both sides' names of an open request."""
    investor, dealer = house.view(house.investor), house.view(house.dealer)
    asked = investor.ask_for(["DLR1"])
    return investor, dealer, asked, dealer.wait_shown(1)


def settled(view: View) -> dict[str, Json]:
    """All requests, once nothing is pending."""
    view.until(
        "nothing is pending", lambda: not any(one["pending"] for one in view.requests.values())
    )
    return view.requests


def test_two_windows_and_a_restart_show_the_same(house: House) -> None:
    investor, dealer, asked, shown = one_open(house)
    window = house.view(house.investor, "tom")
    dealer.quote(shown, 99 * POINT)
    window.until("the quote is in the other window", lambda: window.requests[asked]["quotes"])
    window.until("both show the same", lambda: window.requests == investor.requests)
    dealer.quote(shown, 98 * POINT)
    house.dealer.kill()
    house.dealer.start()
    again = house.view(house.dealer)
    assert again.requests == dealer.requests
    again.until("the exposure is the same", lambda: again.session["exposure"] == 2_000_000)
    assert again.live(shown) == dealer.live(shown)


# Of what a page is told, the bytes of the longest message since it was last set to 0.
LONGEST = """window.longest = 0;
const Real = window.WebSocket;
window.WebSocket = class extends Real {
  constructor(...words) {
    super(...words);
    this.addEventListener('message', event => {
      window.longest = Math.max(window.longest, new TextEncoder().encode(event.data).length);
    });
  }
};"""


def test_an_update_has_what_changed(house: House) -> None:
    """With sixty quotes no message that a page is told is longer than one quote's, and it shows the last one and all before."""
    investor, dealer, asked, shown = one_open(house)
    pages = [house.browser(house.investor), house.browser(house.dealer)]
    for page in pages:
        page.driver.execute_cdp_cmd("Page.addScriptToEvaluateOnNewDocument", {"source": LONGEST})
        page.driver.refresh()
        page.card_says("Alder")
        page.script("window.longest = 0")
    for count in range(60):
        dealer.quote(shown, 99 * POINT + count)
    last = 99 * POINT + 59
    investor.until("the last", lambda: investor.last_price(asked) == last)
    for page in pages:
        page.card_says("99.23046875")
        longest = page.script("return window.longest")
        assert 0 < longest < UPDATE, "a page is told %d bytes at once" % longest
    for view, name in ((investor, asked), (dealer, shown)):
        assert view.sizes["changes"] < UPDATE < len(json.dumps(view.requests[name]))
        again = house.view(view.desk)
        again.until("the same", lambda: again.requests == view.requests)  # noqa: B023


def test_a_login_outlives_a_restart(house: House) -> None:
    """Whoever was logged in goes on, and does not who has another password by now."""
    desk = house.investor
    ticket = log_in(desk)
    desk.stop()
    desk.start()
    assert View(desk, ticket=ticket).hello["firm"] == "INV1"
    desk.stop()
    desk.hashed = hash_of(desk.program, ANOTHER)
    desk.write()
    desk.start()
    here = "127.0.0.1:%d" % desk.port.number
    assert upgrade(desk.port.number, here, desk.origin, ticket.cookie)[1] == 403
    assert View(desk, ticket=log_in(desk, password=ANOTHER)).hello["firm"] == "INV1"


def test_a_login_lasts_for_twelve_hours(house: House) -> None:
    """The browser keeps its cookie for so long; after that it is of no use."""
    desk = house.investor
    login = json.dumps({"login": "tess", "password": PASSWORD}).encode()
    cookie = ask(desk.port.number, "POST", "/login", own(desk), login).headers["Set-Cookie"]
    assert "; Max-Age=%d;" % LASTS in cookie + ";"
    desk.stop()
    kept = desk.data / "sessions.json"
    sessions = json.loads(kept.read_text())
    for one in sessions.values():
        assert 0 <= time.time() + LASTS - one["until"] / 1000 < LONG, one
        one["until"] -= LASTS * 1000
    kept.write_text(json.dumps(sessions))
    desk.start()
    here = "127.0.0.1:%d" % desk.port.number
    assert sessions and upgrade(desk.port.number, here, desk.origin, cookie.split(";")[0])[1] == 403


def test_desks_are_killed_at_random_moments(house: House, seed: int) -> None:
    """Whatever was sent is answered once or told as never delivered, and both sides know the same trades."""
    draw = random.Random(seed)
    investor, dealer = house.view(house.investor), house.view(house.dealer)
    trades = 0
    for count in range(6):
        asked = investor.ask_for(["DLR1"])
        shown = dealer.wait_shown(count + 1)
        dealer.quote(shown, (99 + count) * POINT)
        investor.until("the quote", lambda: investor.requests[asked]["quotes"])
        act_and_kill(house, draw, investor, dealer, asked, shown)
        investor, dealer = house.view(house.investor), house.view(house.dealer)
        investor_day, dealer_day = settled(investor), settled(dealer)
        end = investor_day[asked]["state"]
        dealer.until(
            "both sides agree",
            lambda: bool((dealer.requests[shown]["state"] == "done") == (end == "done")),
        )
        trades += end == "done"
        if end == "open":
            assert investor.act(do="pass", request=asked) == ""
            investor.until("it is passed", lambda: investor.requests[asked]["state"] == "passed")
        dealer.until("it has ended", lambda: dealer.requests[shown]["state"] != "open")
        assert (
            dealer_day is not None and not dealer.session["alarm"] and not investor.session["alarm"]
        )
    assert sum(one["state"] == "done" for one in dealer.requests.values()) == trades
    dealer.until("no quote is live", lambda: dealer.session["exposure"] == 0)


def act_and_kill(
    house: House, draw: random.Random, investor: View, dealer: View, asked: str, shown: str
) -> None:
    """A hit and a replacement at one time, and an end of one of the desks soon after."""
    victim = draw.choice((house.investor, house.dealer))
    live = dealer.live(shown)
    assert live is not None
    quote = investor.requests[asked]["quotes"][-1]
    dealer.send(
        {
            "do": "quote",
            "request": shown,
            "price": live["price"] - POINT,
            "seconds": 0,
            "replaces": live["id"],
            "number": 1_000_000,
        }
    )
    investor.send(
        {
            "do": "hit",
            "request": asked,
            "quote": quote["id"],
            "price": quote["price"],
            "number": 1_000_000,
        }
    )
    time.sleep(
        draw.choice((0, 0.001, 0.003, 0.01, 0.03, 0.1))
    )  # the moment of the end is drawn: no wait for anything
    victim.kill()
    victim.start()


def sent_request(investor: View) -> str:
    """A request that the desk has sent, and that nobody has answered; its name."""
    before = set(investor.requests)
    words: Json = {"bond": "BONDA0000001", "side": "buy", "quantity": 1_000_000, "seconds": 600}
    assert investor.act(do="ask", dealers=["DLR1"], **words) == ""
    investor.until("the request is sent", lambda: len(investor.requests) > len(before))
    return next(name for name in investor.requests if name not in before)


def test_what_could_not_be_delivered_never_is(house: House) -> None:
    """A quote, a hit and a request that a stopped gateway did not read are told as never delivered; a cancel goes."""
    investor, dealer, asked, shown = one_open(house)
    dealer.quote(shown, 99 * POINT)
    investor.until("the quote", lambda: investor.requests[asked]["quotes"])
    gateway = house.door.process
    assert gateway is not None
    bring_to_a_stop(gateway.pid)
    assert investor.hit(asked, "DLR1") == ""
    live = dealer.live(shown)
    assert live is not None
    assert (
        dealer.act(do="quote", request=shown, price=98 * POINT, seconds=0, replaces=live["id"])
        == ""
    )
    assert dealer.act(do="withdraw", request=shown) == ""
    assert "Wait" in investor.hit(asked, "DLR1")
    late = sent_request(investor)
    dealer.until("both are sent", lambda: len(dealer.requests[shown]["pending"]) == 2)
    sent = time.monotonic()
    until("it is too old", LONG, lambda: time.monotonic() > sent + DELIVERED_WITHIN + 1)
    os.kill(gateway.pid, signal.SIGKILL)
    gateway.wait()
    for view in (investor, dealer):
        view.until("the line is down", lambda: not view.session["on"])
    assert "nothing was sent" in investor.hit(asked, "DLR1")
    house.open_gateway()
    for view in (investor, dealer):
        view.wait_on()
    investor.until("the hit is settled", lambda: not investor.requests[asked]["pending"])
    investor.until("the request is settled", lambda: investor.requests[late]["state"] != "sent")
    dealer.until("the dealer's are settled", lambda: not dealer.requests[shown]["pending"])
    assert investor.requests[asked]["state"] == "open"
    assert "never delivered" in investor.requests[asked]["told"]["text"]
    assert investor.requests[late]["state"] == "undelivered"
    states = [quote["state"] for quote in dealer.requests[shown]["quotes"]]
    assert states == ["withdrawn", "undelivered"], states
    investor.until(
        "the quote is gone", lambda: investor.requests[asked]["quotes"][0]["state"] == "gone"
    )


def test_a_cancel_waits_for_the_venue(house: House) -> None:
    """While the line is down a dealer is told what may be hit, nothing binding is sent, and a cancel of all is kept."""
    investor, _, asked, shown = one_open(house)
    page = house.browser(house.dealer)
    page.quote("99.5")
    page.card_says("Live 99.5")
    investor.until("the quote", lambda: investor.requests[asked]["quotes"])
    house.door.kill()
    page.until_says("#top", "Venue not connected since")
    page.until_says(
        "#alarm",
        "may still stand at the venue and be hit",
        "offer 2,000,000 Alder 4.125 03/29 at 99.5",
    )
    page.card_says("it may still stand, and be hit")
    assert not page.in_card("button.send").is_enabled()
    page.press(Keys.F9)
    page.card_says("Withdrawal not answered: it is delivered as soon as the venue is back")
    house.open_gateway()
    page.until_says("#top", "Venue connected", "Exposure 0 of")
    page.card_says("No live quote")
    investor.until(
        "the quote is gone", lambda: investor.requests[asked]["quotes"][0]["state"] == "gone"
    )


def test_a_desk_that_goes_and_comes_back_under_its_page(house: House) -> None:
    _, dealer, _, shown = one_open(house)
    page = house.browser(house.investor)
    dealer.quote(shown, 99 * POINT)
    page.card_says("99", "Buy")
    house.investor.kill()
    page.until_says("#top", "No connection to the desk: trying")
    page.until("nothing can be hit", lambda: not page.in_card("button.hit").is_enabled())
    house.investor.start()
    page.until_says("#top", "Venue connected")
    page.card_says("99", "Buy")
    page.driver.refresh()
    page.card_says("99", "Buy")


def test_the_keys_stay_where_the_work_is(house: House) -> None:
    """Behind a withdrawal and a decline, and when the desk comes back: on the card, in the table, or in the ticket, which says
    no more that nothing was sent."""
    investor, _, _, _ = one_open(house)
    dealer, page = house.browser(house.dealer), house.browser(house.investor)
    dealer.quote("99.5")
    dealer.card_says("Live 99.5")
    dealer.in_card("button.withdraw").send_keys(Keys.ENTER)
    dealer.card_says("No live quote")
    dealer.until("the keys are on the card", lambda: dealer.script(ON_CARD))
    dealer.press_twice("button.decline")
    dealer.card_says("Declined")
    dealer.until("the keys are on the card", lambda: dealer.script(ON_CARD))
    investor.ask_for(["DLR1"], bond="BONDC0000003")
    dealer.card_says("Cedar")
    dealer.press(Keys.F2)
    page.press(Keys.F2, "cedar", Keys.ENTER)
    for desk in (house.dealer, house.investor):
        desk.kill()
    for one in (dealer, page):
        one.until_says("#top", "No connection to the desk")
    page.ask("cedar", "buy", "1m")
    page.until_says(".ticket", "No connection to the desk: nothing was sent.")
    for desk in (house.dealer, house.investor):
        desk.start()
    for one in (dealer, page):
        one.until_says("#top", "Venue connected")
    dealer.until(
        "the keys are in the price",
        lambda: "Cedar" in dealer.focused() and dealer.focused().startswith("Offer for"),
    )
    page.until_silent(".ticket", "nothing was sent")
    assert page.script("return document.getElementById('ticket').contains(document.activeElement)")
    dealer.press(Keys.F8)
    house.dealer.stop()
    dealer.until_says("#top", "No connection to the desk")
    house.dealer.start()
    dealer.until_says("#top", "Venue connected")
    dealer.until(
        "the keys are in the table",
        lambda: dealer.script(
            "return document.getElementById('table').contains(document.activeElement)"
        ),
    )
    dealer.click("#logout")
    dealer.until_says(".login", "Desk of DLR1")


ON_CARD = "return document.activeElement.closest('article.card') !== null && document.activeElement.checkVisibility()"


def test_a_page_has_the_dealers_of_a_desk_that_was_started_with_more(house: House) -> None:
    desk = house.investor
    page = house.browser(desk)
    page.until_says("#ticket", "DLR1")
    desk.stop()
    page.until_says("#top", "No connection to the desk: trying")
    market = desk.folder / "INV1.market.toml"
    market.write_text(market.read_text() + '[[dealer]]\nname = "DLR9"\n')
    desk.start()
    page.until_says("#ticket", "DLR1", "DLR9")


def test_a_quote_that_is_withdrawn_at_the_moment_of_the_hit(house: House) -> None:
    """The venue decides it once: both sides show the same, whichever it is."""
    investor, dealer = house.view(house.investor), house.view(house.dealer)
    for count in range(5):
        asked = investor.ask_for(["DLR1"])
        shown = dealer.wait_shown(count + 1)
        dealer.quote(shown, 99 * POINT)
        investor.until("the quote", lambda: investor.requests[asked]["quotes"])
        quote = investor.requests[asked]["quotes"][0]
        first, second = (dealer, investor) if count % 2 else (investor, dealer)
        for view in (first, second):
            hit = {
                "do": "hit",
                "request": asked,
                "quote": quote["id"],
                "price": quote["price"],
                "number": 900 + count,
            }
            view.send(
                hit
                if view is investor
                else {"do": "withdraw", "request": shown, "number": 900 + count}
            )
        for view in (first, second):
            view.until("the desk has sent it", lambda: 900 + count in view.said)
        settled(investor)
        dealer.until(
            "the withdrawal is answered",
            lambda: not dealer.requests[shown]["pending"] and dealer.live(shown) is None,
        )
        if investor.requests[asked]["state"] == "done":
            dealer.until("the dealer is told", lambda: dealer.requests[shown]["state"] == "done")
        else:
            assert (
                investor.said[900 + count] == "This quote is gone."
                or "refused" in investor.requests[asked]["told"]["text"]
            )
            assert dealer.requests[shown]["quotes"][0]["state"] == "withdrawn"


def test_a_quote_that_expires_at_the_moment_of_the_hit(house: House) -> None:
    investor, dealer, asked, shown = one_open(house)
    dealer.quote(shown, 99 * POINT, seconds=15)  # it is accepted by then, on a busy machine too
    investor.until("the quote", lambda: investor.requests[asked]["quotes"])
    quote = investor.requests[asked]["quotes"][0]
    until("it is nearly over", LONG, lambda: bool(time.time() * 1000 > quote["valid"] - 3))
    why = investor.hit(asked, "DLR1")
    settled(investor)
    if why:
        assert why == "This quote's validity is over."
        assert investor.requests[asked]["state"] == "open"
    else:
        told = investor.requests[asked]["told"]["text"]
        assert (
            investor.requests[asked]["state"] == "done"
            or told == "Hit refused: the quote's validity is over"
        ), told


def test_each_refusal_of_the_venue_is_in_words(house: House) -> None:
    """What the desk itself would not send: by a second desk's limits that are wrong."""
    market = house.folder / "DLR2.market.toml"
    market.write_text(
        market.read_text()
        .replace("exposure = 10000000", "exposure = 100000000")
        .replace("grid = 32", "grid = 256")
        .replace('high = "120"', 'high = "200"')
    )
    house.other.stop()
    house.other.start()
    investor, other = house.view(house.investor), house.view(house.other)
    for count in range(3):
        investor.ask_for(["DLR2"], quantity=5_000_000)
    names = [other.wait_shown(count + 1) for count in range(3)]
    for name in names[:2]:
        other.quote(name, 99 * POINT)
    said = refused(other, names[2], 99 * POINT)
    assert said.startswith("Quote 99 refused: ") and "exposure" in said, said
    investor.ask_for(["DLR2"], quantity=1, bond="BONDC0000003")
    name = other.wait_shown(4)
    said = refused(other, name, 99 * POINT + 1)
    assert (
        said.startswith("Quote 99.00390625 refused: the price is ")
        and "off the bond's grid" in said
    ), said
    said = refused_by_desk(other, name, 200 * POINT + 1)
    assert said == "The price is outside the bond's band of 80 to 200."
    before = other.requests[name]["told"]
    assert other.act(do="quote", request=name, price=121 * POINT, seconds=0, replaces="") == ""
    other.until("another refusal", lambda: other.requests[name]["told"] != before)
    said = str(other.requests[name]["told"]["text"])
    assert said == "Quote 121 refused: the price is outside the bond's band", said


def refused_by_desk(view: View, request: str, price: int) -> str:
    """Why the desk itself sends no such quote."""
    return str(view.act(do="quote", request=request, price=price, seconds=0, replaces=""))


def refused(view: View, request: str, price: int) -> str:
    assert view.act(do="quote", request=request, price=price, seconds=0, replaces="") == ""
    view.until("it is refused", lambda: (view.requests[request]["told"] or {}).get("refusal"))
    assert view.live(request) is None and not view.requests[request]["pending"]
    return str(view.requests[request]["told"]["text"])


def test_a_lost_journal_is_told(house: House) -> None:
    """The desk can't go on by itself; with the next number it does, and says what it does not know."""
    investor, dealer, asked, shown = one_open(house)
    dealer.quote(shown, 99 * POINT)
    house.dealer.stop()
    journal = next(house.dealer.data.glob("journal-*"))
    number = max(int(part.split(b"\x01")[0]) for part in journal.read_bytes().split(b"\x0134=")[1:])
    journal.rename(journal.with_suffix(".lost"))
    program = house.dealer.program
    config = house.folder / "DLR1.toml"
    wrapper = house.folder / "again.sh"
    wrapper.write_text("#!/bin/sh\nexec %s --next-number %d %s\n" % (program, number + 50, config))
    wrapper.chmod(0o755)
    house.dealer.program = wrapper
    house.dealer.start()
    again = house.view(house.dealer)
    again.until("it says so", lambda: "incomplete" in again.session["alarm"])
    assert again.requests[shown]["quotes"] == []
    investor.until("the quote", lambda: investor.requests[asked]["quotes"])
    assert investor.hit(asked, "DLR1") == ""
    again.until("the hit is told all the same", lambda: again.requests[shown]["state"] == "done")
