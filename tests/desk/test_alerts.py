"""What a page announces by a sound and by a notification of the desktop, each once the trader has switched it on."""

from selenium.webdriver.common.keys import Keys

from tests.desk.browser import Browser
from tests.desk.conftest import House
from tests.desk.view import View

POINT = 256
NEAR = 12  # seconds: a deadline that comes near while the test waits
BURST = 5

# Keeps each notification, and the pitch of each tone that begins; the browser's own do their work as before.
COUNTS = """window.notified = [];
window.heard = [];
window.Notification = class extends Notification {
  constructor(title, words) { super(title, words); window.notified.push({title, body: words.body, press: () => this.onclick()}); }
};
const start = OscillatorNode.prototype.start;
OscillatorNode.prototype.start = function (...when) { window.heard.push(this.frequency.value); return start.apply(this, when); };"""
NOTIFIED = "return notified.map(one => `${one.title}: ${one.body}`)"
FOCUSED = "return document.activeElement.closest('article.card')?.innerText ?? ''"
ICON = """const href = document.querySelector('link[rel=icon]').href;
return fetch(href).then(answer => answer.ok ? href.split('/').at(-1) : `${href}: ${answer.status}`);"""


def counting(page: Browser) -> Browser:
    """The page, allowed to notify, with what it announces counted."""
    page.driver.execute_cdp_cmd("Browser.grantPermissions", {"permissions": ["notifications"]})
    page.script(COUNTS)
    return page


def until_announced(page: Browser, title: str, words: str, tones: int) -> None:
    """A notification with these words, and so many tones, since the last call; the notification is pressed."""

    def is_announced() -> bool:
        notified = page.script(NOTIFIED)
        return any(one.startswith(title) and words in one for one in notified)

    page.until("%s: %s" % (title, words), is_announced)
    assert len(page.script("return heard")) == tones, page.script("return heard")
    page.script("notified.at(-1).press(); notified.length = heard.length = 0")


def switch_on_by_mouse(page: Browser) -> None:
    page.click("#alerts-button")
    for box in page.all("#alerts input"):
        if box.is_displayed():
            box.click()
    page.click("#alerts button", "Close")


def tab_to(page: Browser, name: str) -> None:
    """By Tab alone, to what has this name."""

    def is_there() -> bool:
        if page.focused() == name:
            return True
        page.press(Keys.TAB)
        return False

    page.until("Tab leads to %s" % name, is_there)


def test_a_dealer_is_told_of_what_it_has_to_see(house: House) -> None:
    """A new request, a trade, a deadline that is near and a lost venue; nothing before the trader wants it."""
    view, quotes = house.view(house.investor), house.view(house.dealer)
    dealer = counting(house.browser(house.dealer))
    view.ask_for(["DLR1"])
    dealer.card_says("OFFER", "Alder")
    assert dealer.script(NOTIFIED) == [] and dealer.script("return heard") == []
    assert dealer.script(ICON) == "icon-1.svg" and dealer.driver.title == "(1) DLR1 desk"
    switch_on_by_mouse(dealer)
    asked = view.ask_for(["DLR1"], "sell", 1_000_000, bond="BONDC0000003")
    until_announced(dealer, "New request", "BID 1,000,000 Cedar 4.75 02/34 for INV1", tones=2)
    dealer.until("the icon counts both", lambda: dealer.script(ICON) == "icon-2.svg")
    quotes.quote(quotes.wait_shown(2), 99 * POINT)
    view.until("a quote", lambda: view.requests[asked]["quotes"])
    assert view.hit(asked, "DLR1") == ""
    until_announced(dealer, "Trade", "Bought 1,000,000 Cedar 4.75 02/34 at 99 from INV1", tones=3)
    assert "DONE" in dealer.script(FOCUSED), "a press on a notification leads to its card"
    dealer.driver.refresh()
    dealer.until_says("#alerts-button", "Alerts: silent")  # no browser plays before a press
    dealer.until_says("#top", "Venue connected")
    counting(dealer)
    dealer.press(Keys.SHIFT)
    dealer.press(Keys.F2)
    dealer.until_says("#alerts-button", "Alerts: on")
    burst(view, dealer)
    view.ask_for(["DLR1"], seconds=NEAR)
    dealer.until(
        "its deadline", lambda: any("left: OFFER" in one for one in dealer.script(NOTIFIED))
    )
    dealer.script("notified.length = heard.length = 0")
    house.door.kill()
    until_announced(dealer, "Venue lost", "The venue is not connected.", tones=2)
    assert dealer.complaints() == []


def burst(view: View, dealer: Browser) -> None:
    """Many at once are announced together: nobody floods the desktop of another firm."""
    command = {
        "do": "ask",
        "bond": "BONDA0000001",
        "side": "buy",
        "quantity": 1_000,
        "seconds": 600,
    }

    def is_together() -> bool:
        for _ in range(BURST):
            assert view.act(**command, dealers=["DLR1"]) == ""
        return any("more. The last: OFFER 1,000 Alder" in one for one in dealer.script(NOTIFIED))

    dealer.until("many are announced together", is_together)
    assert len(dealer.script(NOTIFIED)) < len(dealer.all("article.card"))


def test_an_investor_is_told_of_quotes_and_trades(house: House) -> None:
    """Switched on by keys alone; of a colleague's request that it is new, and no more."""
    investor = counting(house.browser(house.investor))
    view, dealer = house.view(house.investor, "tom"), house.view(house.dealer)
    for name in ("alerts-button", "Notification: Quote", "Sound: Trade", "Notification: Trade"):
        tab_to(investor, name)
        investor.press(Keys.ENTER if name == "alerts-button" else Keys.SPACE)
    investor.press(Keys.ESCAPE)
    investor.until("the keys are where they were", lambda: investor.focused() == "alerts-button")
    assert investor.text("#alerts-button") == "Alerts: on"
    investor.ask("alder", "buy", "1m", dealers=("DLR1",))
    dealer.quote(dealer.wait_shown(1), 99 * POINT + 128)
    until_announced(investor, "Quote", "DLR1 99.5: BUY 1,000,000 Alder 4.125 03/29", tones=0)
    investor.hit("DLR1")
    until_announced(
        investor, "Trade", "Bought 1,000,000 Alder 4.125 03/29 at 99.5 from DLR1", tones=3
    )
    asked = view.ask_for(["DLR1"], quantity=500_000)
    dealer.quote(dealer.wait_shown(2), 99 * POINT)
    view.until("a quote", lambda: view.requests[asked]["quotes"])
    investor.card_says("500,000", "99")
    assert investor.script(NOTIFIED) == [], "a colleague's quote"
    assert investor.complaints() == []
