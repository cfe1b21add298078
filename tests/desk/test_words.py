"""What the page says to people who read 32nds, who listen, and who look for something in the blotter."""

from selenium.webdriver.common.keys import Keys

from tests.desk.browser import Browser
from tests.desk.conftest import House

POINT = 256

# The names, as a screen reader has them, of what binds or takes back on the cards.
NAMES = """return [...document.querySelectorAll('article.card button')].filter(one => one.checkVisibility())
  .map(one => one.getAttribute('aria-label') ?? one.innerText);"""
# What a screen reader is told without being asked, since this began.
LISTENS = """window.hasTold = [];
new MutationObserver(changes => {
  for (const {target} of changes) {
    const region = (target.closest ? target : target.parentElement)?.closest('[aria-live], [role=log], [role=status], [role=alert]');
    if (region?.textContent) window.hasTold.push(region.textContent);
  }
}).observe(document.body, {subtree: true, childList: true, characterData: true});"""
QUANTITIES = (
    """return [...document.querySelectorAll('.blotter tbody .size')].map(one => one.innerText);"""
)


def test_a_history_is_in_the_prices_of_the_page(house: House) -> None:
    """In 32nds the line of a quote, of a replacement and of a trade is in 32nds, on both sides' pages."""
    investor, dealer = house.browser(house.investor), house.browser(house.dealer)
    view, quotes = house.view(house.investor), house.view(house.dealer)
    asked, shown = view.ask_for(["DLR1"]), quotes.wait_shown(1)
    quotes.quote(shown, 99 * POINT + 128)
    quotes.quote(shown, 99 * POINT + 132)
    view.until("the quote", lambda: view.last_price(asked) == 99 * POINT + 132)
    assert view.hit(asked, "DLR1") == ""
    for page, decimals, thirds in (
        (investor, "DLR1 replaces 99.5 by 99.515625", "DLR1 replaces 99-16 by 99-16+"),
        (dealer, "Live: 99.515625", "Live: 99-16+"),
    ):
        page.until_says(".blotter", "DONE")
        page.click(".blotter summary")
        page.until_says(".blotter details", decimals)
        page.press(Keys.F4)
        page.until_says(".blotter details", thirds)
        assert "99.5" not in page.text(".blotter details")


def test_a_group_goes_by_two_presses(house: House) -> None:
    page = house.browser(house.investor)
    page.click(".picks label", "DLR2")
    page.one(".group-name").send_keys("the best", Keys.ENTER)
    page.until_says(".chips", "the best")
    remove = "button[aria-label*='the group the best']"
    page.click(remove)
    page.until("it asks", lambda: "armed" in (page.one(remove).get_attribute("class") or ""))
    page.driver.refresh()
    page.until_says(".chips", "the best")

    def gone() -> bool:
        if page.all(remove):
            page.one(remove).send_keys(Keys.ENTER)
        return not page.all(remove)

    page.until("two presses remove it", gone)


def test_each_button_has_a_name_of_its_own(house: House) -> None:
    """Of two cards no two buttons have one name, and a name begins with what stands on the button."""
    view, quotes = house.view(house.investor), house.view(house.dealer)
    investor, dealer = house.browser(house.investor), house.browser(house.dealer)
    view.ask_for(["DLR1"])
    view.ask_for(["DLR1"], side="sell", bond="BONDC0000003")
    quotes.quote(quotes.wait_shown(2), 99 * POINT)
    for page in (investor, dealer):
        page.until("both are shown", lambda page=page: len(page.all("article.card")) == 2)  # type: ignore[misc]
        page.until(
            "each has its name", lambda page=page: len(set(page.script(NAMES))) == len(page.script(NAMES))  # type: ignore[misc]
        )
    assert "Decline OFFER 2,000,000 Alder 4.125 03/29 for INV1" in dealer.script(NAMES)
    assert "Withdraw BID 2,000,000 Cedar 4.75 02/34 for INV1" in dealer.script(NAMES)
    assert "Pass BUY 2,000,000 Alder 4.125 03/29" in investor.script(NAMES)


def test_a_new_request_is_told_to_who_listens(house: House) -> None:
    view, dealer = house.view(house.investor), house.browser(house.dealer)
    dealer.script(LISTENS)
    view.ask_for(["DLR1"])
    dealer.until("it is told", lambda: any(tells(one) for one in dealer.script("return hasTold")))


def tells(words: str) -> bool:
    return "New request: OFFER 2,000,000 Alder 4.125 03/29 for INV1" in words


def test_the_blotter_sorts_and_finds(house: House) -> None:
    """By the heads of its columns, up and down; a filter finds a quantity and a price, as they are written or shown."""
    investor, view = house.browser(house.investor), house.view(house.investor)
    dealer = house.view(house.dealer)
    for count, quantity in enumerate((2_000_000, 500_000, 3_000_000)):
        asked = view.ask_for(["DLR1"], quantity=quantity)
        dealer.quote(dealer.wait_shown(count + 1), (99 + count) * POINT + 128)
        view.until("a quote", lambda asked=asked: view.requests[asked]["quotes"])  # type: ignore[misc]
        assert view.hit(asked, "DLR1") == ""
        view.until("done", lambda asked=asked: view.requests[asked]["state"] == "done")  # type: ignore[misc]
    investor.until_says("#blotter", "3 requests, 3 done")
    for order in (
        ["3,000,000", "2,000,000", "500,000"],
        ["500,000", "2,000,000", "3,000,000"],
    ):
        investor.click(".blotter thead button", "Quantity")
        investor.until("it is sorted", lambda order=order: investor.script(QUANTITIES) == order)  # type: ignore[misc]
    assert investor.one(".blotter th[aria-sort]").get_attribute("aria-sort") == "ascending"
    for words, found in (
        ("2m", ["2,000,000"]),
        ("500,000", ["500,000"]),
        ("101.5", ["3,000,000"]),
        ("100-16", ["500,000"]),
    ):
        find(investor, words)
        investor.until(
            "%s is found" % words, lambda found=found: investor.script(QUANTITIES) == found  # type: ignore[misc]
        )


def find(page: Browser, words: str) -> None:
    page.one("#filter").clear()
    page.one("#filter").send_keys(words)
