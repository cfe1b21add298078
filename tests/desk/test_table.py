"""The table of what is open: fifty requests, found and quoted by keys alone, and by the mouse."""

from selenium.webdriver.common.keys import Keys

from tests.desk.browser import Browser
from tests.desk.conftest import House
from tests.desk.view import View

OPEN = 50
SIZES = "return [...document.querySelectorAll('.open-table tbody tr')].map(one => one.cells[2].innerText)"
BONDS = "return [...document.querySelectorAll('.open-table tbody tr')].map(one => one.cells[3].innerText)"


def ask_for_fifty(view: View) -> None:
    """Each of another size, in a drawn order of sizes and deadlines; the two least ones have a bond of their own."""
    for count in range(OPEN):
        size = 1 + (count * 37) % OPEN
        bond = "BONDC0000003" if size <= 2 else "BONDA0000001"
        view.ask_for(["DLR1"], quantity=size * 1_000, seconds=600 + (count * 17) % OPEN, bond=bond)


def sizes(order: range) -> list[str]:
    return ["{:,}".format(1_000 * one) for one in order]


def test_fifty_requests_by_keys_alone(house: House) -> None:
    """F8 goes to the table, keys sort it and go through it, Enter to the card, and F8 back to the line."""
    view, dealer = house.view(house.investor), house.browser(house.dealer)
    ask_for_fifty(view)
    dealer.until("all are shown", lambda: len(dealer.all("article.card")) == OPEN)
    dealer.press(Keys.F8)
    dealer.until("all are in the table", lambda: len(dealer.script(SIZES)) == OPEN)
    by_time = sorted(view.requests.values(), key=lambda one: int(one["deadline"]))
    assert dealer.script(SIZES) == ["{:,}".format(one["quantity"]) for one in by_time]
    for name, key, where, order in (
        ("Size", Keys.SHIFT + Keys.TAB, SIZES, sizes(range(OPEN, 0, -1))),
        ("Bond", Keys.TAB, BONDS, ["Alder 4.125 03/29"] * (OPEN - 2) + ["Cedar 4.75 02/34"] * 2),
    ):
        go_to(dealer, name, key)
        dealer.press(Keys.ENTER)
        dealer.until("it is sorted by %s" % name, lambda where=where, order=order: dealer.script(where) == order)  # type: ignore[misc]
    dealer.press(Keys.END)
    assert "Cedar" in dealer.focused() and "no live quote" in dealer.focused()
    dealer.press(Keys.ARROW_UP, Keys.ARROW_DOWN, Keys.ENTER)
    assert dealer.focused().startswith("Offer for ") and "Cedar" in dealer.focused()
    size = dealer.focused().split()[2]
    dealer.press("99.5", Keys.ENTER)
    confirm(dealer)
    view.until("the quote", lambda: quoted(view) == [size])
    dealer.press(Keys.F8)
    dealer.until(
        "the keys are on its line",
        lambda: size in dealer.focused() and "live at 99.5" in dealer.focused(),
    )


def go_to(page: Browser, name: str, key: str) -> None:
    """By this key alone, to the head of a column."""

    def is_there() -> bool:
        if page.focused() == name:
            return True
        page.press(key)
        return False

    page.until("the keys lead to %s" % name, is_there)


def confirm(page: Browser) -> None:
    """Enter where the keys are, until no first price is asked about."""

    def done() -> bool:
        asks = page.script("return document.activeElement.dataset.asks ?? ''")
        if asks:
            page.press(Keys.ENTER)
        return not asks

    page.until("the first price is confirmed", done)


def quoted(view: View) -> list[str]:
    return ["{:,}".format(one["quantity"]) for one in view.requests.values() if one["quotes"]]


def test_the_table_by_the_mouse(house: House) -> None:
    """A button shows and hides it, in this browser for good; a press on a line leads to its card."""
    view, investor = house.view(house.investor), house.browser(house.investor)
    view.ask_for(["DLR1"], quantity=1_000_000)
    gone = view.ask_for(["DLR1"], "sell", bond="BONDC0000003")
    quotes = house.view(house.dealer)
    quotes.quote(quotes.wait_shown(2), 99 * 256)
    investor.click("#table-button")
    investor.until_says(".open-table", "SELL", "2,000,000", "Cedar 4.75 02/34", "99", "1/1")
    investor.driver.refresh()
    investor.until_says(".open-table", "Cedar", "Alder")
    investor.click(".open-table tr", "Cedar")
    investor.until(
        "its best quote has the keys",
        lambda: investor.focused() == "sell to DLR1 at 99: 2,000,000 Cedar 4.75 02/34",
    )
    investor.click(".open-table button.line", "Alder")
    assert view.act(do="pass", request=gone) == ""
    investor.until_silent(".open-table", "Cedar")
    investor.click("#table-button")
    assert not investor.one("#table").is_displayed() and investor.complaints() == []
