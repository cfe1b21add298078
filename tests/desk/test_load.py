"""Many requests at one time, and how soon a quote is on the page."""

import time
from collections.abc import Iterator
from dataclasses import dataclass
from itertools import count, islice

from selenium.webdriver.common.keys import Keys

from tests.desk.browser import Browser
from tests.desk.conftest import House
from tests.desk.view import View
from tests.harness.budget import Budget
from tests.harness.options import Form

POINT = 256
AT_ONCE = 200
OPEN = 50


@dataclass(frozen=True)
class PartOf:
    """How soon this part of all quotes has to be on the page."""

    part: float
    budget: Budget


# On a quiet machine a hundredth may be later than a tenth of a second. Of a busy one the slowest quotes
# say little: half have to be there soon.
BUDGETS = {
    Form.LONG: [PartOf(0.99, Budget("a quote is on the page", most=0.1, slack=0))],
    Form.SHORT: [
        PartOf(0.5, Budget("half of the quotes are on the page", most=1.0, slack=3)),
        PartOf(0.99, Budget("a quote is on the page", most=1.0)),
    ],
}
QUOTES = {Form.LONG: 200, Form.SHORT: 40}

# When each price was painted first: with an arrow in front of it, where its dealer had another one. What is posted in a
# frame is heard when that frame has been painted.
NOTE_PRICES = """window.noted = {};
const painted = note => requestAnimationFrame(() => {
  const {port1, port2} = new MessageChannel();
  port1.onmessage = () => note(Date.now());
  port2.postMessage(0);
});
new MutationObserver(all => {
  const prices = all.filter(one => one.target.classList?.contains('price')).map(one => one.target.textContent.trim().split(' ').at(-1));
  if (prices.length) painted(at => { for (const price of prices) window.noted[price] ??= at; });
}).observe(document.getElementById('cards'), {childList: true, subtree: true});"""
WHEN_NOTED = "return window.noted[arguments[0]] ?? null"


def test_200_requests_at_once(house: House) -> None:
    """All are on both pages; the page that has them can be worked; a new page shows the same."""
    investor, dealer = house.view(house.investor), house.view(house.dealer)
    page = house.browser(house.dealer)
    command = {
        "do": "ask",
        "bond": "BONDA0000001",
        "side": "buy",
        "quantity": 1_000_000,
        "seconds": 600,
        "dealers": ["DLR1"],
    }
    sent = 0
    while sent < AT_ONCE:  # as fast as the desk lets one page
        if investor.act(**command) == "":
            sent += 1
    dealer.wait_shown(AT_ONCE)
    investor.until(
        "all are accepted",
        lambda: sum(one["state"] == "open" for one in investor.requests.values()) == AT_ONCE,
    )
    page.until("all are on the page", lambda: len(page.all("article.card")) == AT_ONCE)
    page.quote("99.5", AT_ONCE - 1)
    page.card_says("Live 99.5", number=AT_ONCE - 1)
    dealer.until("the quote is live", lambda: dealer.live("R%d" % AT_ONCE))
    assert house.view(house.dealer).requests == dealer.requests
    page.until_says("#blotter", "Show 100 more of 200")
    assert page.complaints() == []


def test_how_soon_a_quote_is_on_the_page(house: House, form: Form) -> None:
    """From a dealer's press, which is before the gateway has it, to what the investor's page has painted: its 50 cards and
    its table, with the quotes of two dealers."""
    investor, dealers = house.view(house.investor), [
        house.view(house.dealer),
        house.view(house.other),
    ]
    page = house.browser(house.investor)
    for _ in range(OPEN):
        investor.ask_for(["DLR1", "DLR2"], quantity=1_000)
    for dealer in dealers:
        dealer.wait_shown(OPEN)
    page.until("all are on the page", lambda: len(page.all("article.card")) == OPEN)
    page.press(Keys.F8)
    page.until("all are in the table", lambda: len(page.all(".open-table tbody tr")) == OPEN)
    page.script(NOTE_PRICES)
    numbers = count()
    for each in BUDGETS[form]:
        each.budget.hold(
            lambda: slowest(page_times(page, dealers, numbers, QUOTES[form]), each.part)
        )


def page_times(
    page: Browser, dealers: list[View], numbers: Iterator[int], quotes: int
) -> list[float]:
    """Of so many quotes, each of a price that none had before: the seconds from the press to the page."""
    return [
        page_time(page, dealers[number % len(dealers)], number)
        for number in islice(numbers, quotes)
    ]


def page_time(page: Browser, dealer: View, number: int) -> float:
    price = 90 * POINT + number
    text = repr(price / POINT).removesuffix(".0")
    began = time.time() * 1000
    dealer.quote("R%d" % (number % OPEN + 1), price)
    page.until("the quote is on the page", lambda: page.script(WHEN_NOTED, text) is not None)
    return (float(page.script(WHEN_NOTED, text)) - began) / 1000


def slowest(took: list[float], part: float) -> float:
    """The time within which this part of them came."""
    return sorted(took)[min(len(took) - 1, int(len(took) * part))]
