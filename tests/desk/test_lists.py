"""Many requests at once: a list from a spreadsheet, checked line by line, asked by two presses, and shown on one card."""

import csv

import pytest
from selenium.webdriver.common.keys import Keys

from tests.desk.browser import Browser
from tests.desk.conftest import House

POINT = 256
WRONG = (
    "Bond\tSide\tQuantity\n"
    "BONDA0000001\tbuy\t2,000,000\n"
    "nothing\tbuy\t1m\n"
    "Cedar 4.75 02/34\tsell\t9m\n"
    "Alder 4.125 03/29\tbuy\t2m\n"
)
FAULTS = (
    "No bond has \u201cnothing\u201d in its name or identifier.",
    "9,000,000 is above the limit of 5,000,000 a request.",
    "Look: the same as line 1",
    "Line 2: No bond has",
)
RIGHT = "BONDA0000001\tbuy\t2m\nCedar 4.75 02/34\tsell\t500k\nAlder\tsell\t1,000,000\n"
BUTTON = "const one = document.activeElement; return one.tagName === 'BUTTON' ? one.innerText : ''"
STATES = """return [...document.querySelectorAll('.list-card tbody tr')].map(one => [...one.cells].map(cell => cell.innerText.trim()));"""


def paste(page: Browser, text: str) -> None:
    """Into the field that has the keys, in the place of what stands there."""
    page.press(Keys.CONTROL + "a" + Keys.NULL)
    page.driver.execute_cdp_cmd("Input.insertText", {"text": text})


def press_button(page: Browser, words: str) -> None:
    """By Tab, to the button that says so, and Enter."""

    def is_there() -> bool:
        if words in page.script(BUTTON):
            return True
        page.press(Keys.TAB)
        return False

    page.until("Tab leads to %s" % words, is_there)
    page.press(Keys.ENTER)


def ask_by_keys(page: Browser) -> None:
    press_button(page, "Paste a list")
    page.until("the keys are in the field", lambda: page.focused() == "lines")
    paste(page, WRONG)
    page.until_says(".ticket", *FAULTS)
    press_button(page, "Ask")
    page.until("the keys are where the fault is", lambda: page.focused() == "lines")
    paste(page, RIGHT)
    page.until_says(".ticket", "3 requests: buy 2,000,000 and sell 1,500,000", "2 dealers for 3")
    press_button(page, "Ask 2 dealers for 3 requests")
    page.until_says(".ticket .why", "Once more: ask 2 dealers to buy 2,000,000 and sell 1,500,000")

    def is_asked() -> bool:
        if not page.all(".list-card"):
            press_button(page, "Ask 2 dealers for 3 requests")
        return bool(page.all(".list-card"))

    page.until("the second press asks", is_asked)


# What parts the cells of a line, and in which order they stand.
PARTED = (
    "sell 500k Cedar",
    "Cedar 4.75 02/34 500k sell",
    "s, 500,000, Cedar 4.75",
    "Cedar;500000;SELL",
    "500k Cedar s",
    "BONDC0000003,sell,500k",
)
PLACES = """return ['.many > .fault', '#list-name', '#lines'].map(where => document.querySelector(where).getBoundingClientRect().top)"""
CHECKED = """return [...document.querySelectorAll('.checked tbody tr')].map(one => [...one.cells].slice(1).map(cell => cell.innerText.split('\\n')[0].trim()))"""


def test_a_line_may_be_parted_by_spaces(house: House) -> None:
    """Tabs, semicolons, commas and spaces do; where none can, the line says so, below what was pasted."""
    page = house.browser(house.investor)
    page.click("#many")
    paste(page, "\n".join(PARTED))
    page.until("all are read", lambda: len(page.script(CHECKED)) == len(PARTED))
    assert page.script(CHECKED) == [["SELL", "500,000", "Cedar 4.75 02/34"]] * len(PARTED)
    paste(page, "sell 500k Cedar 5\nCedar 500k\n")
    parts = "A tab, a semicolon, a comma or a space parts bond, side and quantity."
    page.until_says(".checked", "It has no quantity: 2,000,000, 2m or 500k. " + parts)
    page.until_says(".checked", "It has no side: buy or sell. " + parts)
    page.click(".chips button", "all")
    press_button(page, "Ask")
    page.until_says(".many > .fault", "Line 1: It has no quantity")
    fault, name, lines = page.script(PLACES)
    assert lines < fault < name, "the message stands below another field"


@pytest.fixture
def house_of_two(house: House) -> House:
    """Its investor's market lets two requests be open."""
    desk = house.investor
    market = desk.folder / "INV1.market.toml"
    desk.stop()
    market.write_text(market.read_text().replace("open = 256", "open = 2"))
    desk.start()
    return house


def test_a_list_is_asked_at_once(house_of_two: House) -> None:
    """Its faults, two presses, a line that waits for room, a hit by keys, a pass by the mouse, and the CSV."""
    house = house_of_two
    investor, view = house.browser(house.investor), house.view(house.investor)
    dealer, other = house.view(house.dealer), house.view(house.other)
    investor.click(".chips button", "all")
    ask_by_keys(investor)
    dealer.quote(dealer.wait_shown(1), 99 * POINT)
    other.wait_shown(2)
    investor.until("the best is told", lambda: line(investor, 0)[5:] == ["99", "DLR1"])
    assert line(investor, 1)[1:4] == ["SELL", "500,000", "Cedar 4.75 02/34"]
    assert "0/2 quoted" in line(investor, 1)[4] and line(investor, 2)[4] == "waiting"
    assert len(view.requests) == 2 and investor.all("article.card") == []
    investor.press(Keys.F3)
    investor.card_says("BUY", "2,000,000", "99")
    investor.hit("DLR1")
    investor.card_says("Bought 2,000,000 at 99 from DLR1")
    investor.until("the line is done", lambda: line(investor, 0)[4:] == ["DONE", "99", "DLR1"])
    other.wait_shown(3)
    investor.click(".list-card tbody tr:nth-child(2) button")
    investor.card_says("SELL", "500,000", "Cedar")
    investor.press_twice("button.pass")
    investor.until("the line has ended", lambda: line(investor, 1)[4] == "passed")
    investor.until_says(".list-card", "3 lines by T8", "1 open, 1 done, 1 ended without a trade")
    rows = exported(investor)
    assert [(one["side"], one["quantity"], one["state"], one["price"]) for one in rows[:2]] == [
        ("Buy", "2000000", "DONE", "99"),
        ("Sell", "500000", "passed", ""),
    ]
    investor.driver.refresh()
    investor.until_says(".list-card", "DONE", "passed")
    assert investor.complaints() == []


def exported(page: Browser) -> list[dict[str, str]]:
    folder = page.profile / "downloads"
    page.click(".list-card button", "CSV")
    page.until("it is there", lambda: [one for one in folder.glob("*.csv") if one.stat().st_size])
    with next(folder.glob("*.csv")).open(newline="") as file:
        return list(csv.DictReader(file))


def line(page: Browser, number: int) -> list[str]:
    """The cells of a line: its number, side, quantity, bond, state, price and dealer."""
    return list(page.script(STATES)[number])
