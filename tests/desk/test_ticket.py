"""The ticket tells each field's own fault when the trader leaves it, and keeps the focus."""

import pytest
from selenium.webdriver.common.keys import Keys

from tests.desk.browser import Browser
from tests.desk.conftest import House

FAULTS = (
    ("#quantity", "1.5", "1.5 is no whole number: write 1.5m or 1,500,000."),
    ("#quantity", "1e6", "1e6 is no quantity: write 2,000,000, 2m or 500k."),
    ("#quantity", "0", "A quantity is more than 0: 2,000,000, 2m or 500k."),
    ("#quantity", "9m", "9,000,000 is above the limit of 5,000,000 a request."),
    ("#deadline", "3", "A deadline is 5 seconds away at least."),
    ("#deadline", "24h", "The deadline is after midnight in UTC, when the venue\u2019s day ends."),
    ("#deadline", "soon", "A deadline is a time from now: 90 (seconds), 2:00, 5m or 1h."),
    ("#bond", "nothing of the kind", "No bond has \u201cnothing of the kind\u201d in its name"),
)
MANY = 9  # dealers, one more than a request may have

# What a screen reader is told of a field that it calls invalid; nothing of one that is in order.
FAULT = """const field = document.querySelector(arguments[0]);
if (field.getAttribute('aria-invalid') !== 'true') return '';
const words = (field.getAttribute('aria-describedby') ?? '').split(' ').map(id => document.getElementById(id));
return words.filter(one => one?.checkVisibility()).map(one => one.innerText).join(' ');"""


def type_and_leave(page: Browser, field: str, typed: str) -> None:
    page.one(field).clear()
    page.one(field).send_keys(typed, Keys.TAB)


def test_a_field_tells_its_fault_when_it_is_left(house: House) -> None:
    page = house.browser(house.investor)
    for field, typed, words in FAULTS:
        type_and_leave(page, field, typed)
        page.until(
            "%s tells %r" % (field, words), lambda field=field, words=words: words in page.script(FAULT, field)  # type: ignore[misc]
        )
        page.one(field).clear()
        page.one(field).send_keys("2")
        page.one(field).send_keys(Keys.BACKSPACE)
        assert page.script(FAULT, field) == "", "%s tells a fault of before" % field
    type_and_leave(page, "#quantity", "1.5")
    type_and_leave(page, "#deadline", "3")
    page.until(
        "both tell their faults",
        lambda: "whole number" in page.script(FAULT, "#quantity")
        and "5 seconds" in page.script(FAULT, "#deadline"),
    )
    type_and_leave(page, "#deadline", "90")
    type_and_leave(page, "#quantity", "2m")
    page.until_says(".ticket .echo", "Choose", "The quantity is 2,000,000.")
    type_and_leave(page, "#quantity", "9m")
    page.until_silent(".ticket .echo", "The quantity is")


CHOSEN = "return [...document.querySelectorAll('.picks input:checked')].map(one => one.value)"


def test_a_first_visit(house: House) -> None:
    """The ticket begins with the dealers of the last request, or of a group; a question mark and a button open the help."""
    page = house.browser(house.investor)
    assert page.script(CHOSEN) == []
    page.press("?")
    page.until_says("#help", "Help for an investor", "F3", "F8", "Sent is not done")
    page.press(Keys.ESCAPE)
    page.until("the keys are where they were", lambda: page.focused() == "bond")
    assert page.one("#bond").get_attribute("value") == ""
    page.click(".picks label", "DLR2")
    page.one(".group-name").send_keys("who is it?", Keys.ENTER)
    page.until_says(".chips", "who is it?")
    page.driver.refresh()
    page.until_says(".ticket", "The group who is it?", "Ask 1 dealer")
    page.ask("alder", "buy", "1m", dealers=("DLR1",))
    page.card_says("Alder", "DLR1")
    page.driver.refresh()
    page.until_says(".ticket", "As in your last request")
    assert page.script(CHOSEN) == ["DLR1"]
    page.click("#help-button")
    page.click("#help button", "Close")
    assert page.complaints() == []


@pytest.fixture
def house_of_many(house: House) -> House:
    """Its investor's market has nine dealers, and lets one request be open."""
    desk = house.investor
    market = desk.folder / "INV1.market.toml"
    more = "".join('[[dealer]]\nname = "MORE%d"\n' % count for count in range(MANY - 2))
    desk.stop()
    market.write_text(market.read_text().replace("open = 256", "open = 1") + more)
    desk.start()
    return house


def test_more_dealers_than_a_request_may_have(house_of_many: House) -> None:
    """The dealers tell it at once; a refusal of the desk leaves the focus where it was."""
    page = house_of_many.browser(house_of_many.investor)
    page.ask("alder", "buy", "1m", dealers=("DLR1",))
    page.card_says("BUY", "1,000,000")
    for box in page.all(".picks input"):
        if not box.is_selected():
            box.click()
    page.until(
        "the dealers are marked",
        lambda: "9 dealers are chosen: a request has 8 at most." in page.script(FAULT, ".dealers"),
    )
    page.press(Keys.F2)
    page.press("cedar", Keys.ENTER)
    page.click("#buy")
    page.one("#quantity").send_keys("1m")
    page.click(".ticket > button.strong")
    page.until("the focus is on the dealers", lambda: focus_in(page, ".dealers"))
    page.all(".picks input")[-1].click()
    page.until_says(".ticket > button.strong", "Ask 8 dealers")
    page.click(".ticket > button.strong")
    page.until_says(".ticket", "As many requests are open as your firm may have")
    assert focus_in(page, ".ticket > button.strong")


def focus_in(page: Browser, where: str) -> bool:
    return bool(page.script("return Boolean(document.activeElement.closest(arguments[0]))", where))
