"""Presses that bind: an ordinary double press, a colleague's hit, and a quote that gets better under the first press."""

from selenium.webdriver.common.keys import Keys

from tests.desk.browser import Browser
from tests.desk.conftest import House

POINT = 256

# As a person presses twice: two clicks at one button, so many milliseconds apart; its width before each.
PRESS_TWICE = """const [where, pause] = arguments;
const button = [...document.querySelectorAll(where)].find(one => one.checkVisibility());
const press = () => button.dispatchEvent(new MouseEvent('click', {bubbles: true, cancelable: true, detail: 1}));
const width = () => button.getBoundingClientRect().width;
const before = width();
press();
return new Promise(done => setTimeout(() => { const then = width(); press(); done([before, then]); }, pause));"""

# A first press is not forgotten after four seconds, however slow the machine is.
REMEMBERS = """const real = window.setTimeout;
window.setTimeout = (act, time, ...more) => real(act, time === 4000 ? 100_000_000 : time, ...more);"""


def test_an_ordinary_double_press_declines_and_passes(house: House) -> None:
    """The button that asks is as wide as before: no press is taken for one on something that moved."""
    investor, dealer = house.browser(house.investor), house.browser(house.dealer)
    view = house.view(house.investor)
    for pause in (350, 600):
        view.ask_for(["DLR1"])
        for page, where, words in (
            (dealer, "button.decline", "Declined"),
            (investor, "button.pass", "Passed"),
        ):
            page.until("it stands", lambda page=page, where=where: page.stands(page.in_card(where)))  # type: ignore[misc]
            before, then = page.script(PRESS_TWICE, where, pause)
            assert before == then, "the button grows from %s to %s pixels" % (before, then)
            page.card_says(words)


def first_press(house: House) -> Browser:
    """An investor's page whose first press, on the quote of DLR1 at 99, stands."""
    investor, dealer = house.browser(house.investor), house.view(house.dealer)
    investor.script(REMEMBERS)
    investor.ask("alder", "buy", "1m", dealers=("DLR1",))
    dealer.quote(dealer.wait_shown(1), 99 * POINT)
    investor.card_says("99", "Buy")
    investor.arm("DLR1")
    investor.card_says("Once more: buy 1,000,000 at 99 from DLR1")
    return investor


def test_a_colleagues_hit_takes_the_first_press_back(house: House) -> None:
    """A card whose request has traded asks for no second press."""
    investor, colleague = first_press(house), house.view(house.investor)
    colleague.until("the quote", lambda: colleague.requests and quotes_of(colleague.requests))
    assert colleague.hit(next(iter(colleague.requests)), "DLR1") == ""
    investor.card_says("Bought 1,000,000 at 99 from DLR1")
    assert "Once more" not in investor.card_text()
    assert investor.all("button.hit.armed") == []
    investor.until_says("#blotter", "1 request, 1 done")


def quotes_of(requests: dict[str, dict[str, object]]) -> object:
    return next(iter(requests.values()))["quotes"]


def test_a_better_price_of_the_same_dealer_keeps_the_first_press(house: House) -> None:
    """The card says what was and what is, and the second press hits what is; a worse price ends the choice."""
    investor, dealer = first_press(house), house.view(house.dealer)
    dealer.quote("R1", 98 * POINT)
    investor.card_says("DLR1 has improved 99 to 98.", "Once more: buy 1,000,000 at 98 from DLR1")
    dealer.quote("R1", 100 * POINT)
    investor.card_says("DLR1 went from 98 to 100, which is worse: your first press is taken back.")
    assert "Once more" not in investor.card_text() and investor.all("button.hit.armed") == []
    investor.press(Keys.ENTER)
    investor.card_says("Nothing is chosen: an arrow or F3 goes to a quote.")
    investor.arm("DLR1")
    dealer.quote("R1", 97 * POINT)
    investor.card_says("DLR1 has improved 100 to 97.")
    investor.hit("DLR1")
    investor.card_says("Bought 1,000,000 at 97 from DLR1")
