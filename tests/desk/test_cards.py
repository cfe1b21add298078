"""What stands on a card, and stays where it is: last prices, the position, arrows, Withdraw."""

from pathlib import Path

from selenium.webdriver.common.keys import Keys

from tests.desk.browser import Browser
from tests.desk.conftest import House

POINT = 256
ARROWS = "\u25b2\u25bc"
PRICE = ".quotes td.price"

PLACE = """const card = [...document.querySelectorAll('article.card')].find(one => one.textContent.includes('Cedar'));
const {left, top} = card.querySelector('button.send').getBoundingClientRect(); return [left, top + document.getElementById('body').scrollTop];"""

# Presses a button as soon as the price of the other dealer is another: in the same moment as the page.
# So it is also where the page is not let to work for half a second in between: its clock stands still.
PRESS_AT_A_CHANGE = """const [button] = arguments, at = performance.now();
performance.now = () => at;
const watch = new MutationObserver(() => { watch.disconnect(); button.click(); delete performance.now; });
const other = [...document.querySelectorAll('.quotes tbody tr')].find(one => one.textContent.includes('DLR2'));
watch.observe(other.querySelector('td.price'), {childList: true, characterData: true, subtree: true});"""


def test_a_card_keeps_its_place(house: House) -> None:
    """Where the card before it ends, and is closed, nothing of it moves."""
    view, dealer = house.view(house.investor), house.browser(house.dealer)
    first = view.ask_for(["DLR1"])
    view.ask_for(["DLR1"], bond="BONDC0000003")
    dealer.card_says("Cedar")
    before = dealer.script(PLACE)
    assert view.act(do="pass", request=first) == ""
    dealer.card_says("The investor passed", number=0)
    assert dealer.script(PLACE) == before
    dealer.press_in_card("button.small", 0)
    dealer.until("it is closed", lambda: len(dealer.all("article.card")) == 1)
    assert dealer.script(PLACE) == before


def test_the_ticket_of_a_trade(house: House) -> None:
    """Both sides print it alone and save it, from the card and from the blotter, by the mouse and by keys."""
    view, quotes = house.view(house.investor), house.view(house.dealer)
    investor, dealer = house.browser(house.investor), house.browser(house.dealer)
    asked = view.ask_for(["DLR1"], "sell", 1_500_000, bond="BONDC0000003")
    quotes.quote(quotes.wait_shown(1), 99 * POINT + 16)
    view.until("a quote", lambda: view.requests[asked]["quotes"])
    assert view.hit(asked, "DLR1") == ""
    view.until("a trade", lambda: view.requests[asked]["trade"])
    terms = (
        ("Trade", view.requests[asked]["trade"]),
        ("Buyer", "DLR1"),
        ("Seller", "INV1"),
        ("Bond", "Cedar 4.75 02/34"),
        ("Identifier", "BONDC0000003"),
        ("Nominal", "1,500,000"),
        ("Price", "99.0625 (99-02)"),
    )
    for page, trader in ((investor, "Trader of INV1"), (dealer, "Trader of DLR1")):
        page.script("window.printed = 0; window.print = () => { window.printed += 1; }")
        page.card_says("Ticket")
        page.one("article.card button.paper").send_keys(Keys.ENTER)
        page.until("one more Enter prints nothing", lambda page=page: page.focused() == "Close")  # type: ignore[misc]
        page.press(Keys.SHIFT + Keys.TAB + Keys.TAB + Keys.NULL, Keys.ENTER)
        assert page.script("return window.printed") == 1 and alone_in_print(page)
        shown = dict(zip(page.text("#paper dt").split("\n"), page.text("#paper dd").split("\n")))
        assert {name: shown[name] for name, _ in terms} == dict(terms) and trader in shown
        page.press(Keys.ESCAPE)
        page.click(".blotter button", "Ticket")
        page.click("#paper button", "Save")
        page.until("it is saved", lambda page=page: saved(page))  # type: ignore[misc]
        lines = saved(page)[0].read_text().split("\n")
        assert {name: line_of(lines, name) for name, _ in terms} == dict(terms)
        assert page.complaints() == []


def alone_in_print(page: Browser) -> bool:
    """Whether paper has the ticket, and nothing else of the page."""
    page.driver.execute_cdp_cmd("Emulation.setEmulatedMedia", {"media": "print"})
    seen = page.text("body > :not(#paper)").strip()
    page.driver.execute_cdp_cmd("Emulation.setEmulatedMedia", {"media": ""})
    return seen == ""


def saved(page: Browser) -> list[Path]:
    """The tickets that are written whole: the browser makes an empty file first."""
    files = sorted((page.profile / "downloads").glob("ticket-*.txt"))
    return [file for file in files if file.stat().st_size]


def line_of(lines: list[str], name: str) -> str:
    return next(line.removeprefix(name).strip() for line in lines if line.split("  ")[0] == name)


def test_rows_keep_their_order_under_the_keys(house: House) -> None:
    """While the focus is in a card, a better quote is marked where it stands; afterwards it stands first."""
    investor = house.browser(house.investor)
    dealer, other = house.view(house.dealer), house.view(house.other)
    investor.ask("alder", "buy", "1m")
    dealer.quote(dealer.wait_shown(1), 99 * POINT)
    investor.until("the focus is on it", lambda: focus_on_best(investor))
    other.quote(other.wait_shown(1), 98 * POINT)
    investor.until("the better is marked", lambda: "DLR2" in investor.text("tr.best"))
    assert investor.text(".quotes tbody th").split() == ["DLR1", "DLR2"]
    investor.press(Keys.F2)
    investor.until(
        "the better stands first",
        lambda: investor.text(".quotes tbody th").split() == ["DLR2", "DLR1"],
    )


def focus_on_best(page: Browser) -> bool:
    page.press(Keys.F3)
    return page.focused().startswith("buy from DLR1")


def test_a_press_too_soon_behind_a_change_is_told(house: House) -> None:
    """Where another quote changes just before the second press, nothing is hit, the page says why, and the choice stands."""
    investor = house.browser(house.investor)
    first, second = house.view(house.dealer), house.view(house.other)
    investor.ask("alder", "buy", "1m")
    first.quote(first.wait_shown(1), 99 * POINT)
    other, price = second.wait_shown(1), 100
    second.quote(other, price * POINT)
    investor.card_says("99", "100", "2 of 2 quoted")

    def told() -> bool:
        """Again where the first press is forgotten by then."""
        nonlocal price
        price += 1
        investor.script(PRESS_AT_A_CHANGE, investor.arm("DLR1"))
        second.quote(other, price * POINT)
        investor.card_says(str(price))
        return "look again. Once more: buy 1,000,000 at 99 from DLR1" in investor.card_text()

    investor.until("the press is told", told)
    assert first.requests["R1"]["state"] == "open" and not first.requests["R1"]["pending"]


def test_what_is_known_of_a_bond(house: House) -> None:
    """A card has the last price of its bond on this desk, called what it is, and each page the position by bond."""
    investor, dealer = house.browser(house.investor), house.browser(house.dealer)
    asks, quotes = house.view(house.investor), house.view(house.dealer)
    for count, (side, price, quantity) in enumerate(
        (("buy", 101, 2_000_000), ("sell", 99, 500_000))
    ):
        asked = asks.ask_for(["DLR1"], side, quantity)
        shown = quotes.wait_shown(count + 1)
        if not count:
            for page in (investor, dealer):
                page.card_says("Here today: no other price of this bond")
        quotes.quote(shown, price * POINT)
        asks.until("the quote is there", lambda: asks.requests[asked]["quotes"])
        assert asks.hit(asked, "DLR1") == ""
        asks.until("it is done", lambda: asks.requests[asked]["state"] == "done")
    positions = (
        (investor, "Alder 4.125 03/29 2,000,000 500,000 +1,500,000 99"),
        (dealer, "Alder 4.125 03/29 500,000 2,000,000 \u22121,500,000 99"),
    )
    for page, row in positions:
        page.until_says(".positions", "Position of today, in 1 bond", row)
    last = asks.ask_for(["DLR1"])
    dealer.card_says("Here today: bought at 99 (", " UTC). Net \u22121,500,000")
    investor.card_says("Here today: sold at 99 (", " UTC). Net +1,500,000")
    quotes.quote(quotes.wait_shown(3), 102 * POINT)
    assert asks.act(do="pass", request=last) == ""
    asks.ask_for(["DLR1"])
    dealer.card_says("Here today: bought at 99 (", ", offered 102 (")
    assert dealer.complaints() == [] and investor.complaints() == []


def test_an_arrow_marks_a_quote_that_changed(house: House) -> None:
    """Up or down, for some seconds; the quote itself stands beside it."""
    investor, dealer = house.browser(house.investor), house.view(house.dealer)
    investor.ask("alder", "buy", "1m", dealers=("DLR1",))
    request, price = dealer.wait_shown(1), 99 * POINT
    dealer.quote(request, price)
    investor.card_says("99")
    assert not set(ARROWS) & set(investor.text(PRICE))

    def marked(arrow: str, step: int) -> bool:
        nonlocal price
        price += step
        dealer.quote(request, price)
        investor.card_says(decimal(price))
        return investor.text(PRICE).split() == [arrow, decimal(price)]  # or it went by then

    for arrow, step in zip(ARROWS, (POINT // 2, -POINT)):
        investor.until("%s marks it" % arrow, lambda: marked(arrow, step))
    investor.until("the arrow goes", lambda: investor.text(PRICE).split() == [decimal(price)])


def decimal(price: int) -> str:
    return "%g" % (price / POINT)


# Moves the card, and presses a button of it at once.
MOVED = """const card = document.querySelector('article.card');
card.style.marginTop = `${card.offsetTop + 40}px`;
card.querySelector(arguments[0]).dispatchEvent(new MouseEvent('click', {bubbles: true, cancelable: true, detail: 1}));"""


def test_a_withdrawal_is_never_refused(house: House) -> None:
    """What has only just moved takes no press, but for Withdraw."""
    view, dealer = house.view(house.investor), house.browser(house.dealer)
    view.ask_for(["DLR1"])
    dealer.card_says("INV1 buys")
    dealer.quote("99.5")
    dealer.card_says("Live 99.5")
    dealer.one("input.entry").send_keys("99.25")
    dealer.script(MOVED, "button.send")
    dealer.until_said("The page moved under your press: look again.")
    dealer.card_says("Live 99.5")
    dealer.script(MOVED, "button.withdraw")
    dealer.card_says("No live quote")
