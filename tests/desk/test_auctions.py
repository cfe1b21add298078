"""Whole auctions in a browser, from both sides: each button, each key, and what each says."""

from selenium.webdriver.common.keys import Keys

from tests.desk.browser import Browser
from tests.desk.conftest import House
from tests.desk.desks import MARKUP

POINT = 256


def test_an_auction_by_keys_is_won(house: House) -> None:
    """Ticket, quotes of two dealers, a replacement in 32nds, and a hit by two presses; each side is told its end."""
    investor, dealer, other = (
        house.browser(house.investor),
        house.browser(house.dealer),
        house.browser(house.other),
    )
    investor.ask("alder", "buy", "2m")
    for each in (dealer, other):
        each.card_says("OFFER", "2,000,000", "Alder 4.125 03/29", "INV1 buys", "No live quote")
    dealer.press(Keys.F2)
    dealer.press("99-16+", Keys.ENTER)
    dealer.until_said(
        "Your first price: OFFER 2,000,000 Alder 4.125 03/29 at 99.515625: Enter again"
    )
    dealer.confirm_first()
    dealer.card_says("Live 99.515625 (99-16+), to the deadline", "Replace", "Withdraw")
    dealer.until_says("#top", "Exposure 2,000,000 of 1,000,000,000", "quotes today 1 of 4,096")
    other.quote("99.5")
    investor.card_says("99.515625", "99.5", "2 of 2 quoted")
    assert "DLR2" in investor.text("tr.best")  # the lowest offer is the best
    investor.press(Keys.F4)
    investor.card_says("99-16+", "99-16")
    investor.press(Keys.F4)
    dealer.quote("99-15")
    investor.card_says("99.46875", "best", "DLR2")
    assert "1" in investor.text("tr:not(.best) td.number:not(.price)")  # 32nds behind the best
    investor.until(
        "the first press shows what the second does",
        lambda: armed(investor, "Once more: buy 2,000,000 at 99.46875 from DLR1"),
    )
    investor.press(Keys.ESCAPE)
    investor.until_silent("article.card", "Once more")
    investor.hit("DLR1")
    investor.card_says("Bought 2,000,000 at 99.46875 from DLR1", "Cover 99.5, DLR2.")
    dealer.card_says("DONE: sold 2,000,000 at 99.46875 to INV1")
    other.card_says(
        "Cover: another dealer won, and your quote was the next best", "Your offer was 99.5."
    )
    investor.until_says("#blotter", "DONE", "cover 99.5, DLR2", "1 done: bought 2,000,000, sold 0")
    dealer.until_says("#blotter", "DONE", "bought 0, sold 2,000,000")
    other.until_says("#top", "Exposure 0 of")
    for each in (investor, dealer, other):
        assert each.complaints() == []


def armed(investor: Browser, words: str) -> bool:
    """Presses once, and looks before the press is forgotten."""
    investor.arm("DLR1")
    return words in investor.card_text()


def test_a_key_that_is_held_down_and_a_double_click_hit_nothing(house: House) -> None:
    """Neither an Enter that repeats nor two clicks at once are a first press and a second."""
    investor, dealer = house.browser(house.investor), house.view(house.dealer)
    investor.ask("alder", "buy", "1m", dealers=("DLR1",))
    dealer.quote(dealer.wait_shown(1), 99 * POINT)
    investor.card_says("99", "Buy")
    button = investor.arm("DLR1")
    investor.script(
        """for (let count = 0; count < 40; ++count)
        if (arguments[0].dispatchEvent(new KeyboardEvent('keydown', {key: 'Enter', repeat: true, bubbles: true, cancelable: true})))
            arguments[0].click();""",
        button,
    )
    investor.press(Keys.ESCAPE)
    investor.until_silent("article.card", "Once more")
    investor.until("the time of the guard is over", lambda: "?" in investor.arm("DLR1").text)
    investor.press(Keys.ESCAPE)
    once = investor.script(
        """const button = document.querySelector('button.hit');
        button.click();
        button.click();
        return document.querySelector('article.card').textContent.includes('Once more');"""
    )
    assert once, "two clicks at once are no first press"
    assert investor.text("article.card").count("Bought") == 0
    dealer.until("nothing was hit", lambda: dealer.requests["R1"]["state"] == "open")


def test_a_quote_that_changes_under_a_press_is_not_hit(house: House) -> None:
    """Where the chosen quote is replaced by a worse one, the choice is over, and the trader is told."""
    investor, dealer = house.browser(house.investor), house.view(house.dealer)
    investor.ask("alder", "buy", "1m", dealers=("DLR1",))
    request = dealer.wait_shown(1)
    dealer.quote(request, 99 * POINT)
    investor.card_says("99", "Buy")
    price = 99 * POINT

    def changed() -> bool:
        nonlocal price
        price += POINT
        investor.arm("DLR1")
        dealer.quote(request, price)
        investor.card_says(str(price // POINT))
        words = "DLR1 went from %d to %d, which is worse" % (price // POINT - 1, price // POINT)
        return words in investor.card_text()  # or the press was forgotten before

    investor.until("the choice is over", changed)
    assert "Once more" not in investor.card_text()


def test_what_cannot_be_hit_is_not_counted_as_quoted(house: House) -> None:
    """Of a quote whose validity is over, and of one that was withdrawn, the card says so."""
    page, view = house.browser(house.investor), house.view(house.investor)
    first, second = house.view(house.dealer), house.view(house.other)
    view.ask_for(["DLR1", "DLR2"])
    first.quote(first.wait_shown(1), 99 * POINT, seconds=10)
    second.quote(second.wait_shown(1), 100 * POINT)
    page.card_says("100")
    assert second.act(do="withdraw", request="R1") == ""
    page.card_says("0 of 2 quoted, 1 over, 1 withdrew")


def test_each_way_that_a_request_ends(house: House) -> None:
    """Pass, decline, expiry, withdrawal, cancel of all: on both pages."""
    investor, dealer, other = (
        house.browser(house.investor),
        house.browser(house.dealer),
        house.view(house.other),
    )
    investor.ask("alder", "sell", "1.5m")
    dealer.card_says("BID", "1,500,000", "INV1 sells")
    dealer.quote("99.25")
    investor.card_says("SELL", "99.25")
    dealer.press_in_card("button.withdraw")
    dealer.card_says("No live quote")
    investor.card_says("withdrew")
    dealer.press_twice("button.decline")
    dealer.card_says("Declined")
    investor.card_says("declined")
    other.quote(other.wait_shown(1), 98 * POINT)
    investor.press_twice("button.pass")
    investor.card_says("Passed")
    dealer.card_says("The investor passed", "You declined.")
    investor.press_in_card("button.small")
    investor.until_says("#cards", "No open request")

    investor.ask("cedar", "buy", "500k", deadline="45")  # time enough on a busy machine
    dealer.card_says("Cedar", "steps of 1/32")
    dealer.quote("100")
    dealer.card_says("Live 100")
    dealer.press("9", Keys.F9)
    dealer.card_says("No live quote")
    dealer.until_says("#top", "Exposure 0 of")
    dealer.until_said("Cancel all: 1 quote withdrawn, none is live")
    assert dealer.in_card("input.entry").get_attribute("value") == "", "a typed price outlives F9"
    dealer.press(Keys.F9)
    dealer.until_said("no live quote is left to cancel")
    investor.card_says("Expired")
    dealer.card_says("Expired")
    investor.until_says("#blotter", "Passed", "Expired")
    assert investor.complaints() == [] and dealer.complaints() == []


def test_the_dealers_entry(house: House) -> None:
    """Prices in decimals and 32nds, the grid, arrow keys, and a price far from the last one."""
    dealer, investor = house.browser(house.dealer), house.view(house.investor)
    investor.ask_for(["DLR1"], bond="BONDB0000002")
    dealer.card_says("steps of 1/128")
    dealer.quote("99-171")
    dealer.card_says("Off the grid of 1/128: 99.53125 or 99.5390625.")
    dealer.quote("99-40")
    dealer.card_says("There are 32 thirty-seconds: 00 to 31.")
    dealer.quote("nothing")
    dealer.card_says("A price is 99.515625 or 99-16+.")
    dealer.quote("99.5")
    dealer.card_says("Live 99.5 (99-16)")
    dealer.press(Keys.F2, Keys.ARROW_UP, Keys.ARROW_UP, Keys.ARROW_DOWN)
    dealer.until(
        "one step up", lambda: dealer.in_card("input.entry").get_attribute("value") == "99.5078125"
    )
    dealer.press(Keys.ESCAPE)
    dealer.until("it is empty", lambda: dealer.in_card("input.entry").get_attribute("value") == "")
    dealer.quote("97")
    dealer.until_said("2.5 points from your last, 99.5: type OFFER to send it")
    dealer.press(Keys.ENTER, "bid", Keys.ENTER)
    dealer.until("the word is chosen, to be typed again", lambda: typed_word(dealer) == "bid")
    dealer.card_says(
        "Live 99.5", "That was bid. 2.5 points from your last, 99.5: type OFFER to send it"
    )
    dealer.press("offer", Keys.ENTER)
    dealer.card_says("Live 97 (97-00)")
    dealer.quote("94")
    dealer.until_said("3 points from your last, 97: type OFFER")
    dealer.press(Keys.ESCAPE)
    dealer.until("the keys are in the price", lambda: dealer.focused().startswith("Offer for"))
    dealer.press(Keys.ESCAPE)
    dealer.script(
        "const list = arguments[0]; list.value = '30'; list.dispatchEvent(new Event('change'))",
        dealer.in_card("select.seconds"),
    )
    dealer.quote("97.5")
    dealer.card_says("Live 97.5 (97-16), valid 0:")
    dealer.card_says(
        "Stale 97.5 (97-16): since", "UTC nobody can hit it. It counts as exposure until you"
    )
    assert dealer.text("#top").count("Exposure 2,000,000 of") == 1
    asked = list(investor.requests)[0]
    assert investor.act(do="pass", request=asked) == ""
    dealer.card_says("The investor passed", "Your offer was 97.5, stale since")
    dealer.until_says("#blotter", "stale at the end")


def test_a_price_that_was_taken_back_is_no_yardstick(house: House) -> None:
    """The right price behind a slip asks for no typed word, and says what was withdrawn; a second Enter that comes too soon is
    told so."""
    dealer, investor = house.browser(house.dealer), house.view(house.investor)
    investor.ask_for(["DLR1"])
    dealer.quote("97.5")
    dealer.card_says("Live 97.5")
    dealer.in_card("button.withdraw").send_keys(Keys.ENTER)
    dealer.card_says("No live quote")
    entry = dealer.in_card("input.entry")
    entry.send_keys("99.5")
    dealer.script(
        """for (let count = 0; count < 2; ++count)
            arguments[0].dispatchEvent(new KeyboardEvent('keydown', {key: 'Enter', bubbles: true, cancelable: true}));""",
        entry,
    )
    dealer.card_says(
        "That was too soon to be an answer. Your first price: OFFER 2,000,000", "97.5 was withdrawn"
    )
    dealer.confirm_first()
    dealer.card_says("Live 99.5")
    dealer.quote("97.5")
    dealer.card_says("2 points from your last, 99.5: type OFFER to send it")


def test_an_exposure_that_has_no_room_is_told_at_once(house: House) -> None:
    """Nobody is asked to confirm what can't be sent."""
    dealer, investor = house.browser(house.other), house.view(house.investor)
    for count in range(3):
        investor.ask_for(["DLR2"], quantity=4_000_000)
        dealer.until("it is shown", lambda count=count: len(dealer.cards()) == count + 1)  # type: ignore[misc]
    for number in (0, 1):
        dealer.quote("99.5", number)
        dealer.card_says("Live 99.5", number=number)
    entry = dealer.in_card("input.entry", 2)
    entry.send_keys("94.5", Keys.ENTER)
    dealer.card_says(
        "The exposure would be 12,000,000 of 10,000,000: withdraw another quote first.", number=2
    )
    assert "type OFFER" not in dealer.card_text(2)


def typed_word(page: Browser) -> object:
    return page.script(
        "const {value, selectionStart, selectionEnd} = document.activeElement; return value.slice(selectionStart, selectionEnd);"
    )


def test_presses_that_were_meant_for_what_stood_there_before(house: House) -> None:
    """A double click on Close, on Withdraw, and on a price far off binds nothing; nor does a pass or a decline by one press."""
    investor, dealer, view = (
        house.browser(house.investor),
        house.browser(house.dealer),
        house.view(house.investor),
    )
    first, second = view.ask_for(["DLR1"]), view.ask_for(["DLR1"])
    assert view.act(do="pass", request=first) == ""
    for page in (investor, dealer):
        page.until("the first has ended", lambda page=page: "assed" in page.card_text(0))  # type: ignore[misc]
        page.until("Close stands", lambda page=page: page.stands(page.in_card("button.small", 0)))  # type: ignore[misc]
        page.click_twice(page.in_card("button.small", 0), 0.25)
        page.until("one card is left", lambda page=page: len(page.all("article.card")) == 1)  # type: ignore[misc]
    dealer.quote("19.5")
    dealer.until_said(
        "Your first price on this bond is 80.5 points from 100: type OFFER to send it"
    )
    dealer.card_says("No live quote")
    dealer.script(
        """const entry = arguments[0];
        entry.value = '19.25';
        entry.dispatchEvent(new Event('input'));
        for (let count = 0; count < 5; ++count) entry.dispatchEvent(new KeyboardEvent('keydown', {key: 'Enter', bubbles: true, cancelable: true}));""",
        dealer.in_card("input.entry"),
    )
    dealer.until_said("80.75 points from 100")
    dealer.card_says("No live quote")
    dealer.quote("99.5")
    dealer.card_says("Live 99.5")
    dealer.until("Withdraw stands", lambda: dealer.stands(dealer.in_card("button.withdraw")))
    dealer.click_twice(dealer.in_card("button.withdraw"), 0.4)
    dealer.card_says("No live quote")
    assert "Declined" not in dealer.card_text()
    investor.press_in_card("button.pass")
    investor.card_says("Pass?")
    dealer.press_in_card("button.decline")
    dealer.card_says("Decline?")
    view.until("nothing is pending", lambda: not view.requests[second]["pending"])
    assert view.requests[second]["state"] == "open" and "Declined" not in dealer.card_text()


def test_who_leaves_live_quotes_is_asked(house: House) -> None:
    """The first press of Log out says how many quotes stay live, and the last price is known at the next login."""
    view, dealer = house.view(house.investor), house.browser(house.dealer)
    view.ask_for(["DLR1"])
    dealer.card_says("INV1 buys")
    dealer.quote("99.5")
    dealer.card_says("Live 99.5")
    dealer.click("#logout")
    dealer.until_said("1 quote stays live and can be hit")
    dealer.until_says("#top", "Venue connected")

    def left() -> bool:
        if dealer.all("#login") and dealer.one("#login").is_displayed():
            return True
        dealer.one("#logout").click()
        return False

    dealer.until("the next press leaves", left)
    dealer.log_in("tess")
    dealer.card_says("Live 99.5", "your last 99.5")


def test_the_ticket(house: House) -> None:
    """Completion, amounts, refusals before anything is sent, saved groups, and a request that is repeated."""
    investor = house.browser(house.investor)
    investor.press(Keys.F2)
    investor.press("03/29")
    investor.until_says("#bonds", "Alder 4.125 03/29", "BONDA0000001")
    investor.press(Keys.ESCAPE, Keys.CONTROL + "a" + Keys.NULL, "bondb")
    investor.until_says("#bonds", MARKUP)
    assert investor.all("#bonds img") == []
    investor.press(Keys.TAB, "s")
    assert investor.one("#sell").is_selected()
    for quantity, says in (
        ("x", "x is no quantity: write 2,000,000, 2m or 500k."),
        ("0", "A quantity is more than 0"),
        ("0,5m", "0,5m has a comma that parts no thousands: write 0.5m or 500,000."),
        ("9m", "9,000,000 is above the limit of 5,000,000 a request."),
        ("1m", "Choose buy or sell"),
    ):
        investor.one("#quantity").clear()
        if quantity != "1m":
            investor.click("#buy")
            investor.one("#quantity").send_keys(quantity, Keys.ENTER)
            investor.until_says(".ticket", says)
    investor.ask("cedar", "buy", "1.5m", deadline="never")
    investor.until_says(".ticket", "A deadline is a time from now: 90 (seconds), 2:00, 5m or 1h.")
    assert investor.focused() == "deadline", "the field at fault has not got the focus"
    investor.ask("cedar", "buy", "1.5m", dealers=())
    investor.until_says(".ticket", "Choose the dealers to ask.")
    investor.click(".picks label", "DLR2")
    investor.one(".group-name").send_keys("the best", Keys.ENTER)
    investor.until_says(".chips", "the best")
    investor.click(".chips button", "none")
    investor.click(".chips button", "the best")
    assert [
        box.get_attribute("value") for box in investor.all(".picks input") if box.is_selected()
    ] == ["DLR2"]
    investor.one("#quantity").send_keys(Keys.ENTER)  # the deadline is no time still
    investor.one("#deadline").clear()
    investor.one("#deadline").send_keys("5m", Keys.ENTER)
    investor.card_says("BUY", "1,500,000", "Cedar", "waiting")
    investor.driver.refresh()
    investor.until_says(".chips", "the best")  # the desk keeps it
    investor.until("the request can be repeated", lambda: investor.all("button.again"))
    investor.script(
        "document.querySelector('button.again').click(); document.querySelector('.ticket button.strong').click()"
    )
    investor.until(
        "the ticket is filled in",
        lambda: investor.one("#quantity").get_attribute("value") == "1,500,000",
    )
    assert investor.one("#bond").get_attribute("value") == "Cedar 4.75 02/34"
    assert [
        box.get_attribute("value") for box in investor.all(".picks input") if box.is_selected()
    ] == ["DLR2"]
    investor.until_says(
        ".ticket", "Filled in just now"
    )  # so soon it is no look at what stands there
    assert len(investor.all("article.card")) == 1
    investor.until("a later one asks", lambda: asked_again(investor))
    assert investor.complaints() == []


def asked_again(page: Browser) -> bool:
    """Presses Enter on the ticket's button, until there are two requests."""
    if len(page.all("article.card")) < 2 and page.driver.switch_to.active_element.text.startswith(
        "Ask"
    ):
        page.press(Keys.ENTER)
    return len(page.all("article.card")) == 2


def test_blotter_filter_and_export(house: House) -> None:
    """What the filter lets through is what is summed and exported, and no cell is a formula."""
    investor, view, dealer = (
        house.browser(house.investor),
        house.view(house.investor),
        house.view(house.dealer),
    )
    for count, bond in enumerate(("BONDA0000001", "BONDC0000003", "BONDA0000001")):
        request = view.ask_for(["DLR1"], bond=bond, quantity=1_000_000 * (count + 1))
        dealer.quote(dealer.wait_shown(count + 1), 100 * POINT)
        view.until("a quote", lambda: view.requests[request]["quotes"])
        assert view.hit(request, "DLR1") == ""
        view.until("done", lambda: view.requests[request]["state"] == "done")
    investor.until_says("#blotter", "3 requests, 3 done: bought 6,000,000, sold 0")
    investor.one("#filter").send_keys("alder")
    investor.until_says("#blotter", "2 of 3 requests, 2 done: bought 4,000,000, sold 0")
    investor.click("button.export")
    investor.until_said("-filtered.csv: 2 requests")
    folder = investor.profile / "downloads"
    investor.until("the file is there", lambda: any(folder.glob("INV1-*.csv")))
    lines = next(folder.glob("INV1-*-filtered.csv")).read_text().splitlines()
    assert lines[0].startswith("request,asked_utc,ended_utc,side,quantity,bond,bond_name,price,")
    assert sorted(line.split(",")[4] for line in lines[1:]) == ["1000000", "3000000"]
    assert all(",100,DLR1,DONE,T8," in line for line in lines[1:])
    investor.one("#ends").send_keys("open")
    investor.until_says("#blotter", "0 of 3 requests, 0 done")
    made = investor.script(
        """const {csv} = await import('/csv.js'); return csv([['=1+1', 'a,"b', -5, 'a; =1', 'b\\t@x', 'a-b']])"""
    )
    assert made == '\'=1+1,"a,""b",-5,"a; \'=1","b\t\'@x",a-b\r\n'
