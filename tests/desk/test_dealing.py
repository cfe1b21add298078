"""How a dealer's and an investor's traders deal by the page: by yields, with colleagues, beside programs."""

import csv
from dataclasses import replace
from datetime import timedelta
from pathlib import Path

from selenium.webdriver.common.keys import Keys

from tests.desk.browser import Browser
from tests.desk.conftest import House
from tests.desk.test_bonds import ALDER, row_of, today, with_data
from tests.desk.test_days import with_day
from tests.desk.test_door import STOPPED, enter, set_reference, with_program

POINT = 256
TYPED = 4.3  # percent


def nearest(rate: float) -> int:
    """The price, in 256ths, that is nearest to this yield of a plain computation."""
    return round(ALDER.price(rate, ALDER.settles(today())) * POINT)


def decimal(price: int) -> str:
    return repr(price / POINT).removesuffix(".0")


def test_a_yield_is_quoted_and_hit(house: House) -> None:
    """A typed yield becomes a price in the field, and nothing is sent before that; then yield and money on both sides."""
    view, quotes = with_data(house)
    dealer, investor = house.browser(house.dealer), house.browser(house.investor)
    settles, price = ALDER.settles(today()), nearest(TYPED)
    view.ask_for(["DLR1"])
    dealer.card_says("As a help: settles %s, accrued " % settles)
    dealer.press(Keys.F2, "%s%%" % TYPED)
    dealer.card_says("%s %%: the nearest price is %s" % (TYPED, decimal(price)), "sends nothing")
    dealer.press(Keys.ENTER)
    entry = dealer.in_card("input.entry")
    dealer.until("it stands there", lambda: entry.get_attribute("value") == decimal(price))
    dealer.card_says("yields 4.", "the buyer pays", "No live quote")
    assert quotes.requests["R1"]["quotes"] == []
    dealer.press(Keys.ENTER)
    dealer.confirm_first()
    dealer.card_says("Live %s" % decimal(price), "4.3")
    investor.until_says(".quotes .yield", "Yield", "4.3")
    investor.press_in_card("button.hit")
    investor.until("the hit is sent", lambda: hit_by_mouse(investor))
    investor.card_says("Bought 2,000,000 at %s" % decimal(price), "the buyer pays")
    view.until("the trade", lambda: next(iter(view.requests.values()))["amounts"])
    total = "{:,.2f}".format(next(iter(view.requests.values()))["amounts"]["total"])
    for page in (investor, dealer):
        page.card_says("the buyer pays %s" % total)
        page.one("article.card button.paper").send_keys(Keys.ENTER)
        page.until_says("#paper", str(settles), total, "a help")
        page.press(Keys.ESCAPE)
        page.click("button.export")
        row = exported(page)
        assert (row["help_settles"], row["help_total"]) == (str(settles), total.replace(",", ""))
        assert page.complaints() == []


def test_an_accrued_interest_below_zero_is_called_ex_dividend(house: House) -> None:
    """Between the ex-dividend date and the coupon."""
    coupon = today() + timedelta(days=12)
    day = coupon.replace(day=min(coupon.day, 28))
    bond = replace(
        ALDER,
        dated=day.replace(year=day.year - 2),
        maturity=day.replace(year=day.year + 9),
        end_of_month=False,
        frequency=1,
        ex_dividend_days=30,
    )
    for desk in (house.investor, house.dealer):
        desk.stop()
        desk.bonds = row_of("BONDA0000001", bond)
        desk.write()
        desk.start()
    accrued = bond.accrued(bond.settles(today()))
    assert accrued < 0
    house.view(house.investor).ask_for(["DLR1"])
    for page in (house.browser(house.investor), house.browser(house.dealer)):
        page.card_says("ex-dividend, accrued \u2212" + ("%.8f" % -accrued).rstrip("0"))


def hit_by_mouse(page: Browser) -> bool:
    """The presses of a hit at the button, again where the first is forgotten by then."""
    if "Bought" not in page.card_text() and "not answered" not in page.card_text():
        page.in_card("button.hit").click()
    return "Bought" in page.card_text()


def exported(page: Browser) -> dict[str, str]:
    def files() -> list[Path]:
        found = (page.profile / "downloads").glob("*.csv")
        return [file for file in found if file.stat().st_size]

    page.until("the file is there", files)
    with files()[0].open(newline="") as rows:
        return next(csv.DictReader(rows))


def test_a_claim_says_whose_it_is(house: House) -> None:
    """Claimed by the mouse, handed over and released by keys; a colleague's first press says whose it is, and a restart
    forgets no claim."""
    view, quotes = house.view(house.investor), house.view(house.dealer)
    tess, tom = house.browser(house.dealer), house.browser(house.dealer, "tom")
    view.ask_for(["DLR1"], quantity=1_000_000)
    tess.click("article.card button", "Claim")
    tess.card_says("Yours, ")
    tom.card_says("tess (T1) has claimed this request")
    tom.press(Keys.F2, "99.5", Keys.ENTER)
    tom.until_said("tess (T1) has claimed this request. Your first price: OFFER 1,000,000")
    assert quotes.requests["R1"]["quotes"] == []
    tom.until("the second Enter sends", lambda: sent(tom, "Live 99.5"))
    tess.card_says("Live 99.5 (99-16), by T4", "your firm\u2019s 99.5 (T4)")
    tess.click(".blotter summary")
    tess.until_says(".blotter details", "T4")
    tess.one("article.card .claim button[aria-label^='Hand over']").send_keys(Keys.ENTER)
    tom.card_says("Yours, ")
    tess.card_says("tom (T4) has claimed this request")
    house.dealer.stop()
    house.dealer.start()
    tom.until_says("#top", "Venue connected")
    tom.card_says("Yours, ")
    tom.one("article.card .claim button[aria-label^='Release']").send_keys(Keys.ENTER)
    for page in (tess, tom):
        page.until_silent("article.card", "claimed")
        page.card_says("Claim")


def sent(page: Browser, words: str) -> bool:
    """Enter again, until the card says so."""
    if words not in page.card_text():
        page.press(Keys.ENTER)
    return words in page.card_text()


def test_f9_stops_a_program(house: House) -> None:
    """The page shows what a program did; F9 takes it back and stops the program, until two presses release it."""
    with_program(house.dealer)
    set_reference(house, 99 * POINT)
    view, page = house.view(house.investor), house.browser(house.dealer)
    page.until_says("#programs", "Program P1", "not connected")
    program = enter(house.dealer)
    page.until_says("#programs", "acts with the rights of tess")
    view.ask_for(["DLR1"])
    shown = program.wait_shown(1)
    program.quote(shown, 99 * POINT)
    page.card_says("Live 99 (99-00), by the program P1")
    page.press(Keys.F9)
    page.until_says("#programs", "stopped by tess", "until a trader releases it")
    page.card_says("No live quote")
    quote = {"do": "quote", "request": shown, "price": 99 * POINT, "seconds": 0, "replaces": ""}
    assert program.act(**quote) == STOPPED
    page.until("two presses release it", lambda: released(page))
    assert program.act(**quote) == ""
    page.card_says("Live 99 (99-00), by the program P1")
    page.click("#programs button", "Stop")
    page.until_says("#programs", "stopped by tess")
    assert page.complaints() == []


def released(page: Browser) -> bool:
    """By keys; again where the first press is forgotten by then."""
    if "acts with" not in page.text("#programs"):
        page.one("#programs button.release").send_keys(Keys.ENTER)
    return "acts with" in page.text("#programs")


def test_an_admin_guards_the_firm(house: House) -> None:
    """A reference by the mouse, its distance by keys, and a trader's limit, which holds at once on a page that is open."""
    view, admin = house.view(house.investor), house.browser(house.dealer, "ada")
    view.ask_for(["DLR1"])
    admin.click("#limits-button")
    admin.until_says("#limits", "tess (T1)", "lou (T4), looks only")
    admin.one("#limits input[aria-label='Reference price']").send_keys("99")
    admin.click("#limits button", "Set the reference")
    admin.until_says("#limits form table", "Alder 4.125 03/29", "ada")
    distance = admin.one("#limits input[aria-label='Distance in points']")
    distance.clear()
    distance.send_keys("0.5", Keys.ENTER)
    events = house.dealer.told
    admin.until(
        "the distance is set", lambda: "Distance from references set by ada" in events.read_text()
    )
    dealer = house.browser(house.dealer)
    assert not dealer.one("#limits-button").is_displayed()
    dealer.until("both hold", lambda: guarded(dealer))
    dealer.press(Keys.ESCAPE, Keys.ESCAPE)
    dealer.quote("99.25")
    dealer.card_says("Live 99.25")
    quantity = admin.one("#limits input[aria-label='Quantity of tess']")
    quantity.send_keys("1m", Keys.ENTER)
    admin.until_says("#limits", "Set for tess: quantity 1,000,000, exposure the firm\u2019s own.")
    assert quantity.get_attribute("value") == "1,000,000"
    exposure = admin.one("#limits input[aria-label='Exposure of tess']")
    exposure.send_keys("four", Keys.ENTER)
    admin.until_says("#limits", "four is no exposure")
    exposure.clear()
    exposure.send_keys("4m", Keys.ENTER)
    admin.until_says("#limits", "Set for tess: quantity 1,000,000, exposure 4,000,000.")
    assert exposure.get_attribute("value") == "4,000,000"
    dealer.until("the limit holds", lambda: limited(dealer))
    assert admin.complaints() == [] and dealer.complaints() == []


def guarded(page: Browser) -> bool:
    page.press(Keys.ESCAPE, Keys.ESCAPE)
    page.quote("99.75")
    return "0.75 points from the reference 99, " in page.card_text()


def limited(page: Browser) -> bool:
    page.quote("99.5")
    return "above the 1,000,000 that your desk allows you" in page.card_text()


def test_an_earlier_day_is_read(house: House) -> None:
    """Chosen by keys, or found by words; its trades have tickets, and nothing of it can be asked again."""
    with_day(house, "20260105")
    page = house.browser(house.investor)
    page.until_says("#blotter", "2 requests, 2 done")
    page.one("#day").send_keys("2026-01-05")
    page.until_says("#blotter", "2026-01-05, read-only", "2 requests, 2 done")
    assert page.all(".blotter button[aria-label^='Ask again']") == []
    page.click(".blotter button", "Ticket")
    page.until_says("#paper", "Buyer", "INV1", "DLR1")
    page.press(Keys.ESCAPE)
    page.one("#day").send_keys("earlier")
    page.until_says("#blotter", "Type a bond, a firm")
    page.one("#filter").send_keys("alder 2m")
    page.until_says("#blotter", "1 request", "2,000,000", "2026-01-05")
    page.one("#day").send_keys("today")
    page.until_says("#blotter", "Today")
    assert page.complaints() == []
