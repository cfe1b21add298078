"""What is on the screen: a new request, what ends next, the live quotes that an alarm lists, and no empty places."""

from selenium.webdriver.common.keys import Keys

from tests.desk.browser import HEIGHT, Browser
from tests.desk.conftest import House
from tests.desk.view import View

POINT = 256
ENDED = 18
WIDTHS = (400, 1280)
HEAD = 60  # pixels that a sticky head has at most

# Whether the card of this bond is on the screen, and nothing lies over it.
IN_SIGHT = """const card = [...document.querySelectorAll('article.card')].filter(one => one.textContent.includes(arguments[0])).at(-1);
const {top, bottom, left} = card.getBoundingClientRect();
return [top + 2, bottom - 2].every(at => card.contains(document.elementFromPoint(left + 20, at)));"""

# How far below the head of its list the first card stands.
BLANK = """const card = document.querySelector('article.card').getBoundingClientRect();
return card.top - document.getElementById('cards').getBoundingClientRect().top;"""

# Whether what the page says covers a line of the list of live quotes.
COVERED = """const said = document.querySelector('.said').getBoundingClientRect(), list = document.createRange();
const walk = document.createTreeWalker(document.getElementById('alarm'), NodeFilter.SHOW_TEXT), rects = [];
while (walk.nextNode()) {
  if (walk.currentNode.parentElement.closest('.said') || !walk.currentNode.data.includes('Alder')) continue;
  list.selectNodeContents(walk.currentNode);
  rects.push(...list.getClientRects());
}
if (!rects.length || !said.width) return null;
return rects.some(one => one.left < said.right && said.left < one.right && one.top < said.bottom && said.top < one.bottom);"""


def asked_and_passed(view: View, count: int) -> None:
    """So many requests that were open at one time, and have ended."""
    names = [view.ask_for(["DLR1"], quantity=1_000_000) for _ in range(count)]
    for name in names:
        assert view.act(do="pass", request=name) == ""
    view.until("all have ended", lambda: not view.open_requests())


def test_a_new_request_is_on_the_screen(house: House) -> None:
    """Ended cards make room, on both sides' pages; a card that stands is not moved by it."""
    view = house.view(house.investor)
    dealer, investor = house.browser(house.dealer), house.browser(house.investor)
    asked_and_passed(view, ENDED)
    for page in (dealer, investor):
        page.until("all are shown", lambda page=page: ended(page) == ENDED)  # type: ignore[misc]
    view.ask_for(["DLR1"], bond="BONDC0000003")
    for page in (dealer, investor):
        page.card_says("Cedar")
        assert page.script(IN_SIGHT, "Cedar"), "the new request is out of sight"


def ended(page: Browser) -> int:
    return len(page.all("article.card[data-state=passed]"))


def test_what_is_out_of_sight_and_ends_next_is_named(house: House) -> None:
    """Where more are open than the screen has room for, a line at its foot has the next one, and leads to it."""
    view, dealer = house.view(house.investor), house.browser(house.dealer)
    for _ in range(ENDED):
        view.ask_for(["DLR1"], quantity=1_000_000)
    view.ask_for(["DLR1"], bond="BONDC0000003", seconds=300)
    dealer.until("all are shown", lambda: len(dealer.all("article.card")) == ENDED + 1)
    dealer.until_says("#elsewhere", "Ends next: OFFER 2,000,000 Cedar 4.75 02/34")
    dealer.click("#elsewhere button", "Cedar")
    dealer.until("it is on the screen", lambda: dealer.script(IN_SIGHT, "Cedar"))
    assert "2,000,000 Cedar" in dealer.focused()
    dealer.until("it is not named any more", lambda: "Cedar" not in dealer.text("#elsewhere"))


def test_the_next_request_is_the_one_that_ends_next(house: House) -> None:
    """F2 goes from what ends first to what ends last, wherever their cards stand."""
    view, dealer = house.view(house.investor), house.browser(house.dealer)
    for quantity, seconds in ((1_000_000, 900), (2_000_000, 500), (3_000_000, 700)):
        view.ask_for(["DLR1"], quantity=quantity, seconds=seconds)
    dealer.until("all are shown", lambda: len(dealer.all("article.card")) == 3)
    seen = []
    for _ in range(4):
        dealer.press(Keys.F2)
        seen.append(dealer.focused().split(" ")[2])
    assert seen == ["2,000,000", "3,000,000", "1,000,000", "2,000,000"]


def test_an_empty_place_leaves_no_blank_on_a_small_screen(house: House) -> None:
    view, dealer = house.view(house.investor), house.browser(house.dealer)
    dealer.look(400, "light")
    first = view.ask_for(["DLR1"])
    view.ask_for(["DLR1"], bond="BONDC0000003")
    dealer.until("both are shown", lambda: len(dealer.all("article.card")) == 2)
    assert view.act(do="pass", request=first) == ""
    dealer.card_says("The investor passed", number=0)
    dealer.press_in_card("button.small", 0)
    dealer.until("it is closed", lambda: len(dealer.all("article.card")) == 1)
    dealer.until("its place is closed too", lambda: dealer.script(BLANK) < HEAD)


# Of what can be pressed or typed into between the head and the foot, what something else lies over once it is scrolled to.
UNDER = """return [...document.querySelectorAll('#body button, #body input, #body select')].filter(one => {
  if (!one.checkVisibility()) return false;
  one.scrollIntoView({block: 'nearest'});
  const {left, right, top, bottom} = one.getBoundingClientRect();
  const there = document.elementFromPoint((left + right) / 2, (top + bottom) / 2);
  return !one.contains(there) && !there?.contains(one);
}).map(one => one.outerHTML.slice(0, 80));"""


def test_the_strip_covers_nothing_that_is_used(house: House) -> None:
    """Where it names requests that are out of sight, each button and field of the page can be met, the last one too."""
    view, quotes = house.view(house.investor), house.view(house.dealer)
    for _ in range(ENDED):
        asked = view.ask_for(["DLR1"], quantity=1_000_000)
    quotes.quote(quotes.wait_shown(ENDED), 99 * POINT)
    view.until("a quote", lambda: view.requests[asked]["quotes"])
    assert view.hit(asked, "DLR1") == ""
    for desk in (house.dealer, house.investor):
        page = house.browser(desk)
        page.until("all are shown", lambda page=page: len(page.all("article.card")) >= ENDED - 1)  # type: ignore[misc]
        for width in WIDTHS:
            page.look(width, "light")
            page.until("the strip is there", lambda page=page: page.one("#elsewhere").is_displayed())  # type: ignore[misc]
            assert page.script(UNDER) == [], width
        page.click(".blotter button", "Ticket")
        page.until_says("#paper", "Trade ticket")
        page.press(Keys.ESCAPE)


# Whether a person sees all of these, wherever the page was scrolled to.
SEEN = """return arguments[0].every(where => [...document.querySelectorAll(where)].some(one => {
  const {left, right, top, bottom} = one.getBoundingClientRect();
  return one.checkVisibility() && right > left && top >= 0 && bottom <= innerHeight && one.contains(document.elementFromPoint(left + 3, (top + bottom) / 2));
}))"""


def test_a_desk_that_is_dead_is_seen_from_anywhere(house: House) -> None:
    """Scrolled to the end, on a wide, a small and a low screen: the state, the alarm, what F9 or "Cancel all" did, and that the
    button can do nothing now."""
    view, dealer = house.view(house.investor), house.browser(house.dealer)
    for _ in range(ENDED):
        view.ask_for(["DLR1"], quantity=1_000_000)
    dealer.until("all are shown", lambda: len(dealer.all("article.card")) == ENDED)
    dealer.quote("99.5", 0)
    dealer.card_says("Live 99.5", number=0)
    dealer.script(SCROLLED)
    dealer.press(Keys.F9)
    dealer.until_said("Cancel all: 1 quote withdrawn, none is live")
    assert dealer.script(SEEN, [".said"]), "what F9 did is out of sight"
    dealer.quote("99.5", 0)
    dealer.card_says("Live 99.5", number=0)
    house.dealer.kill()
    dealer.until_says("#top", "No connection to the desk")
    dealer.script("document.activeElement.blur(); document.getElementById('body').scrollTo(0, 0)")
    for key, place in ((Keys.END, "one.scrollHeight - one.clientHeight"), (Keys.HOME, "0")):
        dealer.press(key)
        where = "const one = document.getElementById('body'); return one.scrollTop - (%s);" % place
        assert abs(dealer.script(where)) < 2, "the key scrolls nothing"
    for width, height in (*((width, HEIGHT) for width in WIDTHS), (800, 360)):
        dealer.look(width, "light", height)
        dealer.script(SCROLLED)
        assert dealer.script(SEEN, ["#top .light", "#cancelall", "#alarm li"]), (width, height)
        assert dealer.one("#cancelall").get_attribute("aria-disabled") == "true"
        dealer.until("it is answered", lambda: answered(dealer))


SCROLLED = """for (const one of [document.documentElement, document.getElementById('body')]) one.scrollTo(0, one.scrollHeight);"""


def answered(page: Browser) -> bool:
    page.one("#cancelall").click()
    page.script(SCROLLED)
    return "nothing was sent" in page.text(".said") and bool(page.script(SEEN, [".said"]))


def test_no_hole_stands_before_cards_that_have_ended(house: House) -> None:
    """An open card keeps its place; those that have ended close up."""
    view, page = house.view(house.investor), house.browser(house.dealer)
    names = [view.ask_for(["DLR1"], quantity=quantity * 1_000_000) for quantity in (1, 2, 3)]
    page.until("all are shown", lambda: len(page.all("article.card")) == 3)
    for name in names[1:]:
        assert view.act(do="pass", request=name) == ""
    page.card_says("The investor passed", number=2)
    before = page.card(0).rect
    page.press_in_card("button.small", 1)
    page.until("the last one has closed up", lambda: len(page.all("#cards > *")) == 2)
    assert page.card(0).rect == before


def test_an_alarm_promises_what_is_true(house: House) -> None:
    """Without the desk nothing can be sent, and the page says so; nothing that it says covers the live quotes."""
    view, dealer = house.view(house.investor), house.browser(house.dealer)
    view.ask_for(["DLR1"])
    dealer.card_says("INV1 buys")
    dealer.quote("99.5")
    dealer.card_says("Live 99.5")
    house.dealer.kill()
    dealer.until_says(
        "#alarm",
        "may still stand at the venue and be hit",
        "offer 2,000,000 Alder 4.125 03/29 at 99.5",
        "can\u2019t be sent: the desk does not answer",
    )
    assert "delivered as soon as" not in dealer.text("#alarm")
    for width in WIDTHS:
        dealer.look(width, "light")
        dealer.until("F9 is answered", lambda: covered(dealer) is False)
        dealer.until_said("No connection to the desk: nothing was sent.")
    house.dealer.start()
    dealer.until_says("#top", "Venue connected")
    house.door.kill()
    dealer.until_says("#alarm", "delivered as soon as the venue is back")


def covered(page: Browser) -> object:
    """Presses F9, and looks while the answer stands."""
    page.press(Keys.F9)
    return page.script(COVERED)
