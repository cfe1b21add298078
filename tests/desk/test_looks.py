"""What a person looks at: widths, schemes, contrasts, labels, the keyboard. Pictures go to PICTURES, if that is set."""

import os
from pathlib import Path

from selenium.webdriver.common.keys import Keys

from tests.desk.browser import Browser
from tests.desk.conftest import House
from tests.desk.test_bonds import with_data
from tests.desk.test_days import with_day
from tests.desk.test_door import enter, set_reference, with_program

POINT = 256
WIDTHS, SCHEMES = (400, 1280, 2560), ("light", "dark")

# Of each shown text: its contrast to what is behind it, as WCAG 2 counts it. Disabled controls are exempt there.
CONTRASTS = """
const rgb = text => text.match(/[\\d.]+/g).map(Number);
const part = value => { value /= 255; return value <= 0.03928 ? value / 12.92 : ((value + 0.055) / 1.055) ** 2.4; };
const light = ([r, g, b]) => 0.2126 * part(r) + 0.7152 * part(g) + 0.0722 * part(b);
const behind = node => { for (; node; node = node.parentElement) { const c = rgb(getComputedStyle(node).backgroundColor); if (c.length < 4 || c[3] > 0) return c; } return [255, 255, 255]; };
const bad = [];
for (const node of document.querySelectorAll('body *')) {
  const own = [...node.childNodes].some(one => one.nodeType === 3 && one.textContent.trim());
  if ((!own && !['INPUT', 'SELECT'].includes(node.tagName)) || node.disabled || !node.checkVisibility() || node.closest('.unseen')) continue;
  const style = getComputedStyle(node), a = light(rgb(style.color)), b = light(behind(node));
  const contrast = (Math.max(a, b) + 0.05) / (Math.min(a, b) + 0.05);
  if (contrast < 4.5) bad.push(`${node.tagName} ${node.className} '${node.textContent.slice(0, 30)}' ${contrast.toFixed(2)}`);
}
return bad;
"""

# What can be worked has a name, is large enough to be met, and no name stands twice.
LABELS = """
const bad = [], ids = new Set();
for (const node of document.querySelectorAll('[id]')) { if (ids.has(node.id)) bad.push(`twice: ${node.id}`); ids.add(node.id); }
for (const node of document.querySelectorAll('button, input, select, summary, [role=option]')) {
  if (!node.checkVisibility()) continue;
  const name = node.getAttribute('aria-label') || [...(node.labels ?? [])].map(one => one.textContent).join('') || node.textContent.trim();
  if (!name) bad.push(`no name: ${node.outerHTML.slice(0, 80)}`);
  const {width, height} = node.getBoundingClientRect(), isBox = ['checkbox', 'radio'].includes(node.type);
  if (!isBox && node.tagName !== 'SUMMARY' && (width < 20 || height < 18)) bad.push(`small: ${name} ${width}x${height}`);
}
for (const table of document.querySelectorAll('table')) if (![...table.querySelectorAll('thead th')].every(one => one.scope === 'col')) bad.push('a table without heads');
if (!document.documentElement.lang || !document.title) bad.push('no language or title');
for (const node of document.querySelectorAll('[tabindex]')) if (node.tabIndex > 0) bad.push('an order of its own');
return bad;
"""

# Numbers that something else lies over, that leave their place, or that are broken into two lines. Before what lies over the
# whole page on purpose, a dialog, only its own are looked at.
COVERED = """
const bad = [], dialog = document.querySelector('dialog[open]'), room = document.getElementById('body').getBoundingClientRect();
const told = (node, what) => bad.push(`${node.closest('[class]').className} '${node.textContent.slice(0, 40)}' ${what}`);
const walk = document.createTreeWalker(dialog ?? document.body, NodeFilter.SHOW_TEXT), range = document.createRange();
while (walk.nextNode()) {
  const text = walk.currentNode, node = text.parentElement;
  if (!/\\d/.test(text.data) || !node.checkVisibility() || node.closest('.unseen, option, textarea, script')) continue;
  if (getComputedStyle(node).textOverflow === 'ellipsis') continue; // the name of a bond
  for (const {index, 0: {length}} of text.data.matchAll(/\\d{1,3}(?:,\\d{3})+|\\d+\\.\\d+|(?<![\\d-])\\d{1,3}-\\d\\d[\\d+]?(?![\\d-])/g)) {
    range.setStart(text, index);
    range.setEnd(text, index + length);
    const rects = [...range.getClientRects()].filter(one => one.width > 0);
    if (rects.length > 1) told(node, 'is broken');
    for (const {left, right, top, bottom} of rects) {
      const y = (top + bottom) / 2;
      if (node.closest('#body') && (y < room.top || y > room.bottom)) continue;
      for (const x of [left + 1, (left + right) / 2, right - 1]) {
        const there = document.elementFromPoint(x, y);
        if (there && !node.contains(there) && !there.contains(node)) told(node, `lies under ${there.outerHTML.slice(0, 60)}`);
        if (there && there.contains(node) && !there.closest('td, th') !== !node.closest('td, th')) told(node, 'is out of its cell');
      }
    }
  }
}
return bad;
"""


TO_THE_END = (
    "document.getElementById('body').scrollTo(0, document.getElementById('body').scrollHeight)"
)
TO_THE_BEGIN = "document.getElementById('body').scrollTo(0, 0)"


def pictures() -> Path | None:
    return Path(os.environ["PICTURES"]) if "PICTURES" in os.environ else None


def look(page: Browser, name: str) -> None:
    """At each width and scheme: nothing is wider than the page, every text can be read, everything has a name."""
    for width in WIDTHS:
        for scheme in SCHEMES:
            page.look(width, scheme)
            where = "%s, %d, %s" % (name, width, scheme)
            wide = page.script(
                "return [...document.querySelectorAll('body *')].filter(one => one.checkVisibility() && !one.closest('.unseen') && "
                "one.getBoundingClientRect().right > innerWidth + 0.5).map(one => one.outerHTML.slice(0, 80))"
            )
            widest = page.script(
                "return Math.max(document.documentElement.scrollWidth, document.getElementById('body').scrollWidth)"
            )
            assert wide == [] and widest <= width, (where, wide)
            assert page.script(COVERED) == [], where
            page.script(TO_THE_END)
            assert page.script(COVERED) == [], "%s, at its end" % where
            page.script(TO_THE_BEGIN)
            assert page.script(CONTRASTS) == [], where
            assert page.script(LABELS) == [], where
            folder = pictures()
            if folder:
                page.picture(folder / ("%s-%d-%s.png" % (name, width, scheme)))
    page.look(1280, "light")


def test_a_busy_minute(house: House) -> None:
    """An investor's and a dealer's page with requests in every state, and the same without the venue."""
    investor, dealer = house.browser(house.investor), house.browser(house.dealer)
    one, first, second = (
        house.view(house.investor),
        house.view(house.dealer),
        house.view(house.other),
    )
    for count, (side, quantity, bond) in enumerate(
        (
            ("buy", 2_000_000, "BONDA0000001"),
            ("sell", 1_500_000, "BONDB0000002"),
            ("buy", 500_000, "BONDC0000003"),
            ("sell", 5_000_000, "BONDA0000001"),
            ("buy", 1_000_000, "BONDC0000003"),
        )
    ):
        one.ask_for(["DLR1", "DLR2"], side, quantity, bond=bond)
        for view in (first, second):
            view.wait_shown(count + 1)
    first.quote("R1", 99 * POINT + 129, seconds=300)
    second.quote("R1", 99 * POINT + 137)
    first.quote("R2", 99 * POINT + 2)
    assert second.act(do="decline", request="R2") == ""
    second.quote("R3", 100 * POINT + 8)
    asked = list(one.requests)[2]
    one.until("a quote", lambda: one.requests[asked]["quotes"])
    assert one.hit(asked, "DLR2") == ""
    one.until("a trade", lambda: one.requests[asked]["state"] == "done")
    dealer.card_says("Done away", number=2)
    dealer.quote("x", 3)
    dealer.card_says("from 80 to 120", number=4)
    dealer.quote("120.03125", 4)
    dealer.card_says("Outside the bond\u2019s band: 80 to 120.", number=4)
    investor.card_says("99.50390625", number=0)
    investor.arm("DLR1", number=0)
    look(investor, "investor")
    look(dealer, "dealer")
    with_more_open(investor, dealer)
    house.door.kill()
    dealer.until_says("#alarm", "may still stand")
    investor.until_says("#top", "not connected")
    look(dealer, "dealer-off")
    look(investor, "investor-off")
    investor.click("#logout")
    investor.until("the login is asked for", lambda: investor.one("#login").is_displayed())
    look(investor, "login")
    assert investor.complaints() == [] and dealer.complaints() == []


def with_more_open(investor: Browser, dealer: Browser) -> None:
    """The table, and what stands before the page until it is closed."""
    dealer.press(Keys.F8)
    dealer.until_says("#table", "Alder")
    dealer.quote("50", 0)
    dealer.until_says("article.card", "type OFFER to send it")
    dealer.click("#alerts-button")
    look(dealer, "dealer-alerts")
    dealer.press(Keys.ESCAPE)
    investor.press("?")
    look(investor, "investor-help")
    investor.press(Keys.ESCAPE)
    investor.press(Keys.F8)
    investor.click(".blotter button", "Ticket")
    look(investor, "investor-paper")
    investor.press(Keys.ESCAPE)


# How far each live quote is off the best, where it is seen.
OFFS = """return [...document.querySelectorAll('[data-state=open] .quotes td.off')].filter(one => one.checkVisibility())
  .map(one => one.innerText.trim()).filter(Boolean);"""
WHOLE_NAMES = "return [...document.querySelectorAll('.open-table button.line')].every(one => one.scrollWidth <= one.clientWidth)"
PASTED = "Alder 4.125 03/29\tbuy\t2m\nCedar\tsell\t900m\nnothing\tbuy\t1m\n"


def test_prices_yields_and_a_pasted_list(house: House) -> None:
    """Beside the table and a list that is checked, live quotes have their prices, yields and distances; then the list's card,
    and an earlier day."""
    with_day(house, "20260105")
    view, first = with_data(house)
    second = house.view(house.other)
    page = house.browser(house.investor)
    for side in ("buy", "sell"):
        view.ask_for(["DLR1", "DLR2"], side, 1_000_000)
    for dealer in (first, second):
        dealer.until("both are shown", lambda dealer=dealer: len(dealer.open_requests()) == 2)  # type: ignore[misc]
    for at, dealer in enumerate((first, second)):
        for shown in dealer.open_requests():
            dealer.quote(shown["id"], 101 * POINT + 129 + at)
    page.until("all prices are there", lambda: page.script(OFFS).count("best") == 2)
    look(page, "investor-prices")
    page.press(Keys.F4)
    page.until_says("#cards", "101-16")
    look(page, "investor-32nds")
    page.press(Keys.F4)
    page.press(Keys.F8)
    page.click("#many")
    page.driver.execute_cdp_cmd("Input.insertText", {"text": PASTED})
    page.until_says(".ticket", "900,000,000 is above the limit")
    for width in WIDTHS:
        page.look(width, "light")
        assert len(page.script(OFFS)) == 4, (width, page.script(OFFS))
        assert width < 1280 or page.script(WHOLE_NAMES), "a name is cut off, with room beside it"
    look(page, "investor-list")
    view.act(do="ask list", name="Friday", seconds=600, dealers=["DLR1"], lines=LINES)
    page.until_says("#lists", "Friday", "quoted")
    page.click("#many")
    look(page, "investor-listed")
    page.one("#day").send_keys("2026-01-05")
    page.until_says("#blotter", "2026-01-05, read-only", "2 requests, 2 done")
    page.click(".blotter summary")
    look(page, "investor-days")
    assert page.complaints() == []


LINES = [
    {"bond": "BONDA0000001", "side": "buy", "quantity": 2_000_000},
    {"bond": "BONDC0000003", "side": "sell", "quantity": 500_000},
]


def test_programs_and_limits(house: House) -> None:
    """A dealer's page with programs that act and that are stopped, and the admin's limits with a reference."""
    with_program(house.dealer)
    set_reference(house, 99 * POINT + 129)
    house.view(house.investor).ask_for(["DLR1"])
    admin, page = house.browser(house.dealer, "ada"), house.browser(house.dealer)
    program = enter(house.dealer)
    program.quote(program.wait_shown(1), 99 * POINT + 129)
    page.card_says("by the program P1")
    look(page, "dealer-programs")
    page.press(Keys.F9)
    page.until_says("#programs", "stopped by tess")
    look(page, "dealer-programs-stopped")
    height = "return document.getElementById('top').offsetHeight"
    low = page.script(height)
    assert admin.script(height) == low, "the head of an admin has more lines"
    admin.click("#limits-button")
    admin.until_says("#limits", "99.50390625", "tess (T1)")
    look(admin, "dealer-limits")
    house.door.kill()
    page.until_says("#top", "not connected")
    assert page.script(height) == low, "the head of a page that is off has more lines"
    assert page.complaints() == [] and admin.complaints() == []


def test_without_colours_and_by_keys_alone(house: House) -> None:
    """What a colour says a word says too; a request is asked, and hit, without a pointer."""
    investor, dealer = house.browser(house.investor), house.view(house.dealer)
    investor.press(
        Keys.F2, "cedar", Keys.ENTER, Keys.TAB, Keys.SPACE, Keys.TAB, "1m", Keys.TAB, Keys.TAB
    )
    investor.until("the keys lead to the groups", lambda: investor.focused() == "all")
    investor.press(Keys.ENTER)
    investor.until_says(".ticket", "Ask 2 dealers", "Buy 1,000,000 Cedar")
    for _ in range(8):
        if "Ask 2 dealers" in investor.driver.switch_to.active_element.text:
            break
        investor.press(Keys.TAB)
    investor.press(Keys.ENTER)
    dealer.quote(dealer.wait_shown(1), 99 * POINT)
    investor.card_says("BUY", "99", "best")

    def confirm() -> bool:
        if "Confirm" not in investor.focused():
            investor.press(Keys.F3, Keys.ENTER)
        return "Confirm: buy from DLR1 at 99" in investor.focused()

    investor.until("F3 and Enter choose", confirm)
    investor.until("Enter confirms", lambda: press_enter(investor))
    investor.card_says("Bought 1,000,000 at 99 from DLR1", "No cover.")


def press_enter(page: Browser) -> bool:
    if "Confirm" in page.focused():
        page.press(Keys.ENTER)
    elif "Bought" not in page.card_text() and "not answered" not in page.card_text():
        page.press(Keys.F3, Keys.ENTER)
    return "Bought" in page.card_text()
