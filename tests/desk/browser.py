"""Chromium, driven by Selenium, on a page of a desk."""

import time
from collections.abc import Callable
from pathlib import Path
from typing import Any

from selenium import webdriver
from selenium.common.exceptions import (
    ElementNotInteractableException,
    JavascriptException,
    NoSuchElementException,
    StaleElementReferenceException,
    WebDriverException,
)
from selenium.webdriver.chrome.options import Options
from selenium.webdriver.chrome.service import Service
from selenium.webdriver.common.action_chains import ActionChains
from selenium.webdriver.common.by import By
from selenium.webdriver.common.keys import Keys
from selenium.webdriver.remote.webelement import WebElement

from tests.desk.desks import PASSWORD, Desk
from tests.gateway.wait import LONG, TooLong

WORDS = (
    "--headless=new",
    "--no-sandbox",
    "--disable-gpu",
    "--hide-scrollbars",
    "--disable-dev-shm-usage",
    "--no-first-run",
    "--disable-background-networking",
    "--disable-component-update",
    "--disable-sync",
    "--mute-audio",
)
CHANGING = (
    StaleElementReferenceException,
    NoSuchElementException,
    ElementNotInteractableException,
    JavascriptException,
    IndexError,
    StopIteration,
)
HEIGHT = 900
TRIES = 3

# Each look is one script: what WebDriver has for it takes a second and more on a busy machine, and the page goes on meanwhile.
SEEN = "const seen = one => one.checkVisibility() ? one.innerText.replace(/[\\t\\u00a0 ]+/g, ' ') : '';"
CARDS = "const cards = [...document.querySelectorAll('article.card')].sort((a, b) => a.dataset.made - b.dataset.made);"
TEXT = SEEN + "return [...document.querySelectorAll(arguments[0])].map(seen).join('\\n');"
CARD_TEXT = SEEN + CARDS + "return seen(cards.at(arguments[0]));"
HIT_BUTTON = """const row = [...card.querySelectorAll('.quotes tbody tr')].find(one => one.innerText.includes(arguments[1]));
    const button = row.querySelector('button.hit');
    if (document.activeElement !== button) button.focus();"""
ARMED = (
    CARDS
    + "const card = cards.at(arguments[0]);"
    + HIT_BUTTON
    + "return [button, button.innerText];"
)
# Nothing where the hit was sent.
TO_HIT = (
    CARDS
    + """const card = cards.at(arguments[0]);
    if (card.dataset.state === 'done' || card.innerText.includes('not answered')) return null;"""
    + HIT_BUTTON
    + "return button;"
)
# Nothing where no button is shown that can be pressed.
TO_PRESS = (
    CARDS
    + """const button = [...cards.at(arguments[0]).querySelectorAll(arguments[1])].find(one => one.checkVisibility());
    if (!button || button.disabled) return null;
    if (document.activeElement !== button) button.focus();
    return button;"""
)
# The page takes some words away after eight seconds: it keeps here what it has said.
KEEPS = """window.hasSaid = [];
    new MutationObserver(changes => {
        for (const {target} of changes) {
            const place = (target.closest ? target : target.parentElement)?.closest('.said, .told');
            if (place?.textContent) window.hasSaid.push(place.textContent);
        }
    }).observe(document, {subtree: true, childList: true, characterData: true});"""


def started(options: Options) -> webdriver.Chrome:
    """A browser; again where a busy machine lets one start too slowly for its driver."""
    for _ in range(TRIES - 1):
        try:
            return webdriver.Chrome(service=Service("/usr/bin/chromedriver"), options=options)
        except WebDriverException:
            continue
    return webdriver.Chrome(service=Service("/usr/bin/chromedriver"), options=options)


class Browser:
    def __init__(self, profile: Path, width: int = 1280) -> None:
        options = Options()
        for word in (
            *WORDS,
            "--user-data-dir=%s" % profile,
            "--window-size=%d,%d" % (width, HEIGHT),
        ):
            options.add_argument(word)  # type: ignore[no-untyped-call]
        options.set_capability("goog:loggingPrefs", {"browser": "ALL"})
        options.add_experimental_option(
            "prefs", {"download.default_directory": str(profile / "downloads")}
        )
        self.profile = profile
        self.pressed = False
        self.driver = started(options)
        self.driver.execute_cdp_cmd("Page.addScriptToEvaluateOnNewDocument", {"source": KEEPS})

    def quit(self) -> None:
        self.driver.quit()

    # ------------------------------------------------------------ looking

    def all(self, where: str) -> list[WebElement]:
        return list(self.driver.find_elements(By.CSS_SELECTOR, where))

    def one(self, where: str) -> WebElement:
        return self.all(where)[0]

    def text(self, where: str) -> str:
        """What a person sees of all these elements."""
        return str(self.script(TEXT, where))

    def script(self, text: str, *words: Any) -> Any:
        return self.driver.execute_script(text, *words)  # type: ignore[no-untyped-call]

    def until(self, what: str, holds: Callable[[], object], seconds: float = LONG) -> None:
        """Waits; while the page changes under the look, the condition does not hold."""
        end = time.monotonic() + seconds
        while True:
            try:
                if holds():
                    return
            except CHANGING:
                pass
            if time.monotonic() > end:
                raise TooLong("%s: not within %g s:\n%s" % (what, seconds, self.text("body")))
            time.sleep(0.05)

    def until_says(self, where: str, *words: str) -> None:
        def says() -> bool:
            text = self.text(where)
            return all(word in text for word in words)

        self.until("%s says %r" % (where, words), says)

    def until_said(self, *words: str) -> None:
        """Each of these was said since the page was opened, also where it stands no more."""

        def has_said() -> bool:
            said = self.script("return window.hasSaid")
            return all(any(word in one for one in said) for word in words)

        self.until("it has said %r" % (words,), has_said)

    def until_silent(self, where: str, word: str) -> None:
        self.until("%s does not say %r" % (where, word), lambda: word not in self.text(where))

    def complaints(self) -> list[str]:
        """What the console told since the last call, but for what every lost connection tells."""
        lost = ("WebSocket connection to", "net::ERR_CONNECTION_REFUSED")
        lines = [line["message"] for line in self.driver.get_log("browser")]  # type: ignore[no-untyped-call]
        return [line for line in lines if not any(word in line for word in lost)]

    # ------------------------------------------------------------ acting

    def open(self, desk: Desk, login: str = "tess") -> None:
        self.driver.get(desk.origin + "/")
        self.log_in(login)
        self.until_says("#top", "Venue connected")

    def log_in(self, login: str, password: str = PASSWORD) -> None:
        self.until("the login is asked for", lambda: self.one("#login").is_displayed())
        self.one("#login").clear()
        self.one("#login").send_keys(login, Keys.TAB, password, Keys.ENTER)

    def press(self, *keys: str) -> None:
        """Keys, wherever the focus is."""
        for key in keys:
            self.driver.switch_to.active_element.send_keys(key)

    def click(self, where: str, words: str = "") -> None:
        """Clicks the first shown element of these that has such words."""

        def done() -> bool:
            for one in self.all(where):
                if one.is_displayed() and words in one.text:
                    one.click()
                    return True
            return False

        self.until("%s %r can be clicked" % (where, words), done)

    def focused(self) -> str:
        element = self.driver.switch_to.active_element
        return element.get_attribute("aria-label") or element.get_attribute("id") or element.text

    # ------------------------------------------------------------ what traders do

    def ask(
        self,
        bond: str,
        side: str,
        quantity: str,
        deadline: str = "10:00",
        dealers: tuple[str, ...] = ("DLR1", "DLR2"),
    ) -> None:
        """Fills in the ticket by keys and clicks, and sends it by Enter."""
        self.press(Keys.F2)
        self.until("the ticket has the focus", lambda: self.focused() == "bond")
        self.press(Keys.CONTROL + "a" + Keys.NULL, bond, Keys.ENTER)
        self.click("#" + side)
        self.one("#deadline").clear()
        self.one("#deadline").send_keys(deadline)
        for box in self.all(".picks input"):
            if box.is_selected() != (box.get_attribute("value") in dealers):
                box.click()
        self.one("#quantity").clear()
        self.one("#quantity").send_keys(quantity, Keys.ENTER)

    def cards(self) -> list[WebElement]:
        """In the order in which the requests came: on the page those that have ended stand last."""
        return list(self.script(CARDS + "return cards;"))

    def card(self, number: int = -1) -> WebElement:
        return self.cards()[number]

    def card_text(self, number: int = -1) -> str:
        return str(self.script(CARD_TEXT, number))

    def card_says(self, *words: str, number: int = -1) -> None:
        def says() -> bool:
            text = self.card_text(number)
            return all(word in text for word in words)

        self.until("card %d says %r" % (number, words), says)

    def in_card(self, where: str, number: int = -1) -> WebElement:
        """The first shown element of a card, once there is one."""
        found: list[WebElement] = []

        def is_shown() -> bool:
            found[:] = [
                one
                for one in self.card(number).find_elements(By.CSS_SELECTOR, where)
                if one.is_displayed()
            ]
            return bool(found)

        self.until("card %d shows %s" % (number, where), is_shown)
        return found[0]

    def press_in_card(self, where: str, number: int = -1) -> None:
        """Clicks a button of a card, once it can be clicked and has stood there long enough."""

        def done() -> bool:
            button = self.in_card(where, number)
            if not button.is_enabled():
                return False
            if self.stands(button):
                button.click()
                return True
            return False

        self.until("%s of card %d can be clicked" % (where, number), done)

    def click_twice(self, button: WebElement, pause: float) -> None:
        """Two clicks at the place where a button stands now, whatever stands there at the second."""
        chain = ActionChains(self.driver).move_to_element(button).click().pause(pause).click()  # type: ignore[no-untyped-call]
        chain.perform()

    def stands(self, button: WebElement) -> bool:
        """Whether an element has not moved for a second, as the page asks of what binds."""
        place = """const {left, top} = arguments[0].getBoundingClientRect(); return [left + scrollX, top + scrollY].join()"""
        before = self.script(place, button)
        self.script("return new Promise(done => setTimeout(done, 1000))")
        return bool(before == self.script(place, button))

    def press_twice(self, where: str, number: int = -1) -> None:
        """The two presses of a button that asks first, by keys; again where the first is forgotten by then."""

        def done() -> bool:
            button = self.script(TO_PRESS, number, where)
            if button is None:
                return self.pressed
            self.pressed = True
            button.send_keys(Keys.ENTER)
            return False

        self.pressed = False
        self.until("%s of card %d is pressed twice" % (where, number), done)

    def quote(self, price: str, number: int = -1) -> None:
        entry = self.in_card("input.entry", number)
        entry.clear()
        entry.send_keys(price, Keys.ENTER)
        self.confirm_first(number)

    def confirm_first(self, number: int = -1) -> None:
        """Enter, until no first price of a bond is asked about."""

        def done() -> bool:
            entry = self.card(number).find_element(By.CSS_SELECTOR, "input.entry")
            if not (entry.get_attribute("data-asks") or "").startswith("Your first price:"):
                return True
            entry.send_keys(Keys.ENTER)
            return False

        self.until("the first price is confirmed", done)

    def arm(self, dealer: str, number: int = -1) -> WebElement:
        """The first press of a hit, again where a quote changed under it; the button."""
        button: list[WebElement] = []

        def done() -> bool:
            found, text = self.script(ARMED, number, dealer)
            button[:] = [found]
            if "?" not in text:
                found.send_keys(Keys.ENTER)
            return "?" in self.script("return arguments[0].innerText", found)

        self.until("the quote of %s is chosen" % dealer, done)
        return button[0]

    def hit(self, dealer: str, number: int = -1) -> None:
        """Both presses of a hit: again where the first is forgotten by then, or a quote changed under one."""

        def done() -> bool:
            button = self.script(TO_HIT, number, dealer)
            if button is not None:
                button.send_keys(Keys.ENTER)
            return button is None

        self.until("the quote of %s is hit" % dealer, done)

    # ------------------------------------------------------------ looks

    def look(self, width: int, scheme: str, height: int = HEIGHT) -> None:
        """As a window of this width, in a light or a dark scheme."""
        self.driver.execute_cdp_cmd(
            "Emulation.setDeviceMetricsOverride",
            {"width": width, "height": height, "deviceScaleFactor": 1, "mobile": False},
        )
        self.driver.execute_cdp_cmd(
            "Emulation.setEmulatedMedia",
            {"features": [{"name": "prefers-color-scheme", "value": scheme}]},
        )
        self.until(
            "the window is %d wide" % width, lambda: self.script("return innerWidth") == width
        )
        self.script(
            "return new Promise(done => requestAnimationFrame(() => requestAnimationFrame(done)))"
        )

    def picture(self, file: Path) -> None:
        file.parent.mkdir(parents=True, exist_ok=True)
        assert self.driver.save_screenshot(str(file)), "there is no picture %s" % file
