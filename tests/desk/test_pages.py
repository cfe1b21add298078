"""How many pages a login may have open, and for how long: one that answers nothing, and one that nobody uses."""

import json
import time

from selenium.webdriver.common.keys import Keys

from tests.desk.browser import Browser
from tests.desk.conftest import House
from tests.desk.desks import Desk, TraderOf
from tests.desk.view import Ticket, View, log_in, upgrade
from tests.gateway.wait import LONG, TooLong, until
from tests.harness.budget import Budget, seconds_of

OF_LOGIN = 8  # pages of one login at one time (desk/README.md)
OF_DESK = 64  # and of all logins
AT_ONCE = 20  # pages that a login opens one after the other; then one a second
SILENT = Budget("a page that answers nothing is disconnected", most=20, least=15)
LOCKED = Budget("a login that nobody uses is locked", most=62, least=59)


def works(page: View) -> bool:
    return page.act(do="pass", request="none") == "The request has ended."


def test_one_page_more_than_a_login_may_have(house: House) -> None:
    """The one that was used least lately makes room, and is told why; whoever else has pages goes on."""
    desk = house.investor
    colleague, ticket = house.view(desk, "tom"), log_in(desk)
    pages = [View(desk, ticket=ticket) for _ in range(OF_LOGIN)]
    assert works(pages[0])
    looker = log_in(desk, "lou")
    lookers = [View(desk, "lou", looker) for _ in range(2 * OF_LOGIN)]
    another = View(desk, ticket=ticket)
    assert pages[1].until_closed() == 1008
    assert "a login may have %d pages open" % OF_LOGIN in pages[1].why
    assert all(works(page) for page in (colleague, another, pages[0], *pages[2:]))
    assert [page.until_closed() for page in lookers[:OF_LOGIN]] == [1008] * OF_LOGIN
    assert all(page.closed is None for page in lookers[OF_LOGIN:])


def test_a_cookie_without_its_token_makes_no_room(house: House) -> None:
    """Another server of the same machine may be sent the cookie, and never the token: no page of the login goes for it."""
    desk = house.investor
    port, ticket = desk.port.number, log_in(desk)
    pages = [View(desk, ticket=ticket) for _ in range(OF_LOGIN)]
    links = []
    for _ in range(2 * OF_LOGIN):
        link, status = upgrade(port, "127.0.0.1:%d" % port, desk.origin, ticket.cookie)
        assert status == 101
        links.append(link)
    assert all(works(page) for page in pages)
    assert links[0].recv(2)[:1] == b"\x88", "the first of them made room for the others"
    View(desk, ticket=ticket)
    assert pages[0].until_closed() == 1008


def test_a_page_that_made_room_says_so(house: House) -> None:
    """It does not come back by itself, and keeps its login: a reload has it again. One that was opened before, and has a key
    of its trader, goes on."""
    busy = house.browser(house.investor)
    page = house.browser(house.investor)
    has_a_key(busy)
    views = [house.view(house.investor) for _ in range(OF_LOGIN - 1)]
    page.until_says("#alarm", "This page was closed for a new one: a login may have 8 pages open")
    page.until_says("#top", "This page is closed")
    assert all(view.closed is None for view in views)
    assert "Venue connected" in busy.text("#top")
    page.driver.refresh()
    page.until_says("#top", "Venue connected")


def test_a_look_only_login_locks_nobody_out(house: House) -> None:
    """It opens more pages than the desk has, and each is told the whole day: no more than it may are opened at once, and its own
    make room. Its colleague's page comes in."""
    desk = house.investor
    ticket, began = log_in(desk, "lou"), time.monotonic()
    pages = [page for _ in range(OF_DESK + 1) for page in opened(desk, "lou", ticket)]
    assert AT_ONCE <= len(pages) <= AT_ONCE + 1 + (time.monotonic() - began)
    colleague = house.browser(desk, "tom")
    for page in pages[:-OF_LOGIN]:
        assert page.until_closed() == 1008
        assert "a login may have %d pages open" % OF_LOGIN in page.why
    assert all(page.closed is None for page in pages[-OF_LOGIN:])
    assert "Venue connected" in colleague.text("#top")


def opened(desk: Desk, login: str, ticket: Ticket) -> list[View]:
    """One page more; none where this login opened too many just now."""
    try:
        return [View(desk, login, ticket)]
    except TooLong as fault:
        assert "This page was not opened: too many of this login were" in str(fault)
        return []


def test_a_full_desk_makes_room(house: House) -> None:
    """One more comes in; the page that was used least lately, of whatever login, is told why it was closed."""
    desk = house.investor
    logins = ["t%d" % count for count in range(OF_DESK // OF_LOGIN)]
    desk.stop()
    desk.traders += [TraderOf(login, "T4", "look") for login in logins]
    desk.write()
    desk.start()
    idle = house.browser(desk, logins[0])
    tickets = {login: log_in(desk, login) for login in logins}
    pages = [
        View(desk, login, tickets[login])
        for login in logins
        for _ in range(OF_LOGIN - (login == logins[0]))
    ]
    colleague = house.browser(desk, "tom")
    idle.until_says("#alarm", "This page was closed for a new one: the desk may have 64 pages open")
    assert all(page.closed is None for page in pages)
    assert "Venue connected" in colleague.text("#top")


def test_a_login_that_nobody_uses_is_locked(house: House) -> None:
    """After the time that the firm sets, its cookie is of no use, and its page says why; one whose trader has a key goes on."""
    desk = house.investor
    desk.stop()
    desk.page["lock_after_minutes"] = "1"
    desk.write()
    desk.start()
    idle, busy = house.browser(desk, "lou"), house.browser(desk, "tom")
    tess = log_in(desk)
    page = View(desk, ticket=tess)

    def ended() -> None:
        until("it is locked", LOCKED.limit, lambda: has_a_key(busy) and page.closed is not None)

    LOCKED.hold(lambda: seconds_of(ended))
    idle.until("the login is asked for", lambda: idle.one("#login").is_displayed())
    idle.until_says(".login .why", "Locked: nobody was at this page for 1 minute.")
    assert page.closed == 1008
    assert "Venue connected" in busy.text("#top") and not busy.all("#login")
    host = "127.0.0.1:%d" % desk.port.number
    assert upgrade(desk.port.number, host, desk.origin, tess.cookie)[1] == 403
    assert "Locked: tess, unused for 1 minute" in desk.last_words()


def has_a_key(page: Browser) -> bool:
    """One that asks for nothing."""
    page.press(Keys.SHIFT)
    return True


def test_a_page_that_answers_nothing(house: House) -> None:
    """Neither the desk's pings nor anything else: as one whose machine has gone."""
    desk = house.investor
    port, ticket = desk.port.number, log_in(desk)

    def ended() -> None:
        link, status = upgrade(port, "127.0.0.1:%d" % port, desk.origin, ticket.cookie)
        assert status == 101
        data = json.dumps({"token": ticket.token}).encode()
        link.sendall(bytes([0x81, 0x80 | len(data)]) + bytes(4) + data)
        while link.recv(4096):  # until the desk ends the connection
            pass

    SILENT.hold(lambda: seconds_of(ended))
