"""What the desk answers those who are not the trader."""

import http.client
import http.server
import json
import socket
import ssl
import subprocess
import threading
import time
from collections.abc import Iterator
from concurrent.futures import ThreadPoolExecutor
from contextlib import ExitStack, contextmanager

import pytest

from tests.desk.conftest import House
from tests.desk.desks import MARKUP, PASSWORD, Desk
from tests.desk.view import Answer, Ticket, View, ask, log_in, log_out, own, upgrade
from tests.gateway.wait import LONG

LOGIN = json.dumps({"login": "tess", "password": PASSWORD}).encode()


def test_hosts_and_paths(house: House) -> None:
    """A name that resolves to this machine is no name of the desk, and no path leaves its files."""
    port = house.investor.port.number
    answer = ask(port, "GET", "/", {"Host": "127.0.0.1:%d" % port})
    assert answer.status == 200
    policy = answer.headers["Content-Security-Policy"]
    assert (
        "default-src 'none'" in policy
        and "unsafe-inline" not in policy
        and "frame-ancestors 'none'" in policy
    )
    assert answer.headers["X-Content-Type-Options"] == "nosniff"
    for host in (
        "evil.example",
        "evil.example:%d" % port,
        "127.0.0.1",
        "127.0.0.1:%d" % (port + 1),
        "",
    ):
        assert ask(port, "GET", "/", {"Host": host}).status == 403, host
    for path in (
        "/../desk.toml",
        "/%2e%2e/INV1.toml",
        "//etc/passwd",
        "/main.js/../../INV1.toml",
        "/sessions.json",
        "/.js",
        "/?x=/../",
        "/login",
    ):
        assert ask(port, "GET", path, {"Host": "127.0.0.1:%d" % port}).status in (
            404,
            200 if path == "/?x=/../" else 404,
        ), path
    assert ask(port, "PUT", "/", own(house.investor)).status == 404


def test_a_second_host(house: House) -> None:
    """One that is the desk's makes another beside it no better, whichever comes first."""
    port = house.investor.port.number
    good, bad = b"Host: 127.0.0.1:%d\r\n" % port, b"Host: evil.example\r\n"
    for hosts in (good + bad, bad + good, good + good):
        with socket.create_connection(("127.0.0.1", port), timeout=LONG) as link:
            link.sendall(b"GET / HTTP/1.1\r\n" + hosts + b"\r\n")
            status = link.recv(64).split(b" ")[1]
        assert status in (b"400", b"403"), (hosts, status)


@contextmanager
def with_two_hosts(desk: Desk, is_first: bool) -> Iterator[str]:
    """Something between a browser and a desk, which puts the desk's own host before or behind the one that the browser names."""

    class Handler(http.server.BaseHTTPRequestHandler):
        def do_GET(self) -> None:
            link = http.client.HTTPConnection("127.0.0.1", desk.port.number, timeout=LONG)
            link.putrequest("GET", self.path, skip_host=True, skip_accept_encoding=True)
            hosts = [self.headers["Host"]]
            hosts.insert(0 if is_first else 1, "127.0.0.1:%d" % desk.port.number)
            for host in hosts:
                link.putheader("Host", host)
            link.endheaders()
            answer = link.getresponse()
            self.send_response(answer.status)
            self.send_header("Content-Type", answer.headers["Content-Type"])
            self.end_headers()
            self.wfile.write(answer.read())
            link.close()

        def log_message(self, format: str, *words: object) -> None:
            pass

    server = http.server.ThreadingHTTPServer(("127.0.0.1", 0), Handler)
    threading.Thread(target=server.serve_forever, daemon=True).start()
    try:
        yield "http://127.0.0.1:%d/" % server.server_port
    finally:
        server.shutdown()


def test_a_second_host_in_a_browser(house: House) -> None:
    """No page of the desk is shown under another's name, on whichever side of it the desk's own stands."""
    desk = house.investor
    browser = house.browser(desk)
    for is_first in (True, False):
        with with_two_hosts(desk, is_first) as url:
            browser.driver.get(url)
            assert browser.text("body").strip() == "another host"
    browser.driver.get(desk.origin + "/")
    browser.until_says("#top", "Venue connected")


def test_logins_are_events(house: House) -> None:
    """Who came, who was refused and who left, by a browser; a name that nobody has is not told, it may be a password."""
    desk = house.investor
    page = house.browser(desk)
    page.click("#logout")
    for login in ("tess", "a secret in the wrong field"):
        page.log_in(login, "wrong")
        page.until_says(".login .why", "Wrong login or password.")
        page.driver.refresh()
    told = desk.last_words()
    for event in (
        "Login: tess from 127.0.0.1",
        "Login refused: tess from 127.0.0.1: Wrong login or password.",
        "Login refused: a login that nobody has from 127.0.0.1: Wrong login or password.",
        "Logout: tess from 127.0.0.1",
    ):
        assert event in told, told
    assert "secret" not in told


def test_another_origin_posts_nothing(house: House) -> None:
    """Neither a page of another host or port, nor a form, nor a request without an Origin."""
    desk = house.investor
    port = desk.port.number
    for origin in (
        "http://evil.example",
        "http://127.0.0.1:%d" % (port + 1),
        "http://localhost:%d" % port,
        "null",
        "https://127.0.0.1:%d" % port,
        None,
    ):
        headers = {name: value for name, value in own(desk).items() if name != "Origin"}
        if origin is not None:
            headers["Origin"] = origin
        answer = ask(port, "POST", "/login", headers, LOGIN)
        assert answer.status == 403 and "Set-Cookie" not in answer.headers, origin
    for kind in ("text/plain", "application/x-www-form-urlencoded", "multipart/form-data"):
        assert (
            ask(port, "POST", "/login", {**own(desk), "Content-Type": kind}, LOGIN).status == 404
        ), kind
    assert ask(port, "POST", "/login", own(desk), LOGIN).status == 200


def test_another_origins_websocket(house: House) -> None:
    """Though the browser sends the cookie along."""
    desk = house.investor
    port, ticket = desk.port.number, log_in(desk)
    here = "127.0.0.1:%d" % port
    for origin in (
        None,
        "http://evil.example",
        "http://127.0.0.1:%d" % (port + 1),
        "http://localhost:%d" % port,
        "null",
        "https://" + here,
    ):
        assert upgrade(port, here, origin, ticket.cookie)[1] == 403, origin
    assert upgrade(port, "evil.example", "http://evil.example", ticket.cookie)[1] == 403
    assert upgrade(port, here, desk.origin, ticket.cookie, "/other")[1] == 403
    assert upgrade(port, here, desk.origin)[1] == 403
    assert upgrade(port, here, desk.origin, ticket.cookie)[1] == 101


def test_a_cookie_alone_is_nothing(house: House) -> None:
    """Other servers of the machine are sent it too. Without the token no page is told anything."""
    desk = house.investor
    ticket = log_in(desk)
    name, _, value = ticket.cookie.partition("=")
    assert name == "desk-INV1-%d" % desk.port.number
    here = "127.0.0.1:%d" % desk.port.number
    other = house.dealer
    assert (
        upgrade(other.port.number, "127.0.0.1:%d" % other.port.number, other.origin, ticket.cookie)[
            1
        ]
        == 403
    )
    for token in ("", "0" * 64, ticket.token[:-1], value):
        view = object.__new__(View)
        view.__dict__.update(
            desk=desk,
            requests={},
            hello={},
            session={},
            said={},
            is_whole=False,
            closed=None,
            sending=threading.Lock(),
            _count=0,
            _parts=b"",
        )
        view.link, status = upgrade(desk.port.number, here, desk.origin, ticket.cookie)
        assert status == 101
        view.listen()
        view.send({"token": token})
        assert view.until_closed() == 1008
        assert view.hello == {} and view.requests == {}
    assert log_out(desk, Ticket(ticket.cookie, "0" * 64)).status == 403
    assert View(desk, ticket=ticket).hello["firm"] == "INV1"


def test_a_stolen_cookie_after_the_logout(house: House) -> None:
    """All its pages are closed, and neither it nor its token is of any use, also after a restart."""
    desk = house.investor
    ticket = log_in(desk)
    view, bystander = View(desk, ticket=ticket), house.view(desk)
    assert log_out(desk, ticket).status == 200
    assert view.until_closed() == 1008
    here = "127.0.0.1:%d" % desk.port.number
    assert upgrade(desk.port.number, here, desk.origin, ticket.cookie)[1] == 403
    assert log_out(desk, ticket).status == 403
    assert bystander.act(do="pass", request="none") == "The request has ended."
    desk.stop()
    desk.start()
    assert upgrade(desk.port.number, here, desk.origin, ticket.cookie)[1] == 403
    kept = (desk.data / "sessions.json").read_text()
    assert ticket.token not in kept and ticket.cookie.partition("=")[2] not in kept


def test_who_may_not_act(house: House) -> None:
    """A trader who may look, one with a limit, and each side's acts on the other's desk."""
    house.view(house.investor)
    lou, tom = house.view(house.investor, "lou"), house.view(house.investor, "tom")
    ask_two = {
        "do": "ask",
        "bond": "BONDA0000001",
        "side": "buy",
        "quantity": 2_000_000,
        "seconds": 60,
        "dealers": ["DLR1"],
    }
    assert lou.act(**ask_two).startswith("You may only look")
    assert lou.act(do="save group", name="x", dealers=["DLR1"]).startswith("You may only look")
    assert tom.act(**ask_two) == "The quantity has to be from 1 to 1,000,000."
    assert tom.act(do="cancel all") == "An investor's desk does not do this."
    dealer = house.view(house.dealer)
    assert dealer.act(**ask_two) == "A dealer's desk does not do this."
    assert not lou.requests and not dealer.requests
    asked = tom.ask_for(["DLR1"], quantity=1_000_000)
    assert lou.act(do="pass", request=asked).startswith("You may only look")
    tom.until("lou sees it", lambda: tom.requests[asked]["trader"] == "T4")


@pytest.mark.parametrize(
    "text",
    [
        "[]",
        "{",
        '{"do":"hit"}',
        '{"do":"fly","number":1}',
        '{"do":"pass","request":"A","number":-1}',
        "x" * 20_000,
        '{"do":"ask","number":1,"bond":"B","side":"buy","quantity":1e99,"seconds":1,"dealers":[]}',
    ],
)
def test_what_no_page_sends_ends_the_socket(house: House, text: str) -> None:
    view = house.view(house.investor)
    data = text.encode()
    head = (
        bytes([0x81, 0xFE]) + len(data).to_bytes(2, "big")
        if len(data) > 125
        else bytes([0x81, 0x80 | len(data)])
    )
    view.link.sendall(head + bytes(4) + data)
    assert view.until_closed() in (1008, 1006, 1009)
    assert house.view(house.investor).session["on"]


def guessed(desk: Desk, login: str, password: str) -> Answer:
    body = json.dumps({"login": login, "password": password}).encode()
    return ask(desk.port.number, "POST", "/login", own(desk), body)


def test_passwords_are_not_guessed(house: House) -> None:
    """Ten wrong ones of a login in a minute, whether anybody has it or not; whoever is logged in goes on."""
    view = house.view(house.investor)
    for login in ("tess", "nobody"):
        began, tries = time.monotonic(), 0
        while (answer := guessed(house.investor, login, "guess %d" % tries)).status == 403:
            assert answer.json()["why"] == "Wrong login or password."
            tries += 1
            most = 10 * (
                1 + int((time.monotonic() - began) // 60)
            )  # on a slow machine a minute may be over
            assert tries <= most, "%d wrong passwords of %s are judged" % (tries, login)
        assert answer.status == 429 and tries >= 10, (answer, tries)
        answer = guessed(house.investor, login, PASSWORD)
        assert (
            answer.status == 429 or time.monotonic() - began > 60
        ), "the right one is judged after ten wrong ones"
    assert view.act(do="pass", request="none") == "The request has ended."


def test_passwords_are_not_guessed_at_once(house: House) -> None:
    """Thirty wrong ones of a login that come together: ten are judged, and the others are told to wait. Another login is judged."""
    began = time.monotonic()
    with ThreadPoolExecutor(15) as guessers:
        answers = list(guessers.map(lambda _: guessed(house.investor, "tess", "guess"), range(30)))
    judged = [answer for answer in answers if answer.status == 403]
    # On a slow machine a minute may be over.
    most = 10 * (1 + int((time.monotonic() - began) // 60))
    assert len(judged) <= most, "%d wrong passwords are judged" % len(judged)
    assert {answer.status for answer in answers} <= {403, 429, 503}
    assert guessed(house.investor, "lou", PASSWORD).status == 200


def test_too_much(house: House) -> None:
    """Long requests, silent connections, and commands without end: more pages give a login no more of them."""
    desk = house.investor
    port = desk.port.number
    assert ask(port, "POST", "/login", own(desk), b"x" * 5000).status == 413
    pages = [house.view(desk) for _ in range(6)]
    began = time.monotonic()
    for count in range(50):
        for page in pages:
            page.send({"do": "pass", "request": "none", "number": count + 1})
    for page in pages:
        page.until("all are answered", lambda page=page: len(page.said) == 50)  # type: ignore[misc]
    said = [why for page in pages for why in page.said.values()]
    let_through = 300 - said.count("Too many at once: nothing was sent.")
    assert 60 <= let_through <= 61 + 20 * (time.monotonic() - began), (
        "%d of 300 are let through" % let_through
    )


@contextmanager
def evil_site(desk: Desk) -> Iterator[str]:
    """A page of another origin, which does what it can to a desk in the same browser."""
    page = """<!doctype html><title>wait</title><script>
    const told = [];
    const done = () => told.length === 4 && (document.title = told.sort().join());
    const tell = what => { told.push(what); done(); };
    fetch('%(origin)s/login', {method: 'POST', credentials: 'include', headers: {'Content-Type': 'application/json'}, body: '{}'})
        .then(() => tell('POSTED'), () => tell('no post'));
    fetch('%(origin)s/', {credentials: 'include'}).then(() => tell('READ'), () => tell('no read'));
    const socket = new WebSocket('%(origin)s/socket'.replace('http', 'ws'));
    socket.onopen = () => tell('SOCKET');
    socket.onerror = () => tell('no socket');
    const frame = document.createElement('iframe');
    frame.src = '%(origin)s/';
    frame.onload = () => { let seen; try { seen = frame.contentDocument; } catch { seen = null; } tell(seen ? 'FRAMED' : 'no frame'); };
    document.documentElement.append(frame);
    </script>""" % {
        "origin": desk.origin
    }

    class Handler(http.server.BaseHTTPRequestHandler):
        def do_GET(self) -> None:
            self.send_response(200)
            self.send_header("Content-Type", "text/html")
            self.end_headers()
            self.wfile.write(page.encode())

        def log_message(self, format: str, *words: object) -> None:
            pass

    server = http.server.ThreadingHTTPServer(("127.0.0.1", 0), Handler)
    threading.Thread(target=server.serve_forever, daemon=True).start()
    try:
        yield "http://127.0.0.1:%d/" % server.server_port
    finally:
        server.shutdown()


def test_a_page_of_another_host_in_the_same_browser(house: House) -> None:
    """It posts nothing, reads nothing, has no socket and no frame, and the desk's page goes on."""
    browser = house.browser(house.investor)
    with evil_site(house.investor) as url:
        browser.script("window.open(arguments[0])", url)
        browser.driver.switch_to.window(browser.driver.window_handles[-1])
        browser.until("it has tried all", lambda: browser.driver.title != "wait", LONG)
        assert browser.driver.title == "no frame,no post,no read,no socket"
    browser.driver.switch_to.window(browser.driver.window_handles[0])
    browser.until_says("#top", "Venue connected")


@contextmanager
def silent_strangers(desk: Desk, count: int) -> Iterator[list[socket.socket]]:
    """So many connections from one address that never begin a handshake."""
    place = ("127.0.0.1", desk.port.number)
    with ExitStack() as stack:
        yield [
            stack.enter_context(socket.create_connection(place, timeout=LONG)) for _ in range(count)
        ]


def test_tls(house: House) -> None:
    """With a certificate nobody is served in clear, and the cookie is one that no other port or plain page can set. Whoever begins no
    handshake keeps nobody out, and is closed.
    """
    desk, folder = house.investor, house.folder
    names = ["-subj", "/CN=desk", "-addext", "subjectAltName=IP:127.0.0.1"]
    words = [
        "openssl",
        "req",
        "-x509",
        "-newkey",
        "rsa:2048",
        "-nodes",
        "-days",
        "1",
        "-keyout",
        "page.key",
        "-out",
        "page.pem",
        *names,
    ]
    subprocess.run(words, cwd=folder, capture_output=True, check=True)
    desk.stop()
    desk.page = {"certificate": '"page.pem"', "key": '"page.key"'}
    desk.trust = ssl.create_default_context(cafile=str(folder / "page.pem"))
    desk.write()
    desk.start()
    with silent_strangers(desk, 200) as strangers:  # more than an address may have
        link = http.client.HTTPSConnection(
            "127.0.0.1", desk.port.number, timeout=LONG, context=desk.trust
        )
        link.request(
            "POST", "/login", LOGIN, {"Origin": desk.origin, "Content-Type": "application/json"}
        )
        answer = link.getresponse()
        for stranger in strangers:
            assert stranger.recv(1) == b"", "a stranger is told something"
    cookie = answer.headers["Set-Cookie"]
    assert (
        answer.status == 200
        and cookie.startswith("__Host-desk-INV1-")
        and "; Secure" in cookie
        and "; HttpOnly" in cookie
    ), cookie
    assert "max-age" in answer.headers["Strict-Transport-Security"]
    with socket.create_connection(("127.0.0.1", desk.port.number), timeout=LONG) as plain:
        plain.sendall(b"GET / HTTP/1.1\r\nHost: 127.0.0.1\r\n\r\n")
        assert b"200" not in plain.recv(100)
    desk.page = {"listen": '"0.0.0.0"'}
    desk.write()
    told = subprocess.run(
        [desk.program, "--check", folder / "INV1.toml"], capture_output=True, text=True, check=False
    )
    assert told.returncode == 1 and "needs a certificate" in told.stderr, told


def test_a_firms_text_is_no_markup(house: House) -> None:
    """The name of a bond, in the ticket, on a card and in the blotter."""
    investor, dealer = house.browser(house.investor), house.browser(house.dealer)
    investor.ask("bondb", "buy", "1m", dealers=("DLR1",))
    for page in (investor, dealer):
        page.card_says(MARKUP)
        page.until_says("#blotter", MARKUP)
        assert page.all("main img, main script") == []
        assert page.complaints() == []
