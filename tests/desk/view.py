"""A page of a desk without a browser: it logs in by HTTP, and then speaks by the WebSocket."""

import base64
import http.client
import json
import os
import socket
import struct
import threading
import time
from collections.abc import Callable
from dataclasses import dataclass, field
from typing import Any

from tests.desk.desks import PASSWORD, Desk
from tests.gateway.wait import LONG, STEP, TooLong

Json = dict[str, Any]

CLOSE, PING = 8, 9
NO_FRAME = -1  # in the place of a code: what came is no frame, or no message


@dataclass
class Answer:
    """Of HTTP."""

    status: int
    body: bytes
    headers: dict[str, str]

    def json(self) -> Json:
        return dict(json.loads(self.body))


def ask(port: int, method: str, path: str, headers: dict[str, str], body: bytes = b"") -> Answer:
    """One request, with these headers and no others."""
    link = http.client.HTTPConnection("127.0.0.1", port, timeout=LONG)
    link.putrequest(method, path, skip_host=True, skip_accept_encoding=True)
    for name, value in headers.items():
        link.putheader(name, value)
    if body:
        link.putheader("Content-Length", str(len(body)))
    link.endheaders(body or None)
    answer = link.getresponse()
    got = Answer(answer.status, answer.read(), dict(answer.getheaders()))
    link.close()
    return got


def own(desk: Desk) -> dict[str, str]:
    """The headers that the desk's own page sends."""
    return {
        "Host": "127.0.0.1:%d" % desk.port.number,
        "Origin": desk.origin,
        "Content-Type": "application/json",
    }


@dataclass(frozen=True)
class Ticket:
    cookie: str  # NAME=VALUE
    token: str


def log_in(desk: Desk, login: str = "tess", password: str = PASSWORD) -> Ticket:
    body = json.dumps({"login": login, "password": password}).encode()
    answer = ask(desk.port.number, "POST", "/login", own(desk), body)
    assert answer.status == 200, answer
    return Ticket(answer.headers["Set-Cookie"].split(";")[0], answer.json()["token"])


def log_out(desk: Desk, ticket: Ticket) -> Answer:
    headers = {**own(desk), "Cookie": ticket.cookie}
    return ask(
        desk.port.number, "POST", "/logout", headers, json.dumps({"token": ticket.token}).encode()
    )


def upgrade(
    port: int,
    host: str,
    origin: str | None,
    cookie: str = "",
    path: str = "/socket",
    authorization: str = "",
) -> tuple[socket.socket, int]:
    """Asks for a WebSocket: the connection, and the status of the answer."""
    link = socket.create_connection(("127.0.0.1", port), timeout=LONG)
    lines = [
        "GET %s HTTP/1.1" % path,
        "Host: %s" % host,
        "Upgrade: websocket",
        "Connection: Upgrade",
        "Sec-WebSocket-Version: 13",
        "Sec-WebSocket-Key: " + base64.b64encode(os.urandom(16)).decode(),
    ]
    lines += ["Origin: %s" % origin] if origin is not None else []
    lines += ["Cookie: %s" % cookie] if cookie else []
    lines += ["Authorization: %s" % authorization] if authorization else []
    link.sendall(("\r\n".join(lines) + "\r\n\r\n").encode())
    head = b""
    while b"\r\n\r\n" not in head:
        piece = link.recv(1)
        if not piece:
            break
        head += piece
    return link, int(head.split(b" ")[1]) if head else 0


class Refused(Exception):
    """By the door of programs, with this status."""


@dataclass
class View:
    desk: Desk
    login: str = "tess"
    ticket: Ticket | None = None
    hello: Json = field(default_factory=dict)
    session: Json = field(default_factory=dict)
    requests: dict[str, Json] = field(default_factory=dict)
    said: dict[int, str] = field(default_factory=dict)
    is_whole: bool = False  # it has all requests of the day
    closed: int | None = None
    why: str = ""  # as the desk told it before it closed the page
    sizes: dict[str, int] = field(default_factory=dict)  # bytes of the last message of each kind
    answers: dict[str, list[Json]] = field(default_factory=dict)  # messages that answer, by kind
    lists: dict[str, Json] = field(default_factory=dict)  # of an investor
    told: dict[str, Json] = field(default_factory=dict)  # the last message of each other kind
    heard: list[Json] = field(default_factory=list)  # all messages, where `keeps`
    keeps: bool = False
    token: str = ""  # of a program, which has no ticket
    broken: str = ""  # why, where it is closed for NO_FRAME
    sending: threading.Lock = field(default_factory=threading.Lock)
    _count: int = 0
    _parts: bytes = b""

    def __post_init__(self) -> None:
        if self.token:
            return self.enter()
        self.ticket = self.ticket or log_in(self.desk, self.login)
        self.link, status = upgrade(
            self.desk.port.number,
            "127.0.0.1:%d" % self.desk.port.number,
            self.desk.origin,
            self.ticket.cookie,
        )
        assert status == 101, status
        self.listen()
        self.send({"token": self.ticket.token})
        self.until("the day", lambda: self.is_whole)

    def enter(self) -> None:
        """By the door of programs."""
        host = "127.0.0.1:%d" % self.desk.port.number
        self.link, status = upgrade(
            self.desk.port.number,
            host,
            self.desk.origin,
            path="/program",
            authorization="Bearer " + self.token,
        )
        if status != 101:
            raise Refused(status)
        self.listen()
        self.until("the day", lambda: self.is_whole)

    def listen(self) -> None:
        """Reads from now on, and answers the desk's pings, whatever else the test does."""
        threading.Thread(target=self.read, daemon=True).start()

    def read(self) -> None:
        """Where the desk says what no page understands, whoever waits is told so."""
        try:
            while self.closed is None:
                self.hear()
        except Exception as fault:
            self.broken, self.closed = repr(fault), NO_FRAME

    def send(self, message: Json) -> None:
        self.send_text(json.dumps(message))

    def send_text(self, text: str) -> None:
        data, mask = text.encode(errors="replace"), os.urandom(4)
        size = (
            bytes([0x80 | len(data)])
            if len(data) < 126
            else bytes([0xFE]) + struct.pack(">H", len(data))
        )
        self.put(b"\x81" + size + mask + bytes(one ^ mask[at % 4] for at, one in enumerate(data)))

    def put(self, data: bytes) -> None:
        with self.sending:
            self.link.sendall(data)

    def _take(self, count: int) -> bytes:
        data = b""
        while len(data) < count:
            piece = self.link.recv(count - len(data))
            if not piece:
                raise ConnectionError
            data += piece
        return data

    def hear(self) -> None:
        """Takes one frame."""
        try:
            first = self._take(2)
            length = first[1] & 127
            if length > 125:
                length = (
                    struct.unpack(">H", self._take(2))[0]
                    if length == 126
                    else struct.unpack(">Q", self._take(8))[0]
                )
            data = self._take(length)
            kind = first[0] & 15
            if kind == CLOSE:
                self.closed = struct.unpack(">H", data[:2])[0]
            elif kind == PING:
                self.put(b"\x8a" + bytes([0x80 | len(data)]) + bytes(4) + data)
            else:
                self._parts += data
                if first[0] & 0x80:
                    data, self._parts = self._parts, b""
                    message = json.loads(data)
                    self.sizes[message["t"]] = len(data)
                    self.take(message)
        except TimeoutError:
            return
        except OSError:
            self.closed = self.closed or 1006

    def take(self, message: Json) -> None:
        kind = message["t"]
        self.heard += [message] if self.keeps else []
        if kind == "hello":
            self.hello, self.session = message, message["session"]
            self.requests, self.lists, self.is_whole = {}, {}, False
        elif kind == "requests":
            self.requests = {**self.requests, **{one["id"]: one for one in message["requests"]}}
            self.is_whole = self.is_whole or message.get("last", False)
        elif kind == "changes":
            for change in message["changes"]:
                self.change(**change)
        elif kind == "session":
            self.session = message
        elif kind == "lists":
            self.lists = {**self.lists, **{one["id"]: one for one in message["lists"]}}
        elif kind == "closed":
            self.why = message["why"]
        elif kind == "said":
            self.said[message["number"]] = message["why"]
        elif "number" in message:
            self.answers.setdefault(kind, []).append(message)
            if message.get("last", True):
                self.said[message["number"]] = ""
        else:
            self.told[kind] = message

    def change(self, id: str, set: Json, lists: dict[str, Json]) -> None:
        """A request is another object then: whoever looks at it sees it before or behind the change."""
        request = {**self.requests[id], **set}
        for key, part in lists.items():
            items = request[key][: part["size"]]
            items += [None] * (part["size"] - len(items))
            for at, item in part["items"]:
                items[at] = item
            request[key] = items
        self.requests = {**self.requests, id: request}

    def until(self, what: str, holds: Callable[[], object], seconds: float = LONG) -> None:
        end = time.monotonic() + seconds
        while not holds():
            if time.monotonic() > end or self.closed:
                raise TooLong(
                    "%s (closed: %s %s): not within %g s\n%s\n%s"
                    % (
                        what,
                        self.closed,
                        self.broken or self.why,
                        seconds,
                        json.dumps(list(self.requests.values())[-2:]),
                        self.session,
                    )
                )
            time.sleep(STEP)

    def until_closed(self) -> int:
        end = time.monotonic() + LONG
        while self.closed is None:
            assert time.monotonic() < end, "the socket is open still"
            time.sleep(STEP)
        return self.closed

    def act(self, **command: Any) -> str:
        """Has the desk do something; why it did not, or an empty text."""
        self._count += 1
        number = self._count
        self.send({**command, "number": number})
        self.until("an answer", lambda: number in self.said)
        return self.said[number]

    # ------------------------------------------------------------ what traders do

    def wait_on(self) -> None:
        self.until("the venue is connected", lambda: self.session.get("on"))

    def open_requests(self) -> list[Json]:
        return [one for one in self.requests.values() if one["state"] == "open"]

    def ask_for(
        self,
        dealers: list[str],
        side: str = "buy",
        quantity: int = 2_000_000,
        seconds: int = 600,
        bond: str = "BONDA0000001",
    ) -> str:
        """An accepted request; its name."""
        before = set(self.requests)
        why = self.act(
            do="ask", bond=bond, side=side, quantity=quantity, seconds=seconds, dealers=dealers
        )
        assert why == "", why
        self.until(
            "the request is accepted",
            lambda: any(
                one["state"] == "open" for name, one in self.requests.items() if name not in before
            ),
        )
        return next(name for name in self.requests if name not in before)

    def wait_shown(self, count: int) -> str:
        """Waits until so many requests were shown in all; the name of the last."""
        self.until("request %d is shown" % count, lambda: len(self.requests) >= count)
        return list(self.requests)[count - 1]

    def live(self, request: str) -> Json | None:
        return next(
            (quote for quote in self.requests[request]["quotes"] if quote["state"] == "live"), None
        )

    def last_price(self, request: str) -> int | None:
        """The price of the last quote that the request shows; none before its first."""
        prices: list[int] = [quote["price"] for quote in self.requests[request]["quotes"]]
        return prices[-1] if prices else None

    def quote(self, request: str, price: int, seconds: int = 0) -> None:
        """A quote that is accepted."""
        live = self.live(request)
        why = self.act(
            do="quote",
            request=request,
            price=price,
            seconds=seconds,
            replaces=live["id"] if live else "",
        )
        assert why == "", why
        self.until(
            "the quote is live",
            lambda: (self.live(request) or {}).get("price") == price
            and not self.requests[request]["pending"],
        )

    def hit(self, request: str, dealer: str) -> str:
        quote = next(
            one
            for one in self.requests[request]["quotes"]
            if one["dealer"] == dealer and one["state"] == "live"
        )
        return self.act(do="hit", request=request, quote=quote["id"], price=quote["price"])
