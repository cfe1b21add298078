"""A desk of a test that does what `/now.json` says: a right one. Each wrong one differs from it in one thing.

Its FIX session is like that of a firm's small engine: it has a store on disk, goes on with its numbers, and asks for gaps.
"""

from __future__ import annotations

import json
import socket
import threading
import time
import urllib.parse
import urllib.request
from dataclasses import dataclass, field
from datetime import datetime, timedelta, timezone
from typing import Any

from mireseason_certify.frames import Fields, FrameStream, Message, NoFrame, now, time_text, written

from tests.gateway.wait import at_this_load

HEARTBEAT = 1
TRY = 0.3  # seconds between two Logons
LOOK = 0.05  # seconds between two looks at the task
SILENT = 0.02  # seconds in which nothing comes
UNTIL_READ = 2.0  # seconds at most until all is read
RESEND_FROM_START = frozenset("A0125")


def today() -> str:
    return datetime.now(timezone.utc).strftime("%Y%m%d")


@dataclass
class Store:
    """What a session keeps over its connections of a day."""

    day: str = field(default_factory=today)
    next: int = 1
    expected: int = 1
    sent: dict[int, tuple[str, Fields, str]] = field(default_factory=dict)  # with its 52


@dataclass
class Settings:
    """What the tool's page says."""

    page: int
    port: int = 0
    firm: str = ""
    trader: str = ""
    password: str = ""


class Desk:
    """Runs until it is closed."""

    PAUSE = TRY

    def __init__(self, page: int) -> None:
        self.to = Settings(page)
        self.store = Store()
        self.positions: dict[str, int] = {}
        self.quotes: dict[str, dict[str, str]] = {}  # by 117: the request, what it asks, the price
        self.requests: dict[str, dict[str, str]] = {}  # by 131
        self.offers: dict[str, dict[str, str]] = {}  # that stand, of an investor, by 117
        self.shown: dict[str, dict[str, str]] = {}  # all that it was ever shown
        self.hits: dict[str, str] = {}  # by 693: the 117
        self.had: set[str] = set()  # the numbers (1181) of what it was told today
        self.wrong_password = ""  # for the next Logon alone
        self.stays_out = False
        self._is_connected = False
        self._silences = 0  # how often nothing more came on its line
        self._names = 0
        self._done = 0  # the last task
        self._socket: socket.socket | None = None
        self._asked_for = 0  # the number from which on a gap was asked for
        self._lock = threading.RLock()
        self._ends = threading.Event()
        self._threads = [
            threading.Thread(target=run, daemon=True) for run in (self._line, self._tasks)
        ]

    def start(self) -> None:
        self._read_settings()
        for thread in self._threads:
            thread.start()

    def close(self) -> None:
        """Also where it was never started: what kept it from that is told, and no fault of this."""
        self._ends.set()
        self.drop()
        for thread in self._threads:
            if thread.ident:
                thread.join(20)

    # What wrong desks change.

    def logon_fields(self) -> Fields:
        password = self.wrong_password or self.to.password
        self.wrong_password = ""
        return [
            (98, "0"),
            (108, str(HEARTBEAT)),
            (553, self.to.firm),
            (554, password),
            (1137, "9"),
        ]

    def heartbeat_every(self) -> float:
        return HEARTBEAT * 0.9

    def reconnects_with(self) -> None:
        """What it does to its numbers before a Logon."""
        if self.store.day != today():
            self.store = Store()
            self.had.clear()

    def begins_anew(self) -> None:
        """Behind an operator's reset."""
        self.store = Store()

    def answers_test_request(self, message: Message) -> None:
        self.put("0", [(112, message.get(112))])

    def asks_for_gap(self, message: Message) -> None:
        if self._asked_for < self.store.expected:
            self._asked_for = self.store.expected
            self.put("2", [(7, str(self.store.expected)), (16, "0")])

    def sends_again(self, begin: int, end: int) -> None:
        """By FIX: what is of the session is passed over."""
        last = end or self.store.next - 1
        gap = 0
        for number in range(begin, last + 1):
            kept = self.store.sent.get(number)
            if kept is None or kept[0] in RESEND_FROM_START:
                gap = gap or number
                continue
            if gap:
                self.fill(gap, number)
                gap = 0
            self.write_again(number, *kept)
        if gap:
            self.fill(gap, last + 1)

    def write_again(self, number: int, kind: str, fields: Fields, sending: str) -> None:
        self._write(written(kind, self.to.firm, number, fields, again(sending)))

    def fill(self, begin: int, to: int) -> None:
        fields = [(123, "Y"), (36, str(to))]
        self._write(written("4", self.to.firm, begin, fields, again(now())))

    def quote(self, act: dict[str, str]) -> None:
        tag = 133 if act["side"] == "1" else 132
        self.send_quote(act, tag, act["price"])

    def send_quote(self, act: dict[str, str], tag: int, price: str) -> None:
        name = self.name("q")
        self.quotes[name] = {**act, "price": price, "state": "sent"}
        fields = [(131, act["request"]), (117, name), (48, act["bond"]), (22, "4"), (tag, price)]
        self.send("S", fields)

    def withdraw(self, act: dict[str, str]) -> None:
        self.send("Z", [(298, "5"), (117, act["quote"])])

    def cancel_all(self) -> None:
        self.send("Z", [(298, "4")])

    def decline(self, act: dict[str, str]) -> None:
        self.send("AG", [(131, act["request"]), (658, "10")])

    def ask(self, act: dict[str, str]) -> None:
        deadline = datetime.now(timezone.utc) + timedelta(seconds=float(act["seconds"]))
        dealers = act["dealers"].split(",")
        name = self.name("r")
        self.requests[name] = dict(act)
        fields = [(131, name), (146, "1"), (55, "[N/A]"), (48, act["bond"]), (22, "4")]
        fields += [(54, act["side"]), (38, act["quantity"]), (126, time_text(deadline))]
        fields += [(453, str(len(dealers)))]
        for dealer in dealers:
            fields += [(448, dealer), (447, "D"), (452, "35")]
        self.send("R", fields)

    def hit(self, quote: str) -> None:
        name = self.name("h")
        self.hits[name] = quote
        self.send("AJ", [(693, name), (117, quote), (694, "1")])

    def stands(self, request: str) -> str:
        """The quote that stands on a request."""
        return next(name for name, it in self.offers.items() if it["request"] == request)

    def passes(self, act: dict[str, str]) -> None:
        self.send("AJ", [(693, self.name("p")), (131, act["request"]), (694, "6")])

    def position(self, bond: str) -> int:
        return self.positions.get(bond, 0)

    def told_report(self, message: Message) -> None:
        """QuoteStatusReport (35=AI), of a dealer's quote or an investor's hit."""
        name, quote = message.get(693), message.get(117)
        if quote in self.quotes and message.get(297) in ("0", "17"):
            self.quotes[quote]["state"] = "stands" if message.get(297) == "0" else "withdrawn"
        if message.get(297) == "17":
            self.offers.pop(quote, None)
        if name in self.hits and message.get(297) == "0":
            self.book_quote(self.hits[name])

    def told_notice(self, message: Message) -> None:
        """The closing notice (35=AJ) to a dealer."""
        if message.get(694) == "1":
            self.won(message)
        for quote in self.quotes.values():
            if quote["request"] == message.get(131):
                quote["state"] = "closed"

    def won(self, message: Message) -> None:
        quantity = int(message.get(38))
        self.book(message.get(48), -quantity if message.get(54) == "1" else quantity)

    def told_offer(self, message: Message) -> None:
        """A quote (35=S) to an investor."""
        tag = 135 if message.get(54) == "1" else 134
        offer = {"request": message.get(131), "bond": message.get(48), "side": message.get(54)}
        offer["price"] = message.get(133 if message.get(54) == "1" else 132)
        self.shown[message.get(117)] = {**offer, "quantity": message.get(tag)}
        self.offers[message.get(117)] = self.shown[message.get(117)]

    def book_quote(self, quote: str) -> None:
        """An investor's trade by a quote that it was shown."""
        it = self.shown[quote]
        self.book(it["bond"], int(it["quantity"]) * (1 if it["side"] == "1" else -1))

    def book_request(self, request: str) -> None:
        """An investor's trade of all that it asked for."""
        it = self.requests[request]
        self.book(it["bond"], int(it["quantity"]) * (1 if it["side"] == "1" else -1))

    def book(self, bond: str, change: int) -> None:
        self.positions[bond] = self.positions.get(bond, 0) + change

    # Its session.

    def name(self, head: str) -> str:
        self._names += 1
        return "%s%d" % (head, self._names)

    def send(self, kind: str, fields: Fields) -> None:
        self.put(kind, [(50, self.to.trader), *fields])

    def put(self, kind: str, fields: Fields) -> None:
        with self._lock:
            number, self.store.next = self.store.next, self.store.next + 1
            self.store.sent[number] = (kind, fields, now())
            self._write(written(kind, self.to.firm, number, fields))

    def drop(self) -> None:
        if self._socket:
            try:
                self._socket.shutdown(socket.SHUT_RDWR)
            except OSError:
                pass

    def _write(self, data: bytes) -> None:
        try:
            if self._socket:
                self._socket.sendall(data)
        except OSError:
            pass  # the store has it

    def _line(self) -> None:
        while not self._ends.is_set():
            if not self.stays_out:
                self._one_connection()
            self._ends.wait(self.PAUSE)

    def _one_connection(self) -> None:
        try:
            self._socket = socket.create_connection(("127.0.0.1", self.to.port), 5)
        except OSError:
            return
        self._socket.settimeout(SILENT)
        self._asked_for = 0
        with self._lock:
            self.reconnects_with()
            self.put("A", self.logon_fields())
        stream, said = FrameStream(), time.monotonic()
        self._is_connected = True
        while not self._ends.is_set():
            try:
                data = self._socket.recv(65536)
                if not data:
                    break
                for message in stream.take(data):
                    self.take(message)
            except TimeoutError:
                self._silences += 1
            except (OSError, NoFrame):
                break
            if time.monotonic() - said > self.heartbeat_every():
                self.put("0", [])
                said = time.monotonic()
        self._is_connected = False
        self._socket.close()

    def take(self, message: Message) -> None:
        """By FIX's session, and then by what it says."""
        with self._lock:
            if message.kind == "2":
                self.sends_again(int(message.get(7)), int(message.get(16)))
            if message.number > self.store.expected:
                self.asks_for_gap(message)
                return
            is_new = message.number == self.store.expected
            if message.kind == "4":
                self.store.expected = max(self.store.expected, int(message.get(36)))
            elif is_new:
                self.store.expected += 1
            if is_new:
                self.does(message)

    def is_known(self, message: Message) -> bool:
        """Whether it was told this before: a copy has the same number."""
        return message.get(1181) in self.had

    def does(self, message: Message) -> None:
        if message.get(1181):
            if self.is_known(message):
                return
            self.had.add(message.get(1181))
        if message.kind == "1":
            self.answers_test_request(message)
        elif message.kind == "5":
            self.put("5", [])
        elif message.kind == "AI":
            self.told_report(message)
        elif message.kind == "AJ":
            self.told_notice(message)
        elif message.kind == "S":
            self.told_offer(message)

    # Its trader, who does what the page says.

    def _tasks(self) -> None:
        while not self._ends.is_set():
            task = self._task()
            if task and task["number"] != self._done:
                self._done = task["number"]
                self._reads_all()
                self.does_task(task["number"], {**task["act"], "text": task["text"]})
            self._ends.wait(LOOK)

    def _reads_all(self) -> None:
        """What it was sent before a task stood there, it has read: it reads until nothing more comes. The first silence may
        have begun before that."""
        until, heard = time.monotonic() + at_this_load(UNTIL_READ), self._silences + 2
        while self._is_connected and self._silences < heard and time.monotonic() < until:
            self._ends.wait(SILENT / 4)

    def does_task(self, number: int, act: dict[str, str]) -> None:
        do = act["do"]
        if do == "position":
            self._enter(number, str(self.position(act["bond"])))
        elif do in ("quote", "withdraw", "decline", "ask"):
            getattr(self, do)(act)
        elif do == "cancel all":
            self.cancel_all()
        elif do == "hit":
            self.hit(act["quote"])
        elif do == "hit what stands":
            self.hit(self.stands(act["request"]))
        elif do == "pass":
            self.passes(act)
        elif do == "wrong password":
            self.wrong_password = act["password"]
            self.put("5", [])
        elif do == "log out":
            self.put("5", [])
        elif do == "lose the store":
            self.drop()
            with self._lock:
                self.store = Store()
        elif do == "begin numbers at 1":
            self.drop()
            with self._lock:
                self.begins_anew()

    def _read_settings(self) -> None:
        said = self._now()["settings"]
        self.to.port = int(said["SocketConnectPort"])
        self.to.firm, self.to.trader = said["SenderCompID (49)"], said["SenderSubID (50)"]
        self.to.password = said["Password (554)"]

    def _task(self) -> Any:
        try:
            return self._now()["task"]
        except (OSError, ValueError):
            return None

    def _now(self) -> Any:
        with urllib.request.urlopen("http://127.0.0.1:%d/now.json" % self.to.page, timeout=5) as it:
            return json.load(it)

    def _enter(self, number: int, text: str) -> None:
        data = urllib.parse.urlencode({"number": number, "text": text}).encode()
        try:
            urllib.request.urlopen("http://127.0.0.1:%d/answer" % self.to.page, data, 5).close()
        except OSError:
            pass


def again(sending: str) -> Fields:
    """43 and 122 of what is sent again."""
    return [(43, "Y"), (122, sending)]
