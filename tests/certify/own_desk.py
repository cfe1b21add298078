"""Drives the desk of this repository by what `/now.json` says, as a trader would by its page."""

from __future__ import annotations

import json
import shutil
import subprocess
import threading
import time
import urllib.parse
import urllib.request
from pathlib import Path
from typing import Any

from tests.desk.desks import PASSWORD, Desk, FirmOf
from tests.desk.view import View
from tests.gateway.wait import LONG, at_this_load, within

LOOK = 0.05  # seconds between two looks
SETTLE = 2.0  # seconds until the page shows what the desk was told
SHOWN = 10.0  # seconds at most until it shows what a task is about
STILL = 0.5  # seconds in which it shows nothing new
Act = dict[str, str]


class HandedOut(Desk):
    """A desk whose market is what the operator hands out, and whose address is the tool's."""

    market = ""

    def write(self) -> None:
        super().write()
        (self.folder / ("%s.market.toml" % self.firm.name)).write_text(self.market)


class OwnDesk:
    """Runs until it is closed."""

    def __init__(self, program: Path, folder: Path, role: str, page: int) -> None:
        self._page, self._role = page, role
        self._program, self._folder = program, folder
        self._desk: Desk | None = None
        self._view: View | None = None
        self._done = 0
        self._ends = threading.Event()
        self._fault = ""
        self._thread = threading.Thread(target=self._tasks, daemon=True)

    def start(self) -> None:
        """Its process, and who uses it."""
        said = self._now()["settings"]
        firm = said["SenderCompID (49)"]
        self._password = said["Password (554)"]
        trader = said["SenderSubID (50)"]
        words = [str(self._program), "--hash"]
        hashed = subprocess.run(
            words, input=PASSWORD + "\n", capture_output=True, text=True, check=True
        )
        of = FirmOf(firm, self._role, trader, self._password, {})
        port = int(said["SocketConnectPort"])
        desk = HandedOut(self._program, self._folder, of, port, hashed.stdout.strip())
        desk.market = self._get("/market.toml").decode()
        desk.traders = desk.traders[:1]
        desk.write()
        self._desk = desk
        self._up()
        self._thread.start()

    def close(self) -> str:
        """Returns what went wrong with the driver, if anything did."""
        self._ends.set()
        if self._thread.ident:
            self._thread.join(LONG)
        if self._desk:
            self._desk.close()
        return self._fault

    # ------------------------------------------------------------ what a trader does

    def quote(self, act: Act) -> str:
        price = float(act["price"]) * 256
        if price != int(price):
            return "the page sends no such price"
        self._shows(act["request"])
        live = self.view.live(act["request"])
        replaces = live["id"] if live else ""
        words = {"request": act["request"], "price": int(price), "seconds": 0}
        return self.view.act(do="quote", **words, replaces=replaces)

    def withdraw(self, act: Act) -> str:
        def found() -> list[str]:
            """The request of this quote, once the page shows both."""
            every = self.view.requests.items()
            return [name for name, one in every if act["quote"] in ids_of(one["quotes"])]

        self.view.until("its quote %s" % act["quote"], found, SHOWN)
        return self.view.act(do="withdraw", request=found()[0])

    def decline(self, act: Act) -> str:
        self._shows(act["request"])
        return self.view.act(do="decline", request=act["request"])

    def ask(self, act: Act) -> str:
        side = "buy" if act["side"] == "1" else "sell"
        return self.view.act(
            do="ask",
            bond=act["bond"],
            side=side,
            quantity=int(act["quantity"]),
            seconds=int(act["seconds"]),
            dealers=act["dealers"].split(","),
        )

    def hit(self, act: Act) -> str:
        self._shows(act["request"], act["quote"])
        quotes = self.view.requests[act["request"]]["quotes"]
        quote = next(one for one in quotes if one["id"] == act["quote"])
        words = {"request": act["request"], "quote": quote["id"], "price": quote["price"]}
        return self.view.act(do="hit", **words)

    def hit_what_stands(self, act: Act) -> str:
        self._is_still()
        live = self.view.live(act["request"])
        assert live, act
        return self.hit({**act, "quote": live["id"]})

    def passes(self, act: Act) -> str:
        self._shows(act["request"])
        return self.view.act(do="pass", request=act["request"])

    def _shows(self, request: str, quote: str = "") -> None:
        """A trader acts on what the page shows, a moment after the desk was told it; on a request, once what was done before
        on it is answered, unless the case holds that answer back.
        """

        def is_there() -> bool:
            one = self.view.requests.get(request)
            return one is not None and (not quote or quote in ids_of(one["quotes"]))

        self.view.until("%s %s" % (request, quote), is_there, at_this_load(SHOWN))
        within(at_this_load(SETTLE), lambda: not self.view.requests[request]["pending"])

    def _is_still(self) -> None:
        """Waits until the page changes no more."""
        until, seen = time.monotonic() + at_this_load(STILL), self.view.requests
        while time.monotonic() < until:
            time.sleep(LOOK)
            if self.view.requests is not seen:
                until, seen = time.monotonic() + at_this_load(STILL), self.view.requests

    def position(self, bond: str) -> int:
        """As the page adds it up, of the requests that traded, once it shows how they ended."""
        self._settles(bond)
        total = 0
        for one in self.view.requests.values():
            if one["bond"] == bond and one["state"] == "done":
                buys = (one["side"] == "buy") is (self._role == "investor")
                total += one["quantity"] if buys else -one["quantity"]
        return total

    def _settles(self, bond: str) -> None:
        """A trader reads the page a moment after the venue has told the desk; a request may stay open."""
        until = time.monotonic() + at_this_load(SETTLE)
        while time.monotonic() < until and any(
            one["state"] == "open" for one in self.view.requests.values() if one["bond"] == bond
        ):
            time.sleep(LOOK)

    # ------------------------------------------------------------ its process

    @property
    def desk(self) -> Desk:
        assert self._desk is not None
        return self._desk

    @property
    def view(self) -> View:
        assert self._view is not None
        return self._view

    def _up(self) -> None:
        self.desk.start()
        self._view = View(self.desk)

    def _again(self, is_new: bool = False) -> None:
        """It is ended and started; with nothing of the day where it is to lose its store, which the journal is."""
        self.desk.stop()
        if is_new:
            shutil.rmtree(self.desk.data)
        self._up()

    def _with_password(self, text: str) -> None:
        file = self._folder / ("%s.password" % self.desk.firm.name)
        file.write_text(text + "\n")

    def _tries_password(self, act: Act) -> None:
        self._with_password(act["password"])
        self._again()
        time.sleep(1)  # the trader sees that it is not let in
        self._with_password(self._password)
        self._again()

    # ------------------------------------------------------------ tasks

    def _tasks(self) -> None:
        while not self._ends.is_set():
            try:
                task = self._now()["task"]
            except OSError:
                task = None  # the tool is busy, or has ended
            if task and task["number"] != self._done:
                self._done = task["number"]
                try:
                    self._does(task)
                except Exception as fault:  # of the driver: the test tells it
                    self._fault = self._fault or "%s: %r" % (task["act"], fault)
            self._ends.wait(LOOK)

    def _does(self, task: Any) -> None:
        act, do = task["act"], task["act"]["do"]
        if self.view.closed is not None:
            self._view = View(self.desk)  # a login lasts twelve hours, which a moved clock may pass
        why = ""
        if do == "position":
            self._enter(task["number"], str(self.position(act["bond"])))
        elif do in ("quote", "withdraw", "decline", "ask", "hit", "hit what stands"):
            why = getattr(self, do.replace(" ", "_"))(act)
        elif do == "cancel all":
            why = self.view.act(do="cancel all")
        elif do == "pass":
            why = self.passes(act)
        elif do == "log out":
            self._again()
        elif do == "wrong password":
            self._tries_password(act)
        elif do in ("lose the store", "begin numbers at 1"):
            self._again(is_new=True)
        if why and task["may_refuse"]:
            self._enter(task["number"], "refused")
        elif why:
            self._fault = self._fault or "%s: %s" % (act, why)

    def _enter(self, number: int, text: str) -> None:
        data = urllib.parse.urlencode({"number": number, "text": text}).encode()
        urllib.request.urlopen("http://127.0.0.1:%d/answer" % self._page, data, 5).close()

    def _now(self) -> Any:
        return json.loads(self._get("/now.json"))

    def _get(self, path: str) -> bytes:
        with urllib.request.urlopen("http://127.0.0.1:%d%s" % (self._page, path), timeout=5) as it:
            return bytes(it.read())


def ids_of(quotes: list[Any]) -> set[str]:
    return {one["id"] for one in quotes}
