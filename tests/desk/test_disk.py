"""The disk under a desk: a stalled one holds up no page, and a renamed file is safe on it."""

import time
from collections.abc import Iterator
from contextlib import contextmanager
from dataclasses import dataclass
from pathlib import Path

import pytest
from selenium.webdriver.common.keys import Keys

from tests.desk.conftest import House
from tests.desk.desks import Desk
from tests.gateway.wait import LONG, until
from tests.harness.build import SHIM, compiled

HERE = Path(__file__).resolve().parent
POINT = 256
DELIVERED_WITHIN = 5  # seconds: what was not delivered by then never is


@dataclass(frozen=True)
class Call:
    thread: str
    what: str
    path: str


@dataclass(frozen=True)
class Disk:
    """What stands between a desk and its disk."""

    shim: Path
    folder: Path

    @property
    def told(self) -> Path:
        return self.folder / "disk.told"

    @property
    def stall(self) -> Path:
        return self.folder / "disk.stalled"

    def under(self, desk: Desk) -> None:
        """Starts the desk anew, on this disk."""
        desk.stop()
        desk.environment = {
            "LD_PRELOAD": str(self.shim),
            "DISK_TOLD": str(self.told),
            "DISK_STALLED": str(self.stall),
        }
        desk.start()

    def calls(self) -> list[Call]:
        whole = self.told.read_text().split("\n")[:-1]
        return [Call(*line.split(" ", 2)) for line in whole]

    @contextmanager
    def stalled(self) -> Iterator[None]:
        self.stall.touch()
        try:
            yield
        finally:
            self.stall.unlink()

    def is_waited_for(self, name: str) -> bool:
        """Whether somebody waits until a file of this name is on the disk."""
        last = {call.thread: call for call in self.calls()}
        return any(
            call.what == "waits" and Path(call.path).name.startswith(name) for call in last.values()
        )


@pytest.fixture
def disk(place: Path) -> Disk:
    return Disk(compiled("desk_disk.so", SHIM, [HERE / "disk.cpp"]), place)


def test_a_disk_that_stalls_holds_up_no_page(house: House, disk: Disk) -> None:
    """While a request waits until it is on the disk, its trader's page and a colleague's show what the venue sends, and a page
    is opened anew. The request has not left then, and is answered once the disk goes on."""
    desk = house.investor
    disk.under(desk)
    dealer, view = house.view(house.dealer), house.view(desk)
    pages = page, colleague = house.browser(desk), house.browser(desk, "tom")
    page.ask("alder", "buy", "1m", dealers=("DLR1",))
    shown = dealer.wait_shown(1)
    for each in pages:
        each.card_says("Alder", number=0)
    with disk.stalled():
        page.ask("cedar", "buy", "2m", dealers=("DLR1",))
        until("the request waits for the disk", LONG, lambda: disk.is_waited_for("journal-"))
        dealer.quote(shown, 99 * POINT)
        for each in pages:
            each.card_says("99", "DLR1", "Buy", number=0)
        colleague.driver.refresh()
        colleague.card_says("99", "DLR1", number=0)
        assert len(dealer.requests) == 1, "what is not on the disk has left"
    view.until("two requests", lambda: len(view.requests) == 2)
    view.until("all is answered", lambda: not any(one["pending"] for one in view.requests.values()))


def test_what_the_disk_held_up_is_never_delivered(house: House, disk: Disk) -> None:
    """A hit that waits for the disk for longer than a message may be old: its trader is told, and the venue never has it. The
    next one goes."""
    desk = house.investor
    disk.under(desk)
    dealer, page = house.view(house.dealer), house.browser(desk)
    page.ask("alder", "buy", "1m", dealers=("DLR1",))
    shown = dealer.wait_shown(1)
    dealer.quote(shown, 99 * POINT)
    page.card_says("99", "DLR1", "Buy")
    with disk.stalled():
        page.hit("DLR1")
        until("the hit waits for the disk", LONG, lambda: disk.is_waited_for("journal-"))
        late = time.monotonic() + DELIVERED_WITHIN
        until("it is too old", LONG, lambda: time.monotonic() > late)
    page.card_says("never delivered: the connection or the disk stalled, and it is too old")
    assert dealer.requests[shown]["state"] == "open", "it was delivered late"
    page.hit("DLR1")
    page.card_says("Bought 1,000,000 at 99 from DLR1")
    dealer.until("it is done", lambda: dealer.requests[shown]["state"] == "done")
    view = house.view(desk)
    (request,) = view.requests.values()
    told = [one["text"] for one in request["history"]]
    assert sum("never delivered" in one for one in told) == 1, told


def test_what_gets_another_name_is_safe_with_it(house: House, disk: Disk) -> None:
    """A login, a saved group and a logout in a browser: before a file is renamed it is on the disk, and its folder right after."""
    desk = house.investor
    disk.under(desk)
    page = house.browser(desk)
    page.click(".picks label", "DLR1")
    page.one(".group-name").send_keys("the best", Keys.ENTER)
    page.until_says(".picks, .ticket", "the best")
    page.click("#logout")
    page.until("the login is asked for", lambda: page.one("#login").is_displayed())
    renamed = {"sessions.json": 2, "groups.json": 1}
    for name, count in renamed.items():
        until(
            "%s is renamed" % name, LONG, lambda: renames(disk).count(name) >= count
        )  # noqa: B023
    until("each folder is on the disk", LONG, lambda: unsafe(disk, desk) == [])


def renames(disk: Disk) -> list[str]:
    return [Path(call.path).name for call in disk.calls() if call.what == "rename"]


def unsafe(disk: Disk, desk: Desk) -> list[Call]:
    """What was renamed and was not on the disk before, or whose folder its thread did not synchronise next."""
    calls, folder = disk.calls(), str(desk.data.resolve())
    wrong = []
    for thread in {call.thread for call in calls}:
        own = [(call.what, call.path) for call in calls if call.thread == thread]
        for at, (what, path) in enumerate(own):
            around = own[at - 1 : at] + own[at + 1 : at + 3]
            safe = [("sync", path + ".new"), ("waits", folder), ("sync", folder)]
            if what == "rename" and around != safe:
                wrong.append(Call(thread, what, path))
    return wrong
