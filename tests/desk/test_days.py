"""Earlier days, which the desk reads from their journals."""

import os
import shutil
from typing import Any

from tests.desk.conftest import House
from tests.desk.view import View

POINT = 256
AT_ONCE = 50  # looks that a login asks for
OF_ONE = 4  # of one login, that wait for the disk


def with_day(house: House, date: str) -> tuple[View, dict[str, Any]]:
    """What was traded today is an earlier day's, too; a page of the desk, and the day's requests."""
    investor, dealer = house.view(house.investor), house.view(house.dealer)
    for count, quantity in enumerate((1_000_000, 2_000_000), 1):
        asked = investor.ask_for(["DLR1"], quantity=quantity)
        shown = dealer.wait_shown(count)
        dealer.quote(shown, 99 * POINT)
        investor.until("the quote", lambda: investor.requests[asked]["quotes"])  # noqa: B023
        assert investor.hit(asked, "DLR1") == ""
        investor.until("done", lambda: investor.requests[asked]["state"] == "done")  # noqa: B023
    requests = dict(investor.requests)
    desk = house.investor
    desk.stop()
    today = next(desk.data.glob("journal-*"))
    shutil.copy2(today, desk.data / ("journal-" + date))
    desk.start()
    return house.view(desk), requests


def day(view: View, **asked: str) -> list[Any]:
    """The requests of the answer."""
    view.answers.clear()
    assert view.act(**asked) == ""
    return [request for part in view.answers["day"] for request in part["requests"]]


def test_an_earlier_day(house: House) -> None:
    """It is shown as it was, searched by words, and not written; nobody reads another file by its name."""
    view, requests = with_day(house, "20260105")
    file = house.investor.data / "journal-20260105"
    before = file.read_bytes()
    assert view.hello["days"] == ["20260105"]
    assert day(view, do="day", date="20260105") == list(requests.values())
    assert [one["quantity"] for one in day(view, do="day", date="20260105", find="2m DLR1")] == [
        2_000_000
    ]
    assert len(day(view, do="find", find="alder buy")) == 2
    assert day(view, do="find", find="alder sell") == []
    for date in ("20260106", "../INV1/journal-20260105", "", "2026010x"):
        assert view.act(do="day", date=date) == "The desk has no journal of this day."
    assert file.read_bytes() == before


def test_an_earlier_day_that_is_cut(house: House) -> None:
    """What is whole is shown, and the file stays as it is; one that can't be read is told."""
    view, requests = with_day(house, "20260105")
    file = house.investor.data / "journal-20260105"
    cut = file.read_bytes()[:-7]
    file.write_bytes(cut)
    assert {one["id"] for one in day(view, do="day", date="20260105")} == set(requests)
    assert file.read_bytes() == cut
    file.unlink()
    file.symlink_to("/dev/zero")
    assert day(view, do="find", find="buy") == []
    assert "can't be opened" in view.answers["day"][-1]["why"]


def test_who_looks_without_end_holds_up_nobody(house: House) -> None:
    """While its first looks wait for the disk its others are refused; a colleague's is taken, and answered."""
    desk = house.investor
    with_day(house, "20260105")
    desk.stop()
    slow = desk.data / "journal-20260106"
    shutil.copy2(desk.data / "journal-20260105", slow)
    desk.start()
    flood, colleague = house.view(desk, "lou"), house.view(desk, "tom")
    slow.unlink()
    os.mkfifo(slow)  # whoever opens it to read waits until somebody opens it to write
    for count in range(AT_ONCE):
        flood.send({"do": "find", "find": "nothing has this", "number": count + 1})
    flood.until("the others are refused", lambda: len(flood.said) == AT_ONCE - OF_ONE)
    assert set(flood.said.values()) == {"Many look at earlier days just now: try again."}
    colleague.send({"do": "find", "find": "alder buy", "number": AT_ONCE})
    assert colleague.act(do="pass", request="none") == "The request has ended."
    assert AT_ONCE not in colleague.said, colleague.said
    with slow.open("r+b", buffering=0):
        colleague.until("it is answered", lambda: colleague.said.get(AT_ONCE) == "")
        flood.until("all are answered", lambda: len(flood.said) == AT_ONCE)
    assert sum(len(part["requests"]) for part in colleague.answers["day"]) == 2
