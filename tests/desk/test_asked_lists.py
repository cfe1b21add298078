"""Lists of requests: taken whole or not at all, and asked as far as the firm's limits allow."""

from collections import Counter
from dataclasses import replace

from tests.desk.conftest import House
from tests.desk.view import Json, View

OPEN = 3  # requests at one time, as the market's file has it for this firm
BONDS = ["BONDA0000001", "BONDB0000002", "BONDC0000003"]


def with_room(house: House) -> View:
    """An investor's desk that may have few requests open."""
    desk = house.investor
    desk.stop()
    desk.firm = replace(desk.firm, limits={**desk.firm.limits, "open": OPEN})
    desk.write()
    desk.start()
    return house.view(desk)


def lines(count: int) -> list[Json]:
    return [
        {"bond": BONDS[at % 3], "side": "buy", "quantity": 1_000_000 + at} for at in range(count)
    ]


def ask(view: View, asked: list[Json], name: str = "Monday") -> str:
    return view.act(do="ask list", name=name, seconds=600, dealers=["DLR1"], lines=asked)


def of(view: View) -> Json:
    """The list, as the page has it last."""
    found: Json = view.lists[list(view.lists)[-1]]
    return found


def states(view: View) -> Counter[str]:
    return Counter(line["state"] for line in of(view)["lines"])


def test_a_list_at_the_pace_of_the_limits(house: House) -> None:
    """As many as may be open are asked, the next when one has ended; a stop ends the rest."""
    investor, dealer = with_room(house), house.view(house.dealer)
    assert investor.hello["mostLines"] == 200
    assert ask(investor, lines(6)) == ""
    investor.until("three are asked", lambda: investor.lists and states(investor)["sent"] == OPEN)
    dealer.until("they are shown", lambda: len(dealer.requests) == OPEN)
    first = of(investor)["lines"][0]["request"]
    investor.until("it is open", lambda: investor.requests[first]["state"] == "open")
    assert investor.requests[first]["list"] == {"id": of(investor)["id"], "line": 0}
    assert investor.requests[first]["quantity"] == 1_000_000
    assert investor.act(do="pass", request=first) == ""
    investor.until("the fourth is asked", lambda: states(investor)["sent"] == OPEN + 1)
    assert investor.act(do="stop list", list=of(investor)["id"]) == ""
    investor.until("the rest is stopped", lambda: states(investor)["stopped"] == 2)
    assert of(investor)["lines"][5]["why"] == "Stopped by T8."
    colleague = house.view(house.investor, "tom")
    assert colleague.lists == investor.lists
    dealer.until("four were shown", lambda: len(dealer.requests) == OPEN + 1)


def test_a_wrong_line_is_named(house: House) -> None:
    """And nothing of its list is asked."""
    investor, tom = house.view(house.investor), house.view(house.investor, "tom")
    faults: list[tuple[Json, str]] = [
        ({"bond": "none"}, "Line 2: Choose a bond."),
        ({"quantity": 5_000_001}, "Line 2: The quantity has to be from 1 to 5,000,000."),
    ]
    for wrong, why in faults:
        asked = lines(3)
        asked[1] = {**asked[1], **wrong}
        assert ask(investor, asked) == why
    assert ask(tom, lines(2)) == "Line 2: The quantity has to be from 1 to 1,000,000."
    assert ask(house.view(house.investor, "lou"), lines(2)).startswith("You may only look")
    assert ask(house.view(house.dealer), lines(2)) == "A dealer's desk does not do this."
    assert investor.requests == {} and investor.lists == {}


def test_a_list_over_a_kill(house: House) -> None:
    """What was asked is there; what waited is never asked."""
    investor = with_room(house)
    assert ask(investor, lines(5)) == ""
    investor.until("three are asked", lambda: investor.lists and states(investor)["sent"] == OPEN)
    house.investor.kill()
    house.investor.start()
    investor = house.view(house.investor)
    investor.until("the rest is stopped", lambda: states(investor)["stopped"] == 2)
    assert of(investor)["name"] == "Monday"
    assert of(investor)["lines"][4]["why"].startswith("The desk was started anew")
    assert {line["request"] for line in of(investor)["lines"]} - {""} == set(investor.requests)
