"""What colleagues of one firm know of each other."""

from tests.desk.conftest import House
from tests.desk.view import Json, View

POINT = 256


def lines_of(request: Json) -> list[tuple[str, str]]:
    return [(line["text"], line["trader"]) for line in request["history"]]


def until_claimed(views: list[View], request: str, login: str | None) -> None:
    for view in views:
        view.until(
            "the claim is %s's" % login,
            lambda view=view: (view.requests[request]["claimed"] or {}).get("login") == login,  # type: ignore[misc]
        )


def test_who_of_the_firm_acted(house: House) -> None:
    """A colleague's page has who asked, hit, quoted and withdrew, and nobody where the venue acted."""
    investor, dealer = house.view(house.investor), house.view(house.dealer, "tom")
    asked = investor.ask_for(["DLR1"], quantity=500_000)
    shown = dealer.wait_shown(1)
    dealer.quote(shown, 99 * POINT)
    investor.until("the quote", lambda: investor.requests[asked]["quotes"])
    assert investor.hit(asked, "DLR1") == ""
    watching = house.view(house.investor, "lou"), house.view(house.dealer, "lou")
    for view, name in zip(watching, (asked, shown)):
        view.until("it is done", lambda: view.requests[name]["state"] == "done")  # noqa: B023
    assert watching[0].requests[asked]["trader"] == "T8"
    assert lines_of(watching[0].requests[asked]) == [
        ("Accepted by the venue", "T8"),
        ("DLR1 quotes 99", ""),
        ("Done with DLR1 at 99", "T8"),
    ]
    assert lines_of(watching[1].requests[shown]) == [("Live: 99", "T4"), ("Done", "")]


def test_a_claim(house: House) -> None:
    """It is seen by all, forbids nothing, goes from one to another, and outlives a kill of the desk."""
    investor, tess, tom = (
        house.view(house.investor),
        house.view(house.dealer),
        house.view(house.dealer, "tom"),
    )
    lou = house.view(house.dealer, "lou")
    assert tess.hello["traders"] == [
        {"login": "tess", "trader": "T1"},
        {"login": "tom", "trader": "T4"},
    ]
    investor.ask_for(["DLR1"], quantity=500_000)
    shown = tess.wait_shown(1)
    assert tess.act(do="claim", request=shown) == ""
    until_claimed([tess, tom, lou], shown, "tess")
    assert tom.act(do="claim", request=shown) == "T1 has claimed it."
    assert lou.act(do="claim", request=shown).startswith("You may only look")
    assert investor.act(do="claim", request="x") == "An investor's desk does not do this."
    assert tess.act(do="hand over", request=shown, to="tom") == ""
    until_claimed([tess, tom], shown, "tom")
    house.dealer.kill()
    house.dealer.start()
    tess, tom = house.view(house.dealer), house.view(house.dealer, "tom")
    until_claimed([tess, tom], shown, "tom")
    tess.quote(shown, 99 * POINT)
    assert tess.act(do="release", request=shown) == ""
    until_claimed([tess, tom], shown, None)
    assert [line for line in lines_of(tess.requests[shown]) if line[0] != "Live: 99"] == [
        ("Claimed", "T1"),
        ("Handed over to T4", "T1"),
        ("Released", "T1"),
    ]
