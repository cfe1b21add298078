"""What the firm's admin sets while the desk runs: limits of traders, and references."""

from tests.desk.conftest import House
from tests.desk.view import Json

POINT = 256
BOND = "BONDA0000001"


def test_limits_while_the_desk_runs(house: House) -> None:
    """They hold at once and after a kill, for this trader alone; who is no admin sets none."""
    admin, tess = house.view(house.dealer, "ada"), house.view(house.dealer)
    investor = house.view(house.investor)
    limits: Json = {"do": "set limits", "login": "tess", "quantity": 1_000_000, "exposure": None}
    assert tess.act(**limits) == "Only the firm's admin may do this."
    assert admin.act(**{**limits, "login": "nobody"}) == "The desk has no trader 'nobody'."
    investor.ask_for(["DLR1"])
    shown = tess.wait_shown(1)
    quote: Json = {
        "do": "quote",
        "request": shown,
        "price": 99 * POINT,
        "seconds": 0,
        "replaces": "",
    }
    assert admin.act(**quote).startswith("You may only look")
    assert admin.act(**limits) == ""
    above = "The quantity is above the 1,000,000 that your desk allows you."
    assert tess.act(**quote) == above
    tess.until("it is told", lambda: "trader" in tess.told)
    assert tess.told["trader"]["trader"]["quantity"] == 1_000_000
    house.dealer.kill()
    house.dealer.start()
    admin, tess = house.view(house.dealer, "ada"), house.view(house.dealer)
    assert tess.hello["trader"]["quantity"] == 1_000_000
    assert tess.act(**quote) == above
    assert admin.act(**{**limits, "quantity": None, "exposure": 2_000_000}) == ""
    tess.quote(shown, 99 * POINT)
    admin.until("what is used", lambda: used(admin.told["limits"], "tess") == 2_000_000)
    assert "limits" not in tess.told
    investor.ask_for(["DLR1"])
    second = tess.wait_shown(2)
    assert tess.act(**{**quote, "request": second}).startswith(
        "Your own exposure would be 4,000,000"
    )


def used(limits: Json, login: str) -> int:
    return next(int(row["used"]) for row in limits["traders"] if row["login"] == login)


def test_references(house: House) -> None:
    """Every page has them, with who set one and when, after a restart too."""
    admin, tess = house.view(house.dealer, "ada"), house.view(house.dealer)
    assert tess.told["references"] == {"t": "references", "references": {}, "distance": POINT}
    assert (
        tess.act(do="set reference", bond=BOND, price=99 * POINT)
        == "Only the firm's admin may do this."
    )
    assert admin.act(do="set reference", bond="none", price=1) == "The market has no bond 'none'."
    assert admin.act(do="set reference", bond=BOND, price=0).startswith("This is no price")
    assert admin.act(do="set reference", bond=BOND, price=99 * POINT) == ""
    assert admin.act(do="set distance", distance=None) == ""
    admin.until("it is a point", lambda: admin.told["references"]["distance"] == POINT)
    assert admin.act(do="set distance", distance=128) == ""
    tess.until("the distance", lambda: tess.told["references"]["distance"] == 128)
    reference = tess.told["references"]["references"][BOND]
    assert (reference["price"], reference["by"]) == (99 * POINT, "ada")
    house.dealer.stop()
    house.dealer.start()
    tess, admin = house.view(house.dealer), house.view(house.dealer, "ada")
    assert tess.told["references"]["references"] == {BOND: reference}
    assert admin.act(do="set reference", bond=BOND, price=None) == ""
    tess.until("it is gone", lambda: not tess.told["references"]["references"])
