"""Drawn bonds: the desk's figures, which QuantLib works out, against a plain computation."""

import math
import random
import subprocess
from collections.abc import Iterator
from datetime import date, datetime, timedelta, timezone
from decimal import ROUND_HALF_UP, Decimal
from pathlib import Path
from typing import Any

import pytest

from tests.desk.bonds import (
    ACTUAL_360,
    ACTUAL_365,
    ACTUAL_ICMA,
    COUPON,
    STREET,
    THIRTY,
    THIRTY_E,
    YEARLY,
    Bond,
    is_month_end,
    months_from,
)
from tests.desk.conftest import House
from tests.desk.desks import BONDS as BONDS_OF_MARKET
from tests.desk.view import View
from tests.harness.options import Form

BONDS = {Form.SHORT: 300, Form.LONG: 10_000}
AT_ONCE = 3_000  # of one file
CLOSE = 1e-7  # of percent, and of 100 nominal


@pytest.fixture
def bond_values(desk_program: Path) -> Path:
    """The tool that is built beside the desk."""
    return desk_program.parent / "bond-values"


def drawn_day(drawn: random.Random) -> date:
    return date(drawn.randint(1995, 2030), drawn.randint(1, 12), 1) + timedelta(
        days=drawn.randrange(31)
    )


def drawn_bond(drawn: random.Random) -> Bond:
    frequency = drawn.choice([1, 2, 2, 4])
    maturity = drawn_day(drawn) + timedelta(days=365 * drawn.randint(1, 30))
    keeps_end = drawn.random() < 0.3
    if keeps_end:
        maturity = maturity.replace(day=1) - timedelta(days=1)
    kind = drawn.choice(["whole", "short", "long"])
    if kind != "whole" and not keeps_end:  # see desk/README.md: the end of February
        maturity = maturity.replace(day=min(maturity.day, 28))
    months = 12 // frequency

    def back(count: int) -> date:
        return months_from(maturity, -count * months, keeps_end and is_month_end(maturity))

    periods = drawn.randint(2, 30 * frequency)
    dated, first = back(periods), None
    if kind != "whole":
        first = back(periods - 1)
        days = (first - dated).days
        shift = drawn.randrange(1, days - 8)
        dated += timedelta(days=shift if kind == "short" else -shift)
    return Bond(
        coupon=drawn.randrange(0, 1300) / 100,
        frequency=frequency,
        dated=dated,
        first_coupon=first,
        maturity=maturity,
        end_of_month=keeps_end,
        day_count=drawn.choice(
            [ACTUAL_ICMA, ACTUAL_ICMA, THIRTY, THIRTY_E, ACTUAL_365, ACTUAL_360]
        ),
        days=drawn.choice(["TARGET", "weekdays"]),
        ex_dividend_days=drawn.choice([0, 0, 7]),
        settlement_days=drawn.randrange(4),
        convention=drawn.choice([COUPON, YEARLY, STREET]),
    )


def row_of(name: str, bond: Bond) -> str:
    first = "first_coupon = %s\n" % bond.first_coupon if bond.first_coupon else ""
    return (
        '[[bond]]\nid = "%s"\ncurrency = "EUR"\ncoupon = %r\nfrequency = %d\ndated = %s\n%s'
        'maturity = %s\nend_of_month = %s\nday_count = "%s"\ncalendar = "%s"\n'
        'ex_dividend_days = %d\nsettlement_days = %d\nyield = "%s"\n'
        % (
            name,
            bond.coupon,
            bond.frequency,
            bond.dated,
            first,
            bond.maturity,
            str(bond.end_of_month).lower(),
            bond.day_count,
            bond.days,
            bond.ex_dividend_days,
            bond.settlement_days,
            bond.convention,
        )
    )


def drawn_trade(bond: Bond, drawn: random.Random) -> date:
    span = (bond.maturity - bond.dated).days
    return bond.dated + timedelta(days=drawn.randrange(max(1, span - 14)))


def drawn_price(bond: Bond, traded: date, drawn: random.Random) -> float:
    """A price of the grid whose yield a market might have."""
    exact = bond.price(drawn.uniform(-2, 15), bond.settles(traded))
    return round(exact * 256) / 256


def told(tool: Path, file: Path, bonds: list[Bond], lines: list[str]) -> Iterator[str]:
    file.write_text("".join(row_of("B%d" % at, bond) for at, bond in enumerate(bonds)))
    run = subprocess.run(
        [tool, file], input="\n".join(lines) + "\n", capture_output=True, text=True
    )
    assert run.returncode == 0, run.stderr
    yield from run.stdout.splitlines()


def compare(bond: Bond, traded: date, price: float, line: str) -> None:
    settles = bond.settles(traded)
    words = line.split()
    assert words[0] == settles.isoformat(), (bond, traded, line)
    accrued, shown, rate = (float(word) for word in words[1:])
    assert shown == price
    assert math.isclose(accrued, bond.accrued(settles), abs_tol=CLOSE), (bond, traded, line)
    assert math.isclose(price, bond.price(rate, settles), abs_tol=CLOSE), (bond, traded, line)


def test_drawn_bonds(bond_values: Path, tmp_path: Path, form: Form, seed: int) -> None:
    """Settlement and accrued interest are the same; the price that a yield gives is the one it is of."""
    drawn = random.Random(seed)
    for begin in range(0, BONDS[form], AT_ONCE):
        bonds = [drawn_bond(drawn) for _ in range(min(AT_ONCE, BONDS[form] - begin))]
        trades = [drawn_trade(bond, drawn) for bond in bonds]
        prices = [drawn_price(bond, day, drawn) for bond, day in zip(bonds, trades)]
        lines = [
            "B%d price %.8f 256 %s" % (at, price, traded)
            for at, (price, traded) in enumerate(zip(prices, trades))
        ]
        answers = told(bond_values, tmp_path / "bonds.toml", bonds, lines)
        got = list(answers)
        assert len(got) == len(bonds)
        for bond, traded, price, line in zip(bonds, trades, prices, got):
            compare(bond, traded, price, line)


POINT = 256
ALDER = Bond(
    coupon=4.125,
    frequency=2,
    dated=date(2024, 3, 31),
    first_coupon=None,
    maturity=date(2039, 3, 31),
    end_of_month=True,
    day_count=ACTUAL_ICMA,
    days="weekdays",
    ex_dividend_days=0,
    settlement_days=1,
    convention=COUPON,
)


def money(amount: Decimal) -> float:
    """In hundredths, halves away from zero."""
    return float(amount.quantize(Decimal("0.01"), ROUND_HALF_UP))


def today() -> date:
    return datetime.now(timezone.utc).date()


def with_data(house: House) -> tuple[View, View]:
    """The first bond of the market has static data, at the investor and at a dealer."""
    for desk in (house.investor, house.dealer):
        desk.stop()
        desk.bonds = row_of(BONDS_OF_MARKET[0][0], ALDER)
        desk.write()
        desk.start()
    return house.view(house.investor), house.view(house.dealer)


def priced(view: View, **asked: Any) -> Any:
    """The answer to a page that asks what a price or a yield means."""
    view.act(do="price", **asked)
    return view.answers["priced"][-1]


def test_a_trade_in_yield_and_money(house: House) -> None:
    """Quotes have yields, and a trade its amounts, on both sides' pages, as a plain computation has them."""
    investor, dealer = with_data(house)
    settles, price = ALDER.settles(today()), 97 * POINT + 13
    asked = investor.ask_for(["DLR1"])
    shown = dealer.wait_shown(1)
    dealer.quote(shown, price)
    investor.until("the quote", lambda: investor.requests[asked]["quotes"])
    assert investor.hit(asked, "DLR1") == ""
    for view, name, key in ((investor, asked, "award"), (dealer, shown, "resultYield")):
        view.until("it is done", lambda: view.requests[name]["state"] == "done")  # noqa: B023
        request = view.requests[name]
        rate = request["award"]["yield"] if key == "award" else request[key]
        assert rate == request["quotes"][0]["yield"]
        assert math.isclose(ALDER.price(rate, settles), price / POINT, abs_tol=1e-6)
        assert request["settles"] == settles.isoformat()
        assert math.isclose(request["accrued"], ALDER.accrued(settles), abs_tol=1e-7)
        amounts = request["amounts"]
        assert amounts["principal"] == money(Decimal(2_000_000 * price) / POINT / 100)
        assert amounts["accrued"] == money(Decimal(20_000 * ALDER.accrued(settles)))
        assert math.isclose(amounts["total"], amounts["principal"] + amounts["accrued"])


def test_a_yield_becomes_a_price(house: House) -> None:
    """The nearest of the grid; a bond without data has none, and trades as any other."""
    _, dealer = with_data(house)
    settles = ALDER.settles(today())
    told = priced(dealer, bond="BONDA0000001", quantity=1_000_000, **{"yield": 4.3})
    assert abs(told["price"] / POINT - ALDER.price(4.3, settles)) <= 0.5 / POINT
    assert math.isclose(ALDER.price(told["yield"], settles), told["price"] / POINT, abs_tol=1e-6)
    again = priced(dealer, bond="BONDA0000001", quantity=1_000_000, price=told["price"])
    assert {**again, "number": 0} == {**told, "number": 0}
    assert dealer.act(do="price", bond="BONDC0000003", quantity=1, price=99 * POINT) == (
        "The desk has no data of this bond."
    )
    assert [bond["priced"] for bond in dealer.hello["market"]["bonds"]] == [True, False, False]
    investor = house.view(house.investor)
    asked = investor.ask_for(["DLR1"], bond="BONDC0000003")
    shown = dealer.wait_shown(1)
    dealer.quote(shown, 99 * POINT)
    investor.until("the quote", lambda: investor.requests[asked]["quotes"])
    assert investor.requests[asked]["quotes"][0]["yield"] is None
    assert investor.hit(asked, "DLR1") == ""
    investor.until("it is done", lambda: investor.requests[asked]["state"] == "done")
    assert investor.requests[asked]["amounts"] is None
