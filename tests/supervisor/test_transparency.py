"""The reports of trades: one for each, published at once or later by the size."""

import sqlite3
from contextlib import closing
from dataclasses import replace
from decimal import Decimal
from pathlib import Path

import pytest
from mireseason_audit.bonds import Bond
from mireseason_audit.facts import QuoteFact, RequestFact, Side, TradeFact
from mireseason_audit.faults import Unreadable
from mireseason_audit.notes import Act
from mireseason_audit.parties import Parties
from mireseason_audit.transparency import Publisher, in_utc, published_by, transparency

from tests.supervisor.conftest import STORED, Audit
from tests.supervisor.exported import read_csv
from tests.supervisor.sheet import Sheet

ISIN = "XS0000000009"
CLASSES = {"US91282CAA18": "sovereign", "US91282CBB27": "illiquid"}  # the others are corporate
PARTIES = '[venue]\nmic = "XMIR"\n' + "".join(
    '[bond.%s]\nisin = "%s"\ncurrency = "USD"\nclass = "%s"\ncleared = false\n'
    % (bond, ISIN, CLASSES.get(bond, "corporate"))
    for bond in ("US91282CAA18", "US91282CBB27", "US912810TM09", "US912810SX72")
)
LARGE = {"sovereign": 10_000_000, "corporate": 2_000_000, "illiquid": 0}  # as transparency.toml


def test_the_reports_of_a_day(run: Audit, tmp_path: Path, sheet: Sheet) -> None:
    """Each trade of the sheet that was read by hand."""
    (tmp_path / "parties.toml").write_text(PARTIES)
    words = ["transparency", STORED, tmp_path / "out", "--csv"]
    ran = run(*words, "--parties", tmp_path / "parties.toml")
    assert ran.status == 0, ran.text
    assert "%d reports of trades, written without the regulation at hand" % len(sheet.trades) in (
        ran.out
    )
    rows = read_csv(tmp_path / "out" / "transparency.csv")
    with closing(sqlite3.connect("file:%s?mode=ro" % STORED, uri=True)) as log:
        moments = dict(log.execute("SELECT place, moment FROM entry").fetchall())
    for row, trade in zip(rows, sheet.trades, strict=True):
        name = CLASSES.get(trade.request.bond, "corporate")
        is_large = trade.request.quantity >= LARGE[name]
        traded = "2026-11-25T%sZ" % moments[trade.entry]
        assert row["01_trading_date_and_time"] == traded
        assert row["17_transaction_identification_code"] == trade.name
        assert Decimal(row["04_price"]) == Decimal(trade.price.numerator) / trade.price.denominator
        assert row["11_notional_amount"] == str(trade.request.quantity)
        assert (row["03_instrument_code"], row["14_venue_of_execution"]) == (ISIN, "XMIR")
        published = "2026-11-27T19:00:00.000Z" if is_large else traded
        assert row["15_publication_date_and_time"] == published, (row, name)
        flag = {"illiquid": "ILQD"}.get(name, "LRGS" if is_large else "")
        assert row["19_flags"] == flag
    assert {row["19_flags"] for row in rows} == {"", "LRGS", "ILQD"}, "the day has one of each"


def trade(quantity: int) -> TradeFact:
    dealers = ["DLR1"]
    request = RequestFact(
        1, 1, "09:00:00.000", "INV1", "T1", "a", "US912810SX72", True, quantity, "", dealers
    )
    quote = QuoteFact(request, 2, "09:00:01.000", "DLR1", "T1", "q", "Q1", 3, Decimal(100), "")
    side = Side("INV1", "T1", "a", "Q1", "h", 4)
    name = "20261231-INV1-DLR1-1"
    return TradeFact(name, 3, "09:00:02.500", request, quote, side, side, quote, None)


def publisher(text: str = "corporate") -> Publisher:
    return Publisher(
        transparency(), Parties({"bond": {"US912810SX72": {"class": text}}}), "20261231"
    )


def test_a_trade_that_was_voided() -> None:
    """A second report, at the act's moment, says so; of a deferred one not before the first."""
    act = Act(9, "10:00:00.000", "op(1)", "bust", "agreed")
    one, other = publisher().reports([trade(1)], {"20261231-INV1-DLR1-1": act})
    assert (one.flags, other.flags) == ((), ("cancelled",))
    assert in_utc(other.published) == "2026-12-31T10:00:00.000Z"
    one, other = publisher().reports([trade(2_000_000)], {"20261231-INV1-DLR1-1": act})
    assert (one.flags, other.flags) == (("large",), ("cancelled", "large"))
    assert in_utc(one.published) == in_utc(other.published) == "2027-01-02T19:00:00.000Z"


def test_what_is_published_by_a_moment() -> None:
    reports = list(publisher().reports([trade(1), trade(2_000_000)], {}))
    assert list(published_by(reports, "20261231 09:00:02.499")) == []
    assert list(published_by(reports, "20261231 09:00:02.500")) == reports[:1]
    assert list(published_by(reports, "20270102 19:00:00.000")) == reports


def test_a_class_that_the_data_file_lacks() -> None:
    with pytest.raises(Unreadable, match="has no such class"):
        list(publisher("equity").reports([trade(1)], {}))
    unclassed = replace(publisher(), parties=Parties({}))
    (report,) = unclassed.reports([trade(5_000_000)], {})
    assert report.flags == () and "bond.US912810SX72.class" in unclassed.parties.missing


def test_one_isin_for_several_bonds() -> None:
    """It is told: reports of different bonds would be one bond's."""
    bonds = {name: Bond(name) for name in ("A", "B", "C")}
    table = {"bond": {"A": {"isin": ISIN}, "C": {"isin": ISIN}}}
    assert Parties(table, bonds).shared_isins() == [
        "one ISIN for several bonds: %s is that of A, C" % ISIN
    ]
    assert Parties({"bond": {"A": {"isin": ISIN}}}, bonds).shared_isins() == []
