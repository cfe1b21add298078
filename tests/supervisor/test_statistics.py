"""The figures of a day: those of the stored day as somebody found them by hand, and those of a drawn day
computed a second way.
"""

import json
import sqlite3
from collections import Counter
from contextlib import closing
from pathlib import Path

import pytest

from tests.audit.pages import read_page, rows_of
from tests.supervisor.conftest import STORED, Audit, draw, exported
from tests.supervisor.exported import Exported
from tests.supervisor.figures import Figures, Tally, read_figures
from tests.supervisor.second_way import SecondWay, differing
from tests.supervisor.sheet import Sheet
from tests.supervisor.sheet_of_day import differences, read_day

DATE = "20261125"


def figures_of(run: Audit, log: Path) -> Figures:
    ran = run("stats", log, "--json")
    assert ran.status == 0, ran.text
    return read_figures(json.loads(ran.out))


@pytest.fixture(scope="module")
def by_audit(run: Audit) -> Figures:
    return figures_of(run, STORED)


def test_the_stored_day_has_the_figures_of_its_sheet(by_audit: Figures, sheet: Sheet) -> None:
    tally = Tally(sheet, DATE)
    expected = {key: tally.figures(key) for key in tally.keys()}
    assert not differing(by_audit.figures, expected)
    assert set(by_audit.figures) == set(expected)


def test_the_figures_of_the_whole_stored_day(by_audit: Figures) -> None:
    """Counted by hand in the sheet."""
    day = by_audit.figures["day", DATE]
    expected = {
        "requests": 40,
        "asked": 130,
        "answered": 106,
        "declined": 21,
        "silent": 3,
        "trades": 21,
        "won": 21,
        "cover": 15,
        "covers": 13,
        "covers_lapsed": 2,
        "not_best": 1,
        "quotes": 167,
        "fades": 10,
    }
    assert {name: day[name] for name in expected} == expected


def test_face_value_is_counted_by_bond_without_currencies(by_audit: Figures, sheet: Sheet) -> None:
    day = {unit: row for (group, _, unit), row in by_audit.amounts.items() if group == "day"}
    assert day == face_value(sheet)
    assert sum(row[2] for row in day.values()) == 21


def face_value(sheet: Sheet) -> dict[str, tuple[int, int, int]]:
    """Of each bond what was asked for, what of it was traded, and in how many trades."""
    asked, traded, trades = Counter[str](), Counter[str](), Counter[str]()
    for one in sheet.requests:
        asked[one.bond] += one.quantity
    for trade in sheet.trades:
        traded[trade.request.bond] += trade.request.quantity
        trades[trade.request.bond] += 1
    return {bond: (asked[bond], traded[bond], trades[bond]) for bond in asked}


def test_refusals_by_reason(by_audit: Figures, sheet: Sheet) -> None:
    """Each reason of the sheet; a Reject is told by 371 beside 373."""
    names = {"rejected": ("cancel", "373=5 371=50", "")}
    expected: Counter[tuple[str, ...]] = Counter()
    for one in sheet.refused:
        code = one.code if "=" in one.code else "300=4"
        name = "" if "=" in one.code else one.code
        words = names.get(one.what, (one.what, code, name))
        group = "investor" if one.firm in ("FJORD", "GROVE") else "dealer"
        for key in (("day", DATE), (group, one.firm)):
            expected[(*key, *words)] += 1
    listed = {
        key: count
        for key, count in by_audit.refusals.items()
        if key[0] in ("day", "dealer", "investor")
    }
    assert listed == expected


def test_a_drawn_day_has_the_same_figures_by_sql(
    run: Audit, drawn: Exported, drawn_log: Path
) -> None:
    by_audit = figures_of(run, drawn_log)
    with closing(drawn.database()) as tables:
        by_sql = SecondWay(tables, DATE).figures()
    assert not differing(by_audit.figures, by_sql.figures)
    assert not differing(by_sql.figures, by_audit.figures)
    assert by_audit.amounts == by_sql.amounts
    assert by_audit.refusals == by_sql.refusals
    day = by_audit.figures["day", DATE]
    for name in ("requests", "silent", "covers_lapsed", "not_best", "fades", "lapsed"):
        value = day[name]
        assert value is not None and value > 0, name


def test_the_script_reads_what_a_person_read(sheet: Sheet) -> None:
    """The script by which other days are read, on the day that was read by hand."""
    fades = sorted(read_day(STORED, DATE).sheet.fades, key=lambda fade: fade.entry)
    assert fades == sheet.fades  # the person noted them by their entries
    one, other = Tally(read_day(STORED, DATE).sheet, DATE), Tally(sheet, DATE)
    assert {key: one.figures(key) for key in other.keys()} == {
        key: other.figures(key) for key in other.keys()
    }


@pytest.mark.draws(short=2, long=50)
def test_a_day_has_the_figures_of_its_messages(
    run: Audit, venue: tuple[str, ...], tmp_path: Path, drawn: int
) -> None:
    """Each figure of `stats`, by a script that reads the messages alone."""
    log = draw(tmp_path / "day.db", 50, drawn, venue)
    assert not differences(read_day(log, DATE), figures_of(run, log))


def test_currencies_are_not_added(
    run: Audit, venue: tuple[str, ...], seed: int, tmp_path: Path
) -> None:
    """Two bonds in dollars are counted together, one in euros apart, and one without apart."""
    log = draw(tmp_path / "day.db", 40, seed, venue, "--currencies", "USD,EUR,USD,")
    by_audit = figures_of(run, log)
    one = exported(run, log, tmp_path, "csv")
    with closing(one.database()) as tables:
        assert by_audit.amounts == SecondWay(tables, DATE).figures().amounts
    units = {unit for group, _, unit in by_audit.amounts if group == "day"}
    assert units == {"USD", "EUR", "US912810SX72"}
    for group, key, _ in by_audit.amounts:
        if group == "bond":
            assert len([1 for other in by_audit.amounts if other[:2] == (group, key)]) == 1


def test_a_changed_log_has_no_figures(run: Audit, short_log: Path, tmp_path: Path) -> None:
    log = tmp_path / "day.db"
    log.write_bytes(short_log.read_bytes())
    with closing(sqlite3.connect(log, isolation_level=None)) as connection:
        connection.execute("DELETE FROM entry WHERE place = (SELECT max(place) - 5 FROM entry)")
    ran = run("stats", log)
    assert ran.status == 1 and "is missing" in ran.out
    assert "Dealers" not in ran.out


def test_for_a_person(run: Audit, sheet: Sheet) -> None:
    ran = run("stats", STORED)
    assert ran.status == 0
    lines = [line.split() for line in ran.out.splitlines()]
    assert ["DELTA", "27", "27", "20", "5", "2", "15841", "27957", "29270"] in lines
    for bond, row in face_value(sheet).items():
        assert ["day", DATE, bond, *map("{:,}".format, row)] in lines, bond
    assert max(map(len, ran.out.splitlines())) <= 120


def test_the_page_has_the_same_figures(run: Audit, tmp_path: Path, sheet: Sheet) -> None:
    """Of each dealer the tables, and the plots beside them, by the sheet."""
    ran = run("page", STORED, tmp_path / "pages")
    assert ran.status == 0, ran.text
    page = read_page(tmp_path / "pages" / "statistics.html")
    tally = Tally(sheet, DATE)
    answers = rows_of(page.all("table")[1])
    plot = page.all("svg", "plot")[1]
    widths: dict[str, list[int]] = {}
    for name in ("answered", "declined", "silent"):
        for title in plot.all("title"):
            if title.text.startswith(name):
                widths.setdefault(name, []).append(int(title.text.split()[1]))
    for row, key in zip(answers, [key for key in tally.keys() if key[0] == "dealer"]):
        expected = tally.figures(key)
        cells = [cell.text for cell in row]
        assert cells[0] == key[1]
        counts = ("asked", "answered", "declined", "silent")
        assert cells[1:5] == [str(expected[name]) for name in counts]
        median = expected["response_ms"]
        assert median is not None and cells[5] == "%.3f" % (median / 1000)
    drawn = {name: sum(values) for name, values in widths.items()}
    day = tally.figures(("day", DATE))
    assert drawn == {name: day[name] for name in ("answered", "declined", "silent")}
    for svg in page.all("svg", "plot"):
        assert svg.own("title")[0].text and svg.own("desc")[0].text
