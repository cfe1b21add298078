"""Each table of a day, of facts that are made up: each value stands below its own name, and each figure counts what it says."""

import json
from collections import Counter
from collections.abc import Iterable
from decimal import Decimal
from typing import TypeVar, cast

import pytest
from mireseason_audit.best_execution import BEST_EXECUTION, best_execution
from mireseason_audit.bonds import Bond
from mireseason_audit.confirmations import (
    CONFIRMATIONS,
    confirmation_text,
    confirmations,
    misnamed,
)
from mireseason_audit.day_tables import (
    ASKED,
    QUOTES,
    REQUESTS,
    RESPONSES,
    TRADES,
    RequestRow,
    TradeRow,
)
from mireseason_audit.facts import Facts, ResponseFact
from mireseason_audit.investor_page import awards
from mireseason_audit.log import Log
from mireseason_audit.notes import Act
from mireseason_audit.parties import Parties
from mireseason_audit.records import Firm, configured
from mireseason_audit.refusals import Refusal
from mireseason_audit.statistics import Group, Refused, Statistics, statistics_of
from mireseason_audit.statistics_tables import (
    AMOUNTS,
    ANSWERS,
    DISTANCES,
    FIGURES,
    LIVES,
    OUTCOMES,
    REFUSALS,
    amount_rows,
    figure_rows,
    refusal_rows,
)
from mireseason_audit.statistics_text import grid, statistics_json, statistics_text
from mireseason_audit.tables import Form, Table, table_text
from mireseason_audit.transparency import Publisher, report_table, transparency
from mireseason_audit.wire_texts import MOST_KEPT, NOTHING, WireText, WireTexts

from tests.audit.test_facts import Made

BOND, OTHER = "BONDA0000001", "BONDB0000001"
CONFIGURATION = """version = 3
date = "20261125"
%s
[[bond]]
id = "BONDA0000001"
currency = "USD"
[[bond]]
id = "BONDB0000001"
""" % "".join(
    '[[%s]]\nname = "%s"\n' % ("dealer" if name.startswith("DLR") else "investor", name)
    for name in ("DLR1", "DLR2", "DLR3", "INV1", "INV2")
)
Row = TypeVar("Row")


def at(second: float) -> str:
    return "09:00:%06.3f" % second


def made_day() -> tuple[Facts, list[ResponseFact | None]]:
    """Three requests: one awarded, one passed after a hit that came too late, one expired."""
    made = Made()
    made.asks()
    made.quotes("DLR1", "a1", "Q1", "99.5")
    made.quotes("DLR2", "b1", "Q2", "99.75", at(4.5))
    made.quotes("DLR1", "a2", "Q3", "99.4")
    made.takes("DLR3 AI|131=R1|297=11", came="DLR3 AG|131=R1")
    won = made.hits("Q3", "DLR1 a2", "DLR2 4", "DLR3 5")
    made.asks("r2", "INV2", "2", "R2")
    made.quotes("DLR2", "b2", "Q1", "101", of="r2", at="R2", investor="INV2")
    made.quotes("DLR3", "c2", "Q2", "100.5", of="r2", at="R2", investor="INV2")
    made.takes(
        "DLR2 AI|131=R2|117=b2|297=17",
        "INV2 AI|131=r2|117=Q1|297=17",
        came="DLR2 Z|117=b2|298=1",
    )
    late = made.takes(
        "INV2 AI|693=h2|131=r2|117=Q1|297=5|300=4|58=Gone",
        came="INV2 AJ|50=T2|693=h2|117=Q1|694=1",
    )
    passed = made.takes(
        "INV2 AI|693=p2|131=r2|297=11",
        "DLR2 AJ|693=N2|131=R2|694=6",
        "DLR3 AJ|693=N2|131=R2|694=6",
        came="INV2 AJ|693=p2|131=r2|694=6",
    )
    made.asks("r3", at="R3")
    made.takes("INV1 AI|131=r3|297=7", *("%s AJ|131=R3|694=3" % name for name in ("DLR1", "DLR2")))
    return made.collector.facts, [won, late, passed]


FACTS, SAID = made_day()


def rows_of(table: Table[Row], rows: Iterable[Row]) -> list[dict[str, object]]:
    found: list[dict[str, object]] = json.loads(table_text(table, rows, Form.JSON))
    return found


def columns(table: Table[Row], rows: Iterable[Row]) -> dict[str, list[object]]:
    """The values of each column, row by row."""
    found = rows_of(table, rows)
    return {name: [row[name] for row in found] for name in table.names}


def test_requests() -> None:
    found = columns(REQUESTS, [RequestRow(one, "USD") for one in FACTS.requests])
    assert found == {
        "request": [1, 2, 3],
        "entry": [1, 7, 13],
        "moment": [at(1), at(7), at(13)],
        "investor": ["INV1", "INV2", "INV1"],
        "trader": ["T1"] * 3,
        "name": ["r1", "r2", "r3"],
        "bond": [BOND] * 3,
        "currency": ["USD"] * 3,
        "side": ["buy", "sell", "buy"],
        "quantity": [5_000_000] * 3,
        "deadline": ["09:05:00.000"] * 3,
        "asked": [3] * 3,
        "quotes": [3, 2, 0],
        "end": ["awarded", "passed", "expired"],
        "end_entry": [6, 12, 14],
        "end_moment": [at(6), at(12), at(14)],
    }


def test_dealers_that_were_asked() -> None:
    none = [None] * 3
    assert columns(ASKED, FACTS.asked) == {
        "request": [1, 1, 1, 2, 2, 2, 3, 3, 3],
        "entry": [1, 1, 1, 7, 7, 7, 13, 13, 13],
        "moment": [at(1)] * 3 + [at(7)] * 3 + [at(13)] * 3,
        "dealer": ["DLR1", "DLR2", "DLR3"] * 3,
        "name": ["R1"] * 3 + ["R2"] * 3 + ["R3"] * 3,
        "answer": ["quoted", "quoted", "declined", "silent", "quoted", "quoted"] + ["silent"] * 3,
        "quotes": [2, 1, 0, 0, 1, 1, 0, 0, 0],
        "quote_entry": [2, 3, None, None, 8, 9, *none],
        "quote_moment": [at(2), at(3), "", "", at(8), at(9), "", "", ""],
        "decline_entry": [None, None, 5, *none, *none],
        "decline_moment": ["", "", at(5)] + [""] * 6,
        "response_ms": [1000, 2000, None, None, 1000, 2000, *none],
        "notice": ["won", "cover", "done away", "", "passed", "passed", "expired", "expired", ""],
        "notice_name": ["N1", "N1", "N1", "", "N2", "N2", "", "", ""],
        "notice_entry": [6, 6, 6, None, 12, 12, 14, 14, None],
    }


def test_quotes() -> None:
    assert columns(QUOTES, FACTS.quotes) == {
        "request": [1, 1, 1, 2, 2],
        "entry": [2, 3, 4, 8, 9],
        "moment": [at(2), at(3), at(4), at(8), at(9)],
        "dealer": ["DLR1", "DLR2", "DLR1", "DLR2", "DLR3"],
        "trader": ["D-DLR1", "D-DLR2", "D-DLR1", "D-DLR2", "D-DLR3"],
        "name": ["a1", "b1", "a2", "b2", "c2"],
        "shown": ["Q1", "Q2", "Q3", "Q1", "Q2"],
        "price": ["99.5", "99.75", "99.4", "101", "100.5"],
        "until": ["", at(4.5), "", "", ""],
        "end": ["replaced", "cover", "won", "withdrawn", "passed"],
        "end_entry": [4, 6, 6, 10, 12],
        "end_moment": [at(4), at(6), at(6), at(10), at(12)],
        "lapsed": [0, 1, 0, 0, 0],
        "life_ms": [2000, 1500, 2000, 2000, 3000],
    }


def test_responses() -> None:
    nowhere = ResponseFact(15, at(15), "INV1", "T1", None, "hit", "h3", None, "Q9", "not found")
    said = [one for one in (*SAID, nowhere) if one is not None]
    assert columns(RESPONSES, said) == {
        "request": [1, 2, 2, None],
        "entry": [6, 11, 12, 15],
        "moment": [at(6), at(11), at(12), at(15)],
        "investor": ["INV1", "INV2", "INV2", "INV1"],
        "trader": ["T2", "T2", "", "T1"],
        "kind": ["hit", "hit", "pass", "hit"],
        "name": ["h1", "h2", "p2", "h3"],
        "shown": ["Q3", "Q1", "", "Q9"],
        "quote_entry": [4, 8, None, None],
        "answer": ["awarded", "refused", "passed", "not found"],
        "reason": ["", "Gone", "", ""],
    }


TRADE: dict[str, object] = {
    "trade": "20261125-INV1-DLR1-1",
    "request": 1,
    "entry": 6,
    "moment": at(6),
    "investor": "INV1",
    "investor_trader": "T2",
    "investor_request": "r1",
    "investor_quote": "Q3",
    "investor_reference": "h1",
    "investor_number": 5,
    "dealer": "DLR1",
    "dealer_trader": "D-DLR1",
    "dealer_request": "R1",
    "dealer_quote": "a2",
    "dealer_reference": "N1",
    "dealer_number": 4,
    "bond": BOND,
    "currency": "USD",
    "side": "buy",
    "quantity": 5_000_000,
    "price": "99.4",
    "quote_entry": 4,
    "best_dealer": "DLR1",
    "best_price": "99.4",
    "best_entry": 4,
    "from_best": "0",
    "cover_dealer": "DLR2",
    "cover_price": "99.75",
    "cover_entry": 3,
    "cover_lapsed": 1,
    "from_cover": "0.35",
    "void": "",
}


def test_trades() -> None:
    assert rows_of(TRADES, [TradeRow(one, "USD") for one in FACTS.trades]) == [TRADE]


def better_trade() -> Facts:
    """A seller hits the worse of two quotes; nobody is told to be the cover."""
    made = Made()
    made.asks(side="2")
    made.quotes("DLR1", "a", "Q1", "99")
    made.quotes("DLR2", "b", "Q2", "99.25")
    made.hits("Q1", "DLR1 a", "DLR2 5")
    made.trade.void = "both asked"
    return made.collector.facts


def test_a_trade_that_was_not_the_best() -> None:
    (row,) = rows_of(TRADES, [TradeRow(one, "") for one in better_trade().trades])
    told = ("side", "currency", "best_dealer", "best_price", "best_entry", "from_best", "void")
    assert [row[name] for name in told] == ["sell", "", "DLR2", "99.25", 3, "0.25", "both asked"]
    none = ("cover_dealer", "cover_price", "cover_entry", "cover_lapsed", "from_cover")
    assert [row[name] for name in none] == ["", None, None, 0, None]


# ------------------------------------------------------------ of one firm


def test_confirmations() -> None:
    """Both firms' own sides of one trade, and nothing of a third firm's."""
    bonds = {BOND: Bond(BOND, "USD")}
    common = {
        "trade": "20261125-INV1-DLR1-1",
        "moment": at(6),
        "quantity": 5_000_000,
        "bond": BOND,
        "currency": "USD",
        "price": "99.4",
        "void": "",
    }
    investor = {
        "firm": "INV1",
        "side": "buy",
        "with": "DLR1",
        "trader": "T2",
        "request": "r1",
        "quote": "Q3",
        "reference": "h1",
        "number": 5,
    }
    dealer = {
        "firm": "DLR1",
        "side": "sell",
        "with": "INV1",
        "trader": "D-DLR1",
        "request": "R1",
        "quote": "a2",
        "reference": "N1",
        "number": 4,
    }
    for own in (investor, dealer):
        found = rows_of(CONFIRMATIONS, confirmations(FACTS, bonds, str(own["firm"])))
        assert found == [common | own]
    assert list(confirmations(FACTS, bonds, "DLR2")) == []
    (row,) = confirmations(better_trade(), {}, "DLR1")
    assert (row.buys, row.currency) == (True, "")


def test_confirmations_for_a_person() -> None:
    bonds, none = {BOND: Bond(BOND, "USD")}, dict[str, Bond]()
    facts = better_trade()
    line = "  20261125-INV1-DLR1-1  %s UTC  %s 5,000,000%s of BONDA0000001 at %s %s  131=%s 117=%s 693=%s, message %d"
    for own, named, firm, text in (
        (
            FACTS,
            bonds,
            Firm("INV1", False),
            ("buys", " USD", "99.4", "from DLR1", "r1", "Q3", "h1", 5),
        ),
        (
            FACTS,
            bonds,
            Firm("DLR1", True),
            ("sells", " USD", "99.4", "to INV1", "R1", "a2", "N1", 4),
        ),
        (facts, none, Firm("INV1", False), ("sells", "", "99", "to DLR1", "r1", "Q1", "h1", 4)),
    ):
        rows = list(confirmations(own, named, firm.name))
        void = ", VOID: both asked" if own is facts else ""
        moment = at(6) if own is FACTS else at(4)
        told = "%s, %s: 1 trade\n%s" % (firm.name, firm.kind, line % (moment, *text))
        assert confirmation_text(firm, rows) == told + void
        more = confirmation_text(firm, rows * 2).splitlines()
        assert more[0] == "%s, %s: 2 trades" % (firm.name, firm.kind) and more[1] == more[2]
    assert confirmation_text(Firm("DLR2", True), []) == "DLR2, dealer: 0 trades"


def test_a_trade_of_another_name() -> None:
    """A firm that was told none is told no other; each of both is looked at."""
    facts = better_trade()
    assert list(misnamed(facts)) == []
    for side, number in ((facts.trades[0].investor, 4), (facts.trades[0].dealer, 3)):
        side.named = "20261125-INV1-DLR1-1"
        assert list(misnamed(facts)) == []
        side.named = "20261125-INV1-DLR1-2"
        (found,) = misnamed(facts)
        text = "it was told the trade 20261125-INV1-DLR1-1 under the name 20261125-INV1-DLR1-2"
        assert (found.where, found.text, found.place, found.number) == (side.firm, text, 4, number)
        assert found.items == ("reasons and trades",)
        side.named = ""


def test_an_investors_own_file() -> None:
    """Its own requests alone, each quote that it was shown, and whoever showed none."""
    found = columns(BEST_EXECUTION, best_execution(FACTS, "INV1"))
    none = [None] * 3
    assert found == {
        "request": ["r1"] * 4 + ["r3"] * 3,
        "moment": [at(1)] * 4 + [at(13)] * 3,
        "trader": ["T1"] * 7,
        "bond": [BOND] * 7,
        "side": ["buy"] * 7,
        "quantity": [5_000_000] * 7,
        "deadline": ["09:05:00.000"] * 7,
        "asked": [3] * 7,
        "end": ["awarded"] * 4 + ["expired"] * 3,
        "end_moment": [at(6)] * 4 + [at(14)] * 3,
        "dealer": ["DLR1", "DLR1", "DLR2", "DLR3", "DLR1", "DLR2", "DLR3"],
        "answer": ["quoted", "quoted", "quoted", "declined"] + ["silent"] * 3,
        "quote": ["Q1", "Q3", "Q2", "", "", "", ""],
        "number": [2, 4, 3, None, *none],
        "shown": [at(2), at(4), at(3), "", "", "", ""],
        "price": ["99.5", "99.4", "99.75", None, *none],
        "until": ["", "", at(4.5), "", "", "", ""],
        "gone": [at(4), "", "", "", "", "", ""],
        "hit": [0, 1, 0, 0, 0, 0, 0],
        "from_best": [None, "0", None, None, *none],
        "from_cover": [None] * 7,
    }
    seller = columns(BEST_EXECUTION, best_execution(FACTS, "INV2"))
    assert (seller["side"], seller["gone"]) == (["sell"] * 3, ["", at(10), ""])
    (one, other) = rows_of(BEST_EXECUTION, best_execution(better_trade(), "INV1"))[:2]
    assert (one["from_best"], one["from_cover"], one["hit"]) == ("0.25", "-0.25", 1)
    assert (other["from_best"], other["from_cover"], other["hit"]) == (None, None, 0)


def test_an_investors_awards() -> None:
    """Each once, with how many dealers were asked and how many of them showed a quote."""
    found = list(awards(list(best_execution(FACTS, "INV1"))))
    assert [(one.trade, one.asked, one.answered) for one in found] == [(FACTS.trades[0], 3, 2)]
    assert (found[0].price, found[0].better) == ("99.4", "")
    (one,) = awards(list(best_execution(better_trade(), "INV1")))
    assert (one.price, one.better, one.asked, one.answered) == ("99", "-0.25", 3, 2)
    assert list(awards(list(best_execution(FACTS, "INV2")))) == []


# ------------------------------------------------------------ figures

QUOTE, HIT = Refusal("quote", "300=8"), Refusal("hit", "300=4", "Gone")
REFUSED = Counter(
    {
        Refused("DLR1", BOND, "09", QUOTE): 2,
        Refused("INV2", "", "10", HIT): 1,
        Refused("DLR1", "NOBOND", "09", HIT): 1,
    }
)


def statistics() -> Statistics:
    return statistics_of(configured("1", "", CONFIGURATION.encode()), FACTS, REFUSED)


# Of the rows of the day, two dealers, two investors, both bonds and two hours.
KEYS = ["20261125", "DLR1", "DLR2", "DLR3", "INV1", "INV2", BOND, OTHER, "09", "10"]
GROUPS = ["day", *["dealer"] * 3, *["investor"] * 2, *["bond"] * 2, *["hour"] * 2]
COUNTS = {
    "requests": [3, 3, 3, 3, 2, 1, 3, 0, 3, 0],
    "asked": [9, 3, 3, 3, 6, 3, 9, 0, 9, 0],
    "answered": [4, 1, 2, 1, 2, 2, 4, 0, 4, 0],
    "declined": [1, 0, 0, 1, 1, 0, 1, 0, 1, 0],
    "silent": [4, 2, 1, 1, 3, 1, 4, 0, 4, 0],
    "won": [1, 1, 0, 0, 1, 0, 1, 0, 1, 0],
    "cover": [1, 0, 1, 0, 1, 0, 1, 0, 1, 0],
    "done_away": [0] * 10,
    "passed": [2, 0, 1, 1, 0, 2, 2, 0, 2, 0],
    "expired": [0] * 10,
    "trades": [1, 1, 0, 0, 1, 0, 1, 0, 1, 0],
    "covers": [0] * 10,
    "covers_lapsed": [1, 1, 0, 0, 1, 0, 1, 0, 1, 0],
    "not_best": [0] * 10,
    "quotes": [5, 2, 2, 1, 3, 2, 5, 0, 5, 0],
    "replaced": [1, 1, 0, 0, 1, 0, 1, 0, 1, 0],
    "withdrawn": [1, 0, 1, 0, 0, 1, 1, 0, 1, 0],
    "fades": [1, 0, 1, 0, 0, 1, 1, 0, 1, 0],
    "lapsed": [1, 0, 1, 0, 1, 0, 1, 0, 1, 0],
}
SPREADS = {
    "response_ms": [1000, 1000, 1000, 2000, 1000, 1000, 1000, None, 1000, None],
    "response_ms_90": [2000, 1000, 2000, 2000, 2000, 2000, 2000, None, 2000, None],
    "response_ms_99": [2000, 1000, 2000, 2000, 2000, 2000, 2000, None, 2000, None],
    "hit_ratio": ["50", "100", "0", "0", "100", "0", "50", None, "50", None],
    "life_ms": [2000, 2000, 1500, 3000, 2000, 2000, 2000, None, 2000, None],
    "life_ms_90": [3000, 2000, 2000, 3000, 2000, 3000, 3000, None, 3000, None],
    "life_ms_99": [3000, 2000, 2000, 3000, 2000, 3000, 3000, None, 3000, None],
    **dict.fromkeys(("from_cover", "from_cover_most", "from_best", "from_best_most"), [None] * 10),
}


def test_figures() -> None:
    found = columns(FIGURES, figure_rows(statistics()))
    assert found == {"group": GROUPS, "key": KEYS} | COUNTS | SPREADS


def test_figures_of_distances() -> None:
    """Of a hit that was not the best, and of covers that could be hit: the median and the most."""
    made = Made()
    for number, (price, cover) in enumerate((("99", "99.5"), ("99", "99.25"), ("99", "98"))):
        of, name = "r%d" % number, "R%d" % number
        made.asks(of, at=name)
        made.quotes("DLR1", "a%d" % number, "Qa%d" % number, price, of=of, at=name)
        made.quotes("DLR2", "b%d" % number, "Qb%d" % number, cover, of=of, at=name)
        made.hits("Qa%d" % number, "DLR1 a%d" % number, "DLR2 4", of=of, at=name)
    day = configured("1", "", CONFIGURATION.encode())
    row = rows_of(FIGURES, figure_rows(statistics_of(day, made.collector.facts, Counter())))[0]
    told = ("trades", "covers", "from_cover", "from_cover_most", "covers_lapsed")
    assert [row[name] for name in told] == [3, 3, "0.25", "0.5", 0]
    told = ("not_best", "from_best", "from_best_most", "cover", "hit_ratio")
    assert [row[name] for name in told] == [1, "1", "1", 3, "100"]


def test_amounts() -> None:
    """In a bond's currency, else by the bond alone; of a row without any there is none."""
    asked, traded = [15_000_000] * 4 + [10_000_000, 5_000_000, 15_000_000, 15_000_000], 5_000_000
    keys = [key for key in KEYS if key not in (OTHER, "10")]
    assert columns(AMOUNTS, amount_rows(statistics())) == {
        "group": [group for group, key in zip(GROUPS, KEYS) if key in keys],
        "key": keys,
        "unit": ["USD"] * 8,
        "asked_for": asked,
        "traded": [traded, traded, 0, 0, traded, 0, traded, traded],
        "trades": [1, 1, 0, 0, 1, 0, 1, 1],
    }
    other = statistics_of(
        configured("1", "", CONFIGURATION.replace('currency = "USD"\n', "").encode()),
        FACTS,
        Counter(),
    )
    assert {row.unit for row in amount_rows(other)} == {BOND}


def test_refusals_by_reason() -> None:
    """Of a firm, its hour and its bond where the day has it; the most frequent first, of equal ones by their words."""
    assert (
        rows_of(REFUSALS, refusal_rows(statistics()))
        == [
            {"group": group, "key": key, "what": what, "code": code, "name": name, "count": count}
            for group, key, (what, code, name), count in (
                ("day", "20261125", QUOTE, 2),
                ("day", "20261125", HIT, 2),
                ("dealer", "DLR1", QUOTE, 2),
                ("dealer", "DLR1", HIT, 1),
                ("investor", "INV2", HIT, 1),
                ("bond", BOND, QUOTE, 2),
                ("hour", "09", QUOTE, 2),
                ("hour", "09", HIT, 1),
                ("hour", "10", HIT, 1),
            )
        ]
        or rows_of(REFUSALS, refusal_rows(statistics()))[0]["what"] == "hit"
    )


def test_figures_for_a_person() -> None:
    """Each group with its rows below one head; amounts and refusals of firms and the day alone."""
    lines = [line.split() for line in statistics_text(statistics()).splitlines()]
    titles = ["The day", "Dealers", "Investors", "Bonds", "Hours of the requests, in UTC"]
    assert [line for line in titles if line.split() in lines] == titles
    heads = [
        ["answers", *[column.name for column in ANSWERS]],
        ["outcomes", "of", "answers", *[column.name for column in OUTCOMES]],
        ["distances", "in", "points", *[column.name for column in DISTANCES]],
        ["lives", "of", "quotes", *[column.name for column in LIVES]],
    ]
    assert [lines.count(head) for head in heads] == [5] * 4
    first = lines.index(heads[0])
    assert lines[first + 1] == ["20261125", "3", "9", "4", "1", "4", "1000", "2000", "2000"]
    assert lines[lines.index(heads[2]) + 1] == ["20261125", "1", "0", "-", "-", "1", "0", "-", "-"]
    amounts = lines.index("unit asked for traded trades".split())
    assert lines[amounts + 1 : amounts + 7] == [
        ["day", "20261125", "USD", "15,000,000", "5,000,000", "1"],
        ["dealer", "DLR1", "USD", "15,000,000", "5,000,000", "1"],
        ["dealer", "DLR2", "USD", "15,000,000", "0", "0"],
        ["dealer", "DLR3", "USD", "15,000,000", "0", "0"],
        ["investor", "INV1", "USD", "10,000,000", "5,000,000", "1"],
        ["investor", "INV2", "USD", "5,000,000", "0", "0"],
    ]
    refusals = lines.index("what code name count".split())
    assert lines[refusals + 1 :] == [
        ["day", "20261125", "hit", "300=4", "Gone", "2"],
        ["day", "20261125", "quote", "300=8", "2"],
        ["dealer", "DLR1", "quote", "300=8", "2"],
        ["dealer", "DLR1", "hit", "300=4", "Gone", "1"],
        ["investor", "INV2", "hit", "300=4", "Gone", "1"],
    ]


def test_lines_with_columns_of_one_width() -> None:
    """Texts to the left and numbers to the right, but for the first column; nothing behind the last."""
    text = grid("of", ["n", "name"], [["a", "1,000", "x"], ["bb", "-", "long"], ["7", "-2.5", ""]])
    assert text == "  of  n      name\n  a   1,000  x\n  bb      -  long\n  7    -2.5\n"


def test_figures_for_a_program() -> None:
    """The three tables as one object."""
    found = json.loads(statistics_json(statistics()))
    assert found == {
        "figures": rows_of(FIGURES, figure_rows(statistics())),
        "amounts": rows_of(AMOUNTS, amount_rows(statistics())),
        "refusals": rows_of(REFUSALS, refusal_rows(statistics())),
    }


def test_rows_of_a_group() -> None:
    found = statistics()
    assert [key for key, _ in found.of(Group.HOUR)] == ["09", "10"]
    assert [key for key, _ in found.of(Group.DEALER)] == ["DLR1", "DLR2", "DLR3"]
    assert found.row(Group.HOUR, "23").requests == 0


# ------------------------------------------------------------ reports of trades


def test_the_fields_of_a_report() -> None:
    """Of a large trade that was voided: at once it is published in neither report."""
    said = {"isin": "XS0000000009", "currency": "USD", "class": "corporate", "cleared": True}
    parties = Parties({"venue": {"mic": "XMIR"}, "bond": {BOND: said}}, {BOND: Bond(BOND)})
    publisher = Publisher(transparency(), parties, "20261125")
    act = Act(9, "09:01:00.000", "op(1)", "bust", "agreed")
    reports = publisher.reports(FACTS.trades, {"20261125-INV1-DLR1-1": act})
    row, void = rows_of(report_table(publisher), reports)
    assert {key: value for key, value in row.items() if value not in (None, "")} == {
        "01_trading_date_and_time": "2026-11-25T09:00:06.000Z",
        "02_instrument_code_type": "ISIN",
        "03_instrument_code": "XS0000000009",
        "04_price": "99.4",
        "07_price_notation": "PERC",
        "08_quantity": 5_000_000,
        "11_notional_amount": 5_000_000,
        "12_notional_currency": "USD",
        "14_venue_of_execution": "XMIR",
        "16_venue_of_publication": "XMIR",
        "15_publication_date_and_time": "2026-11-27T19:00:00.000Z",
        "17_transaction_identification_code": "20261125-INV1-DLR1-1",
        "18_transaction_to_be_cleared": "true",
        "19_flags": "LRGS",
    }
    assert void == row | {"19_flags": "CANC LRGS"}


# ------------------------------------------------------------ what the gateway added on the wire


class Beside:
    """A log that has this beside the messages of a firm."""

    def __init__(self, *rows: tuple[int, bytes], has_chain: bool = True) -> None:
        self.rows, self.has_chain = rows, has_chain

    def told_beside(self, firm: str) -> Iterable[tuple[int, bytes]]:
        assert firm == "INV1"
        return iter(self.rows)


def texts(*rows: tuple[int, bytes], has_chain: bool = True) -> WireTexts:
    return WireTexts(cast(Log, Beside(*rows, has_chain=has_chain)), "INV1")


def test_what_was_added_to_a_message() -> None:
    """By its number: of messages that were passed over, too, and nothing of the others."""
    found = texts((2, b"\x0158=too late\x01"), (3, b"\x0160=x\x01"), (5, b"\x011003=t-1\x01"))
    expected = [NOTHING, WireText("too late"), NOTHING, NOTHING, WireText("", "t-1"), NOTHING]
    assert [found.of(number) for number in range(1, 7)] == expected
    assert [found.of(number) for number in range(1, 7)] == expected
    both = texts((4, b"\x0158=a\x011003=b\x01"))
    assert [both.of(number) for number in (9, 4)] == [NOTHING, WireText("a", "b")]
    assert texts((2, b"\x0158=x\x01"), has_chain=False).of(2) == NOTHING


def test_how_many_of_them_are_kept() -> None:
    """The last 8,192: one entry brings a firm fewer messages."""
    assert MOST_KEPT == 8192
    for count in (MOST_KEPT, MOST_KEPT + 1):
        found = texts(*((number, b"\x0158=%d\x01" % number) for number in range(1, count + 1)))
        assert found.of(count) == WireText(str(count))
        assert found.of(2) == WireText("2")
        assert found.of(1) == (WireText("1") if count == MOST_KEPT else NOTHING)
