"""The record of orders, of facts that are made up: each event of an order, and each field of each table, in the place of its own."""

import json
from dataclasses import replace
from decimal import Decimal

import pytest
from mireseason_audit.bonds import Bond
from mireseason_audit.exchanges import Exchange
from mireseason_audit.facts import Facts, QuoteFact, RequestFact, Side, TradeFact
from mireseason_audit.frame import fields_of, framed
from mireseason_audit.lines import came_of
from mireseason_audit.order_events import (
    CANCELLED,
    ENDED,
    EXPIRED,
    FILLED,
    NEW,
    REFUSED,
    REPLACED,
    Order,
    OrderEvent,
    OtherEvents,
    fact_events,
    not_taken_event,
    order_of_message,
    order_of_quote,
    order_of_request,
)
from mireseason_audit.parties import Parties
from mireseason_audit.records import Entry, Outgoing
from mireseason_audit.refusals import Refusal
from mireseason_audit.rts24 import REFUSALS, Recorder, record_table, rts24, sources_table
from mireseason_audit.tables import Form, Table, table_text

ISIN, BOND = "XS0000000009", "BONDA0000001"
INVESTOR, DEALER, BROKER = ("529900TESTLEI%05d%02d" % (at, at + 10) for at in range(3))
PARTIES = Parties(
    {
        "venue": {"mic": "XMIR"},
        "firm": {
            "INV1": {
                "lei": INVESTOR,
                "dea": True,
                "client": "CLIENT",
                "decision": "DECISION",
                "broker": BROKER,
                "capacity": "AOTC",
                "liquidity": False,
                "traders": {"T1": "T1-CODE"},
            },
            "DLR1": {
                "lei": DEALER,
                "dea": False,
                "client": "",
                "decision": "D2-DECISION",
                "broker": "",
                "capacity": "DEAL",
                "liquidity": True,
                "traders": {"D2": "D2-CODE"},
            },
        },
        "bond": {BOND: {"isin": ISIN, "currency": "USD"}},
    },
    {BOND: Bond(BOND)},
    {"INV1": frozenset({"T1"}), "DLR1": frozenset({"D2"})},
)


def request(number: int = 1, **more: object) -> RequestFact:
    made = RequestFact(
        number,
        1,
        "09:00:00.000",
        "INV1",
        "T1",
        "r1",
        BOND,
        True,
        5_000_000,
        "09:05:00.000",
        ["DLR1"],
    )
    return replace(made, **more)


def quote(of: RequestFact, entry: int = 2, **more: object) -> QuoteFact:
    price, until = Decimal("99.5"), "09:02:00.000"
    made = QuoteFact(of, entry, "09:01:00.000", "DLR1", "D2", "q1", "Q1", 3, price, until)
    return replace(made, **more)


def trade(of: QuoteFact) -> TradeFact:
    side = Side("INV1", "T1", "r1", "Q1", "h1", 4)
    name, moment = "20261125-INV1-DLR1-1", "09:01:30.000"
    return TradeFact(name, 7, moment, of.request, of, side, side, of, None)


def message(text: str, **entry: object) -> Exchange:
    """A message of a firm, from `FIRM 35=..` on, and what nobody was told for it."""
    firm, _, body = text.partition(" ")
    frame = framed(fields_of(body.replace("|", "\x01").encode()))
    line = b"hex %b 09:03:00.000 %b" % (firm.encode(), frame.hex().encode())
    made = Entry(9, 0, "09:03:00.000", firm, 8, line, b"", b"", "", 3)
    return Exchange(made._replace(**entry), came_of(line), ())  # type: ignore[arg-type]


# ------------------------------------------------------------ events


def told(events: list[OrderEvent]) -> list[tuple[object, ...]]:
    return [(one.order.kind, one.what, one.entry, one.moment) for one in events]


# How a request ended, and its second event.
ENDS = {"awarded": FILLED, "passed": CANCELLED, "expired": EXPIRED, "open": None}


@pytest.mark.parametrize("end", ENDS)
def test_events_of_a_request(end: str) -> None:
    """It is new, and ends once; a trade is that of its own number."""
    asked = request(2, end=end, end_entry=7, end_moment="09:01:30.000")
    other, own = trade(quote(request(1))), trade(quote(asked, 5))
    events = list(fact_events(Facts(requests=[asked], trades=[other, own])))
    expected: list[tuple[object, ...]] = [("request", NEW, 1, "09:00:00.000")]
    if ENDS[end] is not None:
        expected.append(("request", ENDS[end], 7, "09:01:30.000"))
    assert told(events) == expected
    assert [one.trade for one in events] == [None, own if end == "awarded" else None][: len(events)]
    assert [one.is_open for one in events] == [True, False][: len(events)]


# How a quote ended and whether its 62 passed before, and its second event.
FATES = {
    "won": (False, (FILLED, 7, "09:01:30.000")),
    "withdrawn": (False, (CANCELLED, 7, "09:01:30.000")),
    "cover": (False, (ENDED, 7, "09:01:30.000")),
    "expired": (False, (ENDED, 7, "09:01:30.000")),
    "replaced": (False, None),
    "standing": (False, None),
    "done away": (True, (EXPIRED, None, "09:02:00.000")),
}


@pytest.mark.parametrize("end", FATES)
def test_events_of_a_quote(end: str) -> None:
    """One whose 62 passed is over at that moment, whatever is told of it later."""
    lapsed, expected = FATES[end]
    made = quote(request(), end=end, lapsed=lapsed, end_entry=7, end_moment="09:01:30.000")
    other, own = trade(quote(request(), 4)), trade(made)
    events = list(fact_events(Facts(quotes=[made], trades=[other, own])))
    assert told(events)[0] == ("quote", NEW, 2, "09:01:00.000")
    assert told(events)[1:] == ([] if expected is None else [("quote", *expected)])
    assert [one.trade for one in events[1:]] == [own if end == "won" else None][: len(events) - 1]


def test_a_quote_in_the_place_of_another() -> None:
    """It replaces that of its own dealer which its entry ended; another dealer's is new."""
    asked = request()
    first = quote(asked, 2, end="replaced", end_entry=5, end_moment="09:01:10.000")
    after = quote(asked, 5, moment="09:01:10.000")
    others = quote(asked, 5, dealer="DLR2"), quote(asked, 6)
    events = list(fact_events(Facts(quotes=[first, after, *others])))
    assert [one.what for one in events] == [NEW, REPLACED, NEW, NEW]
    assert [one.is_open for one in events] == [True] * 4


def test_orders_of_facts() -> None:
    """A quote is on the other side of its request, and ends with it where it has no 62."""
    asked = request()
    assert order_of_request(asked) == Order(
        "INV1", "T1", "request", "r1", asked.moment, BOND, True, 5_000_000, None, asked.deadline
    )
    for buys in (True, False):
        made = quote(request(buys=buys))
        expected = Order(
            "DLR1",
            "D2",
            "quote",
            "q1",
            "09:01:00.000",
            BOND,
            not buys,
            5_000_000,
            made.price,
            "09:02:00.000",
        )
        assert order_of_quote(made) == expected
        assert order_of_quote(replace(made, until="")).until == "09:05:00.000"


# A message, whether it names a request of INV1, who buys, and the order: kind, name, bond, side, quantity, price and end.
HEAD, ABOUT = (
    "|34=8|50=T9",
    "|48=B|54=1|38=7|132=99.5|126=20261125-09:09:00.000|62=20261125-09:08:00.000",
)
ORDERS = {
    "a request": (
        "INV1 35=R%s|131=r2" % HEAD + ABOUT,
        False,
        ("request", "r2", "B", True, 7, None, "09:09:00.000"),
    ),
    "a quote": (
        "DLR1 35=S%s|117=q2|131=R1" % HEAD + ABOUT,
        False,
        ("quote", "q2", "B", True, 7, "99.5", "09:08:00.000"),
    ),
    "a quote on a request": (
        "DLR1 35=S%s|117=q2|131=R1" % HEAD + ABOUT,
        True,
        ("quote", "q2", BOND, False, 5_000_000, "99.5", "09:08:00.000"),
    ),
    "a decline": (
        "DLR1 35=AG%s|131=R1" % HEAD,
        True,
        ("decline", "R1", BOND, False, 5_000_000, None, "09:05:00.000"),
    ),
    "a cancel": (
        "DLR1 35=Z%s|117=q1|131=R1" % HEAD,
        True,
        ("cancel", "q1", BOND, False, 5_000_000, None, "09:05:00.000"),
    ),
    "a hit": (
        "INV1 35=AJ%s|693=h1|117=Q1|694=1|132=99" % HEAD,
        True,
        ("hit", "h1", BOND, True, 5_000_000, None, "09:05:00.000"),
    ),
    "a pass": (
        "INV1 35=AJ%s|693=p1|694=6" % HEAD,
        True,
        ("pass", "p1", BOND, True, 5_000_000, None, "09:05:00.000"),
    ),
    "no name": ("DLR1 35=S%s|133=1" % HEAD, False, ("quote", "34-8", "", False, None, "1", "")),
    "another message": (
        "DLR1 35=n%s|117=x" % HEAD,
        False,
        ("message", "x", "", None, None, None, ""),
    ),
}


@pytest.mark.parametrize("name", ORDERS)
def test_orders_of_messages(name: str) -> None:
    text, is_known, (kind, own, bond, buys, quantity, price, until) = ORDERS[name]
    came = message(text).came
    assert came is not None
    asked = request() if is_known else None
    priced = None if price is None else Decimal(price)
    expected = Order(
        came.firm, "T9", kind, own, "09:03:00.000", bond, buys, quantity, priced, until
    )
    assert order_of_message(came, "09:03:00.000", asked) == expected


def test_messages_that_make_no_event_of_an_order() -> None:
    """A refused one is told with its number and why; of the others those that no event is of."""
    others, why = OtherEvents(), Refusal("hit", "300=5", "Gone")
    others.take(message("INV1 35=AJ|34=8|693=h|694=1"), why, None)
    others.take(message("DLR1 35=AG|34=9|131=R1", place=10), None, request())
    others.take(message("DLR1 35=Z|34=10|117=q1", place=11), None, request())
    clock = Entry(12, 0, "09:04:00.000", None, None, b"clock 09:04:00.000", b"", b"")
    others.take(Exchange(clock, None, ()), None, None)
    (refused,) = others.refused
    assert (refused.entry, refused.what, refused.refusal) == (9, REFUSED, why)
    assert (refused.message, refused.order.kind, refused.moment) == ("8", "hit", "09:03:00.000")
    known = OrderEvent(11, "09:03:00.000", order_of_quote(quote(request())), CANCELLED)
    (rest,) = others.rest([known])
    assert (rest.entry, rest.what, rest.order.kind) == (10, CANCELLED, "decline")
    elsewhere = replace(known, entry=10, order=replace(known.order, firm="DLR2"))
    assert [one.entry for one in others.rest([elsewhere])] == [10, 11]


@pytest.mark.parametrize(
    "entry, what, expected",
    [
        ({"number": None, "connection": None}, CANCELLED, ENDED),
        ({"number": None, "connection": None}, FILLED, FILLED),
        ({"number": 8, "connection": None}, CANCELLED, CANCELLED),
        ({"number": None, "connection": 3}, CANCELLED, CANCELLED),
        ({"place": 10, "number": None, "connection": None}, CANCELLED, CANCELLED),
    ],
)
def test_a_withdrawal_that_the_gateway_made(
    entry: dict[str, object], what: str, expected: str
) -> None:
    """Its entry has neither a number nor a connection, since no session brought it: it is the venue's."""
    others = OtherEvents()
    others.take(message("DLR1 35=Z|34=8|298=4", **entry), None, None)
    event = OrderEvent(9, "09:03:00.000", order_of_quote(quote(request())), what)
    assert others.by_the_venue(event) == replace(event, what=expected)


# A message of the session's own, and what it says of the one that it refuses: its kind, name and number, code and words.
OWN = {
    "35=j|45=9|372=S|379=q7|380=4|58=too late": ("quote", "q7", "9", "380=4", "too late"),
    "35=3|45=9|371=58|372=AG|373=17": ("decline", "34-9", "9", "373=17", ""),
    "35=3|45=9|372=AJ|373=5": ("message", "34-9", "9", "373=5", ""),
    "35=3|45=9|372=n|373=11": None,
    "35=0|112=S": None,
}


@pytest.mark.parametrize("text", OWN)
def test_a_message_that_has_no_entry(text: str) -> None:
    """Only what a firm sends of an order is in the record; a hit and a pass are told apart by no Reject."""
    data = framed(fields_of(text.replace("|", "\x01").encode()))
    kind = text.split("|")[0].removeprefix("35=")
    row = Outgoing("DLR1", 4, None, data, 0, 0, 0, kind, "09:03:00.000")
    expected, event = OWN[text], not_taken_event("DLR1", row)
    if expected is None:
        assert event is None
        return
    what, name, number, code, words = expected
    order = Order("DLR1", "", what, name, "09:03:00.000")
    refusal = Refusal(what, code, words)
    assert event == OrderEvent(
        None, "09:03:00.000", order, REFUSED, refusal=refusal, message=number
    )


# ------------------------------------------------------------ fields

ALWAYS = {
    "16_segment_mic": "XMIR",
    "19_date_of_receipt": "2026-11-25",
    "31_price_notation": "PERC",
    "34_quantity_notation": "NOML",
    "42_minimum_size_first_execution_only": "false",
    "43_passive_only": "false",
    "45_self_execution_prevention": "false",
}
OF_BOND = {
    "18_instrument": ISIN,
    "29_price_currency": "USD",
    "35_quantity_currency": "USD",
    "36_initial_quantity": 5_000_000,
    "40_minimum_acceptable_quantity": 5_000_000,
    "41_minimum_executable_size": 5_000_000,
}
OF_INVESTOR = {
    "01_submitting_entity": INVESTOR,
    "02_direct_electronic_access": "true",
    "03_client": "CLIENT",
    "04_investment_decision": "DECISION",
    "06_non_executing_broker": BROKER,
    "07_trading_capacity": "AOTC",
    "08_liquidity_provision": "false",
}
OF_DEALER = {
    "01_submitting_entity": DEALER,
    "02_direct_electronic_access": "false",
    "04_investment_decision": "D2-DECISION",
    "07_trading_capacity": "DEAL",
    "08_liquidity_provision": "true",
}
FIRST = OrderEvent(1, "09:00:00.000", order_of_request(request()), NEW, sequence=1)
HIT = Order("INV1", "", "hit", "h1", "09:03:00.000")
# An event, and each field of its row in which something stands.
ROWS: dict[str, tuple[OrderEvent, dict[str, object]]] = {
    "a new request": (
        FIRST,
        {
            **ALWAYS,
            **OF_BOND,
            **OF_INVESTOR,
            "05_execution_within_firm": "T1-CODE",
            "09_date_and_time": "2026-11-25T09:00:00.000Z",
            "10_validity_period": "GTTV",
            "12_validity_date_and_time": "2026-11-25T09:05:00.000Z",
            "13_priority_time_stamp": "2026-11-25T09:00:00.000Z",
            "15_sequence_number": 1,
            "20_order_identification": "20261125-INV1-r1",
            "21_event": "NEWO",
            "22_order_type": "request",
            "32_buy_sell": "BUYI",
            "33_order_status": "ACTI",
            "37_remaining_quantity": 5_000_000,
            "38_displayed_quantity": 5_000_000,
        },
    ),
    "a quote that was hit": (
        OrderEvent(
            7,
            "09:01:30.000",
            order_of_quote(quote(request())),
            FILLED,
            trade(quote(request(), price=Decimal("99.25"))),
            sequence=3,
        ),
        {
            **ALWAYS,
            **OF_BOND,
            **OF_DEALER,
            "05_execution_within_firm": "D2-CODE",
            "09_date_and_time": "2026-11-25T09:01:30.000Z",
            "10_validity_period": "GTTV",
            "12_validity_date_and_time": "2026-11-25T09:02:00.000Z",
            "13_priority_time_stamp": "2026-11-25T09:01:00.000Z",
            "15_sequence_number": 3,
            "20_order_identification": "20261125-DLR1-q1",
            "21_event": "FILL",
            "22_order_type": "quote",
            "23_order_type_classification": "LMTO",
            "24_limit_price": "99.5",
            "28_transaction_price": "99.25",
            "32_buy_sell": "SELL",
            "33_order_status": "INAC",
            "37_remaining_quantity": 0,
            "38_displayed_quantity": 0,
            "39_traded_quantity": 5_000_000,
            "44_passive_or_aggressive": "PASV",
            "48_venue_transaction": "20261125-INV1-DLR1-1",
        },
    ),
    "a hit of nothing": (
        OrderEvent(9, "09:03:00.000", HIT, REFUSED, sequence=5),
        {
            **ALWAYS,
            **OF_INVESTOR,
            "09_date_and_time": "2026-11-25T09:03:00.000Z",
            "13_priority_time_stamp": "2026-11-25T09:03:00.000Z",
            "15_sequence_number": 5,
            "20_order_identification": "20261125-INV1-h1",
            "21_event": "REMO",
            "22_order_type": "hit",
            "33_order_status": "INAC",
            "37_remaining_quantity": 0,
            "38_displayed_quantity": 0,
        },
    ),
}


def rows_of(table: Table[OrderEvent], *events: OrderEvent) -> list[dict[str, object]]:
    found: list[dict[str, object]] = json.loads(table_text(table, events, Form.JSON))
    return found


@pytest.mark.parametrize("name", ROWS)
def test_each_field_of_the_record(name: str) -> None:
    event, expected = ROWS[name]
    (row,) = rows_of(record_table(Recorder(rts24(), PARTIES, "20261125")), event)
    assert len(row) == 51
    assert {key: value for key, value in row.items() if value not in ("", None)} == expected


# What differs from the row of a new request.
DIFFERENT = {
    "a request that is filled": (
        replace(FIRST, what=FILLED, trade=trade(quote(request()))),
        {
            "21_event": "FILL",
            "28_transaction_price": "99.5",
            "33_order_status": "INAC",
            "37_remaining_quantity": 0,
            "38_displayed_quantity": 0,
            "39_traded_quantity": 5_000_000,
            "44_passive_or_aggressive": "AGRE",
            "48_venue_transaction": "20261125-INV1-DLR1-1",
        },
    ),
    "one of the other side": (
        replace(FIRST, order=replace(FIRST.order, buys=False)),
        {"32_buy_sell": "SELL"},
    ),
    "a trader whom nobody names": (
        replace(FIRST, order=replace(FIRST.order, trader="T7")),
        {"05_execution_within_firm": ""},
    ),
}


@pytest.mark.parametrize("name", DIFFERENT)
def test_what_differs_in_another_event(name: str) -> None:
    event, expected = DIFFERENT[name]
    usual, row = rows_of(record_table(Recorder(rts24(), PARTIES, "20261125")), FIRST, event)
    assert {key: value for key, value in row.items() if value != usual[key]} == expected


def test_each_event_has_its_code() -> None:
    """Of a replaced quote the status, too, is that of one that stands."""
    events = [replace(FIRST, what=what) for what in (REPLACED, CANCELLED, ENDED, EXPIRED)]
    rows = rows_of(record_table(Recorder(rts24(), PARTIES, "20261125")), *events)
    assert [row["21_event"] for row in rows] == ["REME", "CAME", "CAMO", "EXPI"]
    assert [row["33_order_status"] for row in rows] == ["ACTI", "INAC", "INAC", "INAC"]


def test_the_table_of_refusals() -> None:
    """Each value below its own name; of a message without an entry or a reason that stays empty."""
    why = Refusal("hit", "300=5", "Gone")
    event = OrderEvent(9, "09:03:00.000", HIT, REFUSED, None, why, "8", 5)
    bare = replace(event, entry=None, refusal=None)
    row, other = rows_of(REFUSALS, event, bare)
    assert row == {
        "sequence_number": 5,
        "entry": 9,
        "moment": "09:03:00.000",
        "firm": "INV1",
        "number": "8",
        "what": "hit",
        "code": "300=5",
        "reason": "Gone",
    }
    assert other == row | {"entry": None, "what": "", "code": "", "reason": ""}


def test_the_table_of_sources() -> None:
    """Where a field comes from, or why there is none; and that nobody has compared them with the law."""
    regulation = rts24()
    found = json.loads(table_text(sources_table(regulation), regulation.fields, Form.JSON))
    note = "written without the regulation at hand"
    first = {"field": 1, "column": "01_submitting_entity", "source": "parties: firm.NAME.lei"}
    none = "none: no auction and no session to which an order could be restricted"
    eleventh = {"field": 11, "column": "11_order_restriction", "source": none}
    assert (found[0], found[10]) == (first | {"note": note}, eleventh | {"note": note})
    compared = replace(regulation, is_checked=True)
    (row, *_) = json.loads(table_text(sources_table(compared), compared.fields, Form.JSON))
    assert row["note"] == "compared with the regulation"
