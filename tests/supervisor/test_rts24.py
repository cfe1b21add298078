"""The record of orders: each event of a request and of a quote, a row for each message, and a source
for each field.
"""

import sqlite3
import tomllib
from collections import Counter
from contextlib import closing
from dataclasses import replace
from pathlib import Path

import pytest
from mireseason_audit.faults import Unreadable
from mireseason_audit.parties import Parties, parties_of
from mireseason_audit.sqlite_log import SqliteSource

from tests.supervisor.conftest import STORED, Audit
from tests.supervisor.exported import Row, read_csv
from tests.supervisor.sheet import Sheet

TRADERS = {
    "ALPHA": ("AL1", "AL2"),
    "BRAVO": ("BR1",),
    "CEDAR": ("CE1",),
    "DELTA": ("DE1",),
    "EIGER": ("EI1",),
    "FJORD": ("FJ1", "FJ2"),
    "GROVE": ("GR1",),
}
ISIN = "XS0000000009"
MARK = "written without the regulation at hand"
BONDS = ("US91282CAA18", "US91282CBB27", "US912810TM09", "US912810SX72")


def parties(without: str = "") -> str:
    """Made-up parties, of which one line may be left out."""
    said = {True: "true", False: "false"}
    lines = ["[venue]", 'mic = "XMIR"']
    for number, (firm, traders) in enumerate(TRADERS.items()):
        lines += ["[firm.%s]" % firm, 'lei = "529900TESTLEI%05d%02d"' % (number, 10 + number)]
        lines += ["dea = false", 'capacity = "DEAL"', "liquidity = %s" % said[number < 5]]
        lines += ['client = ""', 'broker = ""', 'decision = "%s-DECISION"' % firm]
        lines += ["[firm.%s.traders]" % firm, *('%s = "%s-CODE"' % (one, one) for one in traders)]
    for bond in BONDS:
        lines += ["[bond.%s]" % bond, 'isin = "%s"' % ISIN, 'currency = "USD"']
    lines += ["[firm.ALPHA.trader.AL2]", 'decision = "AL2-DECISION"']
    lines += ["[firm.GROVE.order.G-001]", 'client = "PNAL"']
    return "\n".join(line for line in lines if not without or without not in line) + "\n"


Record = dict[str, list[Row]]


@pytest.fixture(scope="module")
def record(run: Audit, tmp_path_factory: pytest.TempPathFactory) -> Record:
    """The record of the stored day, with the tables beside it."""
    place = tmp_path_factory.mktemp("record")
    (place / "parties.toml").write_text(parties())
    words = ["record", STORED, place / "out", "--rts24", "--parties", place / "parties.toml"]
    ran = run(*words)
    assert ran.status == 0, ran.text
    assert MARK in ran.out
    assert "the log has no samples of the gateway's clock" in ran.out
    return {path.stem: read_csv(path) for path in (place / "out").iterdir()}


def firm_of(row: Row) -> str:
    return row["20_order_identification"].split("-")[1]


def made_by_the_venue() -> set[tuple[str, str]]:
    """The cancels that no message of the session brought: their dealers were gone."""
    query = "SELECT firm, moment FROM entry WHERE firm IS NOT NULL AND number IS NULL"
    with closing(sqlite3.connect("file:%s?mode=ro" % STORED, uri=True)) as log:
        return set(log.execute(query).fetchall())


def test_each_event_of_an_order(record: Record, sheet: Sheet) -> None:
    """Of requests and quotes that were accepted, by the sheet that was read by hand."""
    rows = [row for row in record["rts24"] if row["21_event"] != "REMO"]
    expected: Counter[tuple[str, str]] = Counter()
    ends = {"awarded": "FILL", "passed": "CAME", "expired": "EXPI"}
    for request in sheet.requests:
        expected[request.investor, "NEWO"] += 1
        expected[request.investor, ends[request.end]] += 1
    fates = {
        "won": "FILL",
        "withdrawn": "CAME",
        "cover": "CAMO",
        "done away": "CAMO",
        "passed": "CAMO",
        "expired": "CAMO",
    }
    starts = {(one.dealer, one.end) for one in sheet.quotes if one.fate == "replaced"}
    for quote in sheet.quotes:
        expected[quote.dealer, "REME" if (quote.dealer, quote.start) in starts else "NEWO"] += 1
        if quote.is_lapsed:
            expected[quote.dealer, "EXPI"] += 1
        elif (quote.dealer, quote.end) in made_by_the_venue():
            expected[quote.dealer, "CAMO"] += 1
        elif quote.fate in fates:
            expected[quote.dealer, fates[quote.fate]] += 1
    kinds = "request", "quote"
    orders = [row for row in rows if row["22_order_type"] in kinds]
    assert Counter((firm_of(row), row["21_event"]) for row in orders) == expected
    others = {(row["22_order_type"], row["21_event"]) for row in rows if row not in orders}
    assert others <= {("decline", "CAME"), ("cancel", "CAME")}


def test_each_refusal(record: Record, sheet: Sheet) -> None:
    """REMO, with the reason in the table beside it."""
    rows = {row["15_sequence_number"]: row for row in record["rts24"]}
    refused = record["rts24-refusals"]
    assert Counter(row["entry"] for row in refused) == Counter(
        str(one.entry) for one in sheet.refused
    )
    assert Counter(row["21_event"] for row in rows.values())["REMO"] == len(refused)
    by_entry = {str(one.entry): one for one in sheet.refused}
    for row in refused:
        one, order = by_entry[row["entry"]], rows[row["sequence_number"]]
        assert (row["firm"], firm_of(order)) == (one.firm, one.firm)
        assert one.code in row["code"] or one.code == row["reason"], row
        assert (order["21_event"], order["37_remaining_quantity"]) == ("REMO", "0")


def test_each_message_has_its_row(record: Record) -> None:
    """At the moment of its entry, of its firm."""
    told = {(row["09_date_and_time"][11:23], firm_of(row)) for row in record["rts24"]}
    with closing(sqlite3.connect("file:%s?mode=ro" % STORED, uri=True)) as log:
        came = log.execute("SELECT moment, firm FROM entry WHERE firm IS NOT NULL").fetchall()
    assert len(came) > 200 and set(came) <= told


def test_sequence_numbers(record: Record) -> None:
    """Each once, and rising with the time."""
    numbers = [int(row["15_sequence_number"]) for row in record["rts24"]]
    moments = [row["09_date_and_time"] for row in record["rts24"]]
    assert numbers == list(range(1, len(numbers) + 1)) and moments == sorted(moments)


def test_a_message_that_has_no_entry(run: Audit, short_log: Path, tmp_path: Path) -> None:
    """What the gateway or the session refused has its row, too, among the numbers of all others."""
    (tmp_path / "parties.toml").write_text(parties())
    words = ["record", short_log, tmp_path / "out", "--rts24", "--parties"]
    ran = run(*words, tmp_path / "parties.toml")
    assert ran.status in (0, 1), ran.text  # a drawn day may have traders that nobody named
    rows = read_csv(tmp_path / "out" / "rts24.csv")
    assert [int(row["15_sequence_number"]) for row in rows] == list(range(1, len(rows) + 1))
    moments = [row["09_date_and_time"] for row in rows]
    assert moments == sorted(moments)
    with closing(sqlite3.connect("file:%s?mode=ro" % short_log, uri=True)) as log:
        notes = b"".join(notes for notes, in log.execute("SELECT notes FROM seal"))
        lines = [line.split(" ") for line in notes.decode().splitlines()]
        expected = [(line[8], line[0]) for line in lines if line[2] in ("3", "j")]
        came = log.execute("SELECT moment, firm FROM entry WHERE firm IS NOT NULL").fetchall()
    refused = read_csv(tmp_path / "out" / "rts24-refusals.csv")
    not_taken = [row for row in refused if not row["entry"]]
    assert Counter((row["moment"], row["firm"]) for row in not_taken) == Counter(expected)
    assert {row["code"] for row in not_taken} == {"373=17", "380=4"}
    by_number = {row["15_sequence_number"]: row for row in rows}
    assert {by_number[row["sequence_number"]]["21_event"] for row in refused} == {"REMO"}
    told = {(row["09_date_and_time"][11:23], firm_of(row)) for row in rows}
    assert set(came) <= told


def said_by(table: str, configuration: str) -> Parties:
    """The parties of a day that has this configuration."""
    with SqliteSource(STORED).open() as log:
        day = replace(log.day(), configuration=configuration.encode())
    return parties_of(tomllib.loads(table), day)


def test_the_configuration_may_say_it() -> None:
    """The file of the parties counts before it; what neither has is missing."""
    bond = '[[bond]]\nid = "US91282CAA18"\n'
    own = said_by("", 'mic = "XMIR"\n' + bond + 'isin = "US0378331005"\ncurrency = "USD"\n')
    said = (own.mic(), own.isin("US91282CAA18"), own.currency("US91282CAA18"))
    assert said == ("XMIR", "US0378331005", "USD") and not own.missing
    table = '[venue]\nmic = "XLON"\n[bond.US91282CAA18]\nisin = "GB0002634946"\n'
    other = said_by(table, 'mic = "XMIR"\n' + bond + 'isin = "US0378331005"\n')
    assert (other.mic(), other.isin("US91282CAA18")) == ("XLON", "GB0002634946")
    none = said_by("", bond)
    assert (none.mic(), none.isin("US91282CAA18")) == ("", "")
    assert list(none.missing) == ["venue.mic", "bond.US91282CAA18.isin"]
    wrong = said_by("", 'mic = "xmir"\n' + bond + 'isin = "US0378331006"\n')
    with pytest.raises(Unreadable, match="entry 0: mic is 'xmir'"):
        wrong.mic()
    with pytest.raises(
        Unreadable, match="entry 0: bond.US91282CAA18.isin is 'US0378331006', whose"
    ):
        wrong.isin("US91282CAA18")


def test_the_fields_of_a_trade(record: Record) -> None:
    """The first trade of the day, entry 11: GROVE sells 10,000,000 to DELTA at 101.2265625."""
    request, quote = [row for row in record["rts24"] if row["21_event"] == "FILL"][:2]
    for row, side, name in ((request, "SELL", "GROVE-G-001"), (quote, "BUYI", "DELTA-d8")):
        assert row["32_buy_sell"] == side
        assert row["20_order_identification"] == "20261125-" + name
        assert row["28_transaction_price"] == "101.2265625"
        assert row["48_venue_transaction"] == "20261125-GROVE-DELTA-1"
        assert (row["36_initial_quantity"], row["39_traded_quantity"]) == ("10000000", "10000000")
        assert row["37_remaining_quantity"] == "0"
        assert row["09_date_and_time"] == "2026-11-25T08:04:41.138Z"
        assert (row["16_segment_mic"], row["18_instrument"]) == ("XMIR", ISIN)
        assert (row["07_trading_capacity"], row["02_direct_electronic_access"]) == ("DEAL", "false")
    assert request["24_limit_price"] == "" and quote["24_limit_price"] == "101.2265625"
    assert (request["44_passive_or_aggressive"], quote["44_passive_or_aggressive"]) == (
        "AGRE",
        "PASV",
    )
    assert (request["08_liquidity_provision"], quote["08_liquidity_provision"]) == ("false", "true")
    assert request["01_submitting_entity"] == "529900TESTLEI0000616"
    assert quote["05_execution_within_firm"] == "DE1-CODE"
    # What is said of the order stands before what is said of its firm.
    assert (request["03_client"], quote["03_client"]) == ("PNAL", "")


def test_what_is_said_of_a_trader(record: Record) -> None:
    """It stands before what is said of the firm."""
    said = {
        row["04_investment_decision"]
        for row in record["rts24"]
        if firm_of(row) == "ALPHA" and row["05_execution_within_firm"] == "AL2-CODE"
    }
    assert said == {"AL2-DECISION"}


def test_each_field_has_a_source_or_none(record: Record) -> None:
    rows, sources = record["rts24"], record["rts24-sources"]
    assert [int(row["field"]) for row in sources] == list(range(1, 52))
    empty = {"03_client", "06_non_executing_broker"}  # as the parties say
    for row in sources:
        values = {one[row["column"]] for one in rows}
        assert row["note"] == MARK
        if row["column"] not in empty:
            assert (values == {""}) == row["source"].startswith("none: "), row
    assert len(sources) == len(rows[0])


def test_what_the_parties_lack_is_told_and_not_made_up(run: Audit, tmp_path: Path) -> None:
    (tmp_path / "parties.toml").write_text(parties(without="mic ="))
    words = ["record", STORED, tmp_path / "out", "--rts24", "--parties", tmp_path / "parties.toml"]
    ran = run(*words)
    assert ran.status == 1
    assert ran.out.splitlines()[-1] == "missing in %s: venue.mic" % (tmp_path / "parties.toml")
    assert {row["16_segment_mic"] for row in read_csv(tmp_path / "out" / "rts24.csv")} == {""}


@pytest.mark.parametrize(
    "text, told",
    [
        (None, "can't be read"),
        ("[venue", "can't be read"),
        ('[venue]\nmic = "x"\n', "venue.mic is 'x'"),
        ('[bond.US91282CBB27]\nisin = "XS0000000010"\n', "whose last digit is not that of an"),
        ('[firm.GROVE]\ndea = "no"\n', "it has to be true or false"),
    ],
)
def test_parties_that_are_none(run: Audit, tmp_path: Path, text: str | None, told: str) -> None:
    path = tmp_path / "parties.toml"
    if text is not None:
        path.write_text(text)
    ran = run("record", STORED, tmp_path / "out", "--rts24", "--parties", path)
    assert (ran.status, ran.out, ran.err.count("\n")) == (2, "", 1), ran.text
    assert told in ran.err
