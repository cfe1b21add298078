"""Exports: each row against the sheet of the stored day, and read back whole against the log."""

import csv
import sqlite3
from collections import Counter
from contextlib import closing
from decimal import Decimal
from fractions import Fraction
from pathlib import Path

import pytest
from hypothesis import example, given, settings
from hypothesis import strategies as st

from mireseason_audit.tables import Column, Form, Table, cell_of, table_text, text_in
from tests.audit.witness import Witness
from tests.gateway.noted import noted
from tests.supervisor.conftest import STORED, Audit, exported
from tests.supervisor.exported import Exported, read_csv
from tests.supervisor.sheet import Sheet


def test_requests_are_those_of_the_sheet(stored: Exported, sheet: Sheet) -> None:
    columns = ("request", "entry", "moment", "investor", "bond", "side", "quantity", "end")
    listed = [tuple(row[name] for name in columns) for row in stored.table("requests")]
    assert listed == [
        (
            str(one.number),
            str(one.entry),
            one.moment,
            one.investor,
            one.bond,
            one.side,
            str(one.quantity),
            one.end,
        )
        for one in sheet.requests
    ]
    assert {row["currency"] for row in stored.table("requests")} == {""}


def test_who_was_asked_is_that_of_the_sheet(stored: Exported, sheet: Sheet) -> None:
    words = {"answered": "quoted"}
    expected = {
        (str(request.number), one.dealer): (
            words.get(one.answer, one.answer),
            "" if one.milliseconds is None else str(one.milliseconds),
            one.notice,
        )
        for request in sheet.requests
        for one in request.asked
    }
    listed = {
        (row["request"], row["dealer"]): (row["answer"], row["response_ms"], row["notice"])
        for row in stored.table("asked")
    }
    assert listed == expected
    assert len(stored.table("asked")) == len(expected)


def test_quotes_are_those_of_the_sheet(stored: Exported, sheet: Sheet) -> None:
    columns = ("entry", "dealer", "request", "name", "moment", "end_moment", "until", "end")
    listed = [tuple(row[name] for name in columns) for row in stored.table("quotes")]
    assert listed == [
        (
            str(one.entry),
            one.dealer,
            str(sheet.by_entry[one.entry].number),
            one.name,
            one.start,
            one.end,
            one.until,
            one.fate,
        )
        for one in sheet.quotes
    ]
    for row, one in zip(stored.table("quotes"), sheet.quotes):
        assert (row["lapsed"], row["life_ms"]) == (str(int(one.is_lapsed)), str(one.life)), row


def test_trades_are_those_of_the_sheet(stored: Exported, sheet: Sheet) -> None:
    rows = stored.table("trades")
    assert [row["trade"] for row in rows] == [one.name for one in sheet.trades]
    for row, one in zip(rows, sheet.trades):
        assert (int(row["entry"]), row["dealer_quote"]) == (one.entry, one.quote)
        assert int(row["request"]) == one.request.number
        assert Fraction(row["price"]) == one.price
        assert (row["cover_dealer"], row["cover_lapsed"]) == (one.cover, str(int(one.cover_lapsed)))
        assert Fraction(row["best_price"]) == one.best
        assert Fraction(row["from_best"]) == -one.better_than(one.best)
        if one.cover_price is None:
            assert (row["cover_price"], row["from_cover"]) == ("", "")
        else:
            assert Fraction(row["cover_price"]) == one.cover_price
            assert Fraction(row["from_cover"]) == one.better_than(one.cover_price)


def test_what_was_refused_is_that_of_the_sheet(stored: Exported, sheet: Sheet) -> None:
    came = [row for row in stored.table("messages") if row["way"] == "came"]
    refused = [row for row in came if row["answer"] != "accepted"]
    assert [(int(row["entry"]), row["firm"]) for row in refused] == [
        (one.entry, one.firm) for one in sheet.refused
    ]
    for row, one in zip(refused, sheet.refused):
        if one.what == "rejected":
            assert row["code"].split()[0] == one.code
        elif "=" in one.code:
            assert (row["what"], row["code"]) == (one.what, one.code)
        else:
            assert (row["what"], row["code"], row["name"]) == (one.what, "300=4", one.code)


def test_what_each_message_says_of_itself(stored: Exported) -> None:
    """Its number and its type; its bond, where it is about no request of the day. A cancel of all quotes is about the request of
    its first answer.
    """
    rows, cancels, bonds = stored.table("messages"), 0, Counter[str]()
    for row in rows:
        fields = dict(field.split("=", 1) for field in row["text"].strip("|").split("|"))
        assert (row["number"], row["type"]) == (fields["34"], fields["35"]), row
        to = (row["entry"], row["firm"], "sent")
        told = [one["request"] for one in rows if (one["entry"], one["firm"], one["way"]) == to]
        if row["what"] == "cancel" and len(told) > 1:
            cancels += told[0] != told[-1]
            assert row["request"] == told[0]
        if not row["request"]:
            assert row["bond"] == fields.get("48", ""), row
            bonds[row["way"]] += row["bond"] != ""
    assert cancels > 0 and bonds["came"] > 0 and bonds["sent"] > 0


def test_why_a_hit_is_refused(stored: Exported) -> None:
    """The name of the refusal, as the answer has it (58)."""
    answers: dict[tuple[str, str], str] = {}
    for row in stored.table("messages"):
        if row["way"] == "sent":
            answers.setdefault((row["entry"], row["firm"]), row["text"])
    reasons = [row["reason"] for row in stored.table("responses")]
    assert reasons == [
        answers[row["entry"], row["investor"]].partition("|58=")[2].partition("|")[0]
        for row in stored.table("responses")
    ]
    assert set(reasons) == {"", "Expired", "Gone", "NotOpen"}


def test_both_forms_have_the_same_rows(run: Audit, short_log: Path, tmp_path: Path) -> None:
    one = exported(run, short_log, tmp_path, "csv")
    other = exported(run, short_log, tmp_path, "json")
    assert one.tables == other.tables
    assert all(one.tables[name] for name in one.tables)


def test_each_message_of_the_log_is_there_once(drawn: Exported, drawn_log: Path) -> None:
    """Read back whole: the messages byte for byte, with the entry, the firm and the number."""
    rows = drawn.table("messages")
    came = {row["entry"]: row for row in rows if row["way"] == "came"}
    sent = {(row["firm"], row["number"]): row for row in rows if row["way"] == "sent"}
    assert len(came) + len(sent) == len(rows)
    with closing(sqlite3.connect(drawn_log)) as log:
        entries = log.execute(
            "SELECT place, moment, firm, received, connection, line FROM entry"
            " WHERE firm IS NOT NULL"
        ).fetchall()
        messages = log.execute("SELECT firm, number, place, bytes FROM sent").fetchall()
        notes = [notes for notes, in log.execute("SELECT notes FROM seal ORDER BY number")]
        targets = {firm: session.expected for firm, session in noted(notes).items()}
        doors = log.execute(
            "SELECT place, moment, event, entry, number, firm, address, certificate, why, left_out"
            " FROM connection"
        ).fetchall()
    assert (len(came), len(sent)) == (len(entries), len(messages))
    for place, moment, firm, received, connection, line in entries:
        row = came[str(place)]
        data = bytes.fromhex(line.split()[3].decode())
        assert row["text"].replace("|", "\x01").encode() == data
        assert (row["moment"], row["firm"], row["received"]) == (moment, firm, received)
        assert row["connection"] == ("" if connection is None else str(connection))
    for firm, number, place, data in messages:
        row = sent[firm, str(number)]
        assert row["entry"] == str(place)
        assert row["text"].replace("|", "\x01").encode() == data
    assert {row["firm"]: int(row["expected"]) for row in drawn.table("sessions")} == targets
    columns = ("row", "moment", "event", "entry", "connection", "firm", "address", "certificate")
    listed = [
        tuple(row[name] for name in (*columns, "why", "left_out"))
        for row in drawn.table("connections")
    ]
    assert listed == [tuple("" if one is None else str(one) for one in row) for row in doors]


def test_requests_and_quotes_of_a_drawn_day(drawn: Exported, drawn_log: Path) -> None:
    """Against a second reading of the log, which shares nothing with the audit."""
    witness = Witness(drawn_log)
    rows = drawn.table("requests")
    assert [(row["name"], row["investor"], row["end"]) for row in rows] == [
        (one.message["131"], one.investor, one.end) for one in witness.requests
    ]
    quotes = Counter(row["request"] for row in drawn.table("quotes"))
    for number, one in enumerate(witness.requests, 1):
        assert quotes[str(number)] == len(one.quotes)
    won = [one for one in witness.requests if one.end == "awarded"]
    listed = {row["investor_request"]: row for row in drawn.table("trades")}
    assert len(listed) == len(won)
    for one in won:
        dealer = one.dealer_told("1")
        row, told = listed[one.message["131"]], one.notices[dealer]
        assert (row["dealer"], row["cover_dealer"]) == (dealer, one.dealer_told("4"))
        assert row["dealer_quote"] == told["117"]
        assert Decimal(row["price"]) == Decimal(told.get("133") or told["132"])


def test_a_log_that_was_changed_is_not_exported(
    run: Audit, short_log: Path, tmp_path: Path
) -> None:
    log = tmp_path / "day.db"
    log.write_bytes(short_log.read_bytes())
    with closing(sqlite3.connect(log, isolation_level=None)) as connection:
        connection.execute(
            "UPDATE sent SET bytes = CAST(replace(bytes, '297=0', '297=9') AS BLOB)"
            " WHERE firm = 'ALPHA' AND number = (SELECT min(number) FROM sent"
            " WHERE firm = 'ALPHA' AND instr(bytes, '297=0'))"
        )
    for words in (
        ["export", log, tmp_path / "csv", "--csv"],
        ["export", log, tmp_path / "own", "--json", "--for", "FJORD"],
        ["trades", log],
        ["trades", log, "--for", "ALPHA", "--csv"],
    ):
        ran = run(*words)
        assert ran.status == 1, ran.text
        assert "ALPHA: entry" in ran.out and "verdict: " in ran.out
        # The verdict has a line of that name; a day's trades may not stand behind it.
        assert "trades" not in ran.out.replace("reasons and trades", "")
    assert not list((tmp_path / "csv").iterdir()) and not list((tmp_path / "own").iterdir())


def test_a_day_as_it_stood_then(run: Audit, tmp_path: Path, sheet: Sheet) -> None:
    """After entry 84 requests 1 to 10 have been made, and request 9 is not awarded yet."""
    assert run("export", STORED, tmp_path / "entry", "--csv", "--until", 84).status == 0
    assert run("export", STORED, tmp_path / "time", "--csv", "--at", "09:46:19").status == 0
    rows = read_csv(tmp_path / "entry" / "requests.csv")
    ends = [one.end for one in sheet.requests[:8]]
    assert [row["end"] for row in rows] == [*ends, "open", "open"]
    assert max(int(row["entry"]) for row in read_csv(tmp_path / "entry" / "messages.csv")) == 84
    assert max(int(row["entry"]) for row in read_csv(tmp_path / "time" / "messages.csv")) == 83


@pytest.mark.parametrize(
    "words, told",
    [
        (["export", STORED, "DIR"], "--csv or --json"),
        (["export", STORED, "DIR", "--csv", "--for", "ALPHA"], "an investor's"),
        (["export", STORED, "DIR", "--csv", "--for", "NOBODY"], "the day has no firm NOBODY"),
        (["export", STORED, "DIR", "--csv", "--until", "337"], "the entries 0 to 336"),
        (["export", STORED, "DIR", "--csv", "--at", "noon"], "no time of day"),
        (["export", STORED, "--csv"], "required: FOLDER"),
        (["export", "nothing.db", "DIR", "--csv"], "nothing.db: there is no such file"),
        (["trades", STORED, "--for", "NOBODY"], "the day has no firm NOBODY"),
        (["trades", STORED, "--csv", "--json"], "not allowed with"),
    ],
)
def test_one_line_says_what_is_missing(
    run: Audit, tmp_path: Path, words: list[object], told: str
) -> None:
    ran = run(*[tmp_path / "DIR" if word == "DIR" else word for word in words])
    assert (ran.status, ran.out) == (2, "")
    assert told in ran.err
    assert ran.err.startswith("mireseason-audit") and ran.err.count("\n") == 1, ran.err


WORDS: Table[str] = Table("words", "a text", (Column("text", "", lambda row: row),))


# Of a formula: those of full width are of spreadsheets in East Asia.
BEGINNINGS = ("=", "+", "-", "@", "\t", "\r", "\n", "＝", "＋", "－", "＠")


@settings(max_examples=300, deadline=None, database=None)
@example(["%s1+1" % one for one in BEGINNINGS])
@given(
    st.lists(
        st.text(st.characters(blacklist_categories=("Cs",), blacklist_characters="\0"), max_size=20)
    )
)
def test_no_cell_is_a_formula(tmp_path_factory: pytest.TempPathFactory, texts: list[str]) -> None:
    """Whatever a firm calls its things, a spreadsheet takes no cell for a formula, and the text
    is read back.
    """
    path = tmp_path_factory.mktemp("cells") / "words.csv"
    path.write_text(table_text(WORDS, texts, Form.CSV), encoding="utf-8", newline="")
    with path.open(newline="", encoding="utf-8") as file:
        cells = [row["text"] for row in csv.DictReader(file)]
    assert [text_in(cell) for cell in cells if cell] == [text for text in texts if text]
    assert not [cell for cell in cells if cell.startswith(BEGINNINGS)]


def test_numbers_are_no_texts() -> None:
    values: list[int | str | Decimal | None] = [-5, Decimal("-0.50"), Decimal("100"), None, "-5"]
    assert [cell_of(one) for one in values] == ["-5", "-0.5", "100", "", "'-5"]
