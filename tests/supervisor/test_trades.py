"""Confirmations: both firms have the same name for a trade, and each sees its own rows alone."""

import json
import re
import sqlite3
from contextlib import closing
from pathlib import Path

import pytest
from mireseason_audit import day_commands, day_pass
from mireseason_audit.collector import Collector
from mireseason_audit.confirmations import confirmation_text, confirmations as rows_of
from mireseason_audit.day_pass import DayPass
from mireseason_audit.main import act, parser_of
from mireseason_audit.sqlite_log import SqliteSource
from mireseason_audit.wire_texts import WireText

from tests.audit.witness import message_of
from tests.supervisor.conftest import STORED, Audit
from tests.supervisor.exported import Exported, Row
from tests.supervisor.sheet import Sheet

FIRMS = ("ALPHA", "BRAVO", "CEDAR", "DELTA", "EIGER", "FJORD", "GROVE")


def confirmations(run: Audit, log: Path, *words: object) -> list[Row]:
    ran = run("trades", log, "--json", *words)
    assert ran.status == 0, ran.text
    return [{name: str(one) for name, one in row.items()} for row in json.loads(ran.out)]


def test_each_firm_has_its_trades(run: Audit, sheet: Sheet) -> None:
    rows = confirmations(run, STORED)
    for firm in FIRMS:
        listed = [row["trade"] for row in rows if row["firm"] == firm]
        assert listed == [one.name for one in sheet.trades if firm in one.name.split("-")]
        assert [row["trade"] for row in confirmations(run, STORED, "--for", firm)] == listed


def test_both_sides_agree(run: Audit, short_log: Path) -> None:
    sides: dict[str, list[Row]] = {}
    for row in confirmations(run, short_log):
        sides.setdefault(row["trade"], []).append(row)
    assert sides
    for name, (one, other) in sides.items():
        assert {one["firm"], other["firm"]} == set(name.split("-")[1:3])
        assert (one["firm"], other["firm"]) == (other["with"], one["with"])
        assert {one["side"], other["side"]} == {"buy", "sell"}
        for column in ("moment", "quantity", "bond", "currency", "price"):
            assert one[column] == other[column]


def test_names_count_the_trades_of_two_firms(drawn: Exported) -> None:
    counts: dict[tuple[str, str], int] = {}
    for row in drawn.table("trades"):
        pair = row["investor"], row["dealer"]
        counts[pair] = counts.get(pair, 0) + 1
        assert row["trade"] == "20261125-%s-%s-%d" % (*pair, counts[pair])
    assert max(counts.values()) > 20


def test_each_value_stands_in_the_firms_own_messages(run: Audit, short_log: Path) -> None:
    """So no row has anything of another firm's, and no number counts what others do: the number
    is the one of the message that told the trade, and all else stands in that message or in the
    firm's own on the request. The trade's name alone is counted, by those rows.
    """
    with closing(sqlite3.connect(short_log)) as log:
        sent = {
            (firm, str(number)): message_of(data)
            for firm, number, data in log.execute("SELECT firm, number, bytes FROM sent")
        }
        own: dict[str, list[dict[str, str]]] = {}
        for firm, line in log.execute("SELECT firm, line FROM entry WHERE firm IS NOT NULL"):
            message = message_of(bytes.fromhex(line.split()[3].decode()))
            own.setdefault(firm, []).append(message)
    for row in confirmations(run, short_log):
        told = sent[row["firm"], row["number"]]
        assert told["693"] == row["reference"] and told["131"] == row["request"]
        assert told["117"] == row["quote"] and told["52"].endswith(row["moment"])
        said = [one for one in own[row["firm"]] if one.get("131") == row["request"]]
        said += [one for one in own[row["firm"]] if one.get("117") == row["quote"]]
        about = [
            message
            for (firm, _), message in sent.items()
            if firm == row["firm"] and row["request"] == message.get("131")
        ]
        texts = {value for message in [*said, *about, told] for value in message.values()}
        for column in ("quantity", "bond", "price", "with", "trader"):
            assert row[column] in texts or column == "with", (column, row)
        assert row["with"] in row["trade"].split("-")


def test_for_a_person(run: Audit) -> None:
    ran = run("trades", STORED, "--for", "DELTA")
    assert ran.status == 0
    first, line, *rest = ran.out.splitlines()
    assert first == "DELTA, dealer: 4 trades"
    assert line == (
        "  20261125-GROVE-DELTA-1  08:04:41.138 UTC  buys 10,000,000 of US91282CBB27 at"
        " 101.2265625 from GROVE  131=R1 117=d8 693=N1, message 4"
    )
    assert len(rest) == 3
    others = set(FIRMS) - {"DELTA", "GROVE", "FJORD"}
    assert not re.findall("|".join(others), ran.out)


def test_an_investors_own_file(run: Audit, tmp_path: Path, sheet: Sheet) -> None:
    """Request 8 of the sheet: FJORD hit 99.47265625 where 99.49609375 stood, in entry 65."""
    ran = run("export", STORED, tmp_path / "own", "--json", "--for", "FJORD")
    assert ran.status == 0, ran.text
    path = tmp_path / "own" / "best-execution.json"
    rows = json.loads(path.read_text())
    eighth = [row for row in rows if row["request"] == "F-050"]
    columns = ("dealer", "answer", "quote", "price", "gone", "hit", "from_best", "from_cover")
    assert [tuple(row[name] for name in columns) for row in eighth] == [
        ("BRAVO", "quoted", "Q20", "99.49609375", "", 0, None, None),
        ("ALPHA", "quoted", "Q21", "99.48046875", "09:32:42.065", 0, None, None),
        ("ALPHA", "quoted", "Q22", "99.47265625", "", 1, "0.0234375", "-0.0234375"),
        ("CEDAR", "silent", "", None, "", 0, None, None),
    ]
    own = [one for one in sheet.requests if one.investor == "FJORD"]
    assert len({row["request"] for row in rows}) == len(own)
    assert sum(row["hit"] for row in rows) == sum(one.end == "awarded" for one in own)
    text = path.read_text()
    assert "GROVE" not in text and "G-0" not in text
    for quote in sheet.quotes:
        assert '"%s"' % quote.name not in text  # the dealers' own names of their quotes


COMMANDS = {
    "confirmations": ["trades", STORED],
    "tables": ["export", STORED, "FOLDER", "--csv"],
    "an investor's file": ["export", STORED, "FOLDER", "--csv", "--for", "FJORD"],
}


@pytest.mark.parametrize("name", COMMANDS)
def test_a_trade_that_was_told_under_another_name(
    name: str, tmp_path: Path, monkeypatch: pytest.MonkeyPatch, capsys: pytest.CaptureFixture[str]
) -> None:
    """It is a finding, and nothing is made of such a day. What else is checked of a day is not looked at here."""
    monkeypatch.setattr(day_commands, "checked", lambda work: work.checker().begun())
    folder = tmp_path / "made"
    words = [str(folder if word == "FOLDER" else word) for word in COMMANDS[name]]
    words[1:1] = ["--venue", "none"]
    assert act(parser_of().parse_args(words)) == 0
    assert not folder.exists() or list(folder.iterdir())
    capsys.readouterr()
    folder = tmp_path / "other"
    words = [word.replace(str(tmp_path / "made"), str(folder)) for word in words]
    told = WireText(trade="20261125-GROVE-DELTA-7")
    monkeypatch.setattr(Collector, "wire", lambda collector, message: told)
    assert act(parser_of().parse_args(words)) == 1
    said = capsys.readouterr().out
    text = "it was told the trade 20261125-GROVE-DELTA-1 under the name 20261125-GROVE-DELTA-7"
    assert "DELTA: entry 11, number 4: " + text in said
    assert not folder.exists() or not list(folder.iterdir())


def test_a_trade_that_operators_voided(monkeypatch: pytest.MonkeyPatch) -> None:
    """Both firms' confirmations say why, and no other trade's."""
    name = "20261125-GROVE-DELTA-1"
    monkeypatch.setattr(day_pass, "voided", lambda log: {name: "both asked", "another": "x"})
    with SqliteSource(STORED).open() as log:
        day = log.day()
        facts = DayPass(log, day).run()
    void = {one.name: one.void for one in facts.trades if one.void}
    assert void == {name: "both asked"} and len(facts.trades) == 21
    for firm in day.firms:
        rows = list(rows_of(facts, {}, firm.name))
        lines = confirmation_text(firm, rows).splitlines()[1:]
        ends = [line.endswith(", VOID: both asked") for line in lines]
        assert ends == [row.trade.name == name for row in rows]
        assert any(ends) == (firm.name in ("GROVE", "DELTA"))
