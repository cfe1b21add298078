"""Each column of an export, by a second reading of the messages, which shares nothing with the audit. A row has no column
beside these.
"""

import sqlite3
from collections import Counter
from collections.abc import Iterator
from contextlib import closing
from decimal import Decimal
from fractions import Fraction
from pathlib import Path

import pytest

from tests.audit.witness import Asked, Came, Message, Sent
from tests.gateway.noted import noted
from tests.supervisor.conftest import STORED, Audit, csv_once
from tests.supervisor.exported import Exported, Row
from tests.supervisor.sheet import NOTICES, Trade, milliseconds
from tests.supervisor.sheet_of_day import DaySheet, Stand, read_day

DATE = "20261125"
ANSWERS = {
    "0": "awarded",
    "11": "passed",
    "5": "refused",
    "9": "not found",
}  # 297, to a hit or a pass


class Reading:
    """A day, as its messages tell it."""

    def __init__(self, log: Path) -> None:
        self.log = log
        self.day: DaySheet = read_day(log, DATE)
        self.witness = self.day.witness
        self.numbers = {one.place: str(at) for at, one in enumerate(self.witness.requests, 1)}

    def moment(self, place: int | None) -> str:
        return "" if place is None else str(self.witness.moments[place])

    def notice(self, one: Asked, dealer: str) -> Sent | None:
        """What a dealer is told of a request's end."""
        told = (
            row for row in self.witness.sent if row.firm == dealer and row.message["35"] == "AJ"
        )
        return next((row for row in told if row.message["131"] == one.shown[dealer]), None)

    # ------------------------------------------------------------ the tables

    def requests(self) -> Iterator[Row]:
        for one in self.witness.requests:
            told = [self.notice(one, dealer) for dealer in one.dealers]
            end = next((row.place for row in told if row is not None), None)
            yield {
                "request": self.numbers[one.place],
                "entry": str(one.place),
                "moment": one.moment,
                "investor": one.investor,
                "trader": one.message["50"],
                "name": one.message["131"],
                "bond": one.message["48"],
                "currency": "",
                "side": side_of(one),
                "quantity": str(int(one.message["38"])),
                "deadline": time_in(one.message["126"]),
                "asked": str(len(one.dealers)),
                "quotes": str(len(one.quotes)),
                "end": one.end,
                "end_entry": number(end),
                "end_moment": self.moment(end),
            }

    def asked(self) -> Iterator[Row]:
        for one in self.witness.requests:
            for dealer in one.dealers:
                yield self.asked_row(one, dealer)

    def asked_row(self, one: Asked, dealer: str) -> Row:
        quotes = [came for came in one.quotes if came.firm == dealer]
        first = quotes[0].place if quotes else None
        declined = self.decline(one, dealer)
        told = self.notice(one, dealer)
        response = milliseconds(quotes[0].moment) - milliseconds(one.moment) if quotes else None
        return {
            "request": self.numbers[one.place],
            "entry": str(one.place),
            "moment": one.moment,
            "dealer": dealer,
            "name": one.shown[dealer],
            "answer": "quoted" if quotes else "silent" if declined is None else "declined",
            "quotes": str(len(quotes)),
            "quote_entry": number(first),
            "quote_moment": self.moment(first),
            "decline_entry": number(declined),
            "decline_moment": self.moment(declined),
            "response_ms": number(response),
            "notice": NOTICES[told.message["694"]] if told else "",
            "notice_name": told.message["693"] if told else "",
            "notice_entry": number(told.place if told else None),
        }

    def decline(self, one: Asked, dealer: str) -> int | None:
        """The entry of a decline that was accepted."""
        for row in self.witness.sent:
            message = row.message
            is_own = row.firm == dealer and message.get("131") == one.shown[dealer]
            if is_own and message["35"] == "AI" and message["297"] == "11":
                return row.place
        return None

    def quotes(self) -> Iterator[Row]:
        for one in self.day.stands:
            has_ended = one.fate != "standing"
            end = one.end_place if has_ended else None
            lapsed = has_ended and bool(one.until) and one.until <= one.end
            lives = one.until if lapsed else one.end
            yield {
                "request": self.numbers[one.opened.place],
                "entry": str(one.came.place),
                "moment": one.came.moment,
                "dealer": one.came.firm,
                "trader": one.came.message["50"],
                "name": one.name,
                "shown": one.shown,
                "price": decimal(one.price),
                "until": one.until,
                "end": one.fate,
                "end_entry": number(end),
                "end_moment": self.moment(end),
                "lapsed": str(int(lapsed)),
                "life_ms": (
                    number(milliseconds(lives) - milliseconds(one.came.moment)) if lives else ""
                ),
            }

    def responses(self) -> Iterator[Row]:
        for came in self.witness.came:
            if came.message["35"] == "AJ":
                yield self.response(came)

    def response(self, came: Came) -> Row:
        message, is_hit = came.message, came.message.get("694") == "1"
        quote = self.day._shown(came) if is_hit else None
        request = quote.opened.place if quote else None
        for one in self.witness.requests:
            own = (one.investor, one.message["131"]) == (came.firm, message.get("131"))
            if not is_hit and own and one.place < came.place:
                request = one.place
        answer, reason = self.answer(came)
        return {
            "request": self.numbers[request] if request is not None else "",
            "entry": str(came.place),
            "moment": came.moment,
            "investor": came.firm,
            "trader": message.get("50", ""),
            "kind": "hit" if is_hit else "pass",
            "name": message.get("693", ""),
            "shown": message.get("117", ""),
            "quote_entry": number(quote.came.place if quote else None),
            "answer": answer,
            "reason": reason,
        }

    def answer(self, came: Came) -> tuple[str, str]:
        """What a hit or a pass is answered, and why it is refused."""
        rows = [row for row in self.witness.at[came.place] if row.firm == came.firm]
        if not rows:
            return "unanswered", ""
        told = rows[0].message
        answer = "rejected" if told["35"] == "3" else ANSWERS[told["297"]]
        beside = self.day.told.get((came.firm, rows[0].number), {})
        reason = told.get("58", "") or beside.get("58", "")
        return answer, "" if answer in ("awarded", "passed") else reason

    def trades(self) -> Iterator[Row]:
        for trade in self.day.sheet.trades:
            yield self.trade(trade)

    def trade(self, trade: Trade) -> Row:
        (came,) = [one for one in self.witness.came if one.place == trade.entry]
        won = self.day._shown(came)
        assert won is not None
        could = [
            one
            for one in self.day.stands
            if one.opened is won.opened and one.can_be_hit(came.place, came.moment)
        ]
        sign = 1 if side_of(won.opened) == "buy" else -1
        # Of equal ones the winner, else the earlier.
        best = min(could, key=lambda one: (sign * one.price, one is not won, one.came.place))
        cover = next((one for one in self.covers(won) if one.came.firm == trade.cover), None)
        (answer,) = [row for row in self.witness.at[came.place] if row.firm == came.firm]
        notice = self.notice(won.opened, won.came.firm)
        assert notice is not None and notice.place == came.place
        return {
            "trade": trade.name,
            "request": self.numbers[won.opened.place],
            "entry": str(came.place),
            "moment": came.moment,
            **side("investor", came.firm, came.message, answer),
            **side("dealer", won.came.firm, won.came.message, notice),
            "bond": won.opened.message["48"],
            "currency": "",
            "side": side_of(won.opened),
            "quantity": str(int(won.opened.message["38"])),
            "price": decimal(won.price),
            "quote_entry": str(won.came.place),
            "best_dealer": best.came.firm,
            "best_price": decimal(best.price),
            "best_entry": str(best.came.place),
            "from_best": decimal(sign * (won.price - best.price)),
            "cover_dealer": trade.cover,
            "cover_price": decimal(cover.price) if cover else "",
            "cover_entry": number(cover.came.place if cover else None),
            "cover_lapsed": str(int(trade.cover_lapsed)),
            "from_cover": decimal(sign * (cover.price - won.price)) if cover else "",
            "void": "",
        }

    def covers(self, won: Stand) -> Iterator[Stand]:
        return (one for one in self.day.stands if one.opened is won.opened and one.fate == "cover")

    def sessions(self) -> Iterator[Row]:
        """Of a log that seals what sessions did by themselves."""
        with closing(sqlite3.connect(self.log)) as log:
            query = "SELECT firm, count(*) FROM connection WHERE event = 'logon' GROUP BY firm"
            logons = dict(log.execute(query).fetchall())
            notes = [notes for notes, in log.execute("SELECT notes FROM seal ORDER BY number")]
        own: Counter[tuple[str, str]] = Counter()
        for line in b"".join(notes).splitlines():
            firm, _, kind, *_ = line.decode().split(" ")
            own[firm, kind] += 1
        expected, refused = noted(notes), self.witness.refused()
        for firm in [*self.witness.dealers, *self.witness.investors]:
            came = [one.place for one in self.witness.came if one.firm == firm]
            yield {
                "firm": firm,
                "role": "dealer" if firm in self.witness.dealers else "investor",
                "came": str(len(came)),
                "refused": str(refused[firm]),
                "sent": str(sum(row.firm == firm for row in self.witness.sent)),
                "first_entry": number(min(came, default=None)),
                "last_entry": number(max(came, default=None)),
                "connections": str(logons.get(firm, 0)),
                "expected": str(expected[firm].expected),
                "rejected": str(own[firm, "3"]),
                "not_taken": str(own[firm, "j"]),
            }


def side(word: str, firm: str, own: Message, told: Sent) -> Row:
    """A trade as one firm was told of it."""
    names = {"request": "131", "quote": "117", "reference": "693"}
    found = {word: firm, word + "_trader": own["50"], word + "_number": str(told.number)}
    return found | {"%s_%s" % (word, name): told.message[tag] for name, tag in names.items()}


def side_of(one: Asked) -> str:
    return {"1": "buy", "2": "sell"}[one.message["54"]]


def time_in(moment: str) -> str:
    return moment.partition("-")[2]


def number(value: int | None) -> str:
    return "" if value is None else str(value)


def decimal(value: Fraction) -> str:
    return format((Decimal(value.numerator) / Decimal(value.denominator)).normalize(), "f")


TABLES = ("requests", "asked", "quotes", "responses", "trades")


def in_order(rows: list[Row]) -> list[Row]:
    """Of one request the dealers by their names: a table has them as the venue tells them."""
    return sorted(rows, key=lambda row: (int(row["request"] or 0), row.get("dealer", "")))


@pytest.fixture(scope="module")
def drawn_columns(run: Audit, short_log: Path, shared: Path) -> Exported:
    return csv_once(run, short_log, shared / "columns")


@pytest.mark.parametrize("table", TABLES)
def test_each_column_of_the_stored_day(stored: Exported, table: str) -> None:
    check(stored, Reading(STORED), table)


@pytest.mark.parametrize("table", [*TABLES, "sessions"])
def test_each_column_of_a_drawn_day(drawn_columns: Exported, short_log: Path, table: str) -> None:
    check(drawn_columns, Reading(short_log), table)


def check(export: Exported, reading: Reading, table: str) -> None:
    rows, expected = export.table(table), list(getattr(reading, table)())
    if table == "asked":
        rows, expected = in_order(rows), in_order(expected)
    assert len(rows) == len(expected) > 0
    for row, should in zip(rows, expected):
        assert row == should
