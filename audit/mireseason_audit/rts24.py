"""Writes the record of orders that a trading venue keeps: requests and quotes, event by event, with
the fields of the annex of Commission Delegated Regulation (EU) 2017/580, as `rts24.toml` has them.
"""

from collections.abc import Callable, Mapping
from dataclasses import dataclass

from .order_events import Order, OrderEvent
from .parties import Parties
from .regulation import Field, Regulation, read_regulation
from .tables import Column, Table, Value


@dataclass(frozen=True)
class Recorder:
    """Says what stands in each field of an event."""

    regulation: Regulation
    parties: Parties
    date: str

    def value(self, field: Field, event: OrderEvent) -> Value:
        """By the name by which the data file asks for it."""
        if field.value in SAID:
            return self._said(field.value, event.order)
        return VALUES[field.value](self, event)

    def _said(self, key: str, order: Order) -> Value:
        """What the parties say of an order, of its trader or of its firm."""
        found = self.parties.said(key, order.firm, order.trader, order.name)
        return self.flag(found) if isinstance(found, bool) else found

    def code(self, kind: str, name: str) -> str:
        return self.regulation.code(kind, name)

    def flag(self, is_so: bool) -> str:
        return self.code("flag", "yes" if is_so else "no")

    def timed(self, moment: str) -> str:
        """A date and a time, in UTC, as one text."""
        return "%sT%sZ" % (dated(self.date), moment) if moment else ""

    def status(self, event: OrderEvent) -> str:
        return self.code("status", event.order.kind if event.is_open else "over")

    def side(self, order: Order) -> str:
        return "" if order.buys is None else self.code("side", "buy" if order.buys else "sell")


SAID = ("dea", "client", "decision", "broker", "capacity", "liquidity")
VALUES: Mapping[str, Callable[[Recorder, OrderEvent], Value]] = {
    "lei": lambda r, event: r.parties.lei(event.order.firm),
    "trader": lambda r, event: trader_of(r.parties, event.order),
    "date": lambda r, event: dated(r.date),
    "moment": lambda r, event: r.timed(event.moment),
    "until": lambda r, event: r.timed(event.order.until),
    "validity": lambda r, event: r.code("validity", "until_a_time") if event.order.until else "",
    "priority": lambda r, event: r.timed(event.order.moment),
    "sequence": lambda r, event: event.sequence,
    "mic": lambda r, event: r.parties.mic(),
    "isin": lambda r, event: r.parties.isin(event.order.bond) if event.order.bond else "",
    "currency": lambda r, event: r.parties.currency(event.order.bond) if event.order.bond else "",
    "name": lambda r, event: "-".join((r.date, event.order.firm, event.order.name)),
    "event": lambda r, event: r.code("event", event.what),
    "kind": lambda r, event: event.order.kind,
    "class": lambda r, event: r.code("class", "limit") if event.order.kind == "quote" else "",
    "price": lambda r, event: event.order.price,
    "traded_price": lambda r, event: event.trade.quote.price if event.trade else None,
    "price_notation": lambda r, event: r.code("notation", "percent"),
    "quantity_notation": lambda r, event: r.code("notation", "nominal"),
    "side": lambda r, event: r.side(event.order),
    "status": lambda r, event: r.status(event),
    "quantity": lambda r, event: event.order.quantity,
    "remaining": lambda r, event: event.order.quantity if event.is_open else 0,
    "traded_quantity": lambda r, event: event.order.quantity if event.trade else None,
    "no": lambda r, event: r.flag(False),
    "aggressor": lambda r, event: r.code("aggressor", event.order.kind) if event.trade else "",
    "trade": lambda r, event: event.trade.name if event.trade else "",
}


def trader_of(parties: Parties, order: Order) -> str:
    """Who executes: nobody is named where a message has no 50."""
    return parties.trader(order.firm, order.trader) if order.trader else ""


def dated(date: str) -> str:
    return "-".join((date[:4], date[4:6], date[6:]))


def rts24() -> Regulation:
    """The annex, as the data file has it."""
    return read_regulation("rts24.toml")


def record_table(recorder: Recorder) -> Table[OrderEvent]:
    """The record as a table."""

    def column(field: Field) -> Column[OrderEvent]:
        def value(event: OrderEvent) -> Value:
            return recorder.value(field, event) if field.value else None

        return Column(field.column, field.source_words, value)

    columns = tuple(column(field) for field in recorder.regulation.fields)
    return Table("rts24", "an event of an order", columns)


def sources_table(regulation: Regulation) -> Table[Field]:
    """Where each field comes from, or why this market has none."""
    return Table(
        "rts24-sources",
        "a field of the record, and where its value comes from",
        (
            Column("field", "its number in the annex", lambda row: row.number),
            Column("column", "of rts24", lambda row: row.column),
            Column("source", "or why there is none", lambda row: row.source_words),
            Column("note", "", lambda row: regulation.mark),
        ),
    )


def what_of(event: OrderEvent) -> Value:
    return event.refusal.what if event.refusal else ""


def code_of(event: OrderEvent) -> Value:
    return event.refusal.code if event.refusal else ""


def reason_of(event: OrderEvent) -> Value:
    return event.refusal.name if event.refusal else ""


REFUSALS: Table[OrderEvent] = Table(
    "rts24-refusals",
    "a message that was refused",
    (
        Column("sequence_number", "of rts24", lambda row: row.sequence),
        Column("entry", "empty where the gateway put none into the log", lambda row: row.entry),
        Column("moment", "", lambda row: row.moment),
        Column("firm", "", lambda row: row.order.firm),
        Column("number", "34 of the message", lambda row: row.message),
        Column("what", "request, quote, cancel, decline, hit, pass or message", what_of),
        Column("code", "the tag that says why, and its value", code_of),
        Column("reason", "what the firm was told (58)", reason_of),
    ),
)
