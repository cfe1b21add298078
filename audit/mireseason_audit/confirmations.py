"""Writes what each firm is told of its trades: its own rows, and nothing of another firm's.

No number in them counts what others do. A trade's name counts the trades of its two firms, and
every other number counts only the firm's own.
"""

from collections.abc import Iterator
from dataclasses import dataclass

from . import items
from .bonds import Bond
from .facts import Facts, Side, TradeFact
from .findings import Finding
from .records import Firm
from .tables import Column, Table, decimal_text


@dataclass(frozen=True)
class Confirmation:
    """A trade as one of its two firms was told of it."""

    trade: TradeFact
    side: Side
    other: str  # the other firm
    buys: bool  # this firm
    currency: str


CONFIRMATIONS: Table[Confirmation] = Table(
    "confirmations",
    "a trade as one of its two firms was told of it",
    (
        Column("firm", "", lambda row: row.side.firm),
        Column("trade", "DATE-INVESTOR-DEALER-K, both firms' name", lambda row: row.trade.name),
        Column("moment", "", lambda row: row.trade.moment),
        Column("side", "the firm's own: buy or sell", lambda row: "buy" if row.buys else "sell"),
        Column("quantity", "face value", lambda row: row.trade.request.quantity),
        Column("bond", "48", lambda row: row.trade.request.bond),
        Column("currency", "of the bond's row; empty without one", lambda row: row.currency),
        Column("price", "in points", lambda row: row.trade.quote.price),
        Column("with", "the other firm", lambda row: row.other),
        Column("trader", "the firm's own: 50", lambda row: row.side.trader),
        Column("request", "the firm's name of it: 131", lambda row: row.side.request),
        Column("quote", "the firm's name of it: 117", lambda row: row.side.quote),
        Column("reference", "693 of the message that told it", lambda row: row.side.reference),
        Column("number", "34 of that message, the venue's", lambda row: row.side.number),
        Column("void", "why the trade is void; empty where it stands", lambda row: row.trade.void),
    ),
)


def confirmations(facts: Facts, bonds: dict[str, Bond], firm: str) -> Iterator[Confirmation]:
    """Those of one firm, in the order of its messages."""
    for trade in facts.trades:
        bond = bonds.get(trade.request.bond)
        currency, buys = bond.currency if bond else "", trade.request.buys
        if trade.investor.firm == firm:
            yield Confirmation(trade, trade.investor, trade.dealer.firm, buys, currency)
        elif trade.dealer.firm == firm:
            yield Confirmation(trade, trade.dealer, trade.investor.firm, not buys, currency)


def misnamed(facts: Facts) -> Iterator[Finding]:
    """Trades of which a firm was told another name (1003) than the messages give."""
    for trade in facts.trades:
        for side in (trade.investor, trade.dealer):
            if side.named and side.named != trade.name:
                text = "it was told the trade %s under the name %s" % (trade.name, side.named)
                about = (items.REASONS,)
                yield Finding(side.firm, text, trade.entry, side.number, named_items=about)


def confirmation_text(firm: Firm, rows: list[Confirmation]) -> str:
    """The confirmations of one firm, for a person."""
    count = "%d trade%s" % (len(rows), "" if len(rows) == 1 else "s")
    return "\n".join(["%s, %s: %s" % (firm.name, firm.kind, count), *map(line_of, rows)])


def line_of(row: Confirmation) -> str:
    trade, side = row.trade, row.side
    amount = "{:,}".format(trade.request.quantity) + (" " + row.currency if row.currency else "")
    void = ", VOID: %s" % trade.void if trade.void else ""
    return "  %s  %s UTC  %s %s of %s at %s %s %s  131=%s 117=%s 693=%s, message %d%s" % (
        trade.name,
        trade.moment,
        "buys" if row.buys else "sells",
        amount,
        trade.request.bond,
        decimal_text(trade.quote.price),
        "from" if row.buys else "to",
        row.other,
        side.request,
        side.quote,
        side.reference,
        side.number,
        void,
    )
