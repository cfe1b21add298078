"""The tables of an export, with the names of their columns. A name that is here never changes.

Times are of the day, in UTC; prices and distances are in points. `entry` is the place in the log of
the message that a row was read from; other columns whose name ends in `entry` are places, too.
`request` is the number of a request in the day, from 1.
"""

from dataclasses import dataclass, field

from .facts import AskedFact, QuoteFact, RequestFact, ResponseFact, TradeFact
from .not_taken import NotTaken
from .records import ConnectionEvent, Firm
from .tables import Column, Table


@dataclass(frozen=True)
class MessageRow:
    """A message that came from a firm, or that it was sent."""

    entry: int
    moment: str
    firm: str
    way: str  # came, sent
    number: str  # 34
    kind: str  # 35
    request: int | None
    bond: str
    what: str
    answer: str
    code: str
    name: str
    trade: str
    received: str
    connection: int | None
    text: str


@dataclass
class SessionRow:
    """The session of a firm on a day."""

    firm: Firm
    came: int = 0
    refused: int = 0
    sent: int = 0
    first_entry: int | None = None
    last_entry: int | None = None
    connections: int = 0
    expected: int | None = None
    rejected: int = 0
    not_taken: int = 0
    without_entry: int = 0  # of both, those that the record of orders counts
    told_of_clock: int = 0  # how often the firm was told that the clock was set
    first_not_taken: list[NotTaken] = field(default_factory=list)


@dataclass(frozen=True)
class RequestRow:
    fact: RequestFact
    currency: str


@dataclass(frozen=True)
class TradeRow:
    fact: TradeFact
    currency: str


def side_of(request: RequestFact) -> str:
    return "buy" if request.buys else "sell"


REQUESTS: Table[RequestRow] = Table(
    "requests",
    "a request that was accepted",
    (
        Column("request", "its number in the day, from 1", lambda row: row.fact.number),
        Column("entry", "of its message (35=R)", lambda row: row.fact.entry),
        Column("moment", "at which the venue took it", lambda row: row.fact.moment),
        Column("investor", "", lambda row: row.fact.investor),
        Column("trader", "50", lambda row: row.fact.trader),
        Column("name", "the investor's: 131", lambda row: row.fact.name),
        Column("bond", "48", lambda row: row.fact.bond),
        Column("currency", "of the bond's row; empty without one", lambda row: row.currency),
        Column("side", "buy or sell, the investor's: 54", lambda row: side_of(row.fact)),
        Column("quantity", "face value: 38", lambda row: row.fact.quantity),
        Column("deadline", "126", lambda row: row.fact.deadline),
        Column("asked", "how many dealers", lambda row: len(row.fact.dealers)),
        Column("quotes", "that were accepted on it", lambda row: row.fact.quotes),
        Column("end", "awarded, passed, expired or open", lambda row: row.fact.end),
        Column("end_entry", "that ended it", lambda row: row.fact.end_entry),
        Column("end_moment", "", lambda row: row.fact.end_moment),
    ),
)

ASKED: Table[AskedFact] = Table(
    "asked",
    "a dealer that was shown a request",
    (
        Column("request", "", lambda row: row.request.number),
        Column("entry", "of the request", lambda row: row.request.entry),
        Column("moment", "at which it was shown", lambda row: row.request.moment),
        Column("dealer", "", lambda row: row.dealer),
        Column("name", "the dealer's of the request: 131", lambda row: row.name),
        Column(
            "answer", "quoted, declined (without a quote) or silent", lambda row: row.answer.value
        ),
        Column("quotes", "of it that were accepted", lambda row: row.quotes),
        Column("quote_entry", "of its first accepted quote", lambda row: row.quote_entry),
        Column("quote_moment", "", lambda row: row.quote_moment),
        Column("decline_entry", "of its accepted decline", lambda row: row.decline_entry),
        Column("decline_moment", "", lambda row: row.decline_moment),
        Column("response_ms", "from moment to quote_moment, in ms", lambda row: row.response_ms),
        Column("notice", "won, cover, done away, passed or expired: 694", lambda row: row.notice),
        Column("notice_name", "693", lambda row: row.notice_name),
        Column("notice_entry", "", lambda row: row.notice_entry),
    ),
)

QUOTES: Table[QuoteFact] = Table(
    "quotes",
    "a quote that was accepted",
    (
        Column("request", "", lambda row: row.request.number),
        Column("entry", "of its message (35=S)", lambda row: row.entry),
        Column("moment", "of its acceptance", lambda row: row.moment),
        Column("dealer", "", lambda row: row.dealer),
        Column("trader", "50", lambda row: row.trader),
        Column("name", "the dealer's: 117", lambda row: row.name),
        Column("shown", "the investor's name of it: 117", lambda row: row.shown),
        Column("price", "132 or 133", lambda row: row.price),
        Column("until", "62; empty without one", lambda row: row.until),
        Column(
            "end",
            "replaced, withdrawn, or what its dealer was told of the request's end",
            lambda row: row.end,
        ),
        Column("end_entry", "", lambda row: row.end_entry),
        Column("end_moment", "", lambda row: row.end_moment),
        Column("lapsed", "1 where its 62 passed before that, else 0", lambda row: int(row.lapsed)),
        Column("life_ms", "while it could be hit, in ms", lambda row: row.life_ms),
    ),
)

RESPONSES: Table[ResponseFact] = Table(
    "responses",
    "a hit or a pass of an investor, whatever it was answered",
    (
        Column(
            "request",
            "empty where it names none",
            lambda row: None if row.request is None else row.request.number,
        ),
        Column("entry", "of its message (35=AJ)", lambda row: row.entry),
        Column("moment", "", lambda row: row.moment),
        Column("investor", "", lambda row: row.investor),
        Column("trader", "50", lambda row: row.trader),
        Column("kind", "hit or pass: 694", lambda row: row.kind),
        Column("name", "693", lambda row: row.name),
        Column("shown", "117, the quote that a hit names", lambda row: row.shown),
        Column(
            "quote_entry",
            "of that quote",
            lambda row: None if row.quote is None else row.quote.entry,
        ),
        Column(
            "answer",
            "awarded, passed, refused, not found, rejected or unanswered",
            lambda row: row.answer,
        ),
        Column("reason", "of a refusal: 58", lambda row: row.reason),
    ),
)

TRADES: Table[TradeRow] = Table(
    "trades",
    "an award",
    (
        Column("trade", "DATE-INVESTOR-DEALER-K, both firms' name", lambda row: row.fact.name),
        Column("request", "", lambda row: row.fact.request.number),
        Column("entry", "of the hit (35=AJ)", lambda row: row.fact.entry),
        Column("moment", "", lambda row: row.fact.moment),
        Column("investor", "", lambda row: row.fact.investor.firm),
        Column("investor_trader", "50 of the hit", lambda row: row.fact.investor.trader),
        Column("investor_request", "131", lambda row: row.fact.investor.request),
        Column("investor_quote", "117", lambda row: row.fact.investor.quote),
        Column("investor_reference", "693 of the hit", lambda row: row.fact.investor.reference),
        Column("investor_number", "of the answer (34)", lambda row: row.fact.investor.number),
        Column("dealer", "", lambda row: row.fact.dealer.firm),
        Column("dealer_trader", "50 of the quote", lambda row: row.fact.dealer.trader),
        Column("dealer_request", "131", lambda row: row.fact.dealer.request),
        Column("dealer_quote", "117", lambda row: row.fact.dealer.quote),
        Column("dealer_reference", "693 of the notice", lambda row: row.fact.dealer.reference),
        Column("dealer_number", "of the notice (34)", lambda row: row.fact.dealer.number),
        Column("bond", "48", lambda row: row.fact.request.bond),
        Column("currency", "of the bond's row; empty without one", lambda row: row.currency),
        Column("side", "the investor's: buy or sell", lambda row: side_of(row.fact.request)),
        Column("quantity", "face value", lambda row: row.fact.request.quantity),
        Column("price", "", lambda row: row.fact.quote.price),
        Column("quote_entry", "of the quote", lambda row: row.fact.quote.entry),
        Column(
            "best_dealer",
            "of the best quote that could be hit",
            lambda row: row.fact.best.dealer,
        ),
        Column("best_price", "", lambda row: row.fact.best.price),
        Column("best_entry", "", lambda row: row.fact.best.entry),
        Column("from_best", "points worse than the best", lambda row: row.fact.from_best),
        Column(
            "cover_dealer",
            "as it was told (694=4)",
            lambda row: "" if row.fact.cover is None else row.fact.cover.dealer,
        ),
        Column(
            "cover_price", "", lambda row: None if row.fact.cover is None else row.fact.cover.price
        ),
        Column(
            "cover_entry",
            "of the cover's quote",
            lambda row: None if row.fact.cover is None else row.fact.cover.entry,
        ),
        Column(
            "cover_lapsed",
            "1 where its 62 had passed, else 0",
            lambda row: int(row.fact.cover_lapsed),
        ),
        Column("from_cover", "points better than the cover", lambda row: row.fact.from_cover),
        Column(
            "void",
            "why an operator voided it by agreement; empty where it stands",
            lambda row: row.fact.void,
        ),
    ),
)

MESSAGES: Table[MessageRow] = Table(
    "messages",
    "a message that came from a firm or that it was sent",
    (
        Column("entry", "that it is, or that it was sent for", lambda row: row.entry),
        Column("moment", "at which the venue took it, or 52", lambda row: row.moment),
        Column("firm", "", lambda row: row.firm),
        Column("way", "came or sent", lambda row: row.way),
        Column("number", "34, of what was sent the venue's", lambda row: row.number),
        Column("type", "35", lambda row: row.kind),
        Column("request", "that it is about", lambda row: row.request),
        Column("bond", "of that request, else 48", lambda row: row.bond),
        Column("what", "of what came: request, quote, hit ..", lambda row: row.what),
        Column("answer", "to what came: accepted, refused or unanswered", lambda row: row.answer),
        Column("code", "of a refusal: tag and value", lambda row: row.code),
        Column("name", "of a refusal: 58", lambda row: row.name),
        Column("trade", "1003, where it was told", lambda row: row.trade),
        Column("received", "when it was read, to the microsecond", lambda row: row.received),
        Column("connection", "that it came on", lambda row: row.connection),
        Column("text", "its bytes, a bar for each 0x01", lambda row: row.text),
    ),
)

SESSIONS: Table[SessionRow] = Table(
    "sessions",
    "the session of a firm",
    (
        Column("firm", "", lambda row: row.firm.name),
        Column("role", "dealer or investor", lambda row: row.firm.kind),
        Column("came", "messages that came", lambda row: row.came),
        Column("refused", "of these", lambda row: row.refused),
        Column("sent", "messages of the venue", lambda row: row.sent),
        Column("first_entry", "of a message that came", lambda row: row.first_entry),
        Column("last_entry", "", lambda row: row.last_entry),
        Column("connections", "Logons that were accepted", lambda row: row.connections),
        Column("expected", "the number (34) that comes next", lambda row: row.expected),
        Column("rejected", "by the session itself (35=3)", lambda row: row.rejected),
        Column("not_taken", "by the gateway (35=j)", lambda row: row.not_taken),
    ),
)

CONNECTIONS: Table[ConnectionEvent] = Table(
    "connections",
    "what happened to a connection, of a log that says it",
    (
        Column("row", "in the log's table", lambda row: row.place),
        Column("moment", "to the microsecond", lambda row: row.moment),
        Column("event", "logon, end, refused, stranger or left out", lambda row: row.event),
        Column("entry", "the last one before it", lambda row: row.entry),
        Column("connection", "its number", lambda row: row.number),
        Column("firm", "", lambda row: row.firm),
        Column("address", "", lambda row: row.address),
        Column("certificate", "", lambda row: row.certificate),
        Column("why", "", lambda row: row.why),
        Column("left_out", "how many alike were left out", lambda row: row.left_out),
    ),
)
