"""Reads off a day its requests, who was asked, quotes, responses and trades, as rows.

Nothing is judged here: each fact is read off a message, and has that message's entry. A row names
its request by its number in the day, from 1 in the order of the entries.
"""

from dataclasses import dataclass, field
from decimal import Decimal
from enum import Enum

from .prices import number_of, quantity_of


class Answer(Enum):
    """What a dealer gave to a request that it was shown."""

    QUOTED = "quoted"  # at least one of its quotes was accepted
    DECLINED = "declined"  # its decline was accepted, and no quote
    SILENT = "silent"


NOTICES = {"1": "won", "3": "expired", "4": "cover", "5": "done away", "6": "passed"}  # 694


@dataclass
class RequestFact:
    """A request that was accepted."""

    number: int
    entry: int
    moment: str
    investor: str
    trader: str
    name: str  # 131
    bond: str
    buys: bool
    quantity: int
    deadline: str
    dealers: list[str]
    quotes: int = 0  # that were accepted
    last_hit_entry: int | None = None  # of a hit of one of its quotes, whatever it was answered
    end: str = "open"  # awarded, passed, expired
    end_entry: int | None = None
    end_moment: str = ""


@dataclass
class AskedFact:
    """A dealer that was shown a request."""

    request: RequestFact
    dealer: str
    name: str  # R1, R2, .. (131)
    quotes: int = 0
    quote_entry: int | None = None  # its first quote
    quote_moment: str = ""
    decline_entry: int | None = None
    decline_moment: str = ""
    notice: str = ""  # in words
    notice_name: str = ""  # N1, N2, .. (693)
    notice_entry: int | None = None

    @property
    def answer(self) -> Answer:
        if self.quote_entry is not None:
            return Answer.QUOTED
        return Answer.SILENT if self.decline_entry is None else Answer.DECLINED

    @property
    def response_ms(self) -> int | None:
        """From the request to the first quote; None where there is none."""
        if self.quote_entry is None:
            return None
        return milliseconds(self.quote_moment) - milliseconds(self.request.moment)


@dataclass
class QuoteFact:
    """A quote that was accepted."""

    request: RequestFact
    entry: int
    moment: str
    dealer: str
    trader: str
    name: str  # the dealer's (117)
    shown: str  # the investor's (117): Q1, Q2, ..
    shown_number: int  # of the message that shows it to the investor; 0 where none does
    price: Decimal
    until: str  # 62; empty where it has none
    end: str = "standing"  # replaced, withdrawn, or as the closing notice says
    end_entry: int | None = None
    end_moment: str = ""
    lapsed: bool = False  # its 62 passed while it stood

    def has_lapsed(self, moment: str) -> bool:
        """Whether it can't be hit any more at a moment, by its own validity."""
        return bool(self.until) and milliseconds(self.until) <= milliseconds(moment)

    @property
    def is_fade(self) -> bool:
        """Whether its dealer withdrew it while it could be hit, and a hit of a quote on the same
        request came later.
        """
        last, end = self.request.last_hit_entry, self.end_entry
        before = last is not None and end is not None and end < last
        return self.end == "withdrawn" and not self.lapsed and before

    @property
    def life_ms(self) -> int | None:
        """From its acceptance until it could not be hit any more; None while it can."""
        ends = [text for text in (self.until if self.lapsed else "", self.end_moment) if text]
        if not ends:
            return None
        return min(map(milliseconds, ends)) - milliseconds(self.moment)


@dataclass
class ResponseFact:
    """A hit or a pass, whatever it was answered."""

    entry: int
    moment: str
    investor: str
    trader: str
    request: RequestFact | None  # None where it names none
    kind: str  # hit, pass
    name: str  # 693
    quote: QuoteFact | None  # the one that a hit names
    shown: str  # 117 as it was sent
    answer: str  # awarded, passed, refused, not found, rejected
    reason: str = ""  # of a refusal, its text (58)


@dataclass
class Side:
    """A trade as one firm was told of it."""

    firm: str
    trader: str
    request: str  # its name of the request (131)
    quote: str  # its name of the quote (117)
    reference: str  # 693: of the investor's hit, or of the dealer's notice
    number: int  # of the message that told it, the venue's to that firm
    named: str = ""  # TradeID (1003) as it was told; empty where the message has none


@dataclass
class TradeFact:
    """An award."""

    name: str  # DATE-INVESTOR-DEALER-K
    entry: int
    moment: str
    request: RequestFact
    quote: QuoteFact
    investor: Side
    dealer: Side
    best: QuoteFact  # of those that could be hit then, the winner among them
    second: QuoteFact | None  # the best of the others that could be hit
    cover: QuoteFact | None = None  # as its dealer was told
    cover_lapsed: bool = False  # told so though its 62 had passed
    void: str = ""  # why an operator voided it by agreement; empty where it stands

    @property
    def from_best(self) -> Decimal:
        """How much worse than the best it was, in points; 0 where it was the best."""
        return -self._better_than(self.best)

    @property
    def from_cover(self) -> Decimal | None:
        """How much better than the cover it was, in points; below 0 where it was worse."""
        return None if self.cover is None else self._better_than(self.cover)

    @property
    def from_second(self) -> Decimal | None:
        """The same of the best of the others that could be hit."""
        return None if self.second is None else self._better_than(self.second)

    def _better_than(self, other: QuoteFact) -> Decimal:
        difference = other.price - self.quote.price
        return difference if self.request.buys else -difference


@dataclass
class Facts:
    """All that is kept of a day."""

    requests: list[RequestFact] = field(default_factory=list)
    asked: list[AskedFact] = field(default_factory=list)
    quotes: list[QuoteFact] = field(default_factory=list)
    trades: list[TradeFact] = field(default_factory=list)


def milliseconds(moment: str) -> int:
    """A time of day, HH:MM:SS or HH:MM:SS.sss, in milliseconds; 0 where the text is none."""
    text, _, part = moment.partition(".")
    words = text.split(":")
    if len(words) != 3 or not all(word.isdecimal() for word in words):
        return 0
    hours, minutes, seconds = map(int, words)
    thousandths = int(part.ljust(3, "0")[:3]) if part.isdecimal() else 0
    return ((hours * 60 + minutes) * 60 + seconds) * 1000 + thousandths


def price_in(text: str) -> Decimal:
    """A price that the venue accepted; 0 where the text is none, which a log may have."""
    return number_of(text) or Decimal(0)


def quantity_in(text: str) -> int:
    """A quantity that the venue accepted; 0 where the text is none."""
    return quantity_of(text) or 0
