"""Reads the sheet of a day that somebody read by hand; its head says what its lines mean."""

from dataclasses import dataclass, field
from fractions import Fraction
from pathlib import Path

NOTICES = {"1": "won", "3": "expired", "4": "cover", "5": "done away", "6": "passed"}


@dataclass(frozen=True)
class Asked:
    """A dealer that was shown a request."""

    dealer: str
    answer: str
    milliseconds: int | None
    notice: str


@dataclass
class Request:
    number: int
    entry: int
    moment: str
    investor: str
    bond: str
    side: str
    quantity: int
    end: str
    asked: list[Asked] = field(default_factory=list)

    @property
    def hour(self) -> str:
        return self.moment[:2]


@dataclass(frozen=True)
class Trade:
    entry: int
    name: str
    quote: str
    price: Fraction
    cover: str
    cover_lapsed: bool
    cover_price: Fraction | None
    best: Fraction
    request: Request

    @property
    def investor(self) -> str:
        return self.name.split("-")[1]

    @property
    def dealer(self) -> str:
        return self.name.split("-")[2]

    def better_than(self, price: Fraction) -> Fraction:
        """How much better for the investor the trade was than a price."""
        return price - self.price if self.request.side == "buy" else self.price - price


@dataclass(frozen=True)
class Quote:
    entry: int
    dealer: str
    name: str
    start: str
    end: str
    until: str
    fate: str

    @property
    def is_lapsed(self) -> bool:
        return bool(self.until) and self.until <= self.end

    @property
    def life(self) -> int:
        """Milliseconds in which it could be hit."""
        return milliseconds(self.until if self.is_lapsed else self.end) - milliseconds(self.start)


@dataclass(frozen=True)
class Refused:
    entry: int
    firm: str
    what: str
    code: str


@dataclass(frozen=True)
class Fade:
    entry: int
    dealer: str
    quote: str


@dataclass
class Sheet:
    requests: list[Request] = field(default_factory=list)
    trades: list[Trade] = field(default_factory=list)
    quotes: list[Quote] = field(default_factory=list)
    refused: list[Refused] = field(default_factory=list)
    fades: list[Fade] = field(default_factory=list)

    by_entry: dict[int, Request] = field(default_factory=dict)  # of quotes


def milliseconds(moment: str) -> int:
    hours, minutes, seconds = moment.split(":")
    return int(hours) * 3_600_000 + int(minutes) * 60_000 + round(float(seconds) * 1000)


def read_sheet(path: Path) -> Sheet:
    sheet = Sheet()
    for line in path.read_text().splitlines():
        words = line.split()
        if not words or words[0] == "#":
            continue
        if line.startswith("  "):
            dealer, answer, time, notice = words
            told = Asked(dealer, answer, None if time == "-" else int(time), NOTICES[notice])
            sheet.requests[-1].asked.append(told)
        else:
            take(sheet, words)
    return sheet


def take(sheet: Sheet, words: list[str]) -> None:
    """One line that stands at the margin."""
    kind, *rest = words
    if kind == "request":
        number, entry, moment, investor, bond, side, quantity, end = rest
        request = Request(int(number), int(entry), moment, investor, bond, side, int(quantity), end)
        sheet.requests.append(request)
    elif kind == "trade":
        entry, name, quote, price, cover, cover_price, best = rest
        sheet.trades.append(
            Trade(
                int(entry),
                name,
                quote,
                Fraction(price),
                "" if cover == "-" else cover.rstrip("*"),
                cover.endswith("*"),
                None if cover_price == "-" else Fraction(cover_price),
                Fraction(best),
                traded(sheet, name, int(entry)),
            )
        )
    elif kind == "quote":
        entry, dealer, asked, name, start, end, until, fate = rest
        sheet.by_entry[int(entry)] = sheet.requests[int(asked) - 1]
        until = "" if until == "-" else until
        fate = fate.replace("_", " ")
        sheet.quotes.append(Quote(int(entry), dealer, name, start, end, until, fate))
    elif kind == "refused":
        entry, firm, what, code = rest
        sheet.refused.append(Refused(int(entry), firm, what, code))
    elif kind == "fade":
        entry, dealer, quote = rest
        sheet.fades.append(Fade(int(entry), dealer, quote))


def traded(sheet: Sheet, name: str, entry: int) -> Request:
    """The request of a trade: the last one of its investor, before the hit, that the dealer won."""
    _, investor, dealer, _ = name.split("-")
    return next(
        request
        for request in reversed(sheet.requests)
        if request.investor == investor
        and request.entry < entry
        and any(one.dealer == dealer and one.notice == "won" for one in request.asked)
    )
