"""Passes over a day's exchanges once, and leaves its acts and its faults on disk."""

from collections import Counter
from collections.abc import Callable
from contextlib import closing
from dataclasses import dataclass, field
from pathlib import Path

from .book import Book, Fault
from .came_on import CameOn, connections_of
from .confirmations import misnamed
from .day_pass import DayPass
from .day_tables import SessionRow
from .dictionary import Dictionary
from .exchanges import Exchange, Told, exchanges
from .facts import AskedFact, TradeFact
from .findings import Finding
from .log import Source
from .notes import BUST, Act
from .reading import Reader
from .records import Day
from .refusals import Refusal
from .requests import Request, Requests, no_reason
from .statistics import Statistics, statistics_of
from .unusual import Kind, Seen, unusual

NO_ANSWER = "no answer"


@dataclass
class FirmCounts:
    """What came from a firm, what it was sent, and what of it was refused."""

    came: int = 0
    sent: int = 0
    refused: int = 0


@dataclass
class Summary:
    """The counts of a day."""

    requests: list[Request] = field(default_factory=list)
    firms: dict[str, FirmCounts] = field(default_factory=dict)
    faults: Counter[str] = field(default_factory=Counter)  # by why
    statistics: Statistics = field(default_factory=Statistics)
    asked: dict[str, list[AskedFact]] = field(default_factory=dict)  # by the dealer
    sessions: dict[str, SessionRow] = field(default_factory=dict)
    seen: Seen = field(default_factory=Seen)  # of what is unusual
    trades: list[TradeFact] = field(default_factory=list)
    voiding: dict[str, Act] = field(default_factory=dict)  # the acts that voided trades
    misnamed: list[Finding] = field(default_factory=list)  # trades told under other names
    entries: int = 0
    sweeps: int = 0
    first: str = ""
    last: str = ""

    @property
    def came(self) -> int:
        return sum(firm.came for firm in self.firms.values())

    @property
    def sent(self) -> int:
        return sum(firm.sent for firm in self.firms.values())

    @property
    def ends(self) -> Counter[str]:
        return Counter(request.end for request in self.requests)

    @property
    def unusual(self) -> list[Kind]:
        return unusual(self.seen, self.requests, self.sessions.values())

    @property
    def without_entry(self) -> int:
        """What was refused of orders and has no entry, which the record of orders counts, too."""
        return sum(session.without_entry for session in self.sessions.values())

    @property
    def quotes(self) -> int:
        return sum(request.quotes for request in self.requests)


class Summarizer:
    """Takes the exchanges of a day."""

    def __init__(
        self,
        day: Day,
        reader: Reader,
        book: Book,
        came_on: dict[str, CameOn] | None = None,
        reason_of: Callable[[Told], str] = no_reason,
    ) -> None:
        self.summary = Summary(firms={firm.name: FirmCounts() for firm in day.firms})
        self.summary.asked = {firm.name: [] for firm in day.dealers}
        self._reader, self._book = reader, book
        self._requests = Requests(reader, came_on, reason_of)
        self.summary.requests = self._requests.all

    def take(self, exchange: Exchange, refusal: Refusal | None = None) -> None:
        """The next exchange; refusal says why its message was refused, where it was."""
        summary, about = self.summary, None
        summary.entries += 1
        summary.first = summary.first or exchange.moment
        summary.last = exchange.moment
        for request, act in self._requests.take(exchange):
            self._book.put(request.key, act)
            about = request.key
        for told in exchange.told:
            summary.firms[told.firm.name].sent += 1
        if exchange.came is None:
            summary.sweeps += exchange.entry.line.startswith((b"clock ", b"expire "))
        elif exchange.came.firm in summary.firms:
            self._take_message(exchange, about, refusal)

    def _take_message(self, exchange: Exchange, about: int | None, refusal: Refusal | None) -> None:
        came = exchange.came
        assert came is not None
        counts = self.summary.firms[came.firm]
        counts.came += 1
        answers = exchange.answers()
        words = [self._requests.words_of(one) for one in answers]
        refused = next((one for one in words if one.refused), None)
        if answers and refused is None:
            return
        counts.refused += 1
        why = refused.text if refused else NO_ANSWER
        detail = refused.detail if refused else "it was no message of the venue, and was dropped"
        if refusal is not None and refusal.name and refusal.name not in why:
            detail = "%s %s" % (refusal.name, detail)
        summary = self.summary
        summary.faults[why] += 1
        said = self._reader.said(came.fields)
        text = " ".join([said.text, str(said.price or "")]).strip()
        fault = Fault(exchange.place, exchange.moment, came.firm, text, why, detail, about)
        self._book.put_fault(fault)
        if refusal is not None and refusal.what == "hit":
            summary.seen.take_hit(fault)


@dataclass(frozen=True)
class SummaryJob:
    """The pass over a day, in a process of its own."""

    source: Source
    day: Day
    dictionary: Dictionary
    book: Path

    def __call__(self) -> Summary:
        with closing(Book(self.book, write=True)) as book, self.source.open() as log:
            came_on = connections_of(log, self.day)
            day_pass = DayPass(log, self.day)
            reader = Reader(self.dictionary)
            summarizer = Summarizer(self.day, reader, book, came_on, day_pass.reason_of)
            for exchange in exchanges(log, self.day):
                summarizer.take(exchange, day_pass.take(exchange).refusal)
            summarizer.summary.seen.read(log)
            book.finish()
            day_pass.end()
        return with_facts(summarizer.summary, day_pass)


def with_facts(summary: Summary, day_pass: DayPass) -> Summary:
    """A summary with the figures and the trades of its day."""
    facts = day_pass.facts
    summary.statistics = statistics_of(day_pass.day, facts, day_pass.refused)
    for trade in facts.trades:
        request = summary.requests[trade.request.number - 1]
        request.trade, request.cover_lapsed = trade.name, trade.cover_lapsed
        request.void = trade.void
    for asked in facts.asked:
        summary.asked[asked.dealer].append(asked)
    summary.sessions, summary.trades = day_pass.sessions, facts.trades
    acts = summary.seen.acts
    summary.voiding = {act.what.removeprefix(BUST): act for act in acts if act.is_bust}
    summary.misnamed = list(misnamed(facts))
    return summary
