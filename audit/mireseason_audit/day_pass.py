"""Passes over a day once, and gives its facts and the rows of its messages as they go by."""

from collections import Counter
from collections.abc import Iterator
from dataclasses import dataclass, field
from typing import NamedTuple

from .bonds import bonds_of
from .collector import Collector
from .day_tables import MessageRow, SessionRow
from .exchanges import Exchange, Told, exchanges
from .facts import Facts, RequestFact, ResponseFact
from .frame import barred, text_of
from .log import Log
from .notes import voided
from .not_taken import (
    CLOCK_SET,
    MOST_NOT_TAKEN,
    NOT_TAKEN,
    REJECT,
    is_of_an_order,
    not_taken_of,
)
from .reading import moment_of
from .records import Day
from .refusals import Refusal, code_of, is_refusing, kind_of, refusal_of
from .statistics import Refused, hour_of
from .wire_texts import WireTexts


class Taken(NamedTuple):
    """What an entry was, as far as it is not kept."""

    response: ResponseFact | None
    refusal: Refusal | None


@dataclass
class DayPass:
    """The pass; `facts`, `refused` and `sessions` have what is known so far."""

    log: Log
    day: Day
    refused: Counter[Refused] = field(default_factory=Counter)
    sessions: dict[str, SessionRow] = field(default_factory=dict)

    def __post_init__(self) -> None:
        names = [firm.name for firm in self.day.firms]
        self._wires = {name: WireTexts(self.log, name) for name in names}
        self._collector = Collector(self.day.date, self._wires)
        self._bonds = frozenset(bonds_of(self.day))
        self.sessions = {firm.name: SessionRow(firm) for firm in self.day.firms}

    @property
    def facts(self) -> Facts:
        return self._collector.facts

    def reason_of(self, told: Told) -> str:
        """The words (58) that a firm was told beside a message of the last exchanges."""
        return self._collector.wire(told).reason

    def take(self, exchange: Exchange) -> Taken:
        """The next exchange."""
        response = self._collector.take(exchange)
        refusal = refusal_of(exchange, self._wires)
        if exchange.firm is not None:
            self._count(exchange, exchange.firm, refusal)
        for told in exchange.told:
            self.sessions[told.firm.name].sent += 1
        return Taken(response, refusal)

    def run(self) -> Facts:
        """All exchanges."""
        for exchange in exchanges(self.log, self.day):
            self.take(exchange)
        self.end()
        return self.facts

    def end(self) -> None:
        """What the log says of each session and of the trades beside the messages."""
        void = voided(self.log) if self.log.has_chain else {}
        for trade in self.facts.trades:
            trade.void = void.get(trade.name, "")
        targets = self.log.targets() if self.log.has_chain else {}
        for name, session in self.sessions.items():
            session.expected = targets.get(name)
            session.connections = len(self.log.logons(name)) if self.log.has_door else 0
            if self.log.has_epochs:
                self._count_own(session)

    def _count_own(self, session: SessionRow) -> None:
        """What the session itself, and the gateway, refused of the firm's."""
        for row in self.log.own_messages(session.firm.name):
            session.rejected += row.kind == REJECT
            session.not_taken += row.kind == NOT_TAKEN
            if row.copy or row.kind not in (REJECT, NOT_TAKEN):
                continue
            one = not_taken_of(row)
            session.without_entry += is_of_an_order(row)
            session.told_of_clock += one.words.startswith(CLOCK_SET)
            if len(session.first_not_taken) < MOST_NOT_TAKEN:
                session.first_not_taken.append(one)

    def rows(self, exchange: Exchange, refusal: Refusal | None) -> Iterator[MessageRow]:
        """The messages of an exchange that was taken; what came stands first."""
        if exchange.firm is not None:
            yield self._came(exchange, exchange.firm, refusal)
        for told in exchange.told:
            yield self._told(exchange, told)

    def _count(self, exchange: Exchange, firm: str, refusal: Refusal | None) -> None:
        session = self.sessions.get(firm)
        if session is None:
            return
        session.came += 1
        if session.first_entry is None:
            session.first_entry = exchange.place
        session.last_entry = exchange.place
        if refusal is not None:
            session.refused += 1
            bond = self._bond(exchange, self.request_of(exchange))
            bond = bond if bond in self._bonds else ""
            self.refused[Refused(firm, bond, hour_of(exchange.moment), refusal)] += 1

    def request_of(self, exchange: Exchange) -> RequestFact | None:
        """The request that a message that came is about."""
        request = self._collector.own(exchange.came)
        if request is None and exchange.answers():
            return self._collector.about(exchange.answers()[0])
        return request

    def _bond(self, exchange: Exchange, request: RequestFact | None) -> str:
        if request is not None:
            return request.bond
        return text_of(exchange.came.fields, 48) if exchange.came else ""

    def _came(self, exchange: Exchange, firm: str, refusal: Refusal | None) -> MessageRow:
        """The row of a message that came."""
        entry, came, request = exchange.entry, exchange.came, self.request_of(exchange)
        answer = "accepted"
        if refusal is not None:
            answer = "unanswered" if refusal.code == "none" else "refused"
        return MessageRow(
            entry.place,
            entry.moment,
            firm,
            "came",
            text_of(came.fields, 34) if came else "",
            text_of(came.fields, 35) if came else "",
            None if request is None else request.number,
            self._bond(exchange, request),
            kind_of(came),
            answer,
            refusal.code if refusal else "",
            refusal.name if refusal else "",
            "",
            entry.received or "",
            entry.connection,
            came.text if came else barred(entry.line),
        )

    def _told(self, exchange: Exchange, told: Told) -> MessageRow:
        """The row of a message of the venue."""
        request, wire = self._collector.about(told), self._collector.wire(told)
        is_no = is_refusing(told)
        return MessageRow(
            exchange.place,
            moment_of(told.text(52)),
            told.firm.name,
            "sent",
            str(told.number),
            told.kind,
            None if request is None else request.number,
            request.bond if request is not None else told.text(48),
            "",
            "",
            code_of(told) if is_no else "",
            (told.text(58) or wire.reason) if is_no else "",
            wire.trade,
            "",
            None,
            barred(told.bytes),
        )
