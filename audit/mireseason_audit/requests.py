"""Collects the requests of a day: what was done on each, and who was told what."""

from collections import defaultdict
from collections.abc import Callable, Iterator, Mapping
from dataclasses import dataclass, field
from typing import NamedTuple

from .came_on import CameOn
from .exchanges import Exchange, Told
from .frame import Fields, text_of
from .lines import Came
from .names import Names, opens_request
from .reading import Reader, Words, moment_of


PARTY_ID, PARTY_SOURCE, PARTY_ROLE = 448, 447, 452


class Note(NamedTuple):
    """What a firm was told."""

    firm: str
    number: int  # the venue's, to that firm
    kind: str  # 35
    words: Words


class Act(NamedTuple):
    """An exchange, as far as it is about one request."""

    place: int
    moment: str
    actor: str | None  # None: the clock
    number: int | None  # of the actor's session
    said: Words
    told: tuple[Note, ...]
    came_on: str = ""  # in words: the connection that it came on

    def note_to(self, firm: str | None) -> Note | None:
        return next((note for note in self.told if note.firm == firm), None)

    @property
    def is_refused(self) -> bool:
        answer = self.note_to(self.actor)
        return answer is not None and answer.words.refused


@dataclass
class Request:
    """A request, as far as the day has come."""

    key: int
    place: int
    moment: str
    investor: str
    trader: str
    name: str  # the investor's
    bond: str
    side: str
    quantity: str
    deadline: str
    dealers: list[str]
    shown: dict[str, str] = field(default_factory=dict)  # dealer to its name of the request
    quotes: int = 0
    winner: str = ""
    price: str = ""
    quote: str = ""  # the winning one, as its dealer names it
    cover: str = ""
    cover_lapsed: bool = False  # told so though its 62 had passed
    void: str = ""  # why an operator voided its trade; empty where that stands
    trade: str = ""  # DATE-INVESTOR-DEALER-K
    end: str = "open"
    end_moment: str = ""

    @property
    def buys(self) -> bool:
        return self.side == "1"


def no_reason(_: Told) -> str:
    """Of a log that has none."""
    return ""


class Requests:
    """Takes the exchanges of a day in their order; answers the acts on each request."""

    def __init__(
        self,
        reader: Reader,
        came_on: Mapping[str, CameOn] | None = None,
        reason_of: Callable[[Told], str] = no_reason,
    ) -> None:
        """came_on has the connections of each firm, of a log that says who connected; reason_of
        gives the words (58) that a firm was told beside a message.
        """
        self.all: list[Request] = []
        self._reader = reader
        self._came_on = came_on or {}
        self._reason_of = reason_of
        self._names = Names()

    def take(self, exchange: Exchange) -> Iterator[tuple[Request, Act]]:
        """The acts that an exchange is, one for each request that it is about."""
        names, opened = self._names, self._opened(exchange)
        about: dict[int, list[Told]] = defaultdict(list)
        for told in exchange.told:
            names.learn(told, None if opened is None else opened.key)
            if opened is not None and told.kind == "R":
                opened.shown[told.firm.name] = told.text(131)
            key = names.about(told)
            if key is not None:
                about[key].append(told)
        own = names.own(exchange.came)
        if own is not None:
            rest = [told for told in exchange.answers() if names.about(told) is None]
            about[own] = rest + [told for told in about[own] if told not in rest]
        for key, told_of_it in about.items():
            act = self._act(exchange, told_of_it)
            self._follow(self.all[key], act)
            yield self.all[key], act

    def _opened(self, exchange: Exchange) -> Request | None:
        """The request that a message opens."""
        if exchange.came is None or not opens_request(exchange):
            return None
        request = request_of(len(self.all), exchange, exchange.came)
        self.all.append(request)
        self._names.open(exchange, request.key)
        return request

    def words_of(self, told: Told) -> Words:
        """A message of the venue; one that refuses, by the reason that its firm was told."""
        words = self._reader.told(told.fields, told.firm.is_dealer)
        # A refused hit or pass has its name there, whose meaning is told already.
        reason = self._reason_of(told) if words.refused and not told.text(58) else ""
        return words._replace(text="refused: %s" % reason) if reason else words

    def _act(self, exchange: Exchange, told: list[Told]) -> Act:
        came, reader = exchange.came, self._reader
        notes = tuple(Note(one.firm.name, one.number, one.kind, self.words_of(one)) for one in told)
        said = reader.said(came.fields) if came else reader.unread(exchange.firm)
        entry = exchange.entry
        came_on = self._came_on.get(exchange.firm or "")
        words = came_on.words(entry) if came_on else ""
        return Act(entry.place, entry.moment, exchange.firm, entry.number, said, notes, words)

    def _follow(self, request: Request, act: Act) -> None:
        """What an act changes of its request, by what firms are told."""
        answer = act.note_to(act.actor)
        if act.said.quote and answer and answer.kind == "AI" and act.actor in request.dealers:
            request.quotes += answer.words.text == "accepted"
        for note in act.told:
            if note.kind != "AJ":
                continue
            request.end_moment = act.moment
            text = note.words.text
            if text == "won":
                request.winner, request.quote = note.firm, note.words.quote
                request.price = str(note.words.price or "")
            elif text == "cover":
                request.cover = note.firm
            request.end = "awarded" if text in ("won", "cover", "done away") else text


def request_of(key: int, exchange: Exchange, came: Came) -> Request:
    """A request as its investor's message has it."""
    fields = came.fields
    return Request(
        key,
        exchange.place,
        exchange.moment,
        came.firm,
        text_of(fields, 50),
        text_of(fields, 131),
        text_of(fields, 48),
        text_of(fields, 54),
        text_of(fields, 38),
        moment_of(text_of(fields, 126)),
        dealers_of(fields),
    )


def dealers_of(fields: Fields) -> list[str]:
    """The dealers that a request names, in its order; its parties of other roles are ignored."""
    parties: list[dict[int, bytes]] = []
    for tag, value in fields:
        if tag == PARTY_ID:
            parties.append({})
        if tag in (PARTY_ID, PARTY_SOURCE, PARTY_ROLE) and parties:
            parties[-1][tag] = value
    return [
        party[PARTY_ID].decode("utf-8", "replace")
        for party in parties
        if (party.get(PARTY_SOURCE), party.get(PARTY_ROLE)) == (b"D", b"35")
    ]
