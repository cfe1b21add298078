"""The venue of a day, step by step; what was due to a firm; and a dealer's or an investor's view of such a list."""

from __future__ import annotations

from collections.abc import Callable
from typing import TYPE_CHECKING, Any

from .configuration import Bond, Configuration, Dealer, Investor
from .dealer import DealerDesk
from .desk import Duty
from .investor import InvestorDesk
from .room import Room

if TYPE_CHECKING:
    from .desk import Ask

CLOCK = "CLOCK"
Actor = int | str  # a firm, or the clock
Item = tuple[Any, ...]  # of what was due to a firm: its kind, and what it says
Seen = tuple[
    bytes, Investor, list[Bond], list[bytes]
]  # the day, its row, the bonds, the names of the dealers


class Words:
    """One word for each quote that a dealer may have: open, or settled once for all."""

    def __init__(self) -> None:
        self.settled: dict[tuple[int, int] | int, str] = {}

    def withdraw(self, word: tuple[int, int] | int) -> str:
        return self.settled.setdefault(word, "withdrawn")

    def lift(self, word: tuple[int, int] | int) -> str:
        return self.settled.setdefault(word, "lifted")


class Venue:
    def __init__(self, configuration: Configuration) -> None:
        self.configuration, self.words = configuration, Words()
        self.desks = [self.desk(firm) for firm in range(len(configuration.firms))]
        self.rooms: dict[tuple[int, int], Room] = {}
        self.queues: dict[Actor, list[Duty]] = {
            actor: [] for actor in [*range(len(self.desks)), CLOCK]
        }
        self.due: dict[int, list[Item]] = {firm: [] for firm in range(len(self.desks))}
        self.log: list[
            tuple[int, list[tuple[int, bytes]]]
        ] = []  # (firm, fields) of each message, in the order in which they were sent

    def desk(self, firm: int) -> DealerDesk | InvestorDesk:
        row = self.configuration.firms[firm]
        if isinstance(row, Dealer):
            return DealerDesk(
                self.configuration.date, row, lambda q: self.words.withdraw((firm, q))
            )
        return InvestorDesk(self.configuration, firm)

    def dealer_desk(self, firm: int) -> DealerDesk:
        desk = self.desks[firm]
        assert isinstance(desk, DealerDesk)
        return desk

    def investor_desk(self, firm: int) -> InvestorDesk:
        desk = self.desks[firm]
        assert isinstance(desk, InvestorDesk)
        return desk

    def room(self, room: tuple[int, int]) -> Room:
        return self.rooms.setdefault(room, Room())

    def logged(self, firm: int, act: Callable[[Any], Any]) -> Any:
        """Does something at a firm's desk, and logs what the desk sends."""
        before = len(self.desks[firm].sent)
        result = act(self.desks[firm])
        self.log += [(firm, fields) for fields in self.desks[firm].sent[before:]]
        return result

    # ------------------------------------------------------------ steps

    def came(self, firm: int, moment: int, data: bytes) -> None:
        self.due[firm].append(("own", moment, data))
        self.queues[firm] += self.logged(firm, lambda desk: desk.take(moment, data))

    def turn(self, actor: Actor) -> bool:
        """Does the oldest duty of the actor; whether there was one."""
        if not self.queues[actor]:
            return False
        name, *rest = self.queues[actor].pop(0)
        self.queues[actor] += getattr(self, "do_" + name.lower())(actor, *rest) or []
        return True

    def expire(self, investor: int, n: int, moment: int) -> None:
        room = (investor, n)
        if room in self.rooms and self.rooms[room].expire(moment):
            self.queues[CLOCK] += [("Close", room, moment)] + self.notices(room, moment)

    def first_deadline(self) -> int | None:
        """The earliest deadline of the rooms that are opening or open, or None."""
        return min(
            (room.asked().deadline for room in self.rooms.values() if room.takes()), default=None
        )

    def notices(self, room: tuple[int, int], moment: int) -> list[Duty]:
        return [("Tell", dealer, room, close, moment) for dealer, close in self.room(room).notices]

    # ------------------------------------------------------------ duties; each answers those that follow

    def do_open(
        self, _actor: Actor, room: tuple[int, int], ask: Ask, dealers: list[int], moment: int
    ) -> list[Duty]:
        self.room(room).open(ask, dealers)
        return [("Show", dealer, room, ask, moment) for dealer in dealers] + [("Ready", room)]

    def do_show(
        self, _actor: int, dealer: int, room: tuple[int, int], ask: Ask, moment: int
    ) -> None:
        self.due[dealer].append(("shown", ask, moment))
        self.logged(dealer, lambda desk: desk.show(room, ask, moment))

    def do_ready(self, _actor: Actor, room: tuple[int, int]) -> None:
        self.room(room).ready()

    def do_post(
        self, dealer: int, room: tuple[int, int], q: int, ticks: int, until: int | None, moment: int
    ) -> list[Duty]:
        if self.room(room).post(dealer, (dealer, q), ticks, until):
            return [("Relay", room, (dealer, q), ticks, until, moment)]
        return []

    def do_relay(
        self,
        dealer: int,
        room: tuple[int, int],
        word: tuple[int, int],
        ticks: int,
        until: int | None,
        moment: int,
    ) -> None:
        name, (investor, n) = self.configuration.firms[dealer].name, room
        self.due[investor].append(("quoted", n, name, ticks, until, moment))
        self.logged(investor, lambda desk: desk.quote_came(n, name, word, ticks, until, moment))

    def do_unpost(self, dealer: int, room: tuple[int, int], q: int, moment: int) -> list[Duty]:
        if self.room(room).unpost((dealer, q)):
            return [("Gone", room, (dealer, q), moment)]
        return []

    def do_gone(
        self, _dealer: int, room: tuple[int, int], word: tuple[int, int], moment: int
    ) -> None:
        investor, n = room
        self.due[investor].append(("gone", n, self.number_of(investor, n, word), moment))
        self.logged(investor, lambda desk: desk.quote_gone(n, word, moment))

    def number_of(self, investor: int, n: int, word: tuple[int, int]) -> int:
        """The number of the quote with this word that stands on the open request; 0 where none does."""
        desk = self.investor_desk(investor)
        request = desk.requests[n - 1]
        standing = desk.standing(request) if request.is_open() else []
        return next((quote.k for quote in standing if quote.word == word), 0)

    def do_decline(self, _dealer: int, room: tuple[int, int], moment: int) -> list[Duty]:
        if self.room(room).takes():
            return [("Declined", room, moment)]
        return []

    def do_declined(self, dealer: int, room: tuple[int, int], moment: int) -> None:
        name, (investor, n) = self.configuration.firms[dealer].name, room
        self.due[investor].append(("declined", n, name, moment))
        self.logged(investor, lambda desk: desk.dealer_declined(n, name, moment))

    def do_drop(self, dealer: int, last: int, moment: int) -> list[Duty]:
        self.due[dealer].append(("drop", last, moment))
        return list(self.logged(dealer, lambda desk: desk.drop(last, moment)))

    def do_hit(
        self,
        _investor: int,
        room: tuple[int, int],
        response: tuple[bytes, int],
        word: tuple[int, int],
        moment: int,
    ) -> list[Duty]:
        reply = self.room(room).hit(word, moment, self.lift)
        duties = [("Answer", room, response, reply, moment)]
        return duties + (self.notices(room, moment) if reply == "Awarded" else [])

    def lift(self, word: tuple[int, int]) -> str:
        dealer, q = word
        before = word in self.words.settled
        answer = self.words.lift(word)
        if not before:
            self.due[dealer].append(("lifted", q))
        return answer

    def do_pass(
        self, _investor: int, room: tuple[int, int], response: tuple[bytes, None], moment: int
    ) -> list[Duty]:
        reply = self.room(room).leave()
        duties = [("Answer", room, response, reply, moment)]
        return duties + (self.notices(room, moment) if reply == "Passed" else [])

    def do_answer(
        self,
        _investor: int,
        room: tuple[int, int],
        response: tuple[bytes, int | None],
        reply: str,
        moment: int,
    ) -> None:
        investor, n = room
        self.due[investor].append(("answered", n, response, reply, moment))
        self.logged(investor, lambda desk: desk.answered(n, response, reply, moment))

    def do_close(self, _actor: Actor, room: tuple[int, int], moment: int) -> None:
        investor, n = room
        self.due[investor].append(("expired", n, moment))
        self.logged(investor, lambda desk: desk.closed(n, moment))

    def do_tell(
        self, _actor: Actor, dealer: int, room: tuple[int, int], close: int, moment: int
    ) -> None:
        request = self.dealer_desk(dealer).request_in(room)
        if self.logged(dealer, lambda desk: desk.tell(request, close, moment)):
            assert request is not None
            self.due[dealer].append(("closed", request.k, close, moment))


def seen_by(configuration: Configuration, investor: int) -> Seen:
    """What an investor sees of a venue: the day, its row, the bonds, and the names of the dealers."""
    dealers = [row.name for row in configuration.dealers]
    row = configuration.firms[investor]
    assert isinstance(row, Investor)
    return configuration.date, row, configuration.bonds, dealers


def fits(desk: InvestorDesk, kind: str, item: list[Any]) -> bool:
    """Whether an item is about a request that was accepted; an answer, to a response that could be its own."""
    n = item[0]
    if not 1 <= n <= len(desk.requests):
        return False
    if kind != "answered":
        return True
    (_name, k), reply = item[1:3]
    if k is None:
        return reply in ("Passed", "NotOpen")
    return bool(
        1 <= k <= len(desk.shown) and desk.shown[k - 1].request.n == n and reply != "Passed"
    )


def investor_alone(seen: Seen, due: list[Item]) -> InvestorDesk:
    """The desk of an investor that sees this and to which this is due; nothing else of the venue is known."""
    date, row, bonds, names = seen
    dealers = [Dealer(name, (), 0, 0) for name in names]
    desk = InvestorDesk(Configuration(date, bonds, dealers, [row]), len(dealers))
    for kind, *item in due:
        if kind == "own":
            desk.take(*item)
        elif not fits(desk, kind, item):
            continue
        elif kind == "quoted":
            n, dealer, ticks, until, moment = item
            desk.quote_came(n, dealer, len(desk.shown) + 1, ticks, until, moment)
        else:
            act: dict[str, Callable[..., None]] = {
                "gone": desk.quote_gone,
                "declined": desk.dealer_declined,
                "answered": desk.answered,
            }
            act.get(kind, desk.closed)(*item)
    return desk


def alone(date: bytes, row: Dealer, due: list[Item]) -> DealerDesk:
    """The desk of a dealer to whom this is due, and nothing else is known of the venue."""
    words = Words()
    desk = DealerDesk(date, row, words.withdraw)
    for kind, *item in due:
        if kind == "own":
            desk.take(*item)
        elif kind == "shown":
            ask, moment = item
            desk.show(None, ask, moment)
        elif kind == "lifted":
            if 1 <= item[0] <= row.quotes:
                words.lift(item[0])
        elif kind == "drop":
            desk.drop(*item)
        else:
            k, close, moment = item
            desk.tell(desk.requests[k - 1] if 1 <= k <= len(desk.requests) else None, close, moment)
    return desk
