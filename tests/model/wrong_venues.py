"""Plants wrong programs in the model, each for the time of a `with`.

They keep the laws of isolation and of a trade's two sides, but each tells a firm a lie, nothing, or too much.
"""

from __future__ import annotations

from collections.abc import Callable, Iterator, Sequence
from contextlib import contextmanager
from typing import Any

from .dealer import COVER, DONE_AWAY, HIT, DealerDesk
from .desk import Ask, Desk, Duty, Reason, Trade
from .investor import InvestorDesk
from .replay import Actor, Venue
from .room import Posted, Room
from .session import Message
from .watched import RoomName, WatchedVenue

Planted = tuple[type, str, Callable[..., Any]]
Values = Sequence[tuple[int, bytes | None]]
Note = Reason | Trade | None


def drops_say_withdrawn() -> Planted:
    """A drop that finds its quote lifted says that it is withdrawn."""

    def drop(desk: DealerDesk, last: int, moment: int) -> list[Duty]:
        quotes = [quote for quote in desk.quotes if quote.is_droppable() and quote.q <= last]
        if not quotes:
            return []
        lifted = desk.found_lifted(quotes[0], "withdrawn")
        desk.send(moment, b"AI", [(117, quotes[0].id), (297, b"17")])
        duties: list[Duty] = []
        if not lifted:
            duties.append(("Unpost", quotes[0].request.room, quotes[0].q, moment))
        return duties + ([("Drop", last, moment)] if len(quotes) > 1 else [])

    return DealerDesk, "drop", drop


def refused_hits_are_not_answered() -> Planted:
    """A hit that is refused leads to nothing."""
    right = WatchedVenue.do_hit

    def do_hit(venue: WatchedVenue, *hit: Any) -> list[Duty]:
        duties = right(venue, *hit)
        return duties if len(duties) > 1 else []

    return WatchedVenue, "do_hit", do_hit


def passes_are_not_answered() -> Planted:
    right = Venue.do_pass

    def do_pass(venue: Venue, *response: Any) -> list[Duty]:
        return [duty for duty in right(venue, *response) if duty[0] != "Answer"]

    return Venue, "do_pass", do_pass


def posts_are_not_relayed() -> Planted:
    """A quote stands in its room, and its investor is not shown it."""
    right = Venue.do_post

    def do_post(venue: Venue, *post: Any) -> list[Duty]:
        right(venue, *post)
        return []

    return Venue, "do_post", do_post


def sweeps_leave_rooms_open() -> Planted:
    """A sweep passes over a room with more than one quote."""
    right = Room.expire

    def expire(room: Room, moment: int) -> bool:
        return len(room.book) < 2 and right(room, moment)

    return Room, "expire", expire


def count_of_all_trades(desk: Desk, number: int) -> bytes | None:
    """A line whose count of trades runs over all firms."""
    note = desk.notes[number - 1]
    if not isinstance(note, Trade):
        return None
    k = sum(isinstance(other, Trade) for other in desk.notes[:number])
    name = b"-".join([desk.date, *desk.sides(note.other), b"%d" % k])
    return b"trade %s %d %s" % (desk.row.name, number, name)


def investors_count_all_trades() -> Planted:
    """An investor's count in a trade's name runs over all dealers."""
    return InvestorDesk, "note_line", count_of_all_trades


def dealers_count_all_trades() -> Planted:
    """A dealer's count in a trade's name runs over all investors."""
    return DealerDesk, "note_line", count_of_all_trades


def answers_are_late() -> Planted:
    """An answer bears another moment than the notice of its trade."""
    right = Venue.do_answer

    def do_answer(
        venue: Venue, investor: int, room: Any, response: Any, reply: str, moment: int
    ) -> None:
        right(venue, investor, room, response, reply, moment + 1)

    return Venue, "do_answer", do_answer


def full_books_close_later() -> Planted:
    """A closing notice bears a later moment where more than three quotes stood in the book."""
    right = Venue.notices

    def notices(venue: Venue, room: tuple[int, int], moment: int) -> list[Duty]:
        return right(venue, room, moment + (len(venue.room(room).book) > 3))

    return Venue, "notices", notices


def hits_of_a_replaced_quote_take_the_new_one() -> Planted:
    """A hit of a quote that its dealer replaced at the same price takes the new quote."""
    right = Venue.do_hit

    def do_hit(
        venue: Venue, actor: int, room: Any, response: Any, word: Any, moment: int
    ) -> list[Duty]:
        hit = venue.investor_desk(room[0]).shown[response[1] - 1]
        for quote in venue.room(room).book:
            if quote.dealer == word[0] and quote.ticks == hit.ticks:
                word = quote.word
        return right(venue, actor, room, response, word, moment)

    return Venue, "do_hit", do_hit


def hits_of_no_quote_take_the_last_one() -> Planted:
    """A hit of a quote that was not shown is taken as one of the quote that was shown last."""
    right = InvestorDesk.take_hit

    def take_hit(desk: InvestorDesk, moment: int, message: Any) -> list[Duty]:
        if desk.quote(message[117]) is not None or not desk.shown:
            return right(desk, moment, message)
        last = desk.shown[-1]
        return [("Hit", (desk.firm, last.request.n), (message[693], last.k), last.word, moment)]

    return InvestorDesk, "take_hit", take_hit


def covers_are_the_worst() -> Planted:
    """The cover is the dealer of the worst of the other quotes."""

    def award(room: Room, winner: Posted) -> None:
        others = [quote for quote in room.book if quote is not winner]
        sign = 1 if room.asked().side == 1 else -1
        cover = max(others, key=lambda quote: sign * quote.ticks, default=None)
        kinds = {dealer: DONE_AWAY for dealer in room.dealers}
        if cover:
            kinds[cover.dealer] = COVER
        kinds[winner.dealer] = HIT
        room.end(kinds)

    return Room, "award", award


def cancels_of_all_take_one_quote() -> Planted:
    """A cancel of all stops behind its first quote."""
    right = DealerDesk.drop

    def drop(desk: DealerDesk, last: int, moment: int) -> list[Duty]:
        return [duty for duty in right(desk, last, moment) if duty[0] != "Drop"]

    return DealerDesk, "drop", drop


def expiries_are_told_twice() -> Planted:
    right = Venue.do_close

    def do_close(venue: Venue, *close: Any) -> None:
        right(venue, *close)
        right(venue, *close)

    return Venue, "do_close", do_close


def declines_are_not_told() -> Planted:
    """A decline is noted in its room, and its investor is not told."""

    def do_decline(_venue: Venue, *_decline: Any) -> list[Duty]:
        return []

    return Venue, "do_decline", do_decline


def passes_leave_requests_open() -> Planted:
    """A pass ends its room, and the request stays open at its investor's desk."""
    right = InvestorDesk.answered

    def answered(
        desk: InvestorDesk, n: int, response: tuple[bytes, int | None], reply: str, moment: int
    ) -> None:
        before = desk.requests[n - 1].closed
        right(desk, n, response, reply, moment)
        if reply == "Passed":
            desk.requests[n - 1].closed = before

    return InvestorDesk, "answered", answered


def refusals_close_requests() -> Planted:
    """A hit that is refused closes its request, and the room goes on."""
    right = InvestorDesk.answered

    def answered(
        desk: InvestorDesk, n: int, response: tuple[bytes, int | None], reply: str, moment: int
    ) -> None:
        right(desk, n, response, reply, moment)
        desk.close(desk.requests[n - 1], reply)

    return InvestorDesk, "answered", answered


def declines_overtake_quotes() -> Planted:
    """A decline is told at once, before a quote of its dealer that is still to be relayed."""

    def do_decline(venue: Venue, dealer: int, room: RoomName, moment: int) -> list[Duty]:
        if venue.room(room).takes():
            venue.do_declined(dealer, room, moment)
        return []

    return Venue, "do_decline", do_decline


def withdrawals_are_not_told() -> Planted:
    """A quote is taken out of its room, and its investor is not told."""
    right = Venue.do_unpost

    def do_unpost(venue: Venue, *unpost: Any) -> list[Duty]:
        right(venue, *unpost)
        return []

    return Venue, "do_unpost", do_unpost


def withdrawals_take_no_effect() -> Planted:
    """A quote that its dealer withdrew stays in the book of its room."""

    def do_unpost(_venue: Venue, *_unpost: Any) -> list[Duty]:
        return []

    return Venue, "do_unpost", do_unpost


def replaced_quotes_are_not_told() -> Planted:
    """A quote that its dealer replaced is not reported gone before the new one is shown."""
    right = InvestorDesk.quote_came

    def quote_came(desk: InvestorDesk, n: int, dealer: bytes, *quote: Any) -> None:
        request = desk.requests[n - 1]
        for old in desk.standing(request) if request.is_open() else []:
            old.gone = old.gone or old.dealer == dealer
        right(desk, n, dealer, *quote)

    return InvestorDesk, "quote_came", quote_came


def requests_reach_dealers_asked_before() -> Planted:
    """A request is also shown to the dealers whom its investor asked before."""
    right = Venue.do_open

    def do_open(
        venue: Venue, actor: Actor, room: RoomName, ask: Ask, dealers: list[int], moment: int
    ) -> list[Duty]:
        asked = {
            dealer
            for name, at in venue.rooms.items()
            if name[0] == room[0]
            for dealer in at.dealers
        }
        others = sorted(asked - set(dealers))
        shown: list[Duty] = [("Show", dealer, room, ask, moment) for dealer in others]
        return shown + right(venue, actor, room, ask, dealers, moment)

    return Venue, "do_open", do_open


def the_first_dealers_are_asked() -> Planted:
    """A desk takes as many dealers as a request names, and not those that it names."""
    right = InvestorDesk.take_request

    def take_request(desk: InvestorDesk, moment: int, message: Message) -> list[Duty]:
        return [
            (name, room, ask, list(range(len(dealers))), at)
            for name, room, ask, dealers, at in right(desk, moment, message)
        ]

    return InvestorDesk, "take_request", take_request


def sending(
    changed: Callable[[bytes, Values, Note], tuple[bytes, Values, Note]],
) -> Planted:
    """A desk that sends its messages, and notes them, as they are changed."""
    right = Desk.send

    def send(desk: Desk, moment: int, kind: bytes, fields: Values, note: Note = None) -> None:
        right(desk, moment, *changed(kind, fields, note))

    return Desk, "send", send


def identifiers_may_have_a_bar() -> Planted:
    """What a firm wrote behind a bar in an identifier comes back with it."""

    def changed(kind: bytes, fields: Values, note: Note) -> tuple[bytes, Values, Note]:
        return kind, [(tag, v and v + b"|6=9" * (tag == 131)) for tag, v in fields], note

    return sending(changed)


def rejects_repeat_too_much() -> Planted:
    """A Reject is longer than the wire can carry with the session's fields and what is told."""

    def changed(kind: bytes, fields: Values, note: Note) -> tuple[bytes, Values, Note]:
        return kind, [*fields, *[(354, b"x" * 3_600)] * (kind == b"3")], note

    return sending(changed)


def rejects_are_heartbeats() -> Planted:
    """A message that is not taken is answered by a 35=0, which a gap fill may cover."""

    def changed(kind: bytes, fields: Values, note: Note) -> tuple[bytes, Values, Note]:
        return b"0" if kind == b"3" else kind, fields, note

    return sending(changed)


def refusals_of_rooms_are_noted() -> Planted:
    """Beside a room's refusal, which has a 58 of its own, another one is noted."""

    def changed(kind: bytes, fields: Values, note: Note) -> tuple[bytes, Values, Note]:
        return kind, fields, Reason("Gone") if any(tag == 58 for tag, _ in fields) else note

    return sending(changed)


def numbers_are_those_of_answers() -> Planted:
    """A message that answers none of the firm's bears the number of the one before it."""
    right = Desk.send

    def send(desk: Desk, moment: int, kind: bytes, fields: Values, note: Note = None) -> None:
        right(desk, moment, kind, fields, note)
        if kind in (b"R", b"S"):
            desk.sent[-1][3] = (34, b"%d" % (len(desk.sent) - 1))

    return Desk, "send", send


WRONG: dict[str, Callable[[], Planted]] = {
    make.__name__: make
    for make in (
        drops_say_withdrawn,
        refused_hits_are_not_answered,
        passes_are_not_answered,
        posts_are_not_relayed,
        sweeps_leave_rooms_open,
        investors_count_all_trades,
        dealers_count_all_trades,
        answers_are_late,
        full_books_close_later,
        hits_of_a_replaced_quote_take_the_new_one,
        hits_of_no_quote_take_the_last_one,
        covers_are_the_worst,
        cancels_of_all_take_one_quote,
        expiries_are_told_twice,
        declines_are_not_told,
        passes_leave_requests_open,
        refusals_close_requests,
        declines_overtake_quotes,
        withdrawals_are_not_told,
        withdrawals_take_no_effect,
        replaced_quotes_are_not_told,
        requests_reach_dealers_asked_before,
        the_first_dealers_are_asked,
        identifiers_may_have_a_bar,
        rejects_repeat_too_much,
        rejects_are_heartbeats,
        refusals_of_rooms_are_noted,
        numbers_are_those_of_answers,
    )
}


@contextmanager
def planted(name: str) -> Iterator[None]:
    """The wrong program of this name stands in the model's place."""
    owner, method, wrong = WRONG[name]()
    had = method in owner.__dict__
    right = getattr(owner, method)
    setattr(owner, method, wrong)
    try:
        yield
    finally:
        if had:
            setattr(owner, method, right)
        else:
            delattr(owner, method)
