"""Asks the model for the laws that matter first to a firm: that it is answered, told in time, and once.

Each law goes over a day that was played (`watched.py`) and gives what breaks it. `wrong_venues.py` has a
wrong program for each, which the law has to find.
"""

from __future__ import annotations

from collections import Counter
from collections.abc import Callable, Iterator
from typing import TypeGuard

from .configuration import Configuration
from .days import Day
from .dealer import COVER
from .frames import read_frame, write_frame
from .watched import AWAITED, Award, Turns, WatchedVenue, played

Fields = dict[int, bytes]
Law = Callable[[WatchedVenue, Turns], Iterator[str]]
TYPES = (b"3", b"AI", b"R", b"AJ", b"AG", b"S")
HEADER = [35, 49, 56, 34, 52]
ADDED = (1181, 60)  # what the wire adds to each message
MOST_WIRE_BODY, MOST_TOLD = 3_800, 200


def fields_of(message: list[tuple[int, bytes]]) -> Fields:
    """The first value of each tag."""
    fields: Fields = {}
    for tag, value in message:
        fields.setdefault(tag, value)
    return fields


def sent_to(venue: WatchedVenue, firm: int) -> list[Fields]:
    return [fields_of(message) for message in venue.desks[firm].sent]


def dealers(configuration: Configuration) -> range:
    return range(len(configuration.dealers))


def investors(configuration: Configuration) -> range:
    return range(len(configuration.dealers), len(configuration.firms))


# ---------------------------------------------------------------- trades


def withdrawn_is_not_traded(venue: WatchedVenue, _turns: Turns) -> Iterator[str]:
    """What is confirmed as withdrawn (297=17), or was replaced, is never traded."""
    gone: set[tuple[int, int]] = set()
    for dealer in dealers(venue.configuration):
        sent = sent_to(venue, dealer)
        confirmed = {m.get(117) for m in sent if m[35] == b"AI" and m.get(297) == b"17"}
        told = {m.get(117) for m in sent if m[35] == b"AJ" and m[694] == b"1"}
        for quote in venue.dealer_desk(dealer).quotes:
            if quote.id in confirmed or quote.ended == "replaced":
                gone.add((dealer, quote.q))
                if quote.id in told:
                    yield "694=1 of %r" % quote.id
    for investor in investors(venue.configuration):
        shown = venue.investor_desk(investor).shown
        for m in sent_to(venue, investor):
            if m[35] == b"AI" and 693 in m and m[297] == b"0":
                if shown[int(m[117][1:]) - 1].word in gone:
                    yield "297=0 of %r" % m[117]


def trades_have_a_time(venue: WatchedVenue, turns: Turns) -> Iterator[str]:
    """A trade's moment is its hit's, before deadline and validity, and both messages bear it."""
    for award in venue.awards:
        until = award.won.until
        if award.moment >= venue.rooms[award.room].asked().deadline:
            yield "a hit at or behind its deadline"
        if until is not None and until <= award.moment:
            yield "a hit at or behind the quote's validity"
        if turns is Turns.AS_DRAWN:
            continue
        answers, notices = told_of_trade(venue, award)
        if [m[52] for m in answers + notices] != [venue.stamp(award.moment)] * 2:
            yield "two times of one trade"


def told_of_trade(venue: WatchedVenue, award: Award) -> tuple[list[Fields], list[Fields]]:
    """The answers 297=0 of a trade to its investor, and the notices 694=1 of it to its dealer."""
    investor, n = award.room
    request = venue.dealer_desk(award.won.dealer).request_in(award.room)
    assert request is not None
    id = venue.investor_desk(investor).requests[n - 1].id
    answers = [m for m in sent_to(venue, investor) if is_answer(m) and m[131] == id]
    sent = sent_to(venue, award.won.dealer)
    return answers, [m for m in sent if is_notice(m, b"R%d" % request.k)]


def trades_are_of_the_quote_hit(venue: WatchedVenue, turns: Turns) -> Iterator[str]:
    """A message hit the quote of a trade at its moment, and both sides are told of that quote."""
    for award in venue.awards:
        investor, _ = award.room
        if award.won.word != award.word or (investor, award.moment, award.word) not in venue.hits:
            yield "an award of %r without its hit" % (award.won.word,)
        if turns is Turns.AS_DRAWN:
            continue
        answers, notices = told_of_trade(venue, award)
        shown = [b"Q%d" % s.k for s in venue.investor_desk(investor).shown if s.word == award.word]
        dealer, q = award.word
        own = venue.dealer_desk(dealer).quotes[q - 1].id
        if [m.get(117) for m in answers] != shown or [m.get(117) for m in notices] != [own]:
            yield "told of other quotes than %r" % (award.word,)


def covers_are_the_best(venue: WatchedVenue, _turns: Turns) -> Iterator[str]:
    """The cover of an award is the first posted of the best quotes of the other dealers."""
    for award in venue.awards:
        room = venue.rooms[award.room]  # an ended room keeps its book
        covers = [dealer for dealer, close in room.notices if close == COVER]
        others = [quote for quote in room.book if quote.dealer != award.won.dealer]
        prices = [quote.ticks if room.asked().side == 1 else -quote.ticks for quote in others]
        if covers != [others[prices.index(min(prices))].dealer for _ in others[:1]]:
            yield "covers %r" % covers


def is_answer(m: Fields) -> bool:
    return m[35] == b"AI" and 693 in m and m[297] == b"0"


def is_notice(m: Fields, request: bytes) -> bool:
    return m[35] == b"AJ" and m[694] == b"1" and m[131] == request


def trades_have_one_name(venue: WatchedVenue, turns: Turns) -> Iterator[str]:
    """The line of a trade on each side has one name, and no other line has it."""
    if turns is Turns.AS_DRAWN:
        return
    printed = Counter(
        line.split(b" ")[-1]
        for desk in venue.desks
        for number in range(1, len(desk.sent) + 1)
        if is_trade(line := desk.note_line(number))
    )
    for award in venue.awards:
        answers, notices = told_of_trade(venue, award)
        names = [name_behind(venue, award.room[0], m) for m in answers]
        names += [name_behind(venue, award.won.dealer, m) for m in notices]
        if len(names) != 2 or names[0] != names[1] or printed[names[0]] != 2:
            yield "names %r of one trade" % names
    if sum(printed.values()) != 2 * len(venue.awards):
        yield "%d lines of %d trades" % (sum(printed.values()), len(venue.awards))


def is_trade(line: bytes | None) -> TypeGuard[bytes]:
    return line is not None and line.startswith(b"trade ")


def name_behind(venue: WatchedVenue, firm: int, m: Fields) -> bytes:
    """The name in the line of a trade that stands behind a message, or nothing."""
    line = venue.desks[firm].note_line(int(m[34]))
    return line.split(b" ")[-1] if is_trade(line) else b""


# ---------------------------------------------------------------- answers


def responses_are_answered(venue: WatchedVenue, turns: Turns) -> Iterator[str]:
    """Each hit and each pass is answered, in order."""
    for investor in investors(venue.configuration):
        answers = [
            (m[693], m[52], m.get(117))
            for m in sent_to(venue, investor)
            if m[35] == b"AI" and 693 in m and m[297] != b"9"
        ]
        left = venue.responses[investor]
        if answers != (left[: len(answers)] if turns is Turns.AS_DRAWN else left):
            yield "answers %r to %r" % (answers, left)


def messages_are_answered(venue: WatchedVenue, turns: Turns) -> Iterator[str]:
    """A message in its turn is answered by one message, or leaves what is awaited."""
    for taken in venue.taken:
        awaited = [name for name in taken.left if name in AWAITED]
        allowed = [(1, 0), (0, 1)] if taken.used_number else [(0, 0), (1, 0)]
        if (taken.sent, len(awaited)) not in allowed:
            yield "%d messages and %r" % (taken.sent, taken.left)
    for cancel in venue.cancels if turns is Turns.LIVE else []:
        reports = sent_to(venue, cancel.dealer)[cancel.at : cancel.at + cancel.droppable]
        at = venue.stamp(cancel.moment)
        if [(m.get(297), m[52]) for m in reports] != [(b"17", at)] * cancel.droppable:
            yield "a cancel of all without its reports"


def requests_are_shown(venue: WatchedVenue, turns: Turns) -> Iterator[str]:
    """Each accepted request is shown once to each dealer that it names."""
    if turns is Turns.AS_DRAWN:
        return
    for investor in investors(venue.configuration):
        for request in venue.investor_desk(investor).requests:
            room = (investor, request.n)
            for dealer in venue.rooms[room].dealers:
                shown = [r for r in venue.dealer_desk(dealer).requests if r.room == room]
                if [r.ask for r in shown] != [request.ask]:
                    yield "a request shown %d times" % len(shown)


def no_other_dealer_is_shown(venue: WatchedVenue, _turns: Turns) -> Iterator[str]:
    """A request is shown to no dealer that it does not name."""
    for dealer in dealers(venue.configuration):
        for request in venue.dealer_desk(dealer).requests:
            asked = venue.asked.get(request.room) if request.room is not None else None
            if asked is None or dealer not in asked.dealers:
                yield "a request shown to dealer %d" % dealer


def the_named_are_asked(venue: WatchedVenue, _turns: Turns) -> Iterator[str]:
    """The dealers that a request asks are those whose names its investor wrote, in their order."""
    for asked in venue.asked.values():
        names = [venue.configuration.firms[dealer].name for dealer in asked.dealers]
        if names != named_by(asked.fields):
            yield "%r asked, and %r named" % (names, named_by(asked.fields))


def named_by(fields: list[tuple[int, bytes]]) -> list[bytes]:
    """The PartyID (448) of each party whose source (447) is D and whose role (452) is 35."""
    parties: list[Fields] = []
    for tag, value in fields:
        if tag == 448:
            parties.append({})
        if tag in (448, 447, 452) and parties:
            parties[-1][tag] = value
    return [party[448] for party in parties if (party.get(447), party.get(452)) == (b"D", b"35")]


def quotes_are_shown(venue: WatchedVenue, turns: Turns) -> Iterator[str]:
    """What an investor was told of a dealer on a request begins what happened at that dealer's desk."""
    for investor in investors(venue.configuration):
        desk = venue.investor_desk(investor)
        for request in desk.requests:
            for dealer in dealers(venue.configuration):
                told = told_of(venue, investor, request.id, dealer)
                happened = happened_at(venue, dealer, (investor, request.n))
                whole = turns is Turns.LIVE or (turns is Turns.ALL and request.is_open())
                if told != (happened if whole else happened[: len(told)]):
                    yield "told %r of %r" % (told, happened)
        expiries = [
            m[131] for m in sent_to(venue, investor) if m[35] == b"AI" and m.get(297) == b"7"
        ]
        swept = [desk.requests[n - 1].id for n in venue.swept[investor]]
        if expiries != (swept[: len(expiries)] if turns is Turns.AS_DRAWN else swept):
            yield "297=7 of %r, swept %r" % (expiries, swept)


def ended_requests_are_closed(venue: WatchedVenue, turns: Turns) -> Iterator[str]:
    """A request that is closed at its investor's desk has a room that ended; all done, each such is."""
    for (investor, n), room in venue.rooms.items():
        closed = not venue.investor_desk(investor).requests[n - 1].is_open()
        ended = room.phase == "ended"
        if closed and not ended or ended and not closed and turns is not Turns.AS_DRAWN:
            yield "request %d: closed %r, its room ended %r" % (n, closed, ended)


def told_of(venue: WatchedVenue, investor: int, request: bytes, dealer: int) -> list[object]:
    """What an investor was told of a dealer on a request, in order."""
    told: list[object] = []
    name = venue.configuration.firms[dealer].name
    words = {b"Q%d" % quote.k: quote.word for quote in venue.investor_desk(investor).shown}
    for m in sent_to(venue, investor):
        if m.get(131) != request:
            continue
        word = words.get(m.get(117, b""), (-1, -1))
        assert isinstance(word, tuple)
        if m[35] == b"S" and m[448] == name:
            told.append(("Post", word[1], m[52]))
        elif m[35] == b"AI" and m.get(297) == b"17" and word[0] == dealer:
            told.append(("Unpost", word[1], m[52]))
        elif m[35] == b"AI" and m.get(297) == b"11" and m.get(448) == name:
            told.append(("Decline", None, m[52]))
    return told


def happened_at(venue: WatchedVenue, dealer: int, room: tuple[int, int]) -> list[object]:
    """What happened at a dealer's desk on a request; a quote that is replaced is gone first."""
    happened: list[object] = []
    live: int | None = None
    for name, quote, at in venue.at_desk[dealer, room]:
        if name == "Post" and live is not None:
            happened.append(("Unpost", live, at))
        happened.append((name, quote, at))
        if name == "Post":
            live = quote
        elif name == "Unpost" and live == quote:
            live = None
    return happened


# ---------------------------------------------------------------- sweeps and the wire


def nothing_is_overdue(venue: WatchedVenue, _turns: Turns) -> Iterator[str]:
    """A sweep leaves no open request whose deadline has come."""
    yield from venue.overdue


def messages_can_be_carried(venue: WatchedVenue, _turns: Turns) -> Iterator[str]:
    """Each message is a frame of its number and a known type, and the wire can carry it."""
    for desk in venue.desks:
        for number, (message, note) in enumerate(zip(desk.sent, desk.notes, strict=True), 1):
            frame = write_frame(message)
            if read_frame(frame) != message or b"|" in frame:
                yield "bytes %r" % frame
            if message[0][1] not in TYPES or [tag for tag, _ in message[:5]] != HEADER:
                yield "header %r" % frame
            if message[3][1] != b"%d" % number:
                yield "number %d in %r" % (number, frame)
            added = ADDED if note is None else (*ADDED, 58, 1003)
            if any(tag in added for tag, _ in message[5:]):
                yield "a field of the wire in %r" % frame
            if len(frame) + MOST_TOLD > MOST_WIRE_BODY:
                yield "%d bytes" % len(frame)


LAWS: dict[str, Law] = {
    "withdrawn": withdrawn_is_not_traded,
    "responses": responses_are_answered,
    "requests": requests_are_shown,
    "only": no_other_dealer_is_shown,
    "named": the_named_are_asked,
    "quotes": quotes_are_shown,
    "ended": ended_requests_are_closed,
    "messages": messages_are_answered,
    "times": trades_have_a_time,
    "hits": trades_are_of_the_quote_hit,
    "covers": covers_are_the_best,
    "overdue": nothing_is_overdue,
    "carried": messages_can_be_carried,
    "names": trades_have_one_name,
}


def broken(day: Day) -> dict[str, str]:
    """The laws that a day breaks, each with what breaks it first; an exception breaks them all."""
    found: dict[str, str] = {}
    for turns in Turns:
        venue = played(day, turns)
        for name, law in LAWS.items():
            for fault in law(venue, turns):
                found.setdefault(name, "%s: %s" % (turns.value, fault))
                break
    return found
