"""Finds an order of a day's actions that sends each firm what it was sent, or shows that there is none.

Two actions at different places may change places: of an order only that of each actor, each place and
each word matters. The messages tell the order at a desk almost whole, and of a room how it ended and what
became of each hit. So for most actions the search knows when they are due, and it judges each one:

- SAFE: where there is an order at all, there is one in which this action comes next. It is done at once.
- CHOICE: the action may be due now or later. Such actions are tried one by one, where none is safe.
- WAIT: it is not due yet: a firm would be sent something else than comes next, a room would end or
  answer otherwise than was told, or the action can as well be done later.

Each judgement says below why. A state from which no order was found is kept by what is at its places, in
its queues and of its words, and not looked at again.

Who asks for an order plays it on a venue of the model of his own and compares. So a wrong judgement can't
let a wrong day pass; it can refuse a right one, which is what `test_orders.py` looks for.
"""

from dataclasses import dataclass, field
from enum import Enum, auto

from .actions import Inboxes, Message, RoomName, Threads, place_of
from .configuration import Configuration
from .dealer import COVER, DONE_AWAY, EXPIRED, HIT
from .desk import Duty
from .foretold import STOOD, Foretold, reply_of
from .frames import moment_text
from .replay import Actor

MOST_CHOICES = 5_000  # of one search; some ten are enough for a day

AWAY, BEHIND, BEST, LAPSED = (b"%d" % close for close in (DONE_AWAY, COVER, HIT, EXPIRED))  # 694
BRINGS = ("Relay", "Gone", "Declined")  # duties of a dealer that tell the investor something
NOTHING = b"9"  # 297 of the answer to a cancel that found nothing to cancel


class Undecided(RuntimeError):
    """No order was found, and not all were tried."""


class Verdict(Enum):
    """What is to be done with an actor's next action."""

    SAFE = auto()
    CHOICE = auto()
    WAIT = auto()


SAFE, CHOICE, WAIT = Verdict.SAFE, Verdict.CHOICE, Verdict.WAIT


@dataclass
class State:
    """A moment of the day, and the actors whose actions led to it."""

    venue: Threads
    order: list[Actor] = field(default_factory=list)

    def after(self, actor: Actor, then: Threads) -> "State":
        return State(then, [*self.order, actor])


class Search:
    """The search for an order of a day's actions."""

    def __init__(
        self, configuration: Configuration, inboxes: Inboxes, wanted: list[list[Message]]
    ) -> None:
        self.configuration, self.inboxes, self.wanted = configuration, inboxes, wanted
        self.foretold = Foretold(configuration, inboxes, wanted)
        self.choices = 0

    def order(self) -> list[Actor] | None:
        """The actors of an order's actions, one after the other, or None; Undecided where too many were tried."""
        seen: set[str] = set()
        states = [State(Threads(self.configuration, self.inboxes))]
        while states:
            state = self.behind_safe_ones(states.pop())
            if self.is_end(state.venue):
                return state.order
            key = state.venue.key()
            if key not in seen:
                seen.add(key)
                states += self.behind_choices(state)
        return None

    def is_end(self, venue: Threads) -> bool:
        told = [len(venue.sent(firm)) for firm in range(len(self.wanted))]
        return venue.is_done() and told == [len(sent) for sent in self.wanted]

    def behind_safe_ones(self, state: State) -> State:
        """The state where no action is safe any more."""
        moved = True
        while moved:
            moved = False
            for actor in self.inboxes:
                done = len(state.order)
                state = self.as_far_as_safe(state, actor)
                moved |= len(state.order) > done
        return state

    def as_far_as_safe(self, state: State, actor: Actor) -> State:
        """The state behind an actor's next actions, as long as they are safe."""
        verdict, then = self.judged(state.venue, actor)
        while verdict is SAFE:
            state.order.append(actor)
            state = State(then, state.order)
            verdict, then = self.judged(then, actor)
        return state

    def behind_choices(self, state: State) -> list[State]:
        """The states behind each action that may be due now; the first actor's last, which is tried first."""
        tried = [(actor, *self.judged(state.venue, actor)) for actor in self.inboxes]
        found = [state.after(actor, then) for actor, verdict, then in tried if verdict is CHOICE]
        self.choices += len(found)
        if self.choices > MOST_CHOICES:
            raise Undecided("no order was found, and not all were tried")
        return found[::-1]

    # ------------------------------------------------------------ judgements

    def judged(self, venue: Threads, actor: Actor) -> tuple[Verdict, Threads]:
        """Whether an actor's next action is due, and the venue after it."""
        action = venue.next(actor)
        if action is None:
            return WAIT, venue
        then, place = venue.after(actor), place_of(actor, action)
        if place[0] == "room":
            return self.in_room(venue, then, actor, action, place[1]), then
        firm = place[1]
        sent = then.sent(firm)
        if self.wanted[firm][sent.before : len(sent)] != sent.new:
            return WAIT, then
        return self.at_desk(venue, then, action, firm), then

    def at_desk(self, venue: Threads, then: Threads, action: Duty, firm: int) -> Verdict:
        """An action that sends a firm nothing, or what comes next.

        What sends a message is safe: no other actor could send the same, since a firm's own messages, each
        request and its end, and each dealer's quotes are told in messages of their own. Before it, others
        could do only what sends nothing and changes nothing at this desk: what comes to a request that is
        closed. A word that it asks was not yet asked otherwise, or the answer would tell.

        What sends nothing is safe, too, but for a dealer's cancel of all its quotes: that has something to
        cancel now, and may have nothing behind a closing notice.
        """
        if action[0] == "Tell":
            return CHOICE if self.may_follow_a_cancel(venue, then, firm) else SAFE
        if action[0] == "came" and then.queues[firm] and not then.sent(firm).new:
            return CHOICE if self.may_find_nothing(venue, firm) else SAFE
        return SAFE

    def may_follow_a_cancel(self, venue: Threads, then: Threads, dealer: int) -> bool:
        """Whether a closing notice leaves a dealer nothing to cancel, while it has a cancel of all to come."""
        before, behind = (each.dealer_desk(dealer).quotes for each in (venue, then))
        if not any(quote.is_droppable() for quote in before):
            return False
        if any(quote.is_droppable() for quote in behind):
            return False
        coming = self.inboxes[dealer][venue.taken[dealer] :]
        return any(b"\x01298=4\x01" in message for _, _, _, message in coming)

    def may_find_nothing(self, venue: Threads, firm: int) -> bool:
        """Whether a firm is a dealer that is told of an end, and then that there was nothing to cancel."""
        own, later = self.foretold.own(venue, firm), self.foretold.later(venue, firm)
        if not self.configuration.is_dealer(firm) or own is None or own.value(297) != NOTHING:
            return False
        return any(message.kind == b"AJ" for message in later[: later.index(own)])

    # ------------------------------------------------------------ in rooms

    def in_room(
        self, venue: Threads, then: Threads, actor: Actor, action: Duty, room: RoomName
    ) -> Verdict:
        """An action in a room. A room that has ended stays so; one is opened by its investor alone."""
        name = action[0]
        if name in ("Hit", "Pass"):
            return self.response(venue, then, room)
        if name == "Open" or (room in venue.rooms and venue.rooms[room].phase == "ended"):
            return SAFE
        if name == "expire":
            return self.sweep(venue, then, room, action[3])
        if name == "Ready":
            return self.ready(venue, room)
        assert isinstance(actor, int)
        return self.in_book(venue, room, actor, name)

    def in_book(self, venue: Threads, room: RoomName, dealer: int, name: str) -> Verdict:
        """A quote, cancel or decline that comes to a room which has not ended.

        It waits for the hits that find the dealer's earlier quote there. Where the investor is still to be
        told of this dealer, it has to take effect before the end, and is safe: the order of the dealers
        matters to the cover alone, among equal prices, and there only for a last quote that is told 694=5.
        """
        stands = [quote.word for quote in venue.rooms[room].book if quote.dealer == dealer]
        replies = [reply for word in stands for reply in self.foretold.replies(venue, room, word)]
        if any(reply in STOOD for reply in replies):
            return WAIT
        notice = self.foretold.notice(venue, room, dealer)
        told = [message.kind for message in self.foretold.of_dealer(venue, room, dealer)]
        if not told:
            return self.untold(name, notice, "Gone" in replies)
        is_last = name == "Post" and told in ([b"S"], [b"AI", b"S"])
        return CHOICE if is_last and notice == AWAY else SAFE

    @staticmethod
    def untold(name: str, notice: bytes | None, is_missed: bool) -> Verdict:
        """One of which the investor is told nothing: the end came first, or came before the investor heard of it.

        It can as well come behind the end, where it does nothing, unless it matters to the book: to a hit
        that finds the earlier quote gone, or to the cover. A quote holds its dealer up until the investor
        hears of it; one of several that are cancelled at once does not, so it may have to come now.
        """
        if notice in (None, BEST) or name == "Decline":
            return WAIT
        return CHOICE if name == "Unpost" or notice in (BEHIND, AWAY) or is_missed else WAIT

    def response(self, venue: Threads, then: Threads, room: RoomName) -> Verdict:
        """A hit or a pass: safe where its answer is the one that is told, and the end too, if it makes one."""
        investor = room[0]
        (answer,) = then.after(investor).sent(investor).new
        if answer != self.foretold.own(venue, investor):
            return WAIT
        return self.end(then, room) if reply_of(answer) in ("Awarded", "Passed") else SAFE

    def end(self, then: Threads, room: RoomName) -> Verdict:
        """An action that ended a room: safe where each dealer is told this end, and the investor no more of any."""
        for dealer, close in then.rooms[room].notices:
            if self.foretold.notice(then, room, dealer) != b"%d" % close:
                return WAIT
            if not self.is_on_its_way(then, room, dealer):
                return WAIT
        return SAFE

    def is_on_its_way(self, venue: Threads, room: RoomName, dealer: int) -> bool:
        """Whether all that the investor of a room is still told of a dealer is what a duty of the dealer brings."""
        told = [message.kind for message in self.foretold.of_dealer(venue, room, dealer)]
        coming = [duty[0] for duty in venue.queues[dealer] if duty[0] in BRINGS and duty[1] == room]
        if coming == ["Relay"]:
            return told in ([], [b"S"], [b"AI", b"S"])
        return told in ([], [b"AI"]) if coming else not told

    def sweep(self, venue: Threads, then: Threads, room: RoomName, moment: int) -> Verdict:
        """A sweep of a room that has not ended: safe where it does nothing, and is not the one that ends the room."""
        at = moment_text(self.configuration.date, moment)
        is_expiry = self.foretold.expiry(venue, room) == at
        if room in venue.rooms and venue.rooms[room].phase == "open":
            if then.rooms[room].phase == "open":
                return SAFE
            answers = self.foretold.answers(venue, room)
            is_early = any(reply_of(answer) != "NotOpen" for answer in answers)
            return self.end(then, room) if is_expiry and not is_early else WAIT
        if not is_expiry:
            return SAFE
        return CHOICE if self.foretold.sweeps_left(venue, room).count(at) > 1 else WAIT

    def ready(self, venue: Threads, room: RoomName) -> Verdict:
        """A room is opened to hits, and to the sweeps behind its deadline: safe where none is left but the one that ends it."""
        left = self.foretold.sweeps_left(venue, room, venue.rooms[room].asked().deadline)
        notice = self.foretold.notice(venue, room, venue.rooms[room].dealers[0])
        if not left:
            return SAFE
        if notice is None:
            return WAIT
        if notice == LAPSED:
            expiry = self.foretold.expiry(venue, room)
            if left[0] != expiry:
                return WAIT
            if left.count(expiry) == 1:
                return SAFE
        return CHOICE
