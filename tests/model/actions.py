"""A day on threads as its actions: each actor takes its messages in order, and after each does its duties.

An actor is a firm, or the clock, which makes its sweeps. An action is one of its duties or, if none is
left, the next message or sweep. It touches one desk or one room, and asks the word of one quote at most.
"""

import copy
import pickle
from collections.abc import Callable
from functools import partial
from typing import Any, Literal, NamedTuple, cast

from .configuration import Configuration
from .dealer import DealerDesk
from .desk import Duty
from .investor import InvestorDesk
from .replay import Actor, Venue, Words

RoomName = tuple[int, int]  # its investor, and the number of the request
DeskOrRoom = tuple[Literal["desk"], int] | tuple[Literal["room"], RoomName]
Inboxes = dict[Actor, list[Duty]]  # the steps of each actor: its messages, or the sweeps of rooms
Fields = list[tuple[int, bytes]]

ROOM_DUTIES = ("Open", "Ready", "Post", "Unpost", "Decline", "Hit", "Pass")
DEALER_DUTIES = ("Show", "Tell")  # their first operand is the dealer
CHANGED = ("inbox", "requests", "quotes", "shown", "notices")  # what an action changes of a desk


class Message(NamedTuple):
    """A message of the venue, but for its number."""

    kind: bytes
    sending: bytes
    body: tuple[tuple[int, bytes], ...]

    def value(self, tag: int) -> bytes | None:
        """The first value of a tag; None where there is none."""
        return next((value for each, value in self.body if each == tag), None)


def message_of(fields: Fields) -> Message:
    return Message(fields[0][1], fields[4][1], tuple(fields[5:]))


def place_of(actor: Actor, action: Duty) -> DeskOrRoom:
    """The desk or the room that an action touches."""
    name, first, *rest = action
    if name == "expire":
        return "room", (first, rest[0])
    if name in ROOM_DUTIES:
        return "room", first
    if name in DEALER_DUTIES:
        return "desk", first
    return "desk", cast(int, actor) if name in ("came", "Drop") else first[0]


class Sent:
    """In the place of a desk's list of messages: how many there were, and those of the last action."""

    def __init__(self, before: int = 0) -> None:
        self.before = before
        self.new: list[Message] = []

    def __len__(self) -> int:
        return self.before + len(self.new)

    def append(self, fields: Fields) -> None:
        self.new.append(message_of(fields))


class Threads(Venue):
    """A venue at a moment of a day on threads. It stays as it is: an action gives another one."""

    def __init__(self, configuration: Configuration, inboxes: Inboxes) -> None:
        super().__init__(configuration)
        self.inboxes = inboxes
        self.taken: dict[Actor, int] = dict.fromkeys(inboxes, 0)
        self.desks = [self.copy_of(firm) for firm in range(len(self.desks))]

    def logged(self, firm: int, act: Callable[[Any], Any]) -> Any:
        return act(self.desks[firm])

    def next(self, actor: Actor) -> Duty | None:
        """The next action of an actor; None where none is left."""
        if self.queues[actor]:
            return self.queues[actor][0]
        return next(iter(self.inboxes[actor][self.taken[actor] : self.taken[actor] + 1]), None)

    def sent(self, firm: int) -> Sent:
        """How many messages a firm was sent, and those of the last action."""
        return cast(Sent, self.desks[firm].sent)

    def is_done(self) -> bool:
        """Whether no action is left."""
        return all(self.next(actor) is None for actor in self.inboxes)

    def after(self, actor: Actor) -> "Threads":
        """The venue after the next action of an actor: another one, which shares with this one what stays."""
        action = self.next(actor)
        assert action is not None
        then = copy.copy(self)
        then.due = {firm: [] for firm in self.due}
        then.words = Words()
        then.words.settled = dict(self.words.settled)
        then.queues = {**self.queues, actor: list(self.queues[actor])}
        then.open_up(place_of(actor, action))
        if self.queues[actor]:
            then.turn(actor)
        else:
            then.taken = {**self.taken, actor: self.taken[actor] + 1}
            kind, *step = action
            getattr(then, kind)(*step)
        return then

    def open_up(self, place: DeskOrRoom) -> None:
        """Puts a copy in the place that is going to change."""
        if place[0] == "desk":
            firm = place[1]
            self.desks = list(self.desks)
            self.desks[firm] = self.copy_of(firm)
            return
        self.rooms = dict(self.rooms)
        if place[1] in self.rooms:
            self.rooms[place[1]] = copy.copy(self.rooms[place[1]])

    def copy_of(self, firm: int) -> DealerDesk | InvestorDesk:
        """A firm's desk, which asks the words of this venue, and has sent nothing since."""
        old = self.desks[firm]
        desk = copy.copy(old)
        changed = {name: value for name, value in vars(old).items() if name in CHANGED}
        vars(desk).update(pickle.loads(pickle.dumps(changed, pickle.HIGHEST_PROTOCOL)))
        desk.sent, desk.notes = cast("list[Fields]", Sent(len(old.sent))), []
        if isinstance(desk, DealerDesk):
            desk.ask_word = partial(self.withdrawn, firm)
        return desk

    def withdrawn(self, firm: int, quote: int) -> str:
        return self.words.withdraw((firm, quote))

    def key(self) -> str:
        """What tells two states apart that sent the firms the same: each was sent as much as the other."""
        rooms = [
            (
                name,
                room.phase,
                [quote.word for quote in sorted(room.book, key=lambda one: one.ticks)],
            )
            for name, room in sorted(self.rooms.items())
        ]
        sent, words = [len(desk.sent) for desk in self.desks], sorted(self.words.settled.items())
        return repr((self.taken, self.queues, sent, rooms, words))


def played(configuration: Configuration, inboxes: Inboxes, order: list[Actor]) -> Venue:
    """A venue of the model after a day's actions in this order, which is that of their actors."""
    venue, steps = Venue(configuration), {actor: iter(inbox) for actor, inbox in inboxes.items()}
    for actor in order:
        if not venue.turn(actor):
            kind, *step = next(steps[actor])
            getattr(venue, kind)(*step)
    assert not any(venue.queues.values()) and not any(list(left) for left in steps.values())
    return venue
