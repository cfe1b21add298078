"""Plays the venue of a day, and notes what becomes of each message, quote, sweep and hit as it goes.

It plays a day in three ways: as it was drawn, so that duties may be left at its end; with all turns done
after its last line; and line by line, with all turns of a step's actor after the step.
"""

from __future__ import annotations

from collections import defaultdict
from dataclasses import dataclass
from enum import Enum
from typing import Any

from .configuration import Configuration
from .days import Day
from .dealer import HIT, DealerDesk
from .desk import Duty
from .frames import moment_text, read_frame
from .investor import InvestorDesk
from .lines import LineFault, StepReader
from .replay import CLOCK, Venue
from .room import Posted

RoomName = tuple[int, int]  # an investor and the number of its request
AWAITED = ("Hit", "Pass", "Drop")  # the duties by which a message waits for its answer


class Turns(Enum):
    """Which duties of a day are done."""

    AS_DRAWN = "as drawn"
    ALL = "all at the end"
    LIVE = "all behind each step"


@dataclass
class Taken:
    """A message that came to a desk: what was sent at once, and which duties it left."""

    used_number: bool
    sent: int
    left: list[str]


@dataclass
class Asked:
    """A request that was accepted: whom it asks, and the fields of the message that it came in."""

    dealers: list[int]
    fields: list[tuple[int, bytes]]


@dataclass
class CancelOfAll:
    """A cancel of all quotes: of how many, and where the dealer's next message stood."""

    dealer: int
    droppable: int
    moment: int
    at: int


@dataclass
class Award:
    """A hit that was awarded: the word that was hit, and the quote that won."""

    room: RoomName
    word: tuple[int, int]
    moment: int
    won: Posted


class WatchedVenue(Venue):
    def __init__(self, configuration: Configuration) -> None:
        super().__init__(configuration)
        self.taken: list[Taken] = []
        self.asked: dict[RoomName, Asked] = {}
        self.responses: dict[int, list[tuple[bytes, bytes, bytes | None]]] = defaultdict(list)
        self.at_desk: dict[tuple[int, RoomName], list[tuple[str, int | None, bytes]]] = defaultdict(
            list
        )
        self.swept: dict[int, list[int]] = defaultdict(list)
        self.cancels: list[CancelOfAll] = []
        self.hits: set[tuple[int, int, object]] = set()
        self.awards: list[Award] = []
        self.overdue: list[str] = []

    def stamp(self, moment: int) -> bytes:
        return moment_text(self.configuration.date, moment)

    def came(self, firm: int, moment: int, data: bytes) -> None:
        desk = self.desks[firm]
        self.note_hit(firm, moment, data)
        sent, expected, waiting = len(desk.sent), desk.inbox.expected, len(self.queues[firm])
        droppable = 0
        if isinstance(desk, DealerDesk):
            droppable = sum(quote.is_droppable() for quote in desk.quotes)
        super().came(firm, moment, data)
        duties = self.queues[firm][waiting:]
        names = [str(duty[0]) for duty in duties]
        self.taken.append(Taken(desk.inbox.expected != expected, len(desk.sent) - sent, names))
        for duty in duties:
            if duty[0] == "Open":
                self.asked[duty[1]] = Asked(duty[3], read_frame(data) or [])
            self.note_duty(firm, duty, moment)
        if "Drop" in names:
            self.cancels.append(CancelOfAll(firm, droppable, moment, len(desk.sent)))

    def note_hit(self, firm: int, moment: int, data: bytes) -> None:
        """Notes the word that a message names, of a quote that was shown before the message came."""
        desk, fields = self.desks[firm], dict(read_frame(data) or [])
        if isinstance(desk, InvestorDesk):
            for quote in desk.shown:
                if fields.get(117) == b"Q%d" % quote.k:
                    self.hits.add((firm, moment, quote.word))

    def note_duty(self, firm: int, duty: Duty, moment: int) -> None:
        name, *rest = duty
        at = self.stamp(moment)
        if name == "Hit":
            self.responses[firm].append((rest[1][0], at, b"Q%d" % rest[1][1]))
        elif name == "Pass":
            self.responses[firm].append((rest[1][0], at, None))
        elif name in ("Post", "Unpost", "Decline"):
            quote = None if name == "Decline" else rest[1]
            self.at_desk[firm, rest[0]].append((name, quote, at))

    def do_drop(self, dealer: int, last: int, moment: int) -> list[Duty]:
        duties = super().do_drop(dealer, last, moment)
        for duty in duties:
            if duty[0] == "Unpost":
                self.note_duty(dealer, duty, moment)
        return duties

    def do_hit(
        self,
        investor: int,
        room: RoomName,
        response: tuple[bytes, int],
        word: tuple[int, int],
        moment: int,
    ) -> list[Duty]:
        duties = super().do_hit(investor, room, response, word, moment)
        if self.rooms[room].phase == "ended" and any(duty[0] == "Tell" for duty in duties):
            winner = next(dealer for dealer, close in self.rooms[room].notices if close == HIT)
            won = next(quote for quote in self.rooms[room].book if quote.dealer == winner)
            self.awards.append(Award(room, word, moment, won))
        return duties

    def expire(self, investor: int, n: int, moment: int) -> None:
        room = self.rooms.get((investor, n))
        was_open = room is not None and room.phase == "open"
        super().expire(investor, n, moment)
        if room is None:
            return
        if was_open and room.phase == "ended":
            self.swept[investor].append(n)
        if room.phase == "open" and room.asked().deadline <= moment:
            self.overdue.append("room %d %d" % (investor, n))


def steps_of(day: Day) -> list[tuple[Any, ...]]:
    reader, steps = StepReader(day.configuration), []
    for line in day.lines:
        try:
            steps += reader.steps(line)
        except LineFault:
            continue
    return steps


def played(day: Day, turns: Turns) -> WatchedVenue:
    venue = WatchedVenue(day.configuration)
    for kind, *step in steps_of(day):
        if kind == "turn":
            count = 0 if turns is Turns.LIVE else step[1]
            for _ in range(count):
                if not venue.turn(step[0]):
                    break
            continue
        getattr(venue, kind)(*step)
        if turns is Turns.LIVE:
            exhaust(venue, CLOCK if kind == "expire" else step[0])
    if turns is Turns.ALL:
        while any([exhaust(venue, actor) for actor in list(venue.queues)]):
            pass
    return venue


def exhaust(venue: Venue, actor: int | str) -> bool:
    """Does all duties of an actor; whether it had one."""
    if not venue.turn(actor):
        return False
    while venue.turn(actor):
        pass
    return True
