"""Reads from the messages that the firms are still to be sent what the rooms will do: who quotes yet, what is answered, how
each ends.
"""

from .actions import Inboxes, Message, RoomName, Threads
from .configuration import Configuration
from .frames import moment_text
from .replay import CLOCK

STOOD = ("Awarded", "Expired", "Withdrawn")  # replies to a hit of a quote that stood in its room


class Foretold:
    """What each firm was sent in all, read from a moment of the day onwards."""

    def __init__(
        self, configuration: Configuration, inboxes: Inboxes, wanted: list[list[Message]]
    ) -> None:
        self.configuration, self.wanted = configuration, wanted
        self.sellers = [
            {message.value(117): message.value(448) for message in sent if message.kind == b"S"}
            for sent in wanted
        ]
        self.requests = [[each.value(131) for each in sent if accepts(each)] for sent in wanted]
        self.sweeps: dict[RoomName, list[tuple[int, int]]] = {}  # the place of each, and its moment
        for place, (_, investor, n, moment) in enumerate(inboxes[CLOCK]):
            self.sweeps.setdefault((investor, n), []).append((place, moment))

    def later(self, venue: Threads, firm: int) -> list[Message]:
        """What a firm is still to be sent."""
        return self.wanted[firm][len(venue.sent(firm)) :]

    def own(self, venue: Threads, firm: int) -> Message | None:
        """What a firm is sent next by an action of its own."""
        later = self.later(venue, firm)
        if self.configuration.is_dealer(firm):
            return next((each for each in later if each.kind in (b"AI", b"3")), None)
        own = (each for each in later if not expires(each) and self.seller(firm, each) is None)
        return next(own, None)

    def seller(self, investor: int, message: Message) -> bytes | None:
        """The dealer of whose quote or decline a message tells its investor; None where it tells of none."""
        if message.kind == b"S" or declines(message):
            return message.value(448)
        is_gone = message.value(297) == b"17" and message.value(693) is None
        return self.sellers[investor].get(message.value(117)) if is_gone else None

    def is_accepted(self, room: RoomName) -> bool:
        """Whether the request of a room is accepted on this day at all."""
        return room[1] <= len(self.requests[room[0]])

    def of_request(self, venue: Threads, room: RoomName) -> list[Message]:
        """What the investor of a room is still to be sent about its request."""
        if not self.is_accepted(room):
            return []
        investor, n = room
        name = self.requests[investor][n - 1]
        return [each for each in self.later(venue, investor) if each.value(131) == name]

    def of_dealer(self, venue: Threads, room: RoomName, dealer: int) -> list[Message]:
        """What it is still to be sent of a dealer's quotes on it, and of its decline."""
        name = self.configuration.firms[dealer].name
        return [each for each in self.of_request(venue, room) if self.seller(room[0], each) == name]

    def answers(self, venue: Threads, room: RoomName) -> list[Message]:
        """What it is still to be answered of its hits and passes, but for what its next duty answers."""
        answers = [each for each in self.of_request(venue, room) if each.value(693) is not None]
        is_next = any(duty[:2] == ("Answer", room) for duty in venue.queues[room[0]])
        return answers[is_next:]

    def replies(self, venue: Threads, room: RoomName, word: tuple[int, int]) -> list[str]:
        """How the hits of a quote are still to be answered."""
        shown = venue.investor_desk(room[0]).shown
        names = [b"Q%d" % quote.k for quote in shown if quote.word == word]
        return [reply_of(each) for each in self.answers(venue, room) if each.value(117) in names]

    def expiry(self, venue: Threads, room: RoomName) -> bytes | None:
        """The SendingTime of the message that the request has expired."""
        return next((each.sending for each in self.of_request(venue, room) if expires(each)), None)

    def notice(self, venue: Threads, room: RoomName, dealer: int) -> bytes | None:
        """694 of the closing notice to a dealer of a room that is open."""
        request = venue.dealer_desk(dealer).request_in(room)
        if request is None:
            return None
        notices = (
            each.value(694)
            for each in self.later(venue, dealer)
            if each.kind == b"AJ" and each.value(131) == b"R%d" % request.k
        )
        return next(notices, None)

    def sweeps_left(self, venue: Threads, room: RoomName, since: int = 0) -> list[bytes]:
        """The moments, as a SendingTime has them, of the sweeps of a room that are still to come, from a moment on."""
        date, taken = self.configuration.date, venue.taken[CLOCK]
        return [
            moment_text(date, moment)
            for place, moment in self.sweeps.get(room, [])
            if place >= taken and moment >= since
        ]


def accepts(message: Message) -> bool:
    """Whether a message accepts a request, where it is an investor's."""
    is_answer = message.value(693) is not None
    return message.kind == b"AI" and message.value(297) == b"0" and not is_answer


def declines(message: Message) -> bool:
    return message.value(297) == b"11" and message.value(448) is not None


def expires(message: Message) -> bool:
    return message.value(297) == b"7" and message.value(693) is None


def reply_of(answer: Message) -> str:
    """What a room replied to a hit or a pass, by its answer."""
    if answer.value(297) == b"0":
        return "Awarded"
    return "Passed" if answer.value(297) == b"11" else (answer.value(58) or b"").decode()
