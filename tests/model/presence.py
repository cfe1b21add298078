"""Two days that differ in what the other dealers do, and in which quotes hits name.

Behind each step that both have, the same requests have been awarded to the same dealers. Then what was due to
one dealer has to be one list in both, and what it was sent the same bytes, except for who was the cover (694=4
or 5 of a closing notice). A live day does all turns of a step's actor behind the step. Where turns are done as
they were drawn, the same messages have left a hit, too.
"""

from __future__ import annotations

from typing import Any

from .configuration import Configuration
from .days import Day, Draw
from .dealer import COVER, DONE_AWAY, DealerDesk
from .desk import price_tag
from .frames import moment_text, read_frame, write_frame
from .prices import price_text
from .replay import CLOCK, Item
from .watched import RoomName, WatchedVenue, exhaust, steps_of

Step = tuple[Any, ...]
Aim = tuple[int, bytes, int]  # of a hit: the dealer, its QuoteID, and the investor's request
Pair = tuple[WatchedVenue, WatchedVenue]
Stand = tuple[tuple[tuple[RoomName, int], ...], dict[int, int]]
MIDDLE = 25_472  # a price in 256ths, about which the other dealers' lie


class Run:
    """A day that goes on step by step: live, or with turns as they were drawn."""

    def __init__(self, configuration: Configuration, live: bool) -> None:
        self.venue = WatchedVenue(configuration)
        self.live = live
        self.behind: dict[int, Stand] = {}  # where it stood behind each step, by the step's place

    def step(self, kind: str, *step: Any) -> None:
        if kind != "turn":
            getattr(self.venue, kind)(*step)
            if self.live:
                exhaust(self.venue, CLOCK if kind == "expire" else step[0])
        elif not self.live:
            for _ in range(step[1]):
                if not self.venue.turn(step[0]):
                    break

    def note(self, place: int) -> None:
        """Notes what was awarded to whom, and, unless the day is live, how many hits each investor left."""
        awards = tuple((award.room, award.word[0]) for award in self.venue.awards)
        hits = {
            firm: sum(quote is not None for _, _, quote in responses)
            for firm, responses in self.venue.responses.items()
        }
        self.behind[place] = (awards, {} if self.live else hits)


def value(message: list[tuple[int, bytes]], tag: int) -> bytes | None:
    return next((found for other, found in message if other == tag), None)


def changed(data: bytes, tag: int, new: bytes) -> bytes:
    message = read_frame(data)
    if message is None:
        return data
    return write_frame([(other, new if other == tag else old) for other, old in message])


def is_hit(data: bytes) -> bool:
    message = read_frame(data)
    return message is not None and value(message, 35) == b"AJ" and value(message, 694) == b"1"


def first_day(
    configuration: Configuration, steps: list[Step], live: bool
) -> tuple[Run, list[Aim | None]]:
    """The day as it was drawn, and at which quote each step aims that is a hit."""
    run = Run(configuration, live)
    aims: list[Aim | None] = []
    for place, (kind, *step) in enumerate(steps):
        aim: Aim | None = None
        if kind == "came" and not configuration.is_dealer(step[0]) and is_hit(step[2]):
            quote = run.venue.investor_desk(step[0]).quote(
                value(read_frame(step[2]) or [], 117) or b""
            )
            if quote is not None and isinstance(quote.word, tuple):
                dealer, q = quote.word
                id = run.venue.dealer_desk(dealer).quotes[q - 1].id
                aim = (dealer, id, quote.request.n)
        aims.append(aim)
        run.step(kind, *step)
        run.note(place)
    return run, aims


def aimed(venue: WatchedVenue, investor: int, data: bytes, aim: Aim) -> bytes:
    """A hit of the same quote, by the number under which it was shown here."""
    dealer, id, n = aim
    for quote in venue.investor_desk(investor).shown:
        if quote.request.n == n and isinstance(quote.word, tuple) and quote.word[0] == dealer:
            if venue.dealer_desk(dealer).quotes[quote.word[1] - 1].id == id:
                return changed(data, 117, b"Q%d" % quote.k)
    return changed(data, 117, b"Q9999")


def new_quote(draw: Draw, venue: WatchedVenue, firm: int, moment: int) -> bytes | None:
    """A quote of another dealer on a request that is open for it, if there is one."""
    desk, row, date = (
        venue.dealer_desk(firm),
        venue.configuration.firms[firm],
        venue.configuration.date,
    )
    open_yet = [request for request in desk.requests if request.closed is None]
    if not open_yet:
        return None
    request = draw.choice(open_yet)
    ticks = MIDDLE + draw.randint(-3, 3) * (256 // request.ask.grid)
    return write_frame(
        [
            (35, b"S"),
            (49, row.name),
            (56, b"VENUE"),
            (34, b"%d" % desk.inbox.expected),
            (52, moment_text(date, moment)),
            (50, row.traders[0]),
            (117, b"x%d" % draw.randrange(10**9)),
            (131, b"R%d" % request.k),
            (48, request.ask.bond),
            (22, b"4"),
            (price_tag(request.ask.side), price_text(ticks)),
        ]
    )


def second_day(
    draw: Draw, first: Run, steps: list[Step], aims: list[Aim | None], dealer: int
) -> Run:
    """The same steps, but for those of the other dealers: some are left out, and others put in."""
    configuration = first.venue.configuration
    run = Run(configuration, first.live)
    left_out, put_in = draw.choice([0, 0.1, 0.3, 0.7]), draw.choice([0.1, 0.4])
    others = [firm for firm in range(len(configuration.dealers)) if firm != dealer]
    for place, ((kind, *step), aim) in enumerate(zip(steps, aims, strict=True)):
        if kind != "expire" and step[0] in others:
            if draw.random() < left_out:
                continue
            if kind == "came":
                desk = run.venue.desks[step[0]]
                step = [step[0], step[1], changed(step[2], 34, b"%d" % desk.inbox.expected)]
        if aim is not None:
            step = [step[0], step[1], aimed(run.venue, step[0], step[2], aim)]
        if others and kind == "came" and draw.random() < put_in:
            firm = draw.choice(others)
            quote = new_quote(draw, run.venue, firm, step[1])
            if quote is not None:
                run.step("came", firm, step[1], quote)
                run.step("turn", firm, draw.randint(0, 3))
        run.step(kind, *step)
        run.note(place)
    return run


def pair_of(seed: int, live: bool = True) -> tuple[int, Pair] | None:
    """A dealer, and two days in which the same hits are awarded to the same dealers; or none."""
    draw = Draw(seed)
    day = Day(draw, length=draw.choice([40, 80]))
    configuration = day.configuration
    if len(configuration.dealers) < 2 or not configuration.investors:
        return None
    dealer = draw.randrange(len(configuration.dealers))
    steps = steps_of(day)
    one, aims = first_day(configuration, steps, live)
    other = second_day(draw, one, steps, aims, dealer)
    if any(one.behind[place] != stand for place, stand in other.behind.items()):
        return None
    return dealer, (one.venue, other.venue)


def blurred(due: list[Item]) -> list[Item]:
    """A list without who was the cover."""
    covers = (COVER, DONE_AWAY)
    return [
        (*item[:2], COVER, *item[3:]) if item[0] == "closed" and item[2] in covers else item
        for item in due
    ]


def blurred_sent(desk: DealerDesk) -> list[list[tuple[int, bytes]]]:
    return [
        [(tag, b"4" if (tag, text) == (694, b"5") else text) for tag, text in message]
        for message in desk.sent
    ]


def told_apart(dealer: int, pair: Pair) -> str | None:
    """How a dealer can tell the two days apart, if it can."""
    one, other = pair
    if blurred(one.due[dealer]) != blurred(other.due[dealer]):
        return "the lists differ"
    if blurred_sent(one.dealer_desk(dealer)) != blurred_sent(other.dealer_desk(dealer)):
        return "the messages differ"
    return None
