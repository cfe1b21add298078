"""Days on threads that the model plays: in one drawn order, or, of a small day, in all orders that there are."""

from collections.abc import Iterator
from itertools import chain

from .actions import Inboxes, Message, Threads, message_of, place_of, played
from .configuration import Configuration
from .days import Draw
from .replay import Actor, Venue

Ending = tuple[tuple[Message, ...], ...]  # what each firm was sent on a day, in their order

BOND = "BONDA0000001"
ASK = "say %s T1 09:00:00 R 131=a%d|146=1|48=BONDA0000001|22=4|54=1|38=1000|126=20250314-09:00:30|453=%d%s"
QUOTE = "say %s T1 09:00:05 S 117=q%d|131=R%d|48=BONDA0000001|22=4|133=%s%s"


def sent_by(venue: Venue) -> list[list[Message]]:
    """What each firm was sent."""
    return [[message_of(fields) for fields in desk.sent] for desk in venue.desks]


# ---------------------------------------------------------------- one order


def drawn_order(draw: Draw, configuration: Configuration, inboxes: Inboxes) -> list[Actor]:
    """An order of a day's actions: each actor goes on for a while, and some are quick and some slow."""
    venue, order = Threads(configuration, inboxes), list[Actor]()
    pace = {actor: draw.random() ** 3 + 0.001 for actor in inboxes}
    stay, actor = draw.of(0.0, 0.0, 0.5, 0.9), next(iter(inboxes))
    while not venue.is_done():
        ready = [each for each in inboxes if venue.next(each) is not None]
        if actor not in ready or not draw.chance(stay):
            (actor,) = draw.choices(ready, [pace[each] for each in ready])
        venue = venue.after(actor)
        order.append(actor)
    return order


def scheduled(draw: Draw, configuration: Configuration, inboxes: Inboxes) -> list[list[Message]]:
    """What each firm is sent on a day whose actions are done in a drawn order."""
    order = drawn_order(draw, configuration, inboxes)
    return sent_by(played(configuration, inboxes, order))


# ---------------------------------------------------------------- all orders


def small_day(draw: Draw) -> tuple[list[str], list[bytes]]:
    """A day of few messages, on which all firms meet in one or two rooms."""
    dealers = ["DLR%d" % n for n in range(1, draw.of(2, 2, 3) + 1)]
    investors = ["INV%d" % n for n in range(1, draw.of(1, 1, 1, 2) + 1)]
    head = ["version = 1", 'date = "20250314"', "[[bond]]", 'id = "%s"' % BOND]
    for name in dealers:
        head += ["[[dealer]]", 'name = "%s"' % name, 'traders = ["T1"]', "quotes = 9"]
        head += ["exposure = %d" % draw.of(1000, 9000)]
    for name in investors:
        head += ["[[investor]]", 'name = "%s"' % name, 'traders = ["T1"]', "requests = 2"]
        head += ["open = %d" % draw.of(1, 2), "quantity = 5000"]
    said = chain(*(asked(draw, name, dealers) for name in investors))
    lines = [*said, *chain(*(offered(draw, name) for name in dealers))]
    if draw.chance(0.4):
        lines += ["clock 09:00:%d" % draw.of(10, 30, 31)] * draw.of(1, 2)
    return head, [line.encode() for line in lines]


def asked(draw: Draw, name: str, dealers: list[str]) -> Iterator[str]:
    """A request or two of an investor, and its hits or passes."""
    for n in range(1, draw.of(1, 1, 2) + 1):
        chosen = draw.sample(dealers, draw.randint(1, len(dealers)))
        parties = "".join("|448=%s|447=D|452=35" % dealer for dealer in chosen)
        yield ASK % (name, n, len(chosen), parties)
    for _ in range(draw.of(0, 1, 1, 2)):
        body = draw.of(*["694=1|117=Q%d" % draw.of(1, 1, 2, 3)] * 3, "694=6|131=a1")
        yield "say %s T1 09:00:10 AJ 693=h|%s" % (name, body)


def offered(draw: Draw, name: str) -> Iterator[str]:
    """Up to two messages of a dealer."""
    for n in range(1, draw.randint(0, 2) + 1):
        until = draw.of("", "", "", "|62=20250314-09:00:10")
        quote = QUOTE % (name, n, draw.of(1, 1, 2), draw.of("99.5", "99.5", "100"), until)
        cancel = "say %s T1 09:00:05 Z 117=q1|298=5" % name
        decline = "say %s T1 09:00:05 AG 131=R1|658=10" % name
        yield draw.of(*[quote] * 5, cancel, *["say %s T1 09:00:05 Z 298=4" % name] * 2, decline)


def endings(configuration: Configuration, inboxes: Inboxes, most: int) -> set[Ending] | None:
    """What the firms may be sent on a day, by trying every order; None where it has more states than `most`."""
    nothing: Ending = ((),) * len(configuration.firms)
    states, seen, ends = [(Threads(configuration, inboxes), nothing)], set(), set()
    while states:
        venue, sent = states.pop()
        if venue.is_done():
            ends.add(sent)
        for state in steps(venue, sent):
            key = (state[0].key(), state[1])
            if key not in seen:
                seen.add(key)
                states.append(state)
        if len(seen) > most:
            return None
    return ends


def steps(venue: Threads, sent: Ending) -> Iterator[tuple[Threads, Ending]]:
    """The states behind each actor's next action, each with what the firms were sent by then."""
    for actor in venue.inboxes:
        action = venue.next(actor)
        if action is None:
            continue
        then, place = venue.after(actor), place_of(actor, action)
        if place[0] == "room":
            yield then, sent
            continue
        new = tuple(then.sent(place[1]).new)
        yield then, (*sent[: place[1]], sent[place[1]] + new, *sent[place[1] + 1 :])
