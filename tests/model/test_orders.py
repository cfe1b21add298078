"""The search for an order of a day on threads: it finds one if there is one, and none if there is none."""

from collections.abc import Callable
from itertools import product
from typing import NamedTuple

import pytest

from tests.model.actions import Inboxes, Message
from tests.model.configuration import Configuration, read_configuration
from tests.model.days import Draw
from tests.model.lawful import Run, day_of, inboxes_of
from tests.model.scheduled import Ending, endings, scheduled, small_day

MOST_STATES = 1500  # of a small day
LOOKED_AT = 4  # of its endings
DAYS = 10  # whose changed runs are counted

Change = Callable[[Draw, Ending, list[Message], int], None]  # of one firm's messages, at a place


class Small(NamedTuple):
    """A small day, and all that the firms may be sent on it."""

    configuration: Configuration
    inboxes: Inboxes
    endings: set[Ending]

    def is_found(self, ending: Ending) -> bool:
        """Whether the search finds an order with this ending."""
        run = Run(self.configuration, self.inboxes, [list(sent) for sent in ending])
        try:
            run.venue()
        except ValueError as fault:
            assert str(fault) == "no order of its actions gives these messages"
            return False
        return True


def small(draw: Draw) -> Small:
    """The first day drawn that has few states."""
    for _ in range(100):
        head, lines = small_day(draw)
        configuration = read_configuration("\n".join(head).encode())
        inboxes = inboxes_of(configuration, lines)
        found = endings(configuration, inboxes, MOST_STATES)
        if found is not None and any(map(any, found)):
            return Small(configuration, inboxes, found)
    raise AssertionError("no small day was drawn")


def some_of(draw: Draw, day: Small) -> list[Ending]:
    """Some of the endings of a day."""
    return draw.sample(sorted(day.endings), min(LOOKED_AT, len(day.endings)))


# ---------------------------------------------------------------- changes


def doubled(_draw: Draw, _ending: Ending, sent: list[Message], at: int) -> None:
    sent.insert(at, sent[at])


def left_out(_draw: Draw, _ending: Ending, sent: list[Message], at: int) -> None:
    del sent[at]


def swapped(_draw: Draw, _ending: Ending, sent: list[Message], at: int) -> None:
    if at > 0:
        sent.insert(at - 1, sent.pop(at))


def exchanged(draw: Draw, ending: Ending, sent: list[Message], at: int) -> None:
    """Another message of the day comes in the place of this one."""
    sent[at] = draw.choice([message for each in ending for message in each])


def altered(draw: Draw, ending: Ending, sent: list[Message], at: int) -> None:
    """A field has a value that it has elsewhere on the day, or one that it has nowhere."""
    message = sent[at]
    place = draw.randrange(len(message.body))
    field = message.body[place]
    others = {
        each for told in ending for other in told for each in other.body if each[0] == field[0]
    }
    new = draw.choice(sorted({*others, (field[0], b"none")} - {field}))
    sent[at] = message._replace(body=(*message.body[:place], new, *message.body[place + 1 :]))


CHANGES: list[Change] = [doubled, left_out, swapped, exchanged, altered]


def changed(draw: Draw, ending: Ending, change: Change) -> Ending:
    """An ending in which one firm's messages are changed."""
    firm = draw.choice([firm for firm, sent in enumerate(ending) if sent])
    sent = list(ending[firm])
    change(draw, ending, sent, draw.randrange(len(sent)))
    return (*ending[:firm], tuple(sent), *ending[firm + 1 :])


# ---------------------------------------------------------------- tests


@pytest.mark.draws(short=20, long=2000)
def test_all_orders_of_a_small_day(drawn: int) -> None:
    """An ending is found if trying every order finds it, and only then: those that come about, and changed ones."""
    draw = Draw(drawn)
    day = small(draw)
    for ending in some_of(draw, day):
        assert day.is_found(ending)
        for change in CHANGES:
            other = changed(draw, ending, change)
            assert day.is_found(other) == (other in day.endings)


def test_changed_runs_are_refused(seed: int) -> None:
    """Or the test above would show nothing of refusals: of each kind there are some."""
    draw, refused = Draw(seed), {change.__name__: 0 for change in CHANGES}
    for _ in range(DAYS):
        day = small(draw)
        for ending, change in product(some_of(draw, day), CHANGES):
            refused[change.__name__] += not day.is_found(changed(draw, ending, change))
    assert all(refused.values()), refused


@pytest.mark.draws(short=40, long=2000)
def test_days_of_many_actions(drawn: int) -> None:
    """An order is found for a day as `PROGRAM day` has it; and none where a firm was sent a message that nobody sends."""
    draw, (head, lines) = Draw(drawn), day_of(drawn)
    configuration = read_configuration("\n".join(head).encode())
    inboxes = inboxes_of(configuration, lines)
    run = Run(configuration, inboxes, scheduled(draw, configuration, inboxes))
    run.venue()
    firm = draw.randrange(len(run.sent))
    run.sent[firm].insert(
        draw.randint(0, len(run.sent[firm])), Message(b"S", b"20250314-09:00:00.000", ())
    )
    with pytest.raises(ValueError, match="no order of its actions"):
        run.venue()
