"""The commands but `live`: an input to the lines that are printed."""

import functools
from collections.abc import Iterable, Iterator
from dataclasses import dataclass
from typing import Any, BinaryIO

from .configuration import Configuration
from .desk import Desk
from .inputs import Fault, Part, configuration_of, numbered_lines, parts_of_input, read_head
from .investor_lines import investor_text, is_investor_text, read_investor_text
from .lines import (
    LineFault,
    Step,
    StepReader,
    dealer_blotter,
    due_text,
    investor_blotter,
    message_line,
    numbered,
    read_due_text,
)
from .live import audited
from .replay import Venue, alone, investor_alone, seen_by

DEALER, INVESTOR = "dealer", "investor"


@dataclass(frozen=True)
class Streams:
    """What a command reads, and where it tells of lines that it skips."""

    input: BinaryIO
    errors: BinaryIO


def firm_of(configuration: Configuration, word: bytes, role: str | None = None) -> int:
    """The number of the firm that a word names, which has this role where one is asked."""
    firm = configuration.firm(word)
    if firm is None or (role is not None and configuration.is_dealer(firm) != (role == DEALER)):
        raise Fault("firm: " + word.decode())
    return firm


def role_by(investor: bool) -> str:
    return INVESTOR if investor else DEALER


# ---------------------------------------------------------------- days


def steps_of(configuration: Configuration, part: Part) -> list[Step]:
    reader = StepReader(configuration)
    steps: list[Step] = []
    for number, line in numbered(part.lines, part.first):
        try:
            steps += reader.steps(line)
        except LineFault as fault:
            raise Fault("line %d: %s" % (number, fault.args[0])) from None
    return steps


@functools.lru_cache(maxsize=2)  # several commands may ask for one day
def configured(part: Part) -> Configuration:
    return configuration_of(part.lines)


@functools.lru_cache(maxsize=2)
def replayed(configuration: Configuration, part: Part) -> Venue:
    venue = Venue(configuration)
    for kind, *step in steps_of(configuration, part):
        if kind != "turn":
            getattr(venue, kind)(*step)
            continue
        actor, times = step
        for _ in range(times):
            if not venue.turn(actor):
                break
    return venue


def a_day(
    streams: Streams, live: bool, word: bytes | None = None, role: str | None = None
) -> tuple[Venue, int | None]:
    """The venue after the steps of the input, and the number of the firm that the word names."""
    if live:
        lines = numbered_lines(streams.input)
        configuration = read_head(lines)
        firm = None if word is None else firm_of(configuration, word, role)
        return audited(configuration, lines, streams.errors), firm
    first, second = parts_of_input(streams.input, 2)
    configuration = configured(first)
    firm = None if word is None else firm_of(configuration, word, role)
    return replayed(configuration, second), firm


def two_days(streams: Streams, live: bool, word: bytes, role: str) -> Iterator[tuple[Venue, int]]:
    """Two days, and the firm's number in each."""
    if live:
        lines = numbered_lines(streams.input)
        for last in (False, True):
            configuration = read_head(lines)
            firm = firm_of(configuration, word, role)
            yield audited(configuration, lines, streams.errors, last), firm
        return
    parts = parts_of_input(streams.input, 4)
    for first, second in (parts[:2], parts[2:]):
        configuration = configured(first)
        firm = firm_of(configuration, word, role)
        yield replayed(configuration, second), firm


# ---------------------------------------------------------------- commands: each answers lines


def desk_lines(desk: Desk, frames: bool, notes: bool) -> Iterator[bytes]:
    """The messages that a firm was sent, and where that is asked for, behind each what is noted beside it."""
    for number, fields in enumerate(desk.sent, 1):
        yield message_line(desk.row.name, fields, frames)
        note = desk.note_line(number) if notes else None
        if note is not None:
            yield note


def do_alone(streams: Streams, frames: bool, notes: bool) -> Iterable[bytes]:
    (part,) = parts_of_input(streams.input, 1)
    try:
        desk = desk_alone(part)
    except LineFault as fault:
        raise Fault("line %d: %s" % (fault.args[1], fault.args[0])) from None
    return desk_lines(desk, frames, notes)


def desk_alone(part: Part) -> Desk:
    """The desk of the dealer or of the investor whose due text this is."""
    if is_investor_text(part.lines):
        return investor_alone(*read_investor_text(part.lines, part.first))
    return alone(*read_due_text(part.lines, part.first))


def do_replay(
    streams: Streams, frames: bool, live: bool, notes: bool, word: bytes | None = None
) -> Iterable[bytes]:
    venue, firm = a_day(streams, live or notes, word)
    desks = venue.desks if firm is None else [venue.desks[firm]]
    return [line for desk in desks for line in desk_lines(desk, frames, notes)]


def do_due(streams: Streams, live: bool, investor: bool, word: bytes) -> Iterable[bytes]:
    venue, firm = a_day(streams, live, word, role_by(investor))
    assert firm is not None
    configuration = venue.configuration
    if investor:
        return investor_text(seen_by(configuration, firm), venue.due[firm])
    return due_text(configuration.date, configuration.dealer(firm), venue.due[firm])


def do_dues(streams: Streams, live: bool) -> Iterable[bytes]:
    venue, _ = a_day(streams, live, None)
    configuration = venue.configuration
    for dealer, row in enumerate(configuration.dealers):
        yield from due_text(configuration.date, row, venue.due[dealer])


def do_blotter(streams: Streams, live: bool, word: bytes) -> Iterable[bytes]:
    venue, firm = a_day(streams, live, word)
    assert firm is not None
    if venue.configuration.is_dealer(firm):
        return dealer_blotter(venue.dealer_desk(firm))
    return investor_blotter(venue.investor_desk(firm))


def do_compare(streams: Streams, live: bool, investor: bool, word: bytes) -> Iterable[bytes]:
    days = []
    for venue, firm in two_days(streams, live, word, role_by(investor)):
        configuration = venue.configuration
        row: object = (
            seen_by(configuration, firm)
            if investor
            else (configuration.date, configuration.dealer(firm))
        )
        days.append((row, venue.due[firm], venue.desks[firm].frames()))
    (row_a, due_a, sent_a), (row_b, due_b, sent_b) = days
    yield b"row equal" if row_a == row_b else b"row differs"
    yield difference(b"due equal", b"due differs", due_a, due_b)
    yield difference(b"messages equal", b"messages differ", sent_a, sent_b)


def difference(equal: bytes, differ: bytes, a: list[Any], b: list[Any]) -> bytes:
    for position in range(max(len(a), len(b))):
        if a[position : position + 1] != b[position : position + 1]:
            return b"%s at %d" % (differ, position + 1)
    return equal
