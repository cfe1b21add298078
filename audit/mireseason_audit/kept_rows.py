"""Makes what a firm's session keeps of what is sealed and of what the venue gave: docs/RECOVERY.md has the rules. Since form 6 no table
has it.
"""

from collections.abc import Callable, Iterator, Sequence
from itertools import islice
from typing import NamedTuple

from .frame import frame_of
from .records import SOH, Outgoing
from .session_notes import REJECTS, RESET, Note, SessionNumbers, dropped_in
from .wire import REJECT, carried, parts_of


class Given(NamedTuple):
    """What the venue gave for a firm."""

    number: int
    frame: bytes
    told: bytes | None  # the field that tells what is noted beside it
    moment: str | None  # of the entry that it answers; None where there is none
    came: int | None  # the number that the message of that entry had in its session


GivenFrom = Callable[[int], Iterator[Given]]  # from a number of the venue on, in order


def kept_rows(firm: str, notes: Sequence[Note], given_from: GivenFrom) -> Iterator[Outgoing]:
    """What the session keeps, by its epochs and numbers."""
    session, dropped = SessionNumbers(), dropped_in(notes)
    waiting = given_from(1)
    for note in notes:
        for given in islice(waiting, max(note.given - session.given, 0)):
            yield from given_row(firm, session, given)
        session.take(note)
        if note.kind == RESET:
            yield from copies(firm, session, given_from)
        elif note.kind in REJECTS:
            yield own_row(firm, note, (note.epoch, note.number) in dropped)
    for given in waiting:
        yield from given_row(firm, session, given)


def given_row(firm: str, session: SessionNumbers, given: Given) -> Iterator[Outgoing]:
    """The next message of the venue, if a number is left for it."""
    number = session.next
    session.give(1)
    if session.next > number:
        yield row_of(firm, number, session.given, given, session.epoch)


def copies(firm: str, session: SessionNumbers, given_from: GivenFrom) -> Iterator[Outgoing]:
    """What a session has under other numbers since a reset."""
    for run in session.runs:
        for at, given in enumerate(islice(given_from(run.given), run.length)):
            row = row_of(firm, run.number + at, run.given + at, given, session.epoch)
            yield row._replace(copy=1)


def row_of(firm: str, number: int, due: int, given: Given, epoch: int) -> Outgoing:
    """The message of the venue that is due, under a number of the session; what is no frame stands as it is."""
    parts = parts_of(given.frame)
    data, kind = given.frame, ""
    if parts is not None:
        kind = parts.kind.decode("utf-8", "backslashreplace")
        told = b"" if given.told is None else SOH + given.told
        came = given.came if parts.kind == REJECT else None
        data = frame_of(b"35=" + parts.kind + carried(parts, came, told) + SOH)
    return Outgoing(firm, number, due, data, epoch, 0, 0, kind, given.moment)


def own_rows(firm: str, notes: Sequence[Note]) -> Iterator[Outgoing]:
    """Of what the session keeps, what carries nothing of the venue's: its Rejects."""
    dropped = dropped_in(notes)
    for note in notes:
        if note.kind in REJECTS:
            yield own_row(firm, note, (note.epoch, note.number) in dropped)


def own_row(firm: str, note: Note, is_dropped: bool) -> Outgoing:
    """A Reject of the session's own, by its note."""
    data = frame_of(b"35=%b" % note.kind.encode() + SOH + note.fields)
    number, moment = note.number, note.moment
    return Outgoing(firm, number, None, data, note.epoch, 0, int(is_dropped), note.kind, moment)
