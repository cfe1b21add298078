"""A day of `live`: each line is answered, and leaves nothing to be done."""

from collections.abc import Iterator
from typing import BinaryIO

from .configuration import Configuration
from .desk import Desk
from .inputs import DIVIDER, Fault, numbered_lines, read_head
from .lines import LineFault, StepReader, done_mark, fault_mark, is_said, message_line
from .replay import CLOCK, Actor, Venue

Lines = Iterator[tuple[int, bytes]]
Fields = list[tuple[int, bytes]]


class LiveDay:
    """A venue that takes lines of steps."""

    def __init__(self, configuration: Configuration) -> None:
        self.venue, self.reader = Venue(configuration), StepReader(configuration)

    def answer(self, line: bytes) -> list[tuple[int, Fields]]:
        """Does a line; answers the messages that are sent for it, each with its firm. LineFault changes nothing."""
        if not is_said(line):
            return []
        if line.split(b" ", 1)[0] == b"turn":
            raise LineFault("form")
        for kind, *step in self.reader.steps(line):
            getattr(self.venue, kind)(*step)
            self.do_all(CLOCK if kind == "expire" else step[0])
        sent, self.venue.log = self.venue.log, []
        return sent

    def do_all(self, actor: Actor) -> None:
        while self.venue.turn(actor):
            pass


def sent_lines(desk: Desk, fields: Fields, frames: bool, notes: bool) -> list[bytes]:
    """The line of a message, and where that is asked for, behind it what is noted beside it."""
    note = desk.note_line(int(dict(fields)[34])) if notes else None
    line = message_line(desk.row.name, fields, frames)
    return [line] if note is None else [line, note]


def live(
    stream: BinaryIO, frames: bool, marks: bool, notes: bool, out: BinaryIO, err: BinaryIO
) -> None:
    """Answers each line as soon as it came, before more is read."""
    lines = numbered_lines(stream)
    day = LiveDay(read_head(lines))
    desks = day.venue.desks
    for number, line in lines:
        try:
            sent = day.answer(line)
            mark = done_mark(number, day.venue.first_deadline()) if marks else b""
        except LineFault as fault:
            sent = []
            tell(err, number, fault)
            mark = fault_mark(number, fault.args[0])
        answer = [
            line for firm, fields in sent for line in sent_lines(desks[firm], fields, frames, notes)
        ]
        if marks:
            answer.append(mark)
        if answer:
            out.write(b"".join(line + b"\n" for line in answer))
            out.flush()


def tell(err: BinaryIO, number: int, fault: LineFault) -> None:
    err.write(b"line %d: %s\n" % (number, fault.args[0].encode()))
    err.flush()


def audited(configuration: Configuration, lines: Lines, err: BinaryIO, last: bool = True) -> Venue:
    """The venue after the steps of a day of `live`: of the last part, or of one that a divider ends."""
    day = LiveDay(configuration)
    for number, line in lines:
        if line == DIVIDER and not last:
            return day.venue
        try:
            day.answer(line)
        except LineFault as fault:
            tell(err, number, fault)
    if not last:
        raise Fault("parts")
    return day.venue
