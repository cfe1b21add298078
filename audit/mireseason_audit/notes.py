"""Reads the lines of a log that the venue ignores: what operators did, how the gateway's clock was,
and which gateway speaks.

    # act TIME NAME(UID) WORDS because="REASON"
    # clock TIME synchronised|unsynchronised|set MICROSECONDS
    # gateway TIME NAME VERSION
"""

import re
from collections.abc import Iterator
from typing import NamedTuple

from .identity import Speaker
from .log import Log
from .records import NO_NAME, Entry
from .tables import Column, Table

LONGEST = 200  # bytes of a note
NOTE = re.compile(rb"# (act|clock|gateway) ([0-9:.]{12}) [ -~]+")
SPEAKER = re.compile(rb"# gateway \S+ (\S+) ([ -~]+)")
ACT = re.compile(r'# act (\S+) (\S+) (.*?)(?: because="([^"]*)")?')
BUST = "bust "
OF_ONE_FIRM = ("admit", "suspend", "resume", "cancel", "reset-session", "release", "limit")
CLOCK = re.compile(r"# clock (\S+) (synchronised|unsynchronised|set) (-?[0-9]{1,18})")


class Act(NamedTuple):
    """What an operator did; when it stood in the log it took effect."""

    place: int
    moment: str
    who: str  # NAME(UID)
    what: str
    because: str  # as it stands in the log: a byte that is not printable is \\xHH

    @property
    def is_bust(self) -> bool:
        """Whether it voids a trade."""
        return self.what.startswith(BUST)

    @property
    def firms(self) -> tuple[str, ...]:
        """Those that it names; none where it is of the whole venue or of a bond."""
        word, _, rest = self.what.partition(" ")
        name = rest.partition(" ")[0]
        if self.is_bust:
            return tuple(name.split("-")[1:3])
        return (name,) if word in OF_ONE_FIRM and name and not name.startswith("--") else ()

    def concerns(self, firm: str) -> bool:
        """Whether it names this firm, or none."""
        return not self.firms or firm in self.firms


class ClockNote(NamedTuple):
    """What the kernel said of the machine's clock, or by how much the clock was set."""

    place: int
    moment: str
    state: str  # synchronised or unsynchronised, or set
    microseconds: int  # the greatest error, or by how much it was set


def is_note(line: bytes, moment: str) -> bool:
    """Whether a line is a note that a gateway writes at this moment."""
    found = NOTE.fullmatch(line)
    return found is not None and found[2] == moment.encode() and len(line) <= LONGEST


def act_of(place: int, line: bytes) -> Act | None:
    found = ACT.fullmatch(line.decode("ascii", "replace"))
    return None if found is None else Act(place, found[1], found[2], found[3], found[4] or "")


def clock_note_of(place: int, line: bytes) -> ClockNote | None:
    found = CLOCK.fullmatch(line.decode("ascii", "replace"))
    return None if found is None else ClockNote(place, found[1], found[2], int(found[3]))


def speaker_of(entry: Entry) -> Speaker | None:
    """The gateway that begins to write, where a note says it."""
    found = SPEAKER.fullmatch(entry.line)
    if found is None:
        return None
    name, version = found[1].decode(), found[2].decode()
    return Speaker(entry.place, entry.term, "" if name == NO_NAME else name, version)


def acts(log: Log) -> Iterator[Act]:
    """All acts of a day, in their order."""
    for entry in log.entries():
        act = act_of(entry.place, entry.line) if entry.firm is None else None
        if act is not None:
            yield act


def voiding_acts(log: Log) -> dict[str, Act]:
    """The acts by which operators voided trades (`bust TRADE`), by the trades' names."""
    return {act.what.removeprefix(BUST): act for act in acts(log) if act.is_bust}


def voided(log: Log) -> dict[str, str]:
    """The trades that operators voided, and why."""
    return {name: act.because for name, act in voiding_acts(log).items()}


def clock_notes(log: Log) -> Iterator[ClockNote]:
    """All that the log says of the clock, in its order."""
    for entry in log.entries():
        note = clock_note_of(entry.place, entry.line) if entry.firm is None else None
        if note is not None:
            yield note


ACTS: Table[Act] = Table(
    "acts",
    "an act of an operator",
    (
        Column("place", "of its entry", lambda act: act.place),
        Column("moment", "UTC", lambda act: act.moment),
        Column("who", "the user's name and number", lambda act: act.who),
        Column("act", "", lambda act: act.what),
        Column("because", "the reason that was given", lambda act: act.because),
    ),
)
CLOCK_NOTES: Table[ClockNote] = Table(
    "clock",
    "a sample of the gateway's clock, or that it was set",
    (
        Column("place", "of its entry", lambda note: note.place),
        Column("moment", "UTC", lambda note: note.moment),
        Column("state", "synchronised, unsynchronised or set", lambda note: note.state),
        Column(
            "microseconds",
            "the greatest error (adjtimex), or by how much it was set",
            lambda note: note.microseconds,
        ),
    ),
)


def clock_text(notes: list[ClockNote]) -> str:
    """What the samples of a day come to, in a line."""
    samples = [note for note in notes if note.state != "set"]
    if not samples:
        return "clock: the log has no samples of the gateway's clock"
    good = [note for note in samples if note.state == "synchronised"]
    text = "clock: %d samples, %d of them of a clock that is synchronised" % (
        len(samples),
        len(good),
    )
    if good:
        text += ", whose greatest error is %d us" % max(note.microseconds for note in good)
    steps = [note.microseconds for note in notes if note.state == "set"]
    return text + ("; it was set %d times" % len(steps) if steps else "")
