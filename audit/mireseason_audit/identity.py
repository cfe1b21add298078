"""Says which log this is: its venue, its date, its program, and the gateways that wrote it."""

from collections.abc import Iterator, Mapping
from dataclasses import dataclass, field
from typing import NamedTuple

from .findings import Finding
from .records import Day

DAY = "day"  # where a finding is
OWN_NAME = "rfq_venue "  # how a program of this repository's crates says its version


class Speaker(NamedTuple):
    """A gateway that wrote the log, from an entry on."""

    place: int
    term: int
    name: str  # as its note has it; empty where the log does not say it
    version: str

    @property
    def words(self) -> str:
        who = " ".join(filter(None, (self.name, self.version))) or "a gateway that is not named"
        return "%s, from entry %d, in term %d" % (who, self.place, self.term)


@dataclass(frozen=True)
class Asked:
    """What somebody expects the log to be; None of what was not said."""

    date: str | None = None
    venue: str | None = None
    program: str | None = None

    @property
    def unsaid(self) -> list[str]:
        """The options that would have said it."""
        options = {
            "--date": self.date,
            "--venue-name": self.venue,
            "--program-sha256": self.program,
        }
        return [name for name, value in options.items() if value is None]


@dataclass
class Identity:
    """What entry 0 and the notes of gateways say."""

    day: Day
    proved: Mapping[str, str]  # what each program is that the repository names as proved
    speakers: list[Speaker] = field(default_factory=list)
    asked: Asked = Asked()

    @property
    def venue_words(self) -> str:
        return "venue %s" % self.day.venue if self.day.venue else "the gateway's only venue"

    @property
    def is_proved(self) -> bool:
        return self.day.program in self.proved

    @property
    def program_words(self) -> str:
        """Whether the day's program is one whose proof the repository has."""
        if self.is_proved:
            return "it is the program that this repository names as proved"
        if not self.proved:
            return "this repository names no proved program, so whether it is one is not known"
        if self.day.version.startswith(OWN_NAME):
            return "none that this repository names as proved: another build, or a second program"
        return "none that this repository names as proved: a second implementation"

    def lines(self) -> list[str]:
        """For a report."""
        day = self.day
        lines = ["day       %s, of %s" % (day.date, self.venue_words)]
        if day.program:
            text = "program   %s, SHA-256 %s"
            lines += [text % (day.version, day.program), "          " + self.program_words]
        return lines + ["gateway   %s" % one.words for one in self.speakers]

    def findings(self) -> Iterator[Finding]:
        """Where the log is another than was asked for."""
        day, asked = self.day, self.asked
        pairs = (
            ("of the date", day.date, asked.date),
            ("of the venue", day.venue or "-", asked.venue),
            ("of the program", day.program, asked.program),
        )
        for what, found, wanted in pairs:
            if wanted is not None and found != wanted:
                yield Finding(DAY, "it is %s %s, and not %s" % (what, found or "-", wanted), 0)


def speakers_of(day: Day, terms: list[tuple[int, int]], notes: list[Speaker]) -> list[Speaker]:
    """Each gateway that wrote: entry 0 says who began, a note each start and each take-over; of a
    term without one only its first entry is known.
    """
    began = next((term for _, term in terms), 0)
    first = Speaker(0, began, "", day.gateway)
    named = {one.term for one in notes} | {first.term}
    unnamed = [Speaker(place, term, "", "") for place, term in terms if term not in named]
    return sorted([first, *notes, *unnamed], key=lambda one: one.place)
