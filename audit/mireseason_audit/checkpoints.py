"""Checks the checkpoints of a log: their numbers, and whether one says that the day has ended.

Since form 6 each checkpoint has the number after that of the one before it, and its signature
covers that one's. So the audit notices if somebody took one out, and at the end of a log it notices
that the end of the day is missing.
"""

from collections.abc import Iterable
from dataclasses import dataclass, field
from datetime import date, datetime, timezone

from . import items
from .findings import Finding
from .log import Log
from .records import Checkpoint

CHECKPOINTS = (items.CHECKPOINTS,)  # what a finding belongs to


@dataclass
class Numbered:
    """What one pass over the checkpoints found."""

    count: int = 0
    last: Checkpoint | None = None
    findings: list[Finding] = field(default_factory=list)

    @property
    def is_ended(self) -> bool:
        return self.last is not None and self.last.is_end

    @property
    def words(self) -> str:
        """In one line."""
        if self.findings:
            return "%d, NOT AS THEY SHOULD BE" % self.count
        if self.last is None:
            return "none was made yet"
        text = "%d, numbered without a gap" % self.count
        if self.is_ended:
            return text + "; the last says that the day has ended"
        return text + "; none says that the day has ended"


def numbered(rows: Iterable[Checkpoint]) -> Numbered:
    """The checkpoints in their order; the first that is missing is told."""
    found = Numbered()
    for row in rows:
        number = 1 if found.last is None else found.last.number + 1
        if row.number != number and not found.findings:
            text = "checkpoint %d is missing: in its place comes %d"
            words = text % (number, row.number)
            found.findings.append(Finding("entries", words, row.place, named_items=CHECKPOINTS))
        found.count += 1
        found.last = row
    return found


def check_numbers_of(log: Log, day: str, today: date) -> Numbered | None:
    """Of a log that numbers them: the numbers, and once its day is over in UTC, its end."""
    if not log.numbers_checkpoints:
        return None
    found = numbered(log.checkpoints())
    if not log.is_part and not found.is_ended and is_over(day, today):
        at = 0 if found.last is None else found.last.place
        text = "the day is over, and no last checkpoint says so: its end may have been cut off"
        found.findings.append(Finding("entries", text, at, named_items=CHECKPOINTS))
    return found


def is_over(day: str, today: date) -> bool:
    """Whether a date, YYYYMMDD, is before today. What is none is not."""
    try:
        return datetime.strptime(day, "%Y%m%d").date() < today
    except ValueError:
        return False


def today_in_utc() -> date:
    return datetime.now(timezone.utc).date()
