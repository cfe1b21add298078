"""Looks at the logs once: it does what is due, and says what it did and what it could not do."""

import sys
from collections.abc import Callable
from dataclasses import dataclass, field
from datetime import datetime, timedelta, timezone

from .copies import REPORT, Copies, of_day
from .database import Database
from .day_file import digest_of_log
from .faults import Fault
from .settings import Settings

AHEAD = 2  # days whose tables are there before they open: that of now and the next one
READER = "reader"  # the role of supervisors
LONGEST_READING = timedelta(minutes=10)  # of a statement of theirs
PATIENCE = timedelta(minutes=10)  # in which a gateway closes the log of a day that has ended


@dataclass
class Counts:
    """What is left to be done, or to be looked at."""

    without_copy: int = 0  # days that have ended
    without_seal: int = 0  # copies of logs in which the audit found what should not be there
    at_fault: int = 0  # what could not be done
    without_tables: int = 0  # of the days that are next


@dataclass
class Keeper:
    settings: Settings
    now: Callable[[], datetime] = lambda: datetime.now(timezone.utc)
    counts: Counts = field(default_factory=Counts)

    def __post_init__(self) -> None:
        self.database = Database(self.settings.postgres)
        self.copies = Copies(self.settings)

    def run(self) -> Counts:
        """Each venue by itself: a fault of one keeps no other from being done."""
        self.end_long_readers()
        logs = self.database.logs()
        for venue in self.settings.venues:
            self.make_next(venue, logs)
            days = [day for name in logs if (day := self.settings.day_of(venue, name))]
            ended = [day for day in days if self.settings.days.end_of(day) <= self.now()]
            begun = [day for day in ended if not self.removed_empty(venue, day)]
            for day in begun:
                if not self.settings.copy_of(venue, day).exists():
                    self.copy(venue, day)
            sealed = [day for day in begun if self.is_sealed(venue, day)]
            old = begun[: -self.settings.keep] if self.settings.keep else []
            for day in sealed:
                if day in old:
                    self.remove(venue, day)
        return self.counts

    def end_long_readers(self) -> None:
        """On the primary too, where an older installation let them in."""
        for connection in filter(None, (self.settings.postgres, self.settings.readers)):
            try:
                count = Database(connection).end_long(READER, LONGEST_READING)
                if count:
                    say("readers ended count=%d: a statement took longer than ten minutes" % count)
            except Fault as fault:
                self.fail('readers are not looked at cause="%s"' % fault)

    def make_next(self, venue: str, logs: list[str]) -> None:
        """The tables of the day that goes on or opens next, and of the one behind it."""
        for day in self.settings.days.next_days(self.now(), AHEAD):
            schema = self.settings.log_of(venue, day.date)
            if schema in logs:
                continue
            try:
                self.database.make(schema)
                say("tables made log=%s" % schema)
            except Fault as fault:
                if schema not in self.database.logs():  # else a gateway has made them meanwhile
                    self.counts.without_tables += 1
                    self.fail('tables are not made log=%s cause="%s"' % (schema, fault))

    def removed_empty(self, venue: str, day: str) -> bool:
        """Whether no gateway has begun the day: then its tables go."""
        schema = self.settings.log_of(venue, day)
        try:
            with self.database.reading(schema) as log:
                if log.first_line() is not None:
                    return False
            self.database.remove(schema)
            say("tables of no day removed log=%s" % schema)
        except Fault as fault:
            self.fail('log is not read log=%s cause="%s"' % (schema, fault))
        return True

    def copy(self, venue: str, day: str) -> None:
        schema, folder = self.settings.log_of(venue, day), self.settings.copy_of(venue, day)
        self.counts.without_copy += 1
        try:
            with self.database.reading(schema) as log:
                end = log.end()
                if not end.is_silent:
                    return say("day is still written log=%s" % schema)
                if not end.is_closed and self.now() < self.settings.days.end_of(day) + PATIENCE:
                    return say("day is not closed yet log=%s" % schema)
                self.copies.begin(log, schema, folder)
            made = self.copies.finish(schema, venue, day, folder)
        except (Fault, OSError) as fault:
            return self.fail('day is not copied log=%s cause="%s"' % (schema, fault))
        self.counts.without_copy -= 1
        say('day copied log=%s to=%s audit="%s"' % (schema, folder, made.verdict))
        if not made.has_program:
            say("day is copied without its program log=%s" % schema)
        return None

    def is_sealed(self, venue: str, day: str) -> bool:
        """Whether the day has a copy with a seal. One that has a copy without is told of in each run, until somebody has
        looked at it and has taken its log away.
        """
        schema, folder = self.settings.log_of(venue, day), self.settings.copy_of(venue, day)
        if not folder.exists():
            return False
        is_sealed = self.copies.is_sealed(schema, folder)
        if not is_sealed:
            self.counts.without_seal += 1
            self.fail("copy has no seal log=%s: look at %s" % (schema, folder / REPORT))
        return is_sealed

    def remove(self, venue: str, day: str) -> None:
        """A day that need not stay, once its copy was found to be all that it is."""
        schema, folder = self.settings.log_of(venue, day), self.settings.copy_of(venue, day)
        try:
            with self.database.reading(schema) as log:
                digest = digest_of_log(log)
            self.copies.check_anew(digest, schema, folder, of_day(venue, day))
            self.database.remove(schema)
            say("log removed log=%s copy=%s" % (schema, folder))
        except (Fault, OSError) as fault:
            self.fail('log is not removed log=%s cause="%s"' % (schema, fault))

    def fail(self, text: str) -> None:
        self.counts.at_fault += 1
        say(text)


def say(text: str) -> None:
    """An event: a line on standard error, which the journal keeps."""
    print("".join(c if c.isprintable() else "?" for c in text), file=sys.stderr, flush=True)
