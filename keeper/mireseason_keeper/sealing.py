"""Looks once at the copies that gateways made of days in SQLite: it takes each, has it checked, and seals it."""

import os
from collections.abc import Callable
from dataclasses import dataclass, field
from datetime import datetime, timedelta, timezone
from pathlib import Path

from .copies import REPORT, Copies, check_sums, sums_of
from .day_file import on_disk
from .faults import Fault
from .given_copies import SUMS, GivenCopy, names_in
from .keeper import Counts, say
from .settings import ALONE, Settings, is_date

PATIENCE = timedelta(hours=1)  # in which a gateway copies a day that has ended


@dataclass
class SealingKeeper:
    """The keeper of logs in SQLite. It writes nothing where a gateway writes."""

    settings: Settings
    now: Callable[[], datetime] = lambda: datetime.now(timezone.utc)
    counts: Counts = field(default_factory=Counts)

    def run(self) -> Counts:
        """Each day by itself: a fault of one keeps no other from being done."""
        given = names_in(self.place)
        for venue in self.settings.venues:
            for day in self.days_of(venue, given):
                if self.settings.days.end_of(day) <= self.now():
                    self.look_at(venue, day)
            self.miss_last(venue)
        return self.counts

    @property
    def place(self) -> Path:
        """Where the gateways put their copies."""
        assert self.settings.given is not None, "the logs are in PostgreSQL"
        return self.settings.given

    def days_of(self, venue: str, names: list[str]) -> list[str]:
        """The dates of a venue's copies by their names: DATE, or DATE-VENUE."""
        end = "" if venue == ALONE else "-" + venue
        days = [name.removesuffix(end) for name in names if name.endswith(end)]
        return [day for day in days if len(day) == 8 and day.isdigit() and is_date(day)]

    def look_at(self, venue: str, day: str) -> None:
        """What is due for one day that has ended."""
        log, folder = self.settings.log_of(venue, day), self.settings.copy_of(venue, day)
        given = GivenCopy(self.place / folder.name, log + ".db")
        try:
            if not folder.exists():
                self.take(given, venue, day, folder)
            elif sums_of(folder).get(given.log) != given.digest():
                return self.fail(
                    "copy is another than the sealed one log=%s: look at %s and %s"
                    % (log, given.folder, folder)
                )
            if not Copies.is_sealed(log, folder):
                self.counts.without_seal += 1
                return self.fail("copy has no seal log=%s: look at %s" % (log, folder / REPORT))
            self.tell(folder)
        except (Fault, OSError) as fault:
            self.counts.without_copy += not folder.exists()
            self.fail('day is not sealed log=%s cause="%s"' % (log, fault))
        return None

    def take(self, given: GivenCopy, venue: str, day: str, folder: Path) -> None:
        """Makes a copy of its own, which no gateway can reach, and has it checked and sealed."""
        copies = Copies(self.settings)
        copies.take(given, venue, day, folder)
        made = copies.finish(given.log.removesuffix(".db"), venue, day, folder)
        say('day copied log=%s to=%s audit="%s"' % (given.log, folder, made.verdict))
        if not made.has_program:
            say("day is copied without its program log=%s" % given.log)

    def tell(self, folder: Path) -> None:
        """Lets the gateway know that the day is sealed here: what the keeper's copy has, by its sums. All of it is read anew."""
        if self.settings.sealed is None:
            return
        file, text = self.settings.sealed / folder.name, (folder / SUMS).read_text()
        if file.exists() and file.read_text() == text:
            return
        check_sums(folder)
        part = file.with_name(file.name + ".part")
        part.write_text(text)
        part.chmod(0o644)
        on_disk(part)
        os.replace(part, file)
        say("day is sealed told=%s" % file)

    def miss_last(self, venue: str) -> None:
        """A gateway that copies no more is silent: the last day that ended has to have come."""
        last = self.settings.days.last_day(self.now() - PATIENCE)
        if last is None or self.settings.copy_of(venue, last.date).exists():
            return
        if (self.place / self.settings.copy_of(venue, last.date).name).exists():
            return  # what is wrong with it was told
        if any(day < last.date for day in self.days_of(venue, names_in(self.settings.folder))):
            self.counts.without_copy += 1
            self.fail("no copy has come log=%s" % self.settings.log_of(venue, last.date))

    def fail(self, text: str) -> None:
        self.counts.at_fault += 1
        say(text)
