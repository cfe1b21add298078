"""Checks a day: its entries and their chain, and what firms were sent against the venue.

Each part that can run beside others is a job, in a process of its own. A job begins as soon as what
it needs is there.
"""

from collections.abc import Iterable, Mapping
from dataclasses import dataclass, replace
from typing import Any

from . import items
from .came_on import with_connections
from .chain import Chained, Numbers, read_chain, write_day
from .checkpoints import check_numbers_of, today_in_utc
from .faults import Unreadable
from .findings import Finding
from .identity import Identity, speakers_of
from .jobs import AloneJob, Audited, ChainJob, DayJob, DueJob, Files, GivenJob, LiveJob, SentJob
from .log import Log, Source
from .progress import Progress
from .proved import proved_programs
from .records import Day
from .venue import Venue
from .verdict import Verdict
from .work import Plan, processors, run_jobs

Result = Chained | list[Finding]  # of a job
TABLES = "tables"  # where a finding is
SESSIONS = (items.SESSIONS,)  # what a finding belongs to


@dataclass(frozen=True)
class Checker:
    """What a check is done with."""

    source: Source
    venue: Venue
    files: Files
    at_once: int
    progress: Progress

    def check(self) -> Verdict:
        """Does all jobs."""
        verdict = self.begun()
        plan: Plan[Result] = Plan()
        self.add_jobs(plan, verdict)
        return self.judge(verdict, self.run(plan, verdict))

    def judge(self, verdict: Verdict, results: Iterable[Result]) -> Verdict:
        """The verdict with what the jobs found, and on which connection each message came."""
        judged(verdict, results)
        with self.source.open() as log:
            verdict.findings = with_connections(log, verdict.findings)
        return verdict

    def run(self, plan: "Plan[Any]", verdict: Verdict) -> list[Any]:
        """The results of jobs, of which those of a check are some."""
        results = run_jobs(plan, self.at_once, self.progress, lambda: self.count(verdict))
        self.progress.end()
        self.check_end(verdict)
        return results

    def check_end(self, verdict: Verdict) -> None:
        """Whether the log still ends where it ended: in one that goes on, what the venue gave for the
        last entries may have come after the log was taken.
        """
        with self.source.current() as log:
            last, numbers = log.last_place(), last_numbers_of(log, verdict.day)
        if (last, numbers) != (verdict.last_place, verdict.last_numbers):
            text = "%s goes on while it is read, from entry %d to %d: wait until its day is over"
            raise Unreadable(text % (verdict.source, verdict.last_place, last))

    def add_jobs(self, plan: "Plan[Any]", verdict: Verdict) -> None:
        """All jobs of a check, those on which others wait and those that take longest in front."""
        audited = Audited(self.source, self.venue, self.files, verdict.day)
        plan.add(DayJob(audited))  # what it writes is read meanwhile by the two after it
        due = plan.add(DueJob(audited))
        plan.add(LiveJob(audited))
        plan.add(ChainJob(self.source))
        groups = dealt([firm.name for firm in verdict.day.firms], processors())
        sent = {firms: plan.add(SentJob(audited, firms)) for firms in groups}
        plan.add(GivenJob(audited), after=sent.values())
        for dealer in verdict.day.dealers:
            (job,) = [job for firms, job in sent.items() if dealer.name in firms]
            plan.add(AloneJob(audited, dealer.name), [due, job])

    def begun(self) -> Verdict:
        """The day, and where the log ends."""
        with self.source.open() as log:
            day = log.day()
            last, numbers = log.last_place(), last_numbers_of(log, day)
            identity = Identity(day, proved_programs())
            name, has_chain, has_seals = self.source.name, log.has_chain, log.has_seals
            return Verdict(name, day, identity, has_chain, has_seals, last, numbers)

    def count(self, verdict: Verdict) -> None:
        """What is asked and counted beside the jobs."""
        with self.source.open() as log:
            verdict.program, verdict.digest = self.venue.version(), self.venue.digest()
            verdict.messages = {firm.name: log.count_of(firm.name) for firm in verdict.day.firms}
            verdict.addressed = log.firms()
            verdict.targets = log.targets() if log.has_chain else {}
            verdict.epochs = log.epochs() if log.has_chain else {}
            verdict.beyond = tuple(log.beyond_form())
            verdict.numbered = check_numbers_of(log, verdict.day.date, today_in_utc())

    def write_day(self, day: Day) -> None:
        """The file that the venue reads."""
        with self.source.open() as log:
            self.progress.begin("entries", log.last_place() + 1)
            write_day(log, day, self.files.day, self.progress.step)
            self.progress.end()

    def chain(self, log: Log) -> Chained:
        """The entries alone."""
        self.progress.begin("entries", log.last_place() + 1)
        chained = read_chain(log, self.progress.step)
        self.progress.end()
        return chained


def dealt(firms: list[str], count: int) -> list[tuple[str, ...]]:
    """Firms in groups, of which there are so many at the most: dealers, which stand in front and
    are sent most, each in another one as long as that goes.
    """
    return [tuple(firms[at::count]) for at in range(min(count, len(firms)))]


def last_numbers_of(log: Log, day: Day) -> dict[str, object]:
    """The greatest number of what each firm was sent."""
    return {firm.name: log.last_number_of(firm.name) for firm in day.firms}


def judged(verdict: Verdict, results: Iterable[Result]) -> Verdict:
    """The verdict with what the jobs found."""
    found: list[Finding] = []
    for result in results:
        if isinstance(result, Chained):
            verdict.chained = result
        else:
            found += result
    chained, identity = verdict.chained, verdict.identity
    identity.speakers = speakers_of(verdict.day, chained.terms, chained.speakers)
    listed = chained.findings + stranger_findings(verdict) + beyond_findings(verdict)
    if verdict.numbered is not None:
        listed += verdict.numbered.findings
    if verdict.has_chain:
        listed += target_findings(verdict.targets, chained.numbers)
        listed += epoch_findings(verdict.epochs, chained.resets)
    verdict.findings = once_each(listed + found)
    return verdict


def stranger_findings(verdict: Verdict) -> list[Finding]:
    """Firms that rows name and the configuration does not."""
    door = verdict.chained.door
    named = {
        items.ENTRIES: verdict.chained.firms,
        items.DOOR: door.firms if door is not None else set(),
        items.MESSAGES: verdict.addressed,
        items.SESSIONS: verdict.targets.keys(),
    }
    text = "the configuration has no such firm"
    return [
        Finding(stranger, text, named_items=tuple(at for at in named if stranger in named[at]))
        for stranger in sorted(set().union(*named.values()) - set(verdict.messages))
    ]


def beyond_findings(verdict: Verdict) -> list[Finding]:
    """What stands beside the tables of the log's form."""
    return [Finding(TABLES, "no gateway makes this: %s" % each) for each in verdict.beyond]


def target_findings(targets: dict[str, int], numbers: Numbers) -> list[Finding]:
    """A session expects a number after that of each message that came."""
    found = []
    for firm, (number, place) in sorted(numbers.items()):
        if targets.get(firm, 0) <= number:
            text = "its session expects number %s, and number %d came"
            words = text % (targets.get(firm, "none"), number)
            found.append(Finding(firm, words, place, named_items=SESSIONS))
    return found


def epoch_findings(epochs: dict[str, int], resets: Mapping[str, int]) -> list[Finding]:
    """A session begins anew when an operator orders it: each act is an entry."""
    text = "its session says %d reset%s, and the log has %d"
    return [
        Finding(
            firm,
            text % (epoch, "" if epoch == 1 else "s", resets.get(firm, 0)),
            named_items=SESSIONS,
        )
        for firm, epoch in sorted(epochs.items())
        if epoch > resets.get(firm, 0)
    ]


def once_each(findings: list[Finding]) -> list[Finding]:
    """Of what several jobs found alike, the first; where another has the place, that. It belongs
    to whatever each of them belongs to.
    """
    seen: dict[object, Finding] = {}
    belongs: dict[object, dict[str, None]] = {}
    for finding in findings:
        about = (finding.number, finding.given, finding.found)
        key = finding if about == (None, None, None) else (finding.where, *about)
        belongs.setdefault(key, {}).update(dict.fromkeys(finding.items))
        if key not in seen or (seen[key].place is None and finding.place is not None):
            seen[key] = finding
    return [replace(one, named_items=tuple(belongs[key])) for key, one in seen.items()]
