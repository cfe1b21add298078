"""Writes all pages of a day into one folder."""

import shutil
from collections.abc import Callable
from contextlib import closing
from dataclasses import dataclass
from pathlib import Path

from .before import Before
from .book import Book, Fault
from .certificates import CertificateJob, second_for, seconds_for
from .check import Checker, Result
from .dictionary import read_dictionary
from .door_pages import DoorJob
from .faults import Unreadable
from .findings import Finding
from .firm_pages import FirmJob
from .firm_summaries import FirmSummary
from .folders import make_folder
from .page_names import ENTRIES_A_PAGE, ROWS_A_PAGE, file_name, page_name
from .reading import Reader
from .records import Day
from .request_lists import lists_of, write_list
from .request_pages import RequestJob
from .statistics import Group
from .statistics_page import sections
from .summary import Summary, SummaryJob
from .sums import SumsJob, write_sums
from .templates import HERE, Templates
from .verdict import Verdict
from .work import Job, Plan, plan_of, run_jobs

PAGES_A_JOB, FILES_A_JOB = 50, 250
FAULTS_ON_THE_DAY = 30
MOST_PLACES_AN_ENTRY = 10  # a log that lacks more has places that nobody gave
FOLDERS = ("requests", "firms", "certificates", "by")
FILES = ("style.css", "filter.js")

Publish = Callable[[Day, Summary, Path], object]


@dataclass(frozen=True)
class Pager:
    """What pages are written with."""

    checker: Checker
    dictionary: Path
    folder: Path
    scratch: Path
    request: int | None  # the request of the certificates, by its key
    before: Before | None = None  # the pages as they were earlier
    publish: Publish | None = None  # writes the reports of trades beside them

    @property
    def _book(self) -> Path:
        return self.scratch / "acts.db"

    def check(self) -> tuple[Verdict, Summary]:
        """Checks the day, and reads its requests beside that."""
        make_folder(self.folder)
        checker = self.checker
        verdict = checker.begun()
        dictionary = read_dictionary(self.dictionary)
        plan: Plan[Result | Summary] = Plan()
        plan.add(SummaryJob(checker.source, verdict.day, dictionary, self._book))
        checker.add_jobs(plan, verdict)
        results = checker.run(plan, verdict)
        (summary,) = [result for result in results if isinstance(result, Summary)]
        found = [result for result in results if not isinstance(result, Summary)]
        checker.judge(verdict, found)
        verdict.findings += summary.misnamed
        return verdict, summary

    def write(self, verdict: Verdict, summary: Summary) -> None:
        """Writes all pages."""
        for name in FOLDERS:
            (self.folder / name).mkdir()
        checker = self.checker
        jobs = plan_of(self._jobs(verdict, summary))
        for result in run_jobs(jobs, checker.at_once, checker.progress):
            if isinstance(result, list):
                verdict.findings += result
        with closing(Book(self._book)) as book:
            self._write_day(verdict, summary, book)
        self._write_others(verdict, summary)
        if self.publish is not None:
            self.publish(verdict.day, summary, self.folder)
        shutil.copyfile(checker.files.day, self.folder / "day.live")
        for name in FILES:
            shutil.copyfile(HERE / name, self.folder / name)
        checker.progress.end()
        checker.check_end(verdict)

    def obstacle(self, verdict: Verdict, summary: Summary) -> Finding | None:
        """Why no pages can be written: a firm's are as many as the places need."""
        if self.request is not None and self.request not in range(len(summary.requests)):
            text = "the day has no request %d: it has %d"
            raise Unreadable(text % (self.request + 1, len(summary.requests)))
        if verdict.last_place <= MOST_PLACES_AN_ENTRY * (summary.entries + ENTRIES_A_PAGE):
            return None
        text = "no pages are written of %d entries with places up to %d"
        return Finding("entries", text % (summary.entries, verdict.last_place))

    def sign(self, key: Path | None) -> None:
        """The sums of all files, and the signature of these where there is a key."""
        checker = self.checker
        paths = sorted(path for path in self.folder.rglob("*") if path.is_file())
        starts = range(0, len(paths), FILES_A_JOB)
        jobs = [SumsJob(self.folder, tuple(paths[at : at + FILES_A_JOB])) for at in starts]
        lines = run_jobs(plan_of(jobs), checker.at_once, checker.progress)
        write_sums(self.folder, "".join(lines).encode(), key)
        checker.progress.end()

    def _jobs(self, verdict: Verdict, summary: Summary) -> list[Job[object]]:
        """The jobs that write pages, those that take longest in front."""
        checker, day, book = self.checker, verdict.day, self._book
        reader = Reader(read_dictionary(self.dictionary))
        source, files = checker.source, checker.files
        seconds = seconds_for(source, day, summary.requests, self.scratch, files.day, self.request)
        jobs: list[Job[object]] = [
            CertificateJob(
                source,
                checker.venue,
                files,
                day,
                dealer,
                reader,
                second_for(seconds, dealer.name),
                not verdict.of(dealer.name),
                self.folder,
            )
            for dealer in day.dealers
        ]
        jobs += [
            FirmJob(source, day, firm, book, self.dictionary, self.folder, self.before)
            for firm in day.firms
        ]
        requests = summary.requests
        jobs += [
            RequestJob(
                day,
                tuple(requests[at : at + ROWS_A_PAGE]),
                len(requests),
                book,
                self.folder,
                self.before,
            )
            for at in range(0, len(requests), ROWS_A_PAGE)
        ]
        door = verdict.chained.door
        if door is not None:
            pages = max(1, pages_of(door.events))
            jobs.append(DoorJob(source, day, pages, ROWS_A_PAGE, self.folder))
        total = sum(summary.faults.values())
        jobs += [
            FaultsJob(day, total, at, book, self.folder)
            for at in range(0, pages_of(total), PAGES_A_JOB)
        ]
        return jobs

    def _write_others(self, verdict: Verdict, summary: Summary) -> None:
        """The figures, the first page of each firm, and the lists of requests."""
        templates = Templates(verdict.day)
        text = templates.page("statistics.html", "", sections=sections(summary.statistics))
        (self.folder / "statistics.html").write_text(text, encoding="utf-8")
        for firm in verdict.day.firms:
            FirmSummary(verdict, summary, firm).write(templates, self.folder)
        for one in lists_of(verdict.day, summary.requests):
            write_list(templates, one, len(summary.requests), self.folder / "by")

    def _write_day(self, verdict: Verdict, summary: Summary, book: Book) -> None:
        templates = Templates(verdict.day)
        pages = max(1, pages_of(len(summary.requests)))
        for page in range(pages):
            text = templates.page(
                "day.html",
                "",
                verdict=verdict,
                summary=summary,
                traded=traded_on(summary, verdict.day),
                lists=lists_of(verdict.day, summary.requests),
                requests=summary.requests[page * ROWS_A_PAGE : (page + 1) * ROWS_A_PAGE],
                page=page + 1,
                pages=pages,
                faults=book.faults(0, FAULTS_ON_THE_DAY),
                fault_pages=pages_of(sum(summary.faults.values())),
                day_page=day_page,
                file_name=file_name,
                fault_link=fault_link,
            )
            (self.folder / day_page(page + 1)).write_text(text, encoding="utf-8")


@dataclass(frozen=True)
class FaultsJob:
    """Writes pages of what was refused, in a process of its own; answers how many."""

    day: Day
    total: int  # of all that was refused
    first: int  # page
    book: Path
    folder: Path

    def __call__(self) -> int:
        templates, pages = Templates(self.day), pages_of(self.total)
        mine = range(self.first, min(pages, self.first + PAGES_A_JOB))
        with closing(Book(self.book)) as book:
            for page in mine:
                text = templates.page(
                    "faults.html",
                    "",
                    faults=book.faults(page * ROWS_A_PAGE, ROWS_A_PAGE),
                    total=self.total,
                    page=page + 1,
                    pages=pages,
                    file_name=file_name,
                    fault_link=fault_link,
                )
                (self.folder / ("refused-%d.html" % (page + 1))).write_text(text, encoding="utf-8")
        return len(mine)


def traded_on(summary: Summary, day: Day) -> list[tuple[str, int]]:
    """Face value in each currency, or of each bond that has none."""
    traded = summary.statistics.row(Group.DAY, day.date).traded
    return sorted(traded.items())


def pages_of(rows: int) -> int:
    return -(-rows // ROWS_A_PAGE)


def day_page(page: int) -> str:
    return "index.html" if page == 1 else "day-%d.html" % page


def fault_link(fault: Fault) -> str:
    return "%s#e%d" % (page_name(fault.firm, fault.place), fault.place)
