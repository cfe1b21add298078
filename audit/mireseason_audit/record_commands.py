"""The commands that write what the law asks for: the record of orders, and the reports of trades."""

import shutil
from collections.abc import Callable, Mapping
from pathlib import Path

from .command import Work, checked, form_of, is_good
from .day_pass import DayPass
from .exchanges import exchanges
from .faults import Unreadable
from .folders import make_folder
from .log import Log
from .notes import CLOCK_NOTES, clock_notes, clock_text, voiding_acts
from .order_events import (
    OrderEvent,
    OtherEvents,
    fact_events,
    in_order,
    not_taken_events,
)
from .parties import Parties, parties_of, read_parties
from .records import Day
from .rts24 import REFUSALS, Recorder, record_table, rts24, sources_table
from .summary import Summary
from .tables import Form, write_table
from .transparency import Publisher, moment_on, published_by, report_table, transparency

Write = Callable[[Log, Day, Parties, Form, Path], list[str]]  # answers what it has to say


def do_record(work: Work) -> int:
    """`record --rts24`: the record of orders, and where each field comes from."""
    if not work.words.rts24:
        raise Unreadable("say which record: --rts24")
    return written(work, write_record)


def do_transparency(work: Work) -> int:
    """`transparency`: the reports of the day's trades."""
    return written(work, write_reports)


def written(work: Work, write: Write) -> int:
    """Checks the day, and has its files written into the folder that is named."""
    words, form = work.words, form_of(work) or Form.CSV
    table = read_parties(words.parties)
    make_folder(words.folder)
    verdict = checked(work)
    if not is_good(verdict):
        return 1
    parties = parties_of(table, verdict.day)
    scratch = work.folder / "record"
    scratch.mkdir()
    with work.source.open() as log:
        said = write(log, verdict.day, parties, form, scratch)
    work.checker().check_end(verdict)
    for path in sorted(scratch.iterdir()):
        shutil.move(path, words.folder / path.name)
    first, *others = said
    print("%s: %s" % (words.folder, first), *others, sep="\n")
    for shared in parties.shared_isins():
        print(shared)
    for name in parties.missing:
        print("missing in %s: %s" % (words.parties, name))
    return 1 if parties.missing else 0


def order_events(log: Log, day: Day) -> list[OrderEvent]:
    """All events of a day's orders, with their numbers."""
    day_pass, others = DayPass(log, day), OtherEvents()
    for exchange in exchanges(log, day):
        taken = day_pass.take(exchange)
        others.take(exchange, taken.refusal, day_pass.request_of(exchange))
    events = [others.by_the_venue(event) for event in fact_events(day_pass.facts)]
    rest = others.rest(events)
    return in_order([*events, *rest, *others.refused, *not_taken_events(log, day)])


def write_record(log: Log, day: Day, parties: Parties, form: Form, folder: Path) -> list[str]:
    regulation = rts24()
    events = order_events(log, day)
    recorder = Recorder(regulation, parties, day.date)
    write_table(record_table(recorder), events, form, folder)
    write_table(sources_table(regulation), regulation.fields, form, folder)
    refused = [event for event in events if event.refusal is not None]
    write_table(REFUSALS, refused, form, folder)
    clock = list(clock_notes(log))
    write_table(CLOCK_NOTES, clock, form, folder)
    said = "%d events of orders, %d of them refusals, %s"
    return [said % (len(events), len(refused), regulation.mark), clock_text(clock)]


def write_reports(log: Log, day: Day, parties: Parties, form: Form, folder: Path) -> list[str]:
    regulation = transparency()
    day_pass = DayPass(log, day)
    facts = day_pass.run()
    publisher = Publisher(regulation, parties, day.date)
    reports = list(publisher.reports(facts.trades, voiding_acts(log)))
    write_table(report_table(publisher), reports, form, folder)
    return ["%d reports of trades, %s" % (len(reports), regulation.mark)]


def write_due_reports(table: Mapping[str, object], day: Day, summary: Summary, folder: Path) -> int:
    """The reports whose time has come at the last entry, beside the pages; answers how many."""
    publisher = Publisher(transparency(), parties_of(table, day), day.date)
    reports = publisher.reports(summary.trades, summary.voiding)
    due = published_by(reports, moment_on(day.date, summary.last))
    return write_table(report_table(publisher), due, Form.CSV, folder)
