"""The commands that make something of a day. Each checks the day first, and makes nothing of a log
that is not as it should be.
"""

import shutil
from collections.abc import Iterator
from pathlib import Path

from .best_execution import BEST_EXECUTION, best_execution
from .bonds import bonds_of
from .command import Work, checked, form_of, is_good
from .confirmations import CONFIRMATIONS, confirmation_text, confirmations, misnamed
from .day_pass import DayPass
from .export import export_day
from .facts import Facts
from .faults import Unreadable
from .folders import make_folder
from .notes import ACTS, acts
from .records import Day, Firm
from .statistics import statistics_of
from .statistics_text import statistics_json, statistics_text
from .tables import Form, table_text, write_table
from .verdict import Verdict


def passed_over(work: Work, verdict: Verdict) -> DayPass:
    """A pass over a day that was checked."""
    with work.source.open() as log:
        day_pass = DayPass(log, verdict.day)
        day_pass.run()
    work.checker().check_end(verdict)
    return day_pass


def do_export(work: Work) -> int:
    """`export`: the tables of a day, or one investor's own file."""
    form, folder = form_of(work), work.words.folder
    if form is None:
        raise Unreadable("say which form the files are to have: --csv or --json")
    investor = None if work.words.firm is None else firm_named(work, work.words.firm)
    if investor is not None and investor.is_dealer:
        raise Unreadable("--for %s: a file for best execution is an investor's" % investor.name)
    make_folder(folder)
    verdict = checked(work)
    if not is_good(verdict):
        return 1
    scratch = work.folder / "export"
    scratch.mkdir()
    if investor is None:
        count = export_all(work, verdict, form, scratch)
    else:
        count = export_one(work, verdict, form, scratch, investor)
    if not is_good(verdict):
        return 1
    for path in sorted(scratch.iterdir()):
        shutil.move(path, folder / path.name)
    print("%s: %s" % (folder, count))
    return 0


def export_all(work: Work, verdict: Verdict, form: Form, folder: Path) -> str:
    with work.source.open() as log:
        facts = export_day(log, verdict.day, form, folder)
    work.checker().check_end(verdict)
    verdict.findings += misnamed(facts)
    counts = len(facts.requests), len(facts.quotes), len(facts.trades)
    return "%d requests, %d quotes, %d trades" % counts


def export_one(work: Work, verdict: Verdict, form: Form, folder: Path, firm: Firm) -> str:
    """An investor's own file, and a page of its awards."""
    from .investor_page import write_investor_page

    facts = passed_over(work, verdict).facts
    verdict.findings += misnamed(facts)
    rows = list(best_execution(facts, firm.name))
    count = write_table(BEST_EXECUTION, rows, form, folder)
    write_investor_page(verdict.day, firm, rows, folder)
    return "%d rows of %s" % (count, firm.name)


def firm_named(work: Work, name: str) -> Firm:
    """A firm of the day."""
    with work.source.open() as log:
        found = log.day().firm(name)
    if found is None:
        raise Unreadable("the day has no firm %s" % name)
    return found


def do_stats(work: Work) -> int:
    """`stats`: the figures of a day."""
    verdict = checked(work)
    if not is_good(verdict):
        return 1
    day_pass = passed_over(work, verdict)
    statistics = statistics_of(verdict.day, day_pass.facts, day_pass.refused)
    print(statistics_json(statistics) if work.words.json else statistics_text(statistics))
    return 0


def do_acts(work: Work) -> int:
    """`acts`: what operators did."""
    form = form_of(work)
    verdict = checked(work)
    if not is_good(verdict):
        return 1
    with work.source.open() as log:
        found = list(acts(log))
    if form is not None:
        print(table_text(ACTS, found, form), end="")
        return 0
    for act in found:
        reason = ', because "%s"' % act.because if act.because else ""
        print("entry %d: %s %s: %s%s" % (act.place, act.moment, act.who, act.what, reason))
    print("%d acts of operators" % len(found))
    return 0


def do_trades(work: Work) -> int:
    """`trades`: each firm's confirmations, or those of one."""
    form, words = form_of(work), work.words
    chosen = None if words.firm is None else firm_named(work, words.firm)
    verdict = checked(work)
    if not is_good(verdict):
        return 1
    facts = passed_over(work, verdict).facts
    verdict.findings += misnamed(facts)
    if not is_good(verdict):
        return 1
    firms = verdict.day.firms if chosen is None else (chosen,)
    for text in confirmation_texts(facts, verdict.day, firms, form):
        print(text, end="" if form else "\n")
    return 0


def confirmation_texts(
    facts: Facts, day: Day, firms: tuple[Firm, ...], form: Form | None
) -> Iterator[str]:
    """As a table of all, or firm by firm for a person."""
    bonds = bonds_of(day)
    rows = {firm.name: list(confirmations(facts, bonds, firm.name)) for firm in firms}
    if form is not None:
        yield table_text(CONFIRMATIONS, [row for some in rows.values() for row in some], form)
        return
    for firm in firms:
        yield confirmation_text(firm, rows[firm.name])
