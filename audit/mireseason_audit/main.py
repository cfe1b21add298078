"""The commands of mireseason-audit."""

import argparse
import io
import os
import signal
import sqlite3
import sys
import tempfile
import traceback
from functools import partial
from pathlib import Path
from typing import TYPE_CHECKING

from .arguments import (
    DICTIONARY,
    SEAL_HELP,
    Commands,
    Parser,
    seconds,
    source_of,
    venue_name_of,
    venue_of,
    with_form,
    with_moment,
    with_evidence,
)
from .before import Before
from .command import Work, checked, evidence_of, seal_path
from .day_commands import do_acts, do_export, do_stats, do_trades
from .faults import Unreadable, Wrong
from .frame import printable
from .items import checks_text
from .log import Source
from .parties import read_parties
from .record_commands import do_record, do_transparency
from .report import report, report_json
from .seal import sealed, write_seal
from .version import PrintVersion
from .work import SIGNALS

if TYPE_CHECKING:
    from .pages import Publish

PACKAGES = {"markupsafe": "python3-jinja2"}  # others are called by their module
DEBIANS = Path("/usr/bin/python3")
SEALED = (
    "judged: the entries, the door and their chains, and the gateways' seals; not judged: what firms"
    " were sent, and what their sessions carried, which is sealed as it stands (see check)"
)
EPILOG = (
    "Status 0: all is as it should be; 1: it is not; 2: that is not known, since something could"
    " not be read or written, or the log went on meanwhile."
)


def parser_of() -> argparse.ArgumentParser:
    text = "What firms were really sent on a day, checked and shown."
    parser = Parser(prog="mireseason-audit", description=text, epilog=EPILOG)
    parser.add_argument("--version", action=PrintVersion)
    parser.set_defaults(run=act)
    commands = Commands(parser)
    text = "checks what was sent, and the record, against the venue"
    check = commands.add("check", text, do_check)
    check.epilog = checks_text()
    check.formatter_class = argparse.RawDescriptionHelpFormatter
    check.add_argument("--json", action="store_true", help="as JSON")
    with_evidence(check)
    seal = commands.add("seal", "signs what the log has", do_seal)
    seal.add_argument("--key", type=Path, required=True, help="a private Ed25519 key in PEM")
    seal.add_argument("--out", type=Path, help=SEAL_HELP)
    add_page(commands)
    pair = commands.add("pair", "compares the day with second days, for one dealer", do_pair)
    pair.add_argument("dealer", metavar="DEALER", help="a dealer of the day")
    pair.add_argument("--seed", type=int, default=1, help="the seed of the drawn prices")
    add_tables(commands)
    add_receive(commands)
    return parser


def add_page(commands: Commands) -> None:
    page = commands.add("page", "writes the day as static pages", do_page)
    page.add_argument("folder", metavar="DIR", type=Path, help="an empty folder, or a new one")
    page.add_argument("--request", type=int, help="the request of the certificates' second day")
    text = "names of fields and values (fix/MIRESEASON.xml)"
    page.add_argument("--dictionary", type=Path, default=DICTIONARY, help=text)
    with_evidence(page)
    page.add_argument("--sign", type=Path, help="a private Ed25519 key that signs the pages")
    with_moment(page)
    text = "who the names belong to: writes the reports of trades beside the pages"
    page.add_argument("--parties", type=Path, help=text)
    text = "make the pages anew while the log grows; DIR/index.html leads to them"
    page.add_argument("--follow", action="store_true", help=text)
    text = "seconds from one look at the log to the next, with --follow (%(default)s)"
    page.add_argument("--every", type=seconds, default=5, metavar="SECONDS", help=text)


def add_tables(commands: Commands) -> None:
    """The commands that make tables of a day."""
    export = commands.add("export", "writes the day as tables", do_export)
    export.add_argument("folder", metavar="FOLDER", type=Path, help="an empty folder, or a new one")
    text = "an investor: its own file for best execution"
    export.add_argument("--for", dest="firm", metavar="FIRM", help=text)
    trades = commands.add("trades", "prints each firm's confirmations", do_trades)
    trades.add_argument("--for", dest="firm", metavar="FIRM", help="only those of this firm")
    stats = commands.add("stats", "prints the figures of the day", do_stats)
    stats.add_argument("--json", action="store_true", help="as JSON")
    record = commands.add("record", "writes a record that the law asks for", do_record)
    record.add_argument("folder", metavar="FOLDER", type=Path, help="an empty folder, or a new one")
    text = "the orders, as of Commission Delegated Regulation (EU) 2017/580"
    record.add_argument("--rts24", action="store_true", help=text)
    text = "writes the reports of trades, as of Delegated Regulation (EU) 2017/583"
    reports = commands.add("transparency", text, do_transparency)
    text = "an empty folder, or a new one"
    reports.add_argument("folder", metavar="FOLDER", type=Path, help=text)
    for parser in (record, reports):
        text = "who the names belong to (parties.toml)"
        parser.add_argument("--parties", type=Path, default=Path("parties.toml"), help=text)
    did = commands.add("acts", "prints what operators did", do_acts)
    for parser in (export, trades, record, reports, did):
        with_form(parser)
    for parser in (export, trades, stats, record, reports, did):
        with_moment(parser)
        with_evidence(parser)


def add_receive(commands: Commands) -> None:
    text = "keeps the checkpoints that gateways send, a line each on standard input"
    receive = commands.add_alone("receive", text)
    receive.set_defaults(run=run_receive)
    text = "a folder that no gateway can write to"
    receive.add_argument("folder", metavar="FOLDER", type=Path, help=text)
    text = "the public key of a gateway, in PEM; once for each"
    receive.add_argument("--gateway-key", type=Path, action="append", required=True, help=text)
    text = "a venue whose checkpoints are kept; once for each (-, a gateway's only venue)"
    receive.add_argument(
        "--venue-name", metavar="NAME", type=venue_name_of, action="append", help=text
    )


def run_receive(words: argparse.Namespace) -> int:
    from .receive_command import do_receive

    return do_receive(words)


def do_check(work: Work) -> int:
    verdict = checked(work)
    print(report_json(verdict) if work.words.json else "\n".join(report(verdict)))
    return 0 if verdict.is_good else 1


def do_seal(work: Work) -> int:
    if work.words.sent is not None:
        raise Unreadable("two files have no chain, so there is nothing to be sealed")
    from .signing import private_key

    private_key(work.words.key)
    with work.source.open() as log:
        day, chained = log.day(), work.checker().chain(log)
        what = None if chained.findings else sealed(log, day, chained)
    if what is None:
        print("\n".join(line for finding in chained.findings for line in finding.lines()))
        print("verdict: not sealed")
        return 1
    path = seal_path(work, work.words.out)
    write_seal(what, work.words.key, path)
    print("sealed: %d entries, the last %s" % (chained.entries, chained.last.hex()))
    print("the seal is %s" % path)
    print(SEALED)
    return 0


def do_page(work: Work) -> int:
    from .pages import Pager

    words, evidence = work.words, evidence_of(work)
    if words.sign is not None:
        from .signing import private_key

        private_key(words.sign)
    key = None if words.request is None else words.request - 1
    if words.follow:
        return follow(work, key)
    publish = publishing(words.parties)
    pager = Pager(work.checker(), words.dictionary, words.folder, work.folder, key, publish=publish)
    verdict, summary = evidence.told_of(pager.check)
    evidence.judge(work.source, verdict)
    work.checker().check_end(verdict)
    obstacle = pager.obstacle(verdict, summary)
    if obstacle is not None:
        verdict.findings.append(obstacle)
        print("\n".join(report(verdict)))
        return 1
    pager.write(verdict, summary)
    pager.sign(words.sign)
    print("\n".join(report(verdict)))
    print("%d requests: %s" % (len(summary.requests), words.folder / "index.html"))
    return 0 if verdict.is_good else 1


def follow(work: Work, request: int | None) -> int:
    """`page --follow`: until a signal ends it."""
    from .follow import Follower
    from .pages import Pager

    words = work.words
    whole = (words.key, words.sign, words.gateway_key, words.checkpoint)
    if any(whole) or words.until is not None or words.at is not None:
        text = "a day that goes on has no seal and no end: leave out %s"
        named = "--key, --sign, --gateway-key, --checkpoint, --until and --at"
        raise Unreadable(text % named)

    publish = publishing(words.parties)

    def pager_of(source: Source, folder: Path, scratch: Path, before: Before | None) -> Pager:
        checker = work.checker(source, scratch)
        return Pager(checker, words.dictionary, folder, scratch, request, before, publish)

    Follower(work.source, words.folder, words.every, work.folder, pager_of).run()
    return 0


def publishing(parties: Path | None) -> "Publish | None":
    """What writes the reports of trades beside pages, where the parties are named."""
    if parties is None:
        return None
    from .record_commands import write_due_reports

    return partial(write_due_reports, read_parties(parties))


def do_pair(work: Work) -> int:
    from .pair_command import PairCommand

    with work.source.open() as log:
        firm = log.day().firm(work.words.dealer)
    if firm is None or not firm.is_dealer:
        raise Unreadable("the day has no dealer %s" % work.words.dealer)
    told = PairCommand(work.checker(), firm.name, work.words.seed, work.folder).run()
    print("\n".join(told.lines))
    print()
    if told.is_good:
        text = "verdict: what differs is declared, and nothing else of another firm reaches %s"
        print(text % firm.name)
    else:
        print("verdict: %s is sent what is not declared" % firm.name)
    return 0 if told.is_good else 1


def act(words: argparse.Namespace) -> int:
    """Does the command, in a folder that is gone at its end; answers the status."""
    try:
        with tempfile.TemporaryDirectory(prefix="mireseason-") as name:
            folder, venue = Path(name), venue_of(words)
            status: int = words.act(Work(words, source_of(words, venue, folder), folder, venue))
    except Wrong as fault:
        print("verdict: %s; nothing else of the log was judged" % printable(str(fault)))
        status = 1
    sys.stdout.flush()
    return status


def ended(number: int, frame: object) -> None:
    """A signal ends the jobs, and takes the folder away."""
    sys.exit(128 + number)


def main(arguments: list[str] | None = None) -> int:
    words = parser_of().parse_args(arguments)
    for number in SIGNALS:
        signal.signal(number, ended)
    for stream in (sys.stdout, sys.stderr):
        if isinstance(stream, io.TextIOWrapper):
            stream.reconfigure(errors="backslashreplace")
    try:
        status: int = words.run(words)
        return status
    except (Unreadable, OSError, sqlite3.Error) as fault:
        print("mireseason-audit: %s" % printable(str(fault)), file=sys.stderr)
    except ModuleNotFoundError as fault:
        print("mireseason-audit: %s" % package_words(fault), file=sys.stderr)
    except Exception:  # a fault of this program says nothing of the log either
        traceback.print_exc()
    drop_output()
    return 2


def package_words(fault: ModuleNotFoundError) -> str:
    """Which package is missing, and how it is had; another Python than Debian's may lack it, too."""
    name = (fault.name or "").partition(".")[0]
    text = "the Python package %s is missing: apt-get install -y %s" % (
        name,
        PACKAGES.get(name, "python3-" + name),
    )
    if Path(sys.executable).resolve() == DEBIANS.resolve():
        return text
    return text + ", and run it by %s, which has Debian's packages" % DEBIANS


def drop_output() -> None:
    """What is still to be printed may be what can't be written: nobody is to try it again."""
    nowhere = os.open(os.devnull, os.O_WRONLY)
    os.dup2(nowhere, sys.stdout.fileno())
    os.close(nowhere)
