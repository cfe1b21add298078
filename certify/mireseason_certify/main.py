"""The command mireseason-certify."""

from __future__ import annotations

import argparse
import secrets
import signal
import sys
import tempfile
import threading
from datetime import date, timedelta
from pathlib import Path

from .clock import MovedClock, moved_by
from .draw import Draw
from .own_venue import NoVenue, Programs
from .page import Page
from .played import NotAnswered
from .report import Report, read_key, versions_of, verified
from .run import FAILED, PASSED, Trial, cases_of, not_tried
from .telling import Telling, read_terminal

ROOT = Path(__file__).resolve().parent.parent.parent
GATEWAY = ROOT / "gateway" / "out"
PROGRAM = ROOT / "crates" / "rfq_venue" / "out" / "rfq_venue"
SECOND = ("/usr/bin/python3", str(ROOT / "tests" / "model" / "program.py"))
VALID = 180  # days for which a report holds
PATIENCE = 120.0  # seconds that a developer has for one task


def parser() -> argparse.ArgumentParser:
    made = argparse.ArgumentParser(
        prog="mireseason-certify",
        description="Starts a venue of its own, and tries a firm's desk against it, case by case.",
    )
    made.add_argument("firm", nargs="?", help="the desk's SenderCompID (49)")
    made.add_argument(
        "--role",
        choices=("dealer", "investor"),
        default="dealer",
        help="the desk's role (%(default)s)",
    )
    made.add_argument(
        "--only",
        action="append",
        default=[],
        metavar="CASE",
        help="plays this case, those that it needs, and the Logon; once for each",
    )
    made.add_argument("--list", action="store_true", help="prints the cases of the role")
    made.add_argument("--seed", type=int, help="draws names, numbers and the order of the cases")
    made.add_argument("--port", type=int, default=0, help="the port that the desk connects to")
    made.add_argument("--page", type=int, default=0, metavar="PORT", help="the port of the page")
    made.add_argument(
        "--patience",
        type=float,
        default=PATIENCE,
        help="seconds for one task (%(default)g); a deadline has more than half of them",
    )
    made.add_argument("--out", type=Path, default=Path("."), help="the folder for the report")
    made.add_argument(
        "--gateway", type=Path, default=GATEWAY, help="the folder that has the gateway"
    )
    made.add_argument("--venue", nargs="+", help="the words of the venue's program")
    made.add_argument("--clock", type=Path, metavar="LIBRARY", help="moves clocks, for next-day")
    made.add_argument("--key", type=Path, help="the Ed25519 key that signs the report")
    made.add_argument(
        "--days", type=int, default=VALID, help="for which the report holds (%(default)d)"
    )
    made.add_argument("--verify", type=Path, metavar="REPORT", help="checks a report, and ends")
    made.add_argument("--public-key", type=Path, help="the key for --verify")
    return made


def end_by_signals() -> None:
    """A signal that ends the program leaves no venue behind."""

    def end(number: int, _: object) -> None:
        sys.exit(128 + number)

    for number in (signal.SIGTERM, signal.SIGHUP):
        signal.signal(number, end)


def main() -> int:
    end_by_signals()
    given = parser().parse_args()
    if given.verify:
        return verified(given.verify, given.public_key)
    if given.list:
        for one in cases_of(given.role, has_clock=True):
            print("%-24s %s" % (one.name, one.title))
        return 0
    if not given.firm:
        print("mireseason-certify: name the firm (SenderCompID, 49)", file=sys.stderr)
        return 2
    try:
        with moved_by(given.clock) as clock:
            return certify(given, clock)
    except (NoVenue, NotAnswered, OSError) as why:
        print("mireseason-certify: %s" % why, file=sys.stderr)
        return 2


def certify(given: argparse.Namespace, clock: MovedClock | None) -> int:
    """Plays the cases, and writes the report. 0 where all passed."""
    seed = secrets.randbelow(1 << 32) if given.seed is None else given.seed
    key = read_key(given.key) if given.key else None
    telling = Telling(heading="%s as %s, seed %d" % (given.firm, given.role, seed))
    venue = given.venue or ([str(PROGRAM)] if PROGRAM.exists() else list(SECOND))
    programs = Programs(
        given.gateway / "mireseason-gateway", given.gateway / "mireseason-admin", venue
    )
    page = Page(given.page, telling)
    telling.print("the page of this run: http://127.0.0.1:%d/" % page.port)
    threading.Thread(target=read_terminal, args=(telling,), daemon=True).start()
    try:
        with tempfile.TemporaryDirectory(prefix="mireseason-certify-") as folder:
            trial = Trial(
                programs,
                Path(folder),
                given.firm,
                given.role,
                Draw(seed),
                telling,
                given.port,
                given.patience,
                given.only,
                clock,
            )
            outcomes = trial.run()
    finally:
        page.close()
    report = Report(
        firm=given.firm,
        role=given.role,
        seed=seed,
        date=date.today().isoformat(),
        valid_until=(date.today() + timedelta(days=given.days)).isoformat(),
        is_whole=not given.only,
        versions=versions_of(programs),
        outcomes=outcomes,
        not_tried=not_tried(has_clock=clock is not None),
    )
    report.write(given.out, key)
    passed = sum(one.outcome == PASSED for one in outcomes)
    failed = sum(one.outcome == FAILED for one in outcomes)
    rest = len(outcomes) - passed - failed
    print("%d passed, %d failed, %d could not be tried" % (passed, failed, rest))
    return 0 if passed == len(outcomes) else 1
