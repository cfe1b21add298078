"""The command mireseason-keeper: it looks at the logs once, and its timer calls it every five minutes."""

import argparse
import fcntl
import os
import shutil
import sys
from collections.abc import Iterator
from contextlib import contextmanager
from datetime import datetime
from pathlib import Path

from mireseason_audit.version import version_text

from .database import Database
from .faults import Fault
from .given_copies import names_in
from .keeper import Counts, Keeper, say
from .metrics import write_metrics
from .sealing import SealingKeeper
from .settings import Settings, read_settings

USUAL = Path("/etc/mireseason-keeper/keeper.toml")
EPILOG = "Status 0: all that was due is done; 1: something is at fault, as it says; 2: wrong words or configuration."


@contextmanager
def alone(configuration: Path) -> Iterator[bool]:
    """Whether no other run of this configuration goes on; it is so to the end of the block."""
    number = os.open(configuration, os.O_RDONLY)
    try:
        fcntl.flock(number, fcntl.LOCK_EX | fcntl.LOCK_NB)
        yield True
    except BlockingIOError:
        yield False
    finally:
        os.close(number)


def run(configuration: Path, settings: Settings) -> int:
    keeper: Keeper | SealingKeeper
    keeper = Keeper(settings) if settings.given is None else SealingKeeper(settings)
    try:
        with alone(configuration) as is_alone:
            if not is_alone:
                say("another run goes on")
                return 0
            counts = keeper.run()
    except (Fault, OSError) as fault:
        say('nothing is done cause="%s"' % fault)
        counts = Counts(at_fault=1)
    is_told = settings.metrics is None or told(settings.metrics, counts, keeper.now())
    return 1 if counts.at_fault or not is_told else 0


def told(metrics: Path, counts: Counts, now: datetime) -> bool:
    """Whether the metrics were written. What was due is done all the same."""
    try:
        write_metrics(metrics, counts, now)
    except OSError as fault:
        say('metrics are not written cause="%s"' % fault)
        return False
    return True


def faults_of(settings: Settings) -> list[str]:
    """What a run would find: a file or a program that is missing, a folder that can't be read, or a database that does not answer."""
    files = (settings.program, settings.key, *settings.gateways)
    found = ["%s: there is no such file" % path for path in files if not path.is_file()]
    metrics = None if settings.metrics is None else settings.metrics.parent
    folders = [one for one in (settings.folder, settings.sealed, metrics) if one is not None]
    found += ["%s: there is no such folder" % path for path in folders if not path.is_dir()]
    if not shutil.which(settings.audit[0]):
        found.append("%s: there is no such program" % settings.audit[0])
    try:
        if settings.given is None:
            Database(settings.postgres).logs()
        else:
            names_in(settings.given)
    except Fault as fault:
        found.append("the logs: %s" % fault)
    return found


def parser_of() -> argparse.ArgumentParser:
    parser = argparse.ArgumentParser(
        prog="mireseason-keeper",
        description="Keeps the days of venues: their copies and seals, and in PostgreSQL their tables.",
        epilog=EPILOG,
    )
    parser.add_argument("configuration", metavar="CONFIG", type=Path, nargs="?", default=USUAL)
    parser.add_argument(
        "--check", action="store_true", help="say what a run would find, and do nothing"
    )
    parser.add_argument("--version", action="store_true", help="print version and commit")
    return parser


def main() -> int:
    words = parser_of().parse_args()
    if words.version:
        print(version_text("mireseason-keeper"))
        return 0
    try:
        settings = read_settings(words.configuration)
    except Fault as fault:
        print("mireseason-keeper: %s" % fault, file=sys.stderr)
        return 2
    if not words.check:
        return run(words.configuration, settings)
    faults = faults_of(settings)
    for line in faults:
        print("mireseason-keeper: %s" % line, file=sys.stderr)
    print(
        "%s is %s" % (words.configuration, "at fault" if faults else "a configuration of a keeper")
    )
    return 1 if faults else 0
