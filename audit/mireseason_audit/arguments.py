"""Reads the words of the command line, and opens the log that they name.

A module that one command alone needs is imported by that command: jinja2 takes longer than the
check of a short day.
"""

import argparse
import os
import re
import shlex
from collections.abc import Callable
from pathlib import Path
from typing import NoReturn

from .command import Work
from .faults import Unreadable
from .files_log import TwoFiles
from .log import Source
from .sqlite_log import SqliteSource
from .until import UntilSource, place_until
from .venue import Venue
from .work import processors

ROOT = Path(__file__).resolve().parent.parent.parent
BUILT = ROOT / "crates" / "rfq_venue" / "out" / "rfq_venue"
VENUE = (
    BUILT if (ROOT / "crates").exists() else Path("/usr/bin/rfq_venue")
)  # as packages install it
DICTIONARY = ROOT / "fix" / "MIRESEASON.xml"
AT_ONCE = processors() + 1  # a process that waits for the disk leaves its processor
ADDRESSES = ("postgres://", "postgresql://")
DATE = re.compile(r"[0-9]{8}")
VENUE_NAME = re.compile(r"-|[A-Za-z0-9_][A-Za-z0-9_-]{0,39}")
DIGEST = re.compile(r"[0-9A-Fa-f]{64}")
TIME = re.compile(r"[0-2][0-9]:[0-5][0-9]:[0-5][0-9](\.[0-9]{3})?")
SEAL_HELP = "the seal (if it is not named LOG.seal; of a schema SCHEMA.seal in this folder)"
LOG_HELP = "a file of SQLite; postgres:CONNECTION with --schema; or a day of `live` with --sent"

Act = Callable[[Work], int]  # does a command; answers its status


class Parser(argparse.ArgumentParser):
    """Says what is wrong with the words in one line, and where to look."""

    def error(self, message: str) -> NoReturn:
        self.exit(2, "%s: %s (see %s --help)\n" % (self.prog, message, self.prog))


class Commands:
    """The commands, each with the options that all have."""

    def __init__(self, parser: argparse.ArgumentParser) -> None:
        self._parsers = parser.add_subparsers(
            dest="command", required=True, metavar="COMMAND", parser_class=Parser
        )

    def add(self, name: str, text: str, act: Act) -> argparse.ArgumentParser:
        parser = self._parsers.add_parser(name, help=text, description=text)
        parser.set_defaults(act=act, until=None, at=None)
        parser.add_argument("log", metavar="LOG", help=LOG_HELP)
        text = "the schema of the day in PostgreSQL"
        parser.add_argument("--schema", default="public", help=text)
        text = "what was sent, as `live --frames` prints it"
        parser.add_argument("--sent", type=Path, help=text)
        venue = os.environ.get("VENUE", shlex.quote(str(VENUE)))
        text = "the command line of the venue's program (VENUE)"
        parser.add_argument("--venue", default=venue, help=text)
        text = "processes at one time (%(default)s)"
        parser.add_argument("--jobs", type=int, default=AT_ONCE, help=text)
        return parser

    def add_alone(self, name: str, text: str) -> argparse.ArgumentParser:
        """A command that is given no log."""
        return self._parsers.add_parser(name, help=text, description=text)


def with_evidence(parser: argparse.ArgumentParser) -> None:
    """What the log is held against beside the rules."""
    parser.add_argument("--key", type=Path, help="the public key of the seal, in PEM")
    parser.add_argument("--seal", type=Path, help=SEAL_HELP)
    text = "the public key of a gateway of the log, in PEM; once for each"
    parser.add_argument("--gateway-key", type=Path, action="append", default=[], help=text)
    text = "a checkpoint that was kept outside of the log's database; once for each file"
    parser.add_argument("--checkpoint", type=Path, action="append", default=[], help=text)
    parser.add_argument("--date", type=date_of, help="the date that the log has to have: YYYYMMDD")
    text = "the name that its venue has to have; - for a gateway's only venue"
    parser.add_argument("--venue-name", metavar="NAME", help=text)
    text = "the SHA-256 that the day's program has to have"
    parser.add_argument("--program-sha256", metavar="HEX", type=digits_of, help=text)


def date_of(text: str) -> str:
    """A date as the configuration has it."""
    if not DATE.fullmatch(text):
        raise argparse.ArgumentTypeError("%r is no date, such as 20261124" % text)
    return text


def venue_name_of(text: str) -> str:
    """The name of a venue; - for a gateway's only one."""
    if not VENUE_NAME.fullmatch(text):
        raise argparse.ArgumentTypeError("%r is no name of a venue" % text)
    return text


def digits_of(text: str) -> str:
    """A SHA-256 in hexadecimal digits."""
    if not DIGEST.fullmatch(text):
        raise argparse.ArgumentTypeError("%r is no SHA-256 of 64 hexadecimal digits" % text)
    return text.lower()


def with_moment(parser: argparse.ArgumentParser) -> None:
    """The day as it stood once."""
    when = parser.add_mutually_exclusive_group()
    when.add_argument("--until", metavar="ENTRY", type=int, help="the day up to this entry")
    text = "the day as it stood then: HH:MM:SS or HH:MM:SS.sss in UTC"
    when.add_argument("--at", metavar="TIME", type=time_of_day, help=text)


def with_form(parser: argparse.ArgumentParser) -> None:
    form = parser.add_mutually_exclusive_group()
    form.add_argument("--csv", action="store_true", help="as CSV")
    form.add_argument("--json", action="store_true", help="as JSON")


def time_of_day(text: str) -> str:
    """A time, with its thousandths."""
    if not TIME.fullmatch(text):
        raise argparse.ArgumentTypeError("%r is no time of day, such as 14:30:00" % text)
    return text if "." in text else text + ".000"


def seconds(text: str) -> float:
    """How long something is waited for."""
    try:
        value = float(text)
    except ValueError:
        value = 0.0
    if not 0.1 <= value <= 3600:
        raise argparse.ArgumentTypeError("%r is none of 0.1 to 3600 seconds" % text)
    return value


def source_of(words: argparse.Namespace, venue: Venue, folder: Path) -> Source:
    """The log that the arguments name, up to where they say, as it is now. One that is followed is taken
    anew each time.
    """
    source = whole_source_of(words, venue, folder)
    if not getattr(words, "follow", False):
        source = source.taken(folder)
    if words.until is None and words.at is None:
        return source
    return UntilSource(source, place_until(source, words.until, words.at))


def whole_source_of(words: argparse.Namespace, venue: Venue, folder: Path) -> Source:
    if words.sent is not None:
        for path in (Path(words.log), words.sent):
            if not path.is_file():
                raise Unreadable("%s: there is no such file" % path)
        return TwoFiles(Path(words.log), words.sent, venue).to_log(folder / "files.db")
    if words.log.startswith(("postgres:", *ADDRESSES)):
        from .postgres_log import PostgresSource

        return PostgresSource(connection_of(words.log), words.schema)
    return SqliteSource(Path(words.log))


def connection_of(log: str) -> str:
    """What libpq is given: the words after `postgres:`, or an address, which begins so."""
    return log if log.startswith(ADDRESSES) else log.removeprefix("postgres:")


def venue_of(words: argparse.Namespace) -> Venue:
    """The program that the arguments name."""
    try:
        return Venue(tuple(shlex.split(words.venue)))
    except ValueError as fault:
        raise Unreadable("the venue's program %s: %s" % (words.venue, fault)) from None
