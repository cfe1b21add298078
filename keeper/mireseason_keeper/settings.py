"""Reads the keeper's configuration, keeper.toml."""

import os
import re
import stat
from collections.abc import Callable, Mapping
from dataclasses import dataclass
from datetime import date, timedelta
from pathlib import Path
from typing import Any, TypeVar
from zoneinfo import ZoneInfo, ZoneInfoNotFoundError

from bounded_toml import LONGEST, table_of

from .faults import Fault
from .trading_days import A_DAY, WEEKDAYS, TradingDays

ALONE = ""  # the name of a venue that is the only one
KEYS = {
    "log": {"postgres", "schema", "readers", "copies", "file"},
    "venue": {"names", "program"},
    "day": {"zone", "opens", "ends", "weekdays", "holidays"},
    "copies": {"folder", "keep", "sealed"},
    "seal": {"key", "gateways", "checkpoints"},
    "audit": {"command"},
    "metrics": {"file"},
}
TIME = re.compile(r"([0-9]{2}):([0-9]{2})")
VENUE = re.compile(r"[a-z][a-z0-9_]{0,30}")
Value = TypeVar("Value")


@dataclass(frozen=True)
class Settings:
    """All that keeper.toml says."""

    postgres: str  # a connection string of libpq; empty where the logs are files of SQLite
    readers: str  # the same of the server that readers read from; empty where there is none
    given: Path | None  # where the gateways put the copies of those; None where they are in PostgreSQL
    schema: str  # the name of a day's log, with {date}, and with {venue} where there are several
    venues: tuple[str, ...]
    program: Path  # the venue's, by which a copy is checked
    days: TradingDays
    folder: Path  # of the copies
    keep: int | None  # how many days' logs stay in the database though they are copied; None: all
    sealed: Path | None  # where a gateway reads which days are sealed
    key: Path  # a private Ed25519 key, which no gateway's host has
    gateways: tuple[Path, ...]  # the gateways' public keys
    checkpoints: Path | None  # where what gateways sign comes, by another way than their logs
    audit: tuple[str, ...]  # the words of mireseason-audit
    metrics: Path | None

    def log_of(self, venue: str, day: str) -> str:
        """The schema of a venue's day."""
        return self.schema.replace("{venue}", venue).replace("{date}", day)

    def copy_of(self, venue: str, day: str) -> Path:
        """The folder of its copy."""
        return self.folder / (day if venue == ALONE else "%s-%s" % (day, venue))

    def checkpoints_of(self, venue: str, day: str) -> list[Path]:
        """The files with a day's checkpoints that have come: named as a gateway names its own."""
        if self.checkpoints is None:
            return []
        name = "%s-%s.checkpoint" % (venue or "day", day)
        files = [self.checkpoints / (name + end) for end in ("", "s")]
        return [path for path in files if path.is_file()]

    def day_of(self, venue: str, log: str) -> str | None:
        """The date of a log of this venue; None where it is none."""
        pattern = re.escape(self.log_of(venue, "{date}")).replace(r"\{date\}", "([0-9]{8})")
        found = re.fullmatch(pattern, log)
        return found[1] if found and is_date(found[1]) else None


def is_date(text: str) -> bool:
    """Whether eight digits are a day."""
    try:
        date.fromisoformat("%s-%s-%s" % (text[:4], text[4:6], text[6:]))
    except ValueError:
        return False
    return True


def read_settings(path: Path) -> Settings:
    """Reads keeper.toml; Fault with the file, the key and what is wrong with it."""
    try:
        table = table_of(text_of(path).encode())
    except ValueError as fault:
        raise Fault("%s: %s" % (path, fault)) from None
    check_keys(path, table)
    part = Parts(path, table)
    check_logs(path, table)
    is_given = "copies" in table["log"]
    venues = tuple(part.texts("venue", "names", [ALONE]))
    return Settings(
        postgres="" if is_given else part.text("log", "postgres"),
        readers="" if is_given else part.text("log", "readers", ""),
        given=part.file("log", "copies") if is_given else None,
        schema=name_of_logs(part, venues),
        venues=venues,
        program=part.file("venue", "program", "/usr/bin/rfq_venue"),
        days=days_of(part),
        folder=part.file("copies", "folder"),
        keep=part.number("copies", "keep"),
        sealed=part.file("copies", "sealed") if "sealed" in table["copies"] else None,
        key=part.file("seal", "key"),
        gateways=tuple(path.parent / name for name in part.texts("seal", "gateways")),
        checkpoints=(
            part.file("seal", "checkpoints") if "checkpoints" in table.get("seal", {}) else None
        ),
        audit=tuple(part.texts("audit", "command", ["/usr/bin/mireseason-audit"])),
        metrics=part.file("metrics", "file") if "metrics" in table else None,
    )


def text_of(path: Path) -> str:
    """Fault where it is no plain file, as a pipe is that nobody writes to, or a device that has no end; or is too long."""
    try:
        number = os.open(path, os.O_RDONLY | os.O_NONBLOCK | os.O_CLOEXEC)
        with open(number, encoding="utf-8") as file:
            if not stat.S_ISREG(os.fstat(number).st_mode):
                raise Fault("%s: is no plain file" % path)
            text = file.read(LONGEST + 1)
    except (OSError, ValueError) as fault:
        raise Fault("%s: %s" % (path, fault)) from None
    if len(text) > LONGEST:
        raise Fault("%s: is longer than %d bytes" % (path, LONGEST))
    return text


def check_keys(path: Path, table: Mapping[str, Any]) -> None:
    for name, part in table.items():
        if name not in KEYS or not isinstance(part, dict):
            raise Fault("%s: there is no part [%s]" % (path, name))
        for key in part.keys() - KEYS[name]:
            raise Fault("%s: [%s] has no key %s" % (path, name, key))


def check_logs(path: Path, table: Mapping[str, Any]) -> None:
    """Logs are in PostgreSQL, or files of SQLite, whose copies the gateway makes and whose old ones it removes."""
    log, copies = table.get("log", {}), table.get("copies", {})
    if ("postgres" in log) == ("copies" in log):
        raise Fault("%s: [log] has to have one of postgres and copies" % path)
    other, kind = ({"schema", "readers"}, "PostgreSQL") if "copies" in log else ({"file"}, "SQLite")
    for key in other & log.keys():
        raise Fault("%s: [log] %s is for logs in %s" % (path, key, kind))
    for key in ({"keep"} if "copies" in log else {"sealed"}) & copies.keys():
        raise Fault("%s: [copies] %s is for logs in %s" % (path, key, kind))


def name_of_logs(part: "Parts", venues: tuple[str, ...]) -> str:
    """A schema; of files of SQLite their name without its `.db`."""
    key, usual = (
        ("file", "day-{date}.db") if "copies" in part.table["log"] else ("schema", "day_{date}")
    )
    name = part.text("log", key, usual)
    if key == "file" and (not name.endswith(".db") or "/" in name):
        raise Fault("%s: [log] file has to be a name that ends in .db" % part.path)
    if "{date}" not in name or ("{venue}" in name) != (venues != (ALONE,)):
        words = "%s: [log] %s needs {date}, and {venue} if and only if [venue] has names"
        raise Fault(words % (part.path, key))
    if not all(VENUE.fullmatch(venue) for venue in venues if venue != ALONE):
        raise Fault("%s: [venue] names: a name is of small letters, digits and _" % part.path)
    return name.removesuffix(".db") if key == "file" else name


@dataclass(frozen=True)
class Parts:
    """The parts of the file, key by key."""

    path: Path
    table: Mapping[str, Any]

    def text(self, part: str, key: str, usual: str | None = None) -> str:
        return self.value(part, key, usual, "a text", lambda value: isinstance(value, str))

    def file(self, part: str, key: str, usual: str | None = None) -> Path:
        """A path, relative to the configuration."""
        return self.path.parent / self.text(part, key, usual)

    def texts(self, part: str, key: str, usual: list[str] | None = None) -> list[str]:
        def is_list(value: object) -> bool:
            texts = isinstance(value, list) and all(isinstance(each, str) for each in value)
            return texts and value != []

        return self.value(part, key, usual, "a list of texts", is_list)

    def number(self, part: str, key: str) -> int | None:
        """From 1 on; None where the key is not set."""
        if key not in self.table.get(part, {}):
            return None
        return self.value(
            part, key, None, "a number from 1 on", lambda value: type(value) is int and value > 0
        )

    def value(
        self, part: str, key: str, usual: Value | None, what: str, fits: Callable[[Any], bool]
    ) -> Value:
        value: Value | None = self.table.get(part, {}).get(key, usual)
        if value is None:
            raise Fault("%s: [%s] %s is missing" % (self.path, part, key))
        if not fits(value):
            raise Fault("%s: [%s] %s is %r, and has to be %s" % (self.path, part, key, value, what))
        return value


def days_of(part: Parts) -> TradingDays:
    """The part [day], each key of which has the same value without it as at the gateway."""
    zone = part.text("day", "zone", "UTC")
    try:
        named = ZoneInfo(zone)
    except (ZoneInfoNotFoundError, ValueError, OSError):
        raise Fault("%s: [day] zone %s is none of the tz database" % (part.path, zone)) from None
    weekdays = part.texts("day", "weekdays", list(WEEKDAYS))
    if not set(weekdays) <= set(WEEKDAYS):
        raise Fault("%s: [day] weekdays are of %s" % (part.path, ", ".join(WEEKDAYS)))
    holidays = part.text("day", "holidays", "")
    opens, ends = time_of(part, "opens", "00:00"), time_of(part, "ends", "24:00")
    if ends <= opens:
        raise Fault("%s: [day] ends: a day opens before it ends" % part.path)
    return TradingDays(
        named,
        opens,
        ends,
        frozenset(map(WEEKDAYS.index, weekdays)),
        holidays_of(part.path.parent / holidays) if holidays else frozenset(),
    )


def time_of(part: Parts, key: str, usual: str) -> timedelta:
    text = part.text("day", key, usual)
    found = TIME.fullmatch(text)
    time = timedelta(hours=int(found[1]), minutes=int(found[2])) if found else None
    if time is None or int(text[3:]) > 59 or time > A_DAY:
        raise Fault("%s: [day] %s is %s, and has to be HH:MM" % (part.path, key, text))
    return time


def holidays_of(path: Path) -> frozenset[date]:
    """A day a line, with what stands behind a `#` left out."""
    found = set()
    for number, line in enumerate(text_of(path).splitlines(), 1):
        text = line.split("#")[0].strip()
        if not text:
            continue
        try:
            found.add(date.fromisoformat(text))
        except ValueError:
            words = "%s: line %d: a holiday is a day as YYYY-MM-DD"
            raise Fault(words % (path, number)) from None
    return frozenset(found)
