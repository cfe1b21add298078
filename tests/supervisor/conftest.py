"""The fixtures for the tests of the supervisor's commands."""

import subprocess
import sys
from collections.abc import Callable
from pathlib import Path

import pytest

from tests.audit.common import Ran, audit
from tests.harness.build import made_once
from tests.supervisor.exported import Exported, read_export
from tests.supervisor.sheet import Sheet, read_sheet

HERE = Path(__file__).resolve().parent
STORED = HERE.parent / "audit" / "stored" / "day.db"
DRAWN_REQUESTS = 2000
LOG = "day.db"

Audit = Callable[..., Ran]


@pytest.fixture(scope="session")
def run(venue: tuple[str, ...]) -> Audit:
    """Runs a command of the audit with the venue's program that the tests are run with."""

    def command(*words: object) -> Ran:
        return audit(*words, venue=list(venue))

    return command


@pytest.fixture(scope="session")
def sheet() -> Sheet:
    """The stored day, as it was read from its messages by hand."""
    return read_sheet(HERE / "data" / "stored_day.sheet")


@pytest.fixture(scope="session")
def stored(run: Audit, shared: Path) -> Exported:
    """The export of the stored day."""
    return csv_once(run, STORED, shared / "stored")


@pytest.fixture(scope="session")
def drawn_log(venue: tuple[str, ...], seed: int, shared: Path) -> Path:
    """The log of a drawn day of 2,000 requests."""
    place = shared / "drawn"
    return made_once(place, lambda fresh: draw(fresh / LOG, DRAWN_REQUESTS, seed, venue)) / LOG


@pytest.fixture(scope="session")
def short_log(venue: tuple[str, ...], seed: int, shared: Path) -> Path:
    """The log of a drawn day of 60 requests."""
    return made_once(shared / "short", lambda fresh: draw(fresh / LOG, 60, seed, venue)) / LOG


@pytest.fixture(scope="session")
def drawn(run: Audit, drawn_log: Path, shared: Path) -> Exported:
    """The export of the drawn day."""
    return csv_once(run, drawn_log, shared / "drawn-export")


def draw(path: Path, requests: int, seed: int, venue: tuple[str, ...], *more: str) -> Path:
    """The log of a drawn day; more has options of draw_day."""
    words = [path, "--requests", requests, "--seed", seed, *more, "--", *venue]
    command = [sys.executable, "-m", "tests.audit.draw_day", *map(str, words)]
    subprocess.run(command, check=True)
    return path


def write_export(run: Audit, log: Path, folder: Path, form: str) -> None:
    ran = run("export", log, folder, "--" + form)
    assert ran.status == 0, ran.text


def exported(run: Audit, log: Path, place: Path, form: str) -> Exported:
    """An export, read back."""
    write_export(run, log, place / form, form)
    return read_export(place / form, form)


def csv_once(run: Audit, log: Path, place: Path) -> Exported:
    """An export that is made once for all workers, read back."""
    made_once(place, lambda fresh: write_export(run, log, fresh / "csv", "csv"))
    return read_export(place / "csv", "csv")
