"""What one look of the keeper does with the copies that gateways made of days in SQLite, moment by moment, with stand-ins for the
copies' audit and seal.

`test_sealed_copies.py` has a real day, the audit and a key instead.
"""

import hashlib
import os
import shutil
from collections.abc import Callable
from dataclasses import dataclass, field
from datetime import datetime, timedelta, timezone
from pathlib import Path

import pytest
from mireseason_keeper import sealing
from mireseason_keeper.copies import DayCopy
from mireseason_keeper.faults import Fault
from mireseason_keeper.given_copies import GivenCopy
from mireseason_keeper.keeper import Counts
from mireseason_keeper.sealing import SealingKeeper
from mireseason_keeper.settings import Settings, read_settings

FIRST, SECOND, TODAY = "20261125", "20261126", "20261127"
MIDNIGHT = datetime(2026, 11, 27, tzinfo=timezone.utc)  # the end of SECOND
NOON, A_SECOND, AN_HOUR = MIDNIGHT.replace(hour=12), timedelta(seconds=1), timedelta(hours=1)
CONFIGURATION = """[log]
copies = "given"
[copies]
folder = "copies"
sealed = "sealed"
[seal]
key = "seal.pem"
gateways = ["gateway.pub"]
"""
TWO = '[venue]\nnames = ["north", "south"]\n' + CONFIGURATION.replace(
    "[copies]", 'file = "{venue}-{date}.db"\n[copies]'
)


@dataclass
class Copies:
    """Stands for the copies: the audit finds nothing but in the days of `unsealed`."""

    done: list[str] = field(default_factory=list)
    unsealed: set[str] = field(default_factory=set)
    refused: str = ""  # why no copy can be taken
    has_program: bool = True

    def __call__(self, settings: Settings) -> "Copies":
        return self

    def take(self, given: GivenCopy, venue: str, day: str, folder: Path) -> None:
        if self.refused:
            raise Fault(self.refused)
        folder.mkdir()
        for name in (given.log, "SHA256SUMS"):
            shutil.copyfile(given.folder / name, folder / name)
        self.done.append("take %s of [%s] %s to %s" % (given.log, venue, day, folder.name))

    def finish(self, schema: str, venue: str, day: str, folder: Path) -> DayCopy:
        self.done.append("finish %s of [%s] %s at %s" % (schema, venue, day, folder.name))
        return DayCopy(self.has_program, "verdict: it is good")

    def is_sealed(self, log: str, folder: Path) -> bool:
        assert (folder / (log + ".db")).exists()
        return folder.name not in self.unsealed


@dataclass
class Stood:
    """A keeper among stand-ins."""

    place: Path
    copies: Copies
    said: Callable[[], str]

    def gives(self, *names: str, log: str = "day-%s.db", data: bytes = b"log") -> None:
        """Copies as a gateway makes them."""
        for name in names:
            folder, file = self.place / "given" / name, log % name[:8]
            folder.mkdir(exist_ok=True)
            (folder / file).write_bytes(data)
            sums = "%s  %s\n" % (hashlib.sha256(data).hexdigest(), file)
            (folder / "SHA256SUMS").write_text(sums)

    def looks(self, now: datetime = NOON) -> tuple[list[str], list[str], Counts]:
        """What it did, what it said, and what it counted."""
        self.copies.done.clear()
        counts = SealingKeeper(read_settings(self.place / "keeper.toml"), lambda: now).run()
        return list(self.copies.done), self.said().splitlines(), counts

    def sealed(self, name: str) -> Path:
        return self.place / "sealed" / name


@pytest.fixture
def stood(
    place: Path, monkeypatch: pytest.MonkeyPatch, capsys: pytest.CaptureFixture[str]
) -> Stood:
    for name in ("given", "copies", "sealed"):
        (place / name).mkdir()
    (place / "keeper.toml").write_text(CONFIGURATION)
    copies = Copies()
    monkeypatch.setattr(sealing, "Copies", copies)
    return Stood(place, copies, lambda: capsys.readouterr().err)


def test_a_day_that_has_ended(stood: Stood) -> None:
    """It is taken, checked and sealed once, and the gateway is told; a day that goes on is left alone."""
    stood.gives(SECOND, TODAY)
    assert stood.looks(MIDNIGHT - A_SECOND) == ([], [], Counts())
    copy, told = stood.place / "copies" / SECOND, stood.sealed(SECOND)
    log = "day-%s" % SECOND
    assert stood.looks(MIDNIGHT) == (
        [
            "take %s.db of [] %s to %s" % (log, SECOND, SECOND),
            "finish %s of [] %s at %s" % (log, SECOND, SECOND),
        ],
        [
            'day copied log=%s.db to=%s audit="verdict: it is good"' % (log, copy),
            "day is sealed told=%s" % told,
        ],
        Counts(),
    )
    assert told.read_text() == (copy / "SHA256SUMS").read_text()
    assert told.stat().st_mode & 0o777 == 0o644
    assert [path.name for path in told.parent.iterdir()] == [SECOND]
    assert stood.looks() == ([], [], Counts())


def test_the_gateway_reads_a_receipt(stood: Stood, monkeypatch: pytest.MonkeyPatch) -> None:
    """Whatever files of the keeper's are like as a rule; and it is on disk before it has its name."""
    stood.gives(SECOND)
    did: list[str] = []
    replaced = os.replace

    def replace(part: Path, file: Path) -> None:
        did.append("named")
        replaced(part, file)

    monkeypatch.setattr(sealing, "on_disk", lambda path: did.append(path.name))
    monkeypatch.setattr(os, "replace", replace)
    before = os.umask(0o077)
    try:
        stood.looks()
    finally:
        os.umask(before)
    assert stood.sealed(SECOND).stat().st_mode & 0o777 == 0o644
    assert did == [SECOND + ".part", "named"]


def test_whose_the_copies_are(stood: Stood) -> None:
    """By their names: of a day of the calendar, and of one venue; what is not whole yet has another name."""
    names = [SECOND, "20261126-north", "20261127-south", "20261128-north.part", "20261128.part"]
    names += ["20261131", "20261131-north", "2026112", "2026112-north", "202611250", "2026112x"]
    for text, venue, expected in (
        (CONFIGURATION, "", [SECOND]),
        (TWO, "north", ["20261126"]),
        (TWO, "south", ["20261127"]),
    ):
        (stood.place / "keeper.toml").write_text(text)
        keeper = SealingKeeper(read_settings(stood.place / "keeper.toml"))
        assert keeper.days_of(venue, names) == expected


def test_a_receipt_that_is_gone_or_another(stood: Stood) -> None:
    """The gateway is told again, once the copy was read anew: of one that is not what it was it is told nothing."""
    stood.gives(SECOND)
    stood.looks()
    told = "day is sealed told=%s" % stood.sealed(SECOND)
    stood.sealed(SECOND).write_text("other")
    assert stood.looks() == ([], [told], Counts())
    stood.sealed(SECOND).unlink()
    (stood.place / "copies" / SECOND / "new").touch()
    cause = 'day is not sealed log=day-%s cause="its copy is another: new"' % SECOND
    assert stood.looks() == ([], [cause], Counts(at_fault=1))
    assert not stood.sealed(SECOND).exists()


def test_a_gateway_that_is_told_nothing(stood: Stood) -> None:
    """Where keeper.toml names no place for it."""
    stood.gives(SECOND)
    (stood.place / "keeper.toml").write_text(CONFIGURATION.replace('sealed = "sealed"\n', ""))
    done, said, counts = stood.looks()
    assert (len(done), len(said), counts) == (2, 1, Counts())
    assert list((stood.place / "sealed").iterdir()) == []


def test_a_copy_without_its_program(stood: Stood) -> None:
    stood.gives(SECOND)
    stood.copies.has_program = False
    _, said, counts = stood.looks()
    assert said[1] == "day is copied without its program log=day-%s.db" % SECOND
    assert len(said) == 3 and counts == Counts()


def test_a_copy_without_a_seal(stood: Stood) -> None:
    """Each look tells where to look, and the gateway is told of no seal."""
    stood.gives(SECOND)
    stood.copies.unsealed.add(SECOND)
    report = stood.place / "copies" / SECOND / "check.txt"
    told = "copy has no seal log=day-%s: look at %s" % (SECOND, report)
    for said in (2, 1):
        found = stood.looks()
        assert (found[1][-1], len(found[1])) == (told, said)
        assert found[2] == Counts(without_seal=1, at_fault=1)
    assert not stood.sealed(SECOND).exists()


def test_another_copy_than_the_one_that_was_taken(stood: Stood) -> None:
    """It is told, and what was sealed stays as it is."""
    stood.gives(SECOND)
    stood.looks()
    stood.gives(SECOND, data=b"another log")
    given, copy = (stood.place / name / SECOND for name in ("given", "copies"))
    told = "copy is another than the sealed one log=day-%s: look at %s and %s"
    assert stood.looks() == ([], [told % (SECOND, given, copy)], Counts(at_fault=1))
    assert (copy / ("day-%s.db" % SECOND)).read_bytes() == b"log"


def test_a_copy_that_can_not_be_taken(stood: Stood) -> None:
    """It counts as missing, and keeps no other from being sealed; where it was taken before, it is not missing."""
    stood.gives(FIRST, SECOND)
    stood.copies.refused = "it has no entry 0"
    lines = [
        'day is not sealed log=day-%s cause="it has no entry 0"' % day for day in (FIRST, SECOND)
    ]
    assert stood.looks() == ([], lines, Counts(without_copy=2, at_fault=2))
    stood.copies.refused = ""
    assert stood.looks()[2] == Counts()
    (stood.place / "given" / FIRST / "SHA256SUMS").unlink()
    done, said, counts = stood.looks()
    assert (done, len(said), counts) == ([], 1, Counts(at_fault=1))
    assert said[0].startswith("day is not sealed log=day-%s cause=" % FIRST)


def test_a_place_of_copies_that_is_away(stood: Stood) -> None:
    stood.gives(SECOND)
    (stood.place / "copies").rmdir()
    done, (line, *rest), counts = stood.looks()
    assert line.startswith('day is not sealed log=day-%s cause="[Errno 2]' % SECOND)
    assert (done, rest, counts) == ([], [], Counts(without_copy=1, at_fault=1))


def test_several_venues(stood: Stood) -> None:
    """Each by itself, by its own names."""
    (stood.place / "keeper.toml").write_text(TWO)
    stood.gives(SECOND + "-north", log="north-%s.db")
    stood.gives(SECOND + "-south", log="south-%s.db")
    stood.gives(SECOND)
    done, _, counts = stood.looks()
    assert done == [
        line % (venue, SECOND, venue, SECOND, SECOND, venue)
        for venue in ("north", "south")
        for line in (
            "take %s-%s.db of [%s] %s to %s-%s",
            "finish %s-%s of [%s] %s at %s-%s",
        )
    ]
    assert counts == Counts()
    assert (stood.place / "sealed" / (SECOND + "-north")).exists()


MISSED = "no copy has come log=day-%s" % SECOND


@pytest.mark.parametrize(
    "later, expected",
    [(AN_HOUR - A_SECOND, []), (AN_HOUR, [MISSED]), (timedelta(days=1), [MISSED])],
)
def test_a_day_that_does_not_come(stood: Stood, later: timedelta, expected: list[str]) -> None:
    """Where the one before came, somebody is told an hour after it ended."""
    stood.gives(FIRST)
    stood.looks(MIDNIGHT)
    at_fault = len(expected)
    counts = Counts(without_copy=at_fault, at_fault=at_fault)
    assert stood.looks(MIDNIGHT + later) == ([], expected, counts)


def test_days_that_are_not_missed(stood: Stood) -> None:
    """One that has a copy, though the gateway has removed its own; one that can't be taken, of which that is told; any of a keeper
    that has none so far; and one of no trading day.
    """
    assert stood.looks() == ([], [], Counts())
    stood.gives(FIRST, SECOND)
    stood.looks()
    shutil.rmtree(stood.place / "given" / SECOND)
    assert stood.looks() == ([], [], Counts())
    shutil.rmtree(stood.place / "copies" / SECOND)
    assert stood.looks()[1] == [MISSED]
    stood.gives(SECOND)
    stood.copies.refused = "it is none"
    assert stood.looks()[2] == Counts(without_copy=1, at_fault=1)
    shutil.rmtree(stood.place / "given" / SECOND)
    closed = '[day]\nweekdays = ["Sun"]\n'
    (stood.place / "keeper.toml").write_text(CONFIGURATION + closed)
    assert stood.looks() == ([], [], Counts())


def test_no_day_that_could_be_missed(stood: Stood) -> None:
    """Where nothing trades for a month, nothing is looked for."""
    stood.gives(FIRST)
    stood.looks()
    days = (datetime(2026, 10, 1) + timedelta(days=number) for number in range(90))
    (stood.place / "holidays").write_text("".join("%s\n" % day.date() for day in days))
    holidays = CONFIGURATION + '[day]\nholidays = "holidays"\n'
    (stood.place / "keeper.toml").write_text(holidays)
    assert stood.looks() == ([], [], Counts())


def test_no_place_of_given_copies(stood: Stood) -> None:
    """The whole look fails: what is mounted there may be gone."""
    (stood.place / "given").rmdir()
    with pytest.raises(Fault, match="No such file"):
        stood.looks()
