"""What keeper.toml says, and what is wrong with it."""

import os
from datetime import date, datetime, timedelta, timezone
from pathlib import Path

import pytest
from mireseason_keeper.faults import Fault
from mireseason_keeper.main import faults_of, run
from mireseason_keeper.settings import read_settings
from mireseason_keeper.trading_days import TradingDays

POSTGRES = 'postgres = "host=db1"'
RIGHT = """[log]
postgres = "host=db1"
[copies]
folder = "copies"
[seal]
key = "seal.pem"
gateways = ["gw1.pub", "gw2.pub"]
"""
NEW_YORK = 'zone = "America/New_York"\nopens = "08:00"\nends = "17:30"\n'

# The days that are next at a moment, with opening and end in UTC: by hand, from a calendar.
NEXT = {
    "without rules": ("", "2026-11-25T13:00", "20261125 00:00 00:00, 20261126 00:00 00:00"),
    "in winter": (NEW_YORK, "2026-11-25T22:29", "20261125 13:00 22:30, 20261126 13:00 22:30"),
    "one is over, and one a holiday": (
        NEW_YORK + 'holidays = "holidays"\n',
        "2026-11-25T22:30",
        "20261127 13:00 22:30, 20261128 13:00 22:30",
    ),
    "over a weekend in which summer time ends": (
        'zone = "Europe/London"\nopens = "08:00"\nends = "16:30"\n'
        'weekdays = ["Mon", "Tue", "Wed", "Thu", "Fri"]\n',
        "2026-10-23T12:00",
        "20261023 07:00 15:30, 20261026 08:00 16:30",
    ),
    "an end that summer time repeats is the first of the two": (
        'zone = "America/New_York"\nends = "01:30"\n',
        "2026-11-01T05:29",
        "20261101 04:00 05:30, 20261102 05:00 06:30",
    ),
    "a morning that is the evening before in UTC": (
        'zone = "Australia/Sydney"\nopens = "08:00"\nends = "10:30"\n',
        "2026-11-24T23:00",
        "20261124 21:00 23:30, 20261125 21:00 23:30",
    ),
}

# What stands in the place of a lawful text, and what is said of it.
FAULTS = {
    "no place for copies": ('folder = "copies"\n', "", "[copies] folder is missing"),
    "no key": ('key = "seal.pem"\n', "", "[seal] key is missing"),
    "no gateway": ('["gw1.pub", "gw2.pub"]', "[]", "has to be a list of texts"),
    "a misspelt key": ("folder", "foldr", "[copies] has no key foldr"),
    "another part": ("[copies]", "[copy]", "there is no part [copy]"),
    "a key that is no part": ("[log]", "metrics = 1\n[log]", "there is no part [metrics]"),
    "a number as a text": ('folder = "copies"', "folder = 1", "has to be a text"),
    "nothing kept": ("[seal]", "keep = 0\n[seal]", "has to be a number from 1 on"),
    "a part of a day kept": ("[seal]", "keep = 1.5\n[seal]", "keep is 1.5, and has to be a number"),
    "a word for a number": (
        "[seal]",
        "keep = true\n[seal]",
        "keep is True, and has to be a number",
    ),
    "a text for a number": ("[seal]", 'keep = "2"\n[seal]', "keep is '2', and has to be a number"),
    "a schema without a date": ("[copies]", 'schema = "day"\n[copies]', "schema needs {date}"),
    "a venue without a name": (
        "[copies]",
        'schema = "{venue}_{date}"\n[copies]',
        "{venue} if and only if [venue] has names",
    ),
    "names in one schema": ("[copies]", '[venue]\nnames = ["north"]\n[copies]', "schema needs"),
    "a name of a venue": (
        "[copies]",
        'schema = "{venue}_{date}"\n[venue]\nnames = ["north", "South"]\n[copies]',
        "[venue] names: a name is of small letters",
    ),
    "a list of a text and a number": ('"gw2.pub"', "2", "has to be a list of texts"),
    "a text for a list": (
        '["gw1.pub", "gw2.pub"]',
        '"gw1.pub"',
        "gateways is 'gw1.pub', and has to be a list",
    ),
    "a table for a list": ('["gw1.pub", "gw2.pub"]', "{ a = 1 }", "has to be a list of texts"),
    "no zone": ("[copies]", '[day]\nzone = "New York"\n[copies]', "none of the tz database"),
    "a folder of zones": (
        "[copies]",
        '[day]\nzone = "America"\n[copies]',
        "none of the tz database",
    ),
    "a zone elsewhere": ("[copies]", '[day]\nzone = "../UTC"\n[copies]', "none of the tz database"),
    "a key of too many parts": ("[copies]", "a" + ".a" * 20000 + " = 1\n[copies]", "32 deep"),
    "too many brackets": ("[copies]", "a = " + "[" * 100000 + "\n[copies]", "32 deep"),
    "no time": ("[copies]", '[day]\nends = "24:01"\n[copies]', "[day] ends is 24:01"),
    "no weekday": ("[copies]", '[day]\nweekdays = ["Sum"]\n[copies]', "weekdays are of Mon"),
    "a day that ends as it opens": (
        "[copies]",
        '[day]\nopens = "00:00"\nends = "00:00"\n[copies]',
        "[day] ends: a day opens before it ends",
    ),
    "a day that opens as it ends": (
        "[copies]",
        '[day]\nopens = "24:00"\n[copies]',
        "a day opens before it ends",
    ),
    "holidays that nobody writes": (
        "[copies]",
        '[day]\nholidays = "pipe"\n[copies]',
        "pipe: is no plain file",
    ),
    "holidays without an end": (
        "[copies]",
        '[day]\nholidays = "long"\n[copies]',
        "long: is longer than",
    ),
    "no file of holidays": ("[copies]", '[day]\nholidays = "none"\n[copies]', "No such file"),
    "no holiday": ("[copies]", '[day]\nholidays = "faulty"\n[copies]', "line 2: a holiday is"),
    "no TOML": ("[copies]", "[copies", "keeper.toml"),
    "no logs": ('postgres = "host=db1"', "", "[log] has to have one of postgres and copies"),
    "logs of both kinds": (
        "[copies]",
        'copies = "given"\n[copies]',
        "[log] has to have one of postgres and copies",
    ),
    "a schema of files": (
        POSTGRES,
        'copies = "given"\nschema = "{date}"',
        "[log] schema is for logs in PostgreSQL",
    ),
    "a file of a database": (
        "[copies]",
        'file = "{date}.db"\n[copies]',
        "[log] file is for logs in SQLite",
    ),
    "files that are kept here": (
        POSTGRES + "\n[copies]",
        'copies = "given"\n[copies]\nkeep = 30',
        "[copies] keep is for logs in PostgreSQL",
    ),
    "a database that is told": (
        "[seal]",
        'sealed = "sealed"\n[seal]',
        "[copies] sealed is for logs in SQLite",
    ),
    "a log elsewhere": (
        POSTGRES,
        'copies = "given"\nfile = "../{date}.db"',
        "has to be a name that ends in .db",
    ),
    "a log of another kind": (
        POSTGRES,
        'copies = "given"\nfile = "{date}.log"',
        "has to be a name that ends in",
    ),
    "files without a date": (
        POSTGRES,
        'copies = "given"\nfile = "day.db"',
        "[log] file needs {date}",
    ),
}


@pytest.fixture
def file(place: Path) -> Path:
    (place / "holidays").write_text("\n2026-11-26   # Thanksgiving\n")
    (place / "faulty").write_text("2026-11-26\n2026-11-31\n")
    (place / "long").write_text("# none\n" * 200_000)
    os.mkfifo(place / "pipe")
    return place / "keeper.toml"


@pytest.mark.parametrize("name", NEXT)
def test_days_that_are_next(file: Path, name: str) -> None:
    """As the gateway has them, from the same lines."""
    rules, now, expected = NEXT[name]
    file.write_text(RIGHT + "[day]\n" + rules)
    at = datetime.fromisoformat(now).replace(tzinfo=timezone.utc)
    days = read_settings(file).days.next_days(at, 2)
    found = [
        "%s %s %s" % (day.date, *(f"{one:%H:%M}" for one in (day.opens, day.ends))) for day in days
    ]
    assert ", ".join(found) == expected


def test_when_a_day_ended(file: Path) -> None:
    """A day of the rules at its end; one that none of them trades on, at midnight in UTC."""
    file.write_text(RIGHT + "[day]\n" + NEW_YORK + 'holidays = "holidays"\n')
    days = read_settings(file).days
    assert days.end_of("20261125") == datetime(2026, 11, 25, 22, 30, tzinfo=timezone.utc)
    assert days.end_of("20261126") == datetime(2026, 11, 27, tzinfo=timezone.utc)


# The end of a day by its log's name, which is the date in UTC of its opening: by hand, from a calendar.
ENDED = {
    "the day after, where it opened": (
        'zone = "Australia/Sydney"\nopens = "08:00"\nends = "10:30"\n',
        "2026-11-24T23:30",
    ),
    "the day before, where it opened": (
        'zone = "Pacific/Honolulu"\nopens = "15:00"\nends = "18:00"\n',
        "2026-11-24T04:00",
    ),
    "round the clock": ("", "2026-11-25T00:00"),
}


@pytest.mark.parametrize("name", ENDED)
def test_when_a_day_of_another_date_ended(file: Path, name: str) -> None:
    rules, expected = ENDED[name]
    file.write_text(RIGHT + "[day]\n" + rules)
    found = read_settings(file).days.end_of("20261124")
    assert found == datetime.fromisoformat(expected).replace(tzinfo=timezone.utc)


def test_what_each_key_says(file: Path) -> None:
    """And what counts where there is none: keeper.toml as installed has the same."""
    file.write_text(RIGHT)
    usual, place = read_settings(file), file.parent
    assert (usual.postgres, usual.given, usual.schema) == ("host=db1", None, "day_{date}")
    assert (usual.venues, usual.program) == (("",), Path("/usr/bin/rfq_venue"))
    assert (usual.folder, usual.keep, usual.sealed) == (place / "copies", None, None)
    assert (usual.key, usual.checkpoints) == (place / "seal.pem", None)
    assert usual.gateways == (place / "gw1.pub", place / "gw2.pub")
    assert (usual.audit, usual.metrics) == (("/usr/bin/mireseason-audit",), None)
    assert usual.copy_of("", "20261127") == place / "copies" / "20261127"
    text = RIGHT.replace('key = "', 'checkpoints = "received"\nkey = "')
    text = text.replace("[seal]", "keep = 1\n[seal]")
    more = '[venue]\nprogram = "venue"\n[audit]\ncommand = ["sh", "audit"]\n'
    file.write_text(text + more + '[metrics]\nfile = "prom"\n')
    said = read_settings(file)
    assert (said.checkpoints, said.keep) == (place / "received", 1)
    assert (said.program, said.audit) == (place / "venue", ("sh", "audit"))
    assert said.metrics == place / "prom"
    given = RIGHT.replace(POSTGRES, 'copies = "given"').replace("[seal]", 'sealed = "told"\n[seal]')
    file.write_text(given)
    assert read_settings(file).sealed == place / "told"


def test_checkpoints_that_came(file: Path) -> None:
    """Those of the day and the venue, as a gateway names them: one, or all of a day."""
    file.write_text(RIGHT.replace("[seal]", '[seal]\ncheckpoints = "received"'))
    received = file.parent / "received"
    received.mkdir()
    settings = read_settings(file)
    for name in ("day-20261127", "day-20261128", "north-20261127"):
        assert settings.checkpoints_of("", "20261127") == []
        (received / name).touch()
    for name in (
        "day-20261127.checkpoints",
        "day-20261127.checkpoint",
        "north-20261127.checkpoint",
    ):
        (received / name).touch()
    found = [path.name for path in settings.checkpoints_of("", "20261127")]
    assert found == ["day-20261127.checkpoint", "day-20261127.checkpoints"]
    found = [path.name for path in settings.checkpoints_of("north", "20261127")]
    assert found == ["north-20261127.checkpoint"]


def test_logs_of_venues(file: Path) -> None:
    """Each venue has its own; another schema is nobody's."""
    names = 'schema = "{venue}_{date}"\n[venue]\nnames = ["north", "south"]\n[copies]'
    file.write_text(RIGHT.replace("[copies]", names))
    settings = read_settings(file)
    assert settings.day_of("north", "north_20261127") == "20261127"
    assert settings.copy_of("north", "20261127").name == "20261127-north"
    for schema in ("south_20261127", "north_20261131", "north_2026112", "xnorth_20261127"):
        assert settings.day_of("north", schema) is None, schema


def test_logs_in_files(file: Path) -> None:
    """Those of SQLite, whose copies a gateway makes."""
    file.write_text(RIGHT.replace(POSTGRES, 'copies = "given"'))
    settings = read_settings(file)
    assert settings.given == file.parent / "given" and settings.sealed is None
    assert settings.log_of("", "20261127") == "day-20261127"


def test_where_readers_read(file: Path) -> None:
    """A connection string, of logs in PostgreSQL alone; none as a rule."""
    file.write_text(RIGHT)
    assert read_settings(file).readers == ""
    readers = 'readers = "host=read1 user=keeper"\n'
    file.write_text(RIGHT.replace(POSTGRES, POSTGRES + "\n" + readers))
    assert read_settings(file).readers == "host=read1 user=keeper"
    file.write_text(RIGHT.replace(POSTGRES, 'copies = "given"\n' + readers))
    with pytest.raises(Fault, match="readers is for logs in PostgreSQL"):
        read_settings(file)


def test_how_long_a_file_may_be(file: Path) -> None:
    """1 MiB, and no byte more."""
    file.write_text(RIGHT + '[day]\nholidays = "holidays"\n')
    line = "2026-11-26\n"
    for more in (0, 1):
        text = "#" * ((1 << 20) - len(line) - 1 + more) + "\n" + line
        (file.parent / "holidays").write_text(text)
        if not more:
            assert read_settings(file).days.holidays == {date(2026, 11, 26)}
            continue
        with pytest.raises(Fault, match="holidays: is longer than 1048576 bytes$"):
            read_settings(file)


@pytest.mark.parametrize("key", ["opens", "ends"])
@pytest.mark.parametrize(
    "text", ["08:60", "24:01", "25:00", "8:00", "08:0", "08:00:00", "08-00", " 08:00", "08:0x", ""]
)
def test_what_is_no_time_of_day(file: Path, key: str, text: str) -> None:
    file.write_text(RIGHT + '[day]\n%s = "%s"\n' % (key, text))
    with pytest.raises(Fault) as fault:
        read_settings(file)
    assert str(fault.value) == "%s: [day] %s is %s, and has to be HH:MM" % (file, key, text)


def test_times_of_day(file: Path) -> None:
    """From midnight to midnight, with the last minute of each hour."""
    for opens, ends in (("00:00", "00:01"), ("08:59", "09:00"), ("23:59", "24:00")):
        file.write_text(RIGHT + '[day]\nopens = "%s"\nends = "%s"\n' % (opens, ends))
        days = read_settings(file).days
        for found, text in ((days.opens, opens), (days.ends, ends)):
            assert found == timedelta(hours=int(text[:2]), minutes=int(text[3:]))


LAST = {
    "its end": ("2026-11-25T22:30", "20261125"),
    "a second before": ("2026-11-25T22:29:59", "20261124"),
    "behind a holiday": ("2026-11-26T23:00", "20261125"),
}


@pytest.mark.parametrize("name", LAST)
def test_the_last_day_that_has_ended(file: Path, name: str) -> None:
    now, expected = LAST[name]
    file.write_text(RIGHT + "[day]\n" + NEW_YORK + 'holidays = "holidays"\n')
    days = read_settings(file).days
    last = days.last_day(datetime.fromisoformat(now).replace(tzinfo=timezone.utc))
    assert last is not None and last.date == expected


def test_a_last_day_of_long_ago() -> None:
    """A month is looked back, and no more."""
    now = datetime(2026, 11, 27, 12, tzinfo=timezone.utc)
    for ago, expected in ((31, "20261027"), (32, None)):
        closed = frozenset(now.date() - timedelta(days=day) for day in range(-1, ago))
        last = TradingDays(holidays=closed | {now.date() - timedelta(days=33)}).last_day(now)
        assert (last and last.date) == expected


@pytest.mark.parametrize("name", FAULTS)
def test_a_fault_is_told(file: Path, name: str) -> None:
    """With the file and the key."""
    old, new, expected = FAULTS[name]
    assert old in RIGHT
    file.write_text(RIGHT.replace(old, new))
    with pytest.raises(Fault) as fault:
        read_settings(file)
    assert expected in str(fault.value) and str(fault.value).startswith(str(file.parent))


def test_metrics_that_can_not_be_written(file: Path, capsys: pytest.CaptureFixture[str]) -> None:
    """A fault in one line, which a look at the configuration finds too."""
    for name in ("given", "copies"):
        (file.parent / name).mkdir()
    metrics = '[metrics]\nfile = "none/keeper.prom"\n'
    file.write_text(RIGHT.replace(POSTGRES, 'copies = "given"') + metrics)
    settings = read_settings(file)
    assert run(file, settings) == 1
    (line,) = capsys.readouterr().err.splitlines()
    assert line.startswith('metrics are not written cause="[Errno 2] No such file or directory')
    assert "%s: there is no such folder" % (file.parent / "none") in faults_of(settings)
