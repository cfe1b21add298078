"""A restart within a day: what `--check` says that it would do. A day is closed by an operator's word, and not by hours
that were changed since it began.
"""

import os
import re
from collections.abc import Callable
from dataclasses import dataclass
from datetime import datetime, timedelta, timezone
from pathlib import Path

import pytest

from tests.admin.operator import admin, audit, did, firm_row, rows, wait_open
from tests.admin.test_orders import GONE, quoted
from tests.gateway.door import today
from tests.gateway.midnight import wait_for_room
from tests.gateway.stage import DEALER, Stage
from tests.gateway.test_seals import Intruder
from tests.gateway.wait import LONG, until
from tests.limits.flood import logged_on
from tests.operating.test_configuration import VENUE, told, write

MIDNIGHT = "T00:00:00Z"
OTHERS_ROW = """[[dealer]]
name = "DLR2"
traders = ["T2"]
quotes = 4096
exposure = 60000000
"""
NEW_DEALER = OTHERS_ROW.replace("DLR2", "DLR3").replace("T2", "T3")
# A hash of crypt(5), of whatever password.
NEW_CREDENTIALS = '[DLR3]\nusername = "DLR3"\npassword = "$6$saltsalt$%s"\n' % ("x" * 86)


def tomorrow() -> datetime:
    return datetime.now(timezone.utc) + timedelta(days=1)


def end_of_today() -> str:
    return tomorrow().strftime("%Y-%m-%d") + MIDNIGHT


def replaced(file: Path, was: str, by: str) -> None:
    text = file.read_text()
    assert was in text, (file, was)
    file.write_text(text.replace(was, by, 1))


def day_off(stage: Stage) -> None:
    """Of the weekdays only tomorrow's is a trading day."""
    file = stage.folder / "gateway.toml"
    file.write_text(file.read_text() + '[day]\nweekdays = ["%s"]\n' % tomorrow().strftime("%a"))


def holiday(stage: Stage) -> None:
    (stage.folder / "holidays").write_text(datetime.now(timezone.utc).strftime("%Y-%m-%d\n"))
    file = stage.folder / "gateway.toml"
    file.write_text(file.read_text() + '[day]\nholidays = "holidays"\n')


def later(stage: Stage) -> None:
    """The day opens later today, which no test is near to."""
    file = stage.folder / "gateway.toml"
    file.write_text(file.read_text() + '[day]\nopens = "23:58"\n')


def another_firm(stage: Stage) -> None:
    replaced(stage.folder / "venue.toml", "open = 64", "open = 63")


def fault(stage: Stage) -> None:
    replaced(stage.folder / "venue.toml", "exposure", "exposre")


def missing(stage: Stage) -> None:
    (stage.folder / "venue.toml").unlink()


def new_firm(stage: Stage) -> None:
    """By the recipe: it stands in venue.toml, and has credentials already."""
    file = stage.folder / "venue.toml"
    file.write_text(file.read_text() + NEW_DEALER)
    replaced(stage.folder / "credentials.toml", "[DLR2]", NEW_CREDENTIALS + "[DLR2]")


def new_firm_and_fault(stage: Stage) -> None:
    new_firm(stage)
    fault(stage)


def new_firm_and_nothing(stage: Stage) -> None:
    new_firm(stage)
    missing(stage)


def new_firm_for_another(stage: Stage) -> None:
    """A firm is taken out for tomorrow whose credentials are still there."""
    new_firm(stage)
    taken_out(stage)


def taken_out(stage: Stage) -> None:
    file = stage.folder / "venue.toml"
    file.write_text(file.read_text().replace(OTHERS_ROW, ""))


def leaves_tomorrow(stage: Stage) -> None:
    """By the recipe: today is the firm's last day."""
    replaced(stage.folder / "credentials.toml", "[DLR2]\n", '[DLR2]\nends = "%s"\n' % today())
    taken_out(stage)


def no_credentials(stage: Stage) -> None:
    file = stage.folder / "credentials.toml"
    parts = re.split(r"(?m)^(?=\[)", file.read_text())
    file.write_text("".join(part for part in parts if not part.startswith("[DLR2]")))


def no_password(stage: Stage) -> None:
    replaced(stage.folder / "credentials.toml", "password", "pasword")


def no_checkpoint(stage: Stage) -> None:
    stage.door.kept.unlink()


def old_copy(stage: Stage) -> None:
    """The log ends before what was signed."""
    Intruder(stage.door).rows("DELETE FROM entry WHERE place > 0")


def no_log(stage: Stage) -> None:
    for file in stage.folder.glob("day-*.db*"):
        file.unlink()


@dataclass(frozen=True)
class Case:
    """What is done to a day that has begun, and what a restart would do then, as the pages say."""

    does: Callable[[Stage], object]
    says: str  # {to}: the end of today
    goes_well: bool = True
    is_fault: bool = False  # for the next day: --check has status 1 all the same
    stops: bool = False  # the gateway, before


CLOSED = (
    "goes on with {day} to {to}, by the hours that it began with: by [day] as it is now it would be"
    " closed, which takes `mireseason-admin end-day`"
)
CASES = {
    "nothing": Case(lambda _: None, "goes on with {day} to {to}\n"),
    "stopped": Case(lambda _: None, "goes on with {day} to {to}\n", stops=True),
    "venue.toml has changed": Case(
        another_firm,
        "goes on with {day} to {to}; it does so with the configuration that it began with, and that"
        " of now applies to the next day\n",
    ),
    "venue.toml is at fault": Case(
        fault,
        "goes on with {day} to {to}; it does so by its entry 0, since the venue's configuration is"
        " at fault: ",
        is_fault=True,
    ),
    "venue.toml is missing": Case(missing, "it does so by its entry 0", is_fault=True),
    "a new firm": Case(new_firm, "goes on with {day} to {to}; it does so with the configuration"),
    "a new firm, and a fault": Case(
        new_firm_and_fault, "by its entry 0, since the venue's configuration is", is_fault=True
    ),
    "a new firm, and no venue.toml": Case(
        new_firm_and_nothing, "by its entry 0, since the venue's configuration is", is_fault=True
    ),
    "a new firm for another": Case(
        new_firm_for_another, "the venue has no firm DLR2", is_fault=True
    ),
    "a firm that leaves tomorrow": Case(
        leaves_tomorrow,
        "goes on with {day} to {to}; it does so with the configuration that it began with, and that"
        " of now applies to the next day\n",
    ),
    "a firm's credentials are gone": Case(no_credentials, "goes on with {day} to {to}\n"),
    "no trading day by its weekday": Case(day_off, CLOSED),
    "a holiday": Case(holiday, CLOSED),
    "opens later": Case(later, CLOSED),
    "credentials at fault": Case(no_password, "ends with status 1: ", goes_well=False),
    "a checkpoint that is none": Case(
        lambda stage: stage.door.kept.write_text("garbage\n"),
        "ends with status 1: ",
        goes_well=False,
        stops=True,
    ),
    "no checkpoint": Case(
        no_checkpoint,
        "ends with status 3: there is a log, and no checkpoint of it",
        goes_well=False,
        stops=True,
    ),
    "an old copy of the log": Case(
        old_copy, "ends with status 3: its log lacks entry", goes_well=False, stops=True
    ),
    "no log": Case(
        no_log, "its log is not there, and a checkpoint of it is", goes_well=False, stops=True
    ),
}


def opened(stage: Stage) -> None:
    """A day without an end of its own but midnight."""
    wait_for_room("a day")
    write(stage, VENUE)
    stage.door.start()
    stage.door.wait_open()
    until("a checkpoint is kept", LONG, stage.door.kept.exists)


@pytest.mark.parametrize("name", CASES)
def test_what_a_restart_would_do(stage: Stage, name: str) -> None:
    """One sentence for the day, and status 1 where the restart would not go well; and a restart does just that."""
    case = CASES[name]
    opened(stage)
    if case.stops:
        assert stage.door.stop() == 0, stage.door.last_words()
    case.does(stage)
    found = told(stage)
    says = case.says.format(day=today(), to=end_of_today())
    (line,) = [one for one in found.stdout.splitlines(True) if one.startswith("a restart now")]
    assert says in line, (says, line)
    assert found.returncode == (0 if case.goes_well and not case.is_fault else 1), found
    told_why = "so the status is 1, although a restart now goes well" in found.stderr
    assert told_why == (case.goes_well and case.is_fault), found
    if not case.stops:
        stage.door.kill()
    stage.door.start()
    if case.goes_well:
        stage.door.wait_open()
        until("the day goes on", LONG, lambda: stage.door.told.read_text().count(" ready") == 2)
    else:
        assert stage.door.wait_end() in (1, 3)


def test_before_a_day_begins(stage: Stage) -> None:
    """A start begins it; --check says so, and makes nothing."""
    wait_for_room("a day")
    write(stage, VENUE)
    before = sorted(stage.folder.iterdir())
    found = told(stage)
    assert "a restart now begins %s to %s\n" % (today(), end_of_today()) in found.stdout
    day_off(stage)
    found = told(stage)
    opens = tomorrow().strftime("%Y%m%d opens at %Y-%m-%d") + MIDNIGHT
    assert "a restart now opens no day yet: %s\n" % opens in found.stdout, found
    assert found.returncode == 0
    assert sorted(stage.folder.iterdir()) == before, "--check has made something"


def test_a_day_of_one_date_that_was_changed(stage: Stage) -> None:
    """A configuration with a date is of that day alone: once it has begun, another one ends a start, and --check says so."""
    wait_for_room("a day")
    write(stage, 'date = "%s"\n' % today() + VENUE)
    stage.door.start()
    stage.door.wait_open()
    found = told(stage)
    assert found.returncode == 0, found
    assert "a restart now goes on with %s\n" % today() in found.stdout, found
    another_firm(stage)
    found = told(stage)
    assert found.returncode == 1, found
    assert "a restart now with %s ends with status 1: " % today() in found.stdout, found
    stage.door.kill()
    stage.door.start()
    assert stage.door.wait_end() == 1


def test_who_cancels_is_a_trader_of_the_day_that_goes_on(stage: Stage) -> None:
    """From tomorrow a dealer has another trader, by whom its quotes are to be cancelled: a day that goes on does not know him, and the
    quotes of a session that ends are cancelled all the same."""
    stage.door.cancelled["DLR1"] = "T1"
    wait_for_room("a day")
    write(stage, VENUE)
    stage.open(stage.other, stage.investor)
    replaced(stage.folder / "venue.toml", 'traders = ["T1"]', 'traders = ["T9"]')
    replaced(
        stage.folder / "credentials.toml",
        'cancel_on_disconnect = "T1"',
        'cancel_on_disconnect = "T9"',
    )
    stage.door.kill()
    stage.door.start()
    stage.door.wait_open()
    until("both are back", LONG, lambda: stage.other.logged_on() and stage.investor.logged_on())
    with logged_on(stage, DEALER) as wire:
        stage.ask_of([stage.dealer, stage.other])
        assert wire.read_kind(b"R") is not None
        quoted(wire, b"q1")
    stage.answer(
        stage.investor,
        "that the quote is gone",
        lambda message: message.kind == b"AI" and message.value(297) == GONE,
    )


def test_a_firm_that_leaves_tomorrow(stage: Stage) -> None:
    """Today it is in, also after a restart; `next-day` has it gone, and nothing is at fault."""
    stage.door.operators = ""
    opened(stage)
    leaves_tomorrow(stage)
    until("it is told", LONG, lambda: "applies from" in stage.door.told.read_text())
    (row,) = rows(stage, "next-day")
    assert (row["firms_gone"], row["firms"]) == ("DLR2", 2), row
    stage.door.kill()
    stage.door.start()
    wait_open(stage)
    stage.log_on(stage.other)
    assert firm_row(stage, "DLR2")["logged_on"]


def test_a_firm_that_a_restart_would_keep_out(stage: Stage) -> None:
    """`--remove` was called, and no reload: --check and `status` name the firm, before a restart does it."""
    stage.door.operators = ""
    opened(stage)
    no_credentials(stage)
    said = "DLR2 can't log on: it has no credentials\n"
    assert told(stage).stdout.count(said) == 1
    assert did(stage, "status").count(said) == 1


def test_how_many_firms_the_files_have(stage: Stage) -> None:
    """They are tomorrow's where the day that is open began with others."""
    opened(stage)
    assert "is a configuration of 3 firms for %s\n" % today() in told(stage).stdout
    new_firm(stage)
    assert "is a configuration of 4 firms for the day after %s\n" % today() in told(stage).stdout


def test_an_end_that_was_moved_forward(stage: Stage) -> None:
    """A restart ends the day earlier than it began with: --check says so, and what becomes of requests."""
    opened(stage)
    file = stage.folder / "gateway.toml"
    file.write_text(file.read_text() + '[day]\nends = "23:59"\n')
    found = told(stage)
    earlier = datetime.now(timezone.utc).strftime("%Y-%m-%dT23:59:00Z")
    says = "a restart now goes on with %s to %s, and not to %s as it began: a request that is open"
    assert says % (today(), earlier, end_of_today()) in found.stdout, found
    assert found.returncode == 0, found


CHANGES = {"day_off": day_off, "holiday": holiday, "later": later}


@pytest.mark.parametrize("name", CHANGES)
def test_changed_hours_close_no_open_day(stage: Stage, name: str) -> None:
    """A request that is open outlives the restart, and is quoted and hit; `end-day` ends the day, and then it stays ended."""
    stage.door.operators = ""
    wait_for_room("a day")
    write(stage, VENUE)
    stage.open(*stage.firms)
    request = stage.ask()
    stage.quote(stage.dealer, request)
    CHANGES[name](stage)
    stage.door.kill()
    stage.door.start()
    stage.door.wait_open()
    until("both are back", LONG, lambda: stage.dealer.logged_on() and stage.investor.logged_on())
    shown = stage.answer(stage.investor, "the quote", lambda message: message.kind == b"S")
    assert stage.hit(shown.given(117)).value(297) == b"0"
    text = stage.door.told.read_text()
    assert "the day goes on by the hours that it began with" in text and "end-day" in text
    opens = tomorrow().strftime("%Y%m%d")
    assert opens in did(stage, "next-day"), "the next day is another"
    did(stage, "end-day", "--now", "--because", "a holiday that was forgotten")
    until("it waits for the next day", LONG, lambda: waits_for(stage))
    assert audit(stage, "check").status == 0, audit(stage, "check").text
    if name == "later":
        return  # that is the same day's end, and midnight follows
    stage.door.kill()
    found = told(stage)
    assert "a restart now opens no day yet: %s opens" % opens in found.stdout, found
    stage.door.start()
    until("it waits again", LONG, lambda: waits_for(stage))


def waits_for(stage: Stage) -> bool:
    """Whether no day is open, and the next one is tomorrow's."""
    said = admin(stage, "firms")
    return "no day is open" in said.err and tomorrow().strftime("%Y%m%d") in said.err


# What somebody may have put into the file of the hours that a day began with; none of it opens a day, or ends a start.
HOURS = {
    "nothing": "",
    "no hours": "\x00\xff\x1b[31m",
    "another day": "day 20200101\nopens 1577836800\ncloses 1577923200\nends 1577923200\n",
    "a day of years": "day {day}\nopens 0\ncloses 99999999999\nends 99999999999\n",
    "beyond all numbers": "day {day}\nopens 9223372036854775808\ncloses 9\nends 9\n",
    "the end of all numbers": "day {day}\nopens {opens}\ncloses 9223372036854775807\nends 9223372036854775807\n",
    "an end before its begin": "day {day}\nopens {opens}\ncloses {opens}\nends {opens}\n",
    "no date": "day today\nopens {opens}\ncloses {ends}\nends {ends}\n",
}


@pytest.mark.parametrize("name", HOURS)
def test_hours_that_are_none(stage: Stage, name: str) -> None:
    """The file says nothing then: by the hours of now the day is closed, and --check says that a restart closes it."""
    opened(stage)
    midnight = datetime.now(timezone.utc).replace(hour=0, minute=0, second=0, microsecond=0)
    opens = int(midnight.timestamp())
    text = HOURS[name].format(day=today(), opens=opens, ends=opens + 86400)
    (file,) = (stage.folder / "checkpoints").glob("*.hours")
    assert "ends %d\n" % (opens + 86400) in file.read_text(), "the day's hours are not kept"
    day_off(stage)
    file.write_bytes(text.encode("latin-1"))
    found = told(stage)
    assert found.returncode == 1, found
    assert "a restart now closes %s, which has begun and has not ended" % today() in found.stdout
    stage.door.kill()
    stage.door.start()
    until("it waits", LONG, lambda: b" closed until=" in stage.door.told.read_bytes())


@pytest.mark.parametrize("kind", ["a pipe", "a folder", "a link to a device"])
def test_what_stands_in_the_place_of_hours(stage: Stage, kind: str) -> None:
    """And is no file: nobody waits for it, and a day is opened and ended all the same."""
    opened(stage)
    (file,) = (stage.folder / "checkpoints").glob("*.hours")
    file.unlink()
    if kind == "a pipe":
        os.mkfifo(file)
    elif kind == "a folder":
        file.mkdir()
    else:
        file.symlink_to("/dev/zero")
    found = told(stage)
    assert "a restart now goes on with %s" % today() in found.stdout, found
    stage.door.kill()
    stage.door.start()
    stage.door.wait_open()
    assert stage.door.stop() == 0, stage.door.last_words()


LOGS = {
    "no database": b"this is no database, and it is longer than a header of SQLite has to be" * 20,
    "nothing": b"",
    "its header alone": b"SQLite format 3\x00" + bytes(4080),
}


@pytest.mark.parametrize("name", LOGS)
def test_a_log_that_is_none(stage: Stage, name: str) -> None:
    """--check says that a restart would not go well, and leaves it as it is."""
    opened(stage)
    assert stage.door.stop() == 0
    for file in stage.folder.glob("day-*.db-*"):
        file.unlink()
    stage.door.database.write_bytes(LOGS[name])
    found = told(stage)
    assert found.returncode == 1 and "a restart now " in found.stdout, found
    assert stage.door.database.read_bytes() == LOGS[name]
    stage.door.start()
    assert stage.door.wait_end() in (1, 3)


def test_what_a_file_says_to_a_terminal(stage: Stage) -> None:
    """What stands in a configuration at fault is told in printable characters, in the sentence about a restart and by `status`."""
    stage.door.operators = ""
    opened(stage)
    replaced(stage.folder / "venue.toml", '"DLR2"', '"\\u001b[2J\\u0007DLR2"')
    for text in (told(stage).stdout, did(stage, "status")):
        (line,) = [one for one in text.splitlines() if one.startswith("a restart now")]
        assert line.isprintable() and "by its entry 0" in line, line
