"""Faults that are put into the log and the day between two starts of the gateway, and how the gateway ends."""

import os
import re
import signal
import sqlite3
from collections.abc import Callable
from datetime import datetime, timedelta, timezone

from tests.gateway.door import Door, Programs, today
from tests.gateway.stage import DEALER, Stage, Wrong, check
from tests.gateway.wait import LONG, until, within
from tests.gateway.wire import Wire

BEFORE_MIDNIGHT = (
    20,
    120,
    600,
)  # seconds: where a busy machine has not all firms on by then, so many more


def ended_day(stage: Stage) -> None:
    """A gateway that has ended after an auction; its firms try to log on all the time."""
    stage.open(*stage.firms)
    stage.auction()
    check(stage.door.stop() == 0, "the gateway does not end well")
    for firm in stage.firms:
        until("%s is logged off" % firm.name, LONG, lambda: not firm.logged_on())


def nothing_sent(stage: Stage, act: Callable[[], None]) -> None:
    """Does something in which no firm may log on or be sent anything."""
    before = [(firm.times_on, len(firm.received)) for firm in stage.firms]
    act()
    for firm, was in zip(stage.firms, before):
        firm.look()
        check(
            (firm.times_on, len(firm.received)) == was,
            "%s was logged on or was sent something" % firm.name,
        )


def changed(stage: Stage, query: str, *values: object) -> None:
    connection = sqlite3.connect(stage.door.database)
    with connection:
        count = connection.execute(query, values).rowcount
    connection.close()
    check(count == 1, "the test changes %d rows" % count)


def place_of_a_quote(stage: Stage) -> int:
    return [
        entry.place
        for entry in stage.door.ledger().messages_of("DLR1")
        if b"\x0135=S\x01" in entry.message
    ][0]


def test_changed_configuration(stage: Stage) -> None:
    ended_day(stage)
    file = stage.folder / "venue.toml"
    text = file.read_text()
    file.write_text(text.replace("quantity = 5000000", "quantity = 5000001"))
    nothing_sent(stage, lambda: stage.refused("0", "configuration"))
    file.write_text(text + "# a comment\n")
    nothing_sent(stage, lambda: stage.refused("0", "configuration"))
    file.write_text(text)
    goes_on(stage)


def goes_on(stage: Stage) -> None:
    """The day goes on, and every firm has what the venue gives over the log."""
    stage.door.start()
    for firm in stage.firms:
        if not firm.process:
            firm.start()
        firm.wait_on()
    stage.auction()
    stage.whole()


def test_entry_taken_out(stage: Stage) -> None:
    ended_day(stage)
    place = place_of_a_quote(stage)
    changed(stage, "DELETE FROM entry WHERE place = ?", place)
    nothing_sent(stage, lambda: stage.refused(str(place)))


def test_last_entry_taken_out(stage: Stage) -> None:
    """Of the last entry no gap tells; its seal does."""
    ended_day(stage)
    last = stage.door.ledger().entries[-1]
    changed(stage, "DELETE FROM entry WHERE place = ?", last.place)
    nothing_sent(
        stage, lambda: stage.refused("the log was changed at or before entry %d" % last.place)
    )


def test_byte_of_an_entry(stage: Stage) -> None:
    ended_day(stage)
    place = place_of_a_quote(stage)
    line = stage.door.ledger().entries[place].line
    changed(
        stage,
        "UPDATE entry SET line = ? WHERE place = ?",
        line[:-20] + bytes([line[-20] ^ 1]) + line[-19:],
        place,
    )
    nothing_sent(stage, lambda: stage.refused(str(place)))


def test_another_program(stage: Stage) -> None:
    """A venue that answers otherwise than it did: the first answer that differs is named, and no firm sees it."""
    ended_day(stage)
    programs = stage.door.programs
    script = stage.folder / "altered.sh"
    script.write_text('"$@" | sed -u "s/|297=0|/|297=5|/"\n')
    stage.door.programs = Programs(programs.gateway, ("sh", str(script), *programs.venue))
    stage.door.write()
    nothing_sent(stage, lambda: stage.refused("DLR1|INV1", "2|1"))
    stage.door.programs = programs
    stage.door.write()
    goes_on(stage)


def test_another_log_form(stage: Stage) -> None:
    ended_day(stage)
    changed(stage, "UPDATE form SET number = 99")
    nothing_sent(stage, lambda: stage.refused("form"))


def test_two_gateways(stage: Stage) -> None:
    """A second gateway on the log of one that runs ends by itself, and the first goes on."""
    stage.open(*stage.firms)
    stage.auction()
    second = Door(stage.door.programs, stage.folder, stage.door.dealers, stage.door.investors)
    before = stage.door.ledger().entries
    second.write()
    second.start()
    try:
        check(second.wait_end() == 1, "the second gateway ended with another status")
    finally:
        second.close()
    check(stage.door.ledger().entries == before, "the log is another")
    stage.door.write()
    stage.auction()
    stage.whole()


def test_venue_that_ends(stage: Stage) -> None:
    """One that is ended is started again; more ends in a minute than the limit are the gateway's end."""
    stage.door.limits["venue_starts"] = 3
    stage.open(*stage.firms)
    for count in range(1, 3):
        until("there is a venue", LONG, stage.door.kill_venue)
        stage.auction()
        check(not stage.door.has_ended(), "the gateway ended at the venue's end %d" % count)

    def ended_with_it() -> bool:
        """Ends it again as soon as there is one: on a slow machine the minute may be over in between."""
        stage.door.kill_venue()
        return stage.door.has_ended()

    until("the gateway ends with its venue", LONG, ended_with_it)
    check(stage.door.wait_end() == 1, "the gateway ended with another status")


def test_venue_that_says_something(stage: Stage) -> None:
    """A venue that can't go on: its last words are the gateway's."""
    words = "import sys; sys.stderr.write('the last words of a venue\\n'); sys.exit(9)"
    stage.door.programs = type(stage.door.programs)(
        stage.door.programs.gateway, ("python3", "-c", words)
    )
    stage.door.write()
    stage.door.start()
    check(stage.door.wait_end() == 1, "the gateway ended with another status")
    check(
        "the last words of a venue" in stage.door.last_words(),
        "it does not tell the venue's last words",
    )


def test_another_date(stage: Stage) -> None:
    """A configuration of yesterday is none of today."""
    stage.door.write()
    file, yesterday = stage.folder / "venue.toml", datetime.now(timezone.utc) - timedelta(days=1)
    file.write_text(file.read_text().replace(today(), yesterday.strftime("%Y%m%d")))
    stage.refused("today")


def on_before_midnight(stage: Stage, seconds: int) -> bool:
    """Starts the gateway and the firms so long before midnight by their clocks; whether all are logged on by then."""
    now = datetime.now(timezone.utc)
    end = now.replace(hour=0, minute=0, second=0) + timedelta(days=1)
    ahead = max(0, int((end - now).total_seconds()) - seconds)
    clock = {"LD_PRELOAD": str(stage.tools.shim), "CLOCK_AHEAD": str(ahead)}
    stage.door.environment = clock
    for firm in stage.firms:
        firm.environment = clock
        firm.more = {
            "StartTime": "12:00:01",
            "EndTime": "12:00:00",
        }  # so that it does not end at midnight by itself
    stage.door.write()
    stage.door.start()
    for firm in stage.firms:
        firm.start()
    # In the half of the time: they have to settle before its end.
    all_on = within(
        seconds / 2,
        lambda: stage.door.has_ended() or all([firm.logged_on() for firm in stage.firms]),
    )
    return all_on and not stage.door.has_ended()


def test_midnight(stage: Stage) -> None:
    """At midnight in UTC the sessions are logged out, and the gateway ends well."""
    for seconds in BEFORE_MIDNIGHT:
        folder = stage.folder / str(seconds)
        folder.mkdir()
        day = Stage(stage.tools, folder)
        try:
            if on_before_midnight(day, seconds):
                return ended_at_midnight(day, seconds)
        finally:
            day.close()
    raise Wrong(
        "not all firms are logged on %d s after the start: %s"
        % (BEFORE_MIDNIGHT[-1], day.door.last_words())
    )


def ended_at_midnight(stage: Stage, seconds: int) -> None:
    """A gateway whose firms are logged on, so long before midnight at most."""
    check(stage.door.wait_end(seconds + LONG) == 0, "the gateway ended with another status")
    check(
        "the day is over" in stage.door.last_words(),
        "it does not say why: %s" % stage.door.last_words(),
    )
    for firm in stage.firms:
        until("%s is logged off" % firm.name, LONG, lambda: not firm.logged_on())
        check(
            any(message.kind == b"5" for message in firm.admin), "%s was not logged out" % firm.name
        )


def test_asked_to_end(stage: Stage) -> None:
    """SIGTERM logs the sessions out; at the next start the day goes on."""
    ended_day(stage)
    for firm in stage.firms:
        check(
            any(message.kind == b"5" for message in firm.admin), "%s was not logged out" % firm.name
        )
    goes_on(stage)


def test_ended_at_once(stage: Stage) -> None:
    """SIGKILL, in the middle of an auction; the venue ends by itself and the port is free again."""
    stage.open(*stage.firms)
    request = stage.ask()
    stage.quote(stage.dealer, request)
    stage.door.kill()
    goes_on(stage)


def test_ended_while_one_fills(stage: Stage) -> None:
    """SIGTERM, and a firm has not said yet that it misses nothing: it is disconnected without a Logout, which a stock engine
    would count in the place of a message that it misses."""
    stage.open(stage.other, stage.investor)
    with Wire(stage.door.port) as wire:
        wire.logon(DEALER.name.encode(), DEALER.password.encode())
        check(wire.read_kind(b"A") is not None, "it is not logged on")
        check(stage.door.stop() == 0, "the gateway does not end well")
        check(wire.closed_within(LONG), "the connection stays")
        check(b"\x0135=5\x01" not in wire.waiting, "it was logged out")
        number = wire.number
    stage.door.start()
    for firm in (stage.other, stage.investor):
        firm.wait_on()
    with Wire(stage.door.port) as wire:
        wire.number = number
        wire.logon(DEALER.name.encode(), DEALER.password.encode())
        check(wire.read_kind(b"A") is not None, "it is not logged on again")
    stage.auction([stage.other])
    stage.whole()


def test_more_than_may_wait(stage: Stage) -> None:
    """The log lacks more messages to one firm than may wait for it: a start gives them all."""
    stage.door.limits["waiting_messages"] = 16
    stage.open(*stage.firms)
    venues = stage.door.venues()
    for pid in venues:
        os.kill(pid, signal.SIGSTOP)
    for count in range(40):
        stage.say(stage.dealer, "Z", [(298, b"5"), (117, b"x%d" % count)])
    until("all are in the log", LONG, lambda: stage.entries_of(stage.dealer) == 40)
    stage.door.running.kill()
    for pid in venues:
        os.kill(pid, signal.SIGCONT)
    stage.door.kill()
    goes_on(stage)


def test_venue_that_hangs(stage: Stage) -> None:
    """A venue that is stopped and goes on: the operator is told of both, nothing is lost, and the sessions stand."""
    stage.open(*stage.firms)
    venues = stage.door.venues()
    for pid in venues:
        os.kill(pid, signal.SIGSTOP)
    stage.say(stage.dealer, "Z", [(298, b"4")])
    before = stage.dealer.times_on
    until("the message is in the log", LONG, lambda: stage.entries_of(stage.dealer) == 1)
    silent = re.compile(rb"venue does not answer place=(\d+) ")
    until("it is told", LONG, lambda: silent.search(stage.door.told.read_bytes()) is not None)
    for pid in venues:
        os.kill(pid, signal.SIGCONT)
    stage.answer(stage.dealer, "297=9", lambda message: message.value(297) == b"9")
    found = silent.search(stage.door.told.read_bytes())
    assert found is not None
    again = b"venue answers again place=%s" % found[1]
    until("it is told", LONG, lambda: again in stage.door.told.read_bytes())
    check(stage.dealer.times_on == before, "the session did not stand")
    stage.auction()
    stage.whole()
