"""Before a day opens: the gateway tells whoever has the right password when it opens, tells nobody else anything, and loses no
number by it."""

import socket
import sqlite3
import time
from contextlib import closing
from datetime import datetime, timedelta, timezone

from tests.gateway.firm import Firm
from tests.gateway.stage import DEALER, INVESTOR, Stage
from tests.gateway.strangers import CLOSED
from tests.gateway.wait import LONG, until
from tests.gateway.wire import Fields, Wire
from tests.limits.flood import hang_up
from tests.limits.test_renewal import without
from tests.operating.test_configuration import VENUE
from tests.operating.test_week import OPENS, Week, week

__all__ = ["week"]  # a fixture

NAME, PASSWORD = DEALER.name.encode(), DEALER.password.encode()
HOUR = 3600
BETWEEN = 0.2  # seconds between two connections of one who tries without end


def tomorrow() -> datetime:
    return datetime.now(timezone.utc) + timedelta(days=1)


def closed(stage: Stage) -> bytes:
    """A gateway whose next day is tomorrow; what a firm is told of it."""
    (stage.folder / "venue.toml").write_text(VENUE)
    stage.door.write()
    file = stage.folder / "gateway.toml"
    file.write_text(file.read_text() + '[day]\nweekdays = ["%s"]\n' % tomorrow().strftime("%a"))
    stage.door.start()
    stage.door.wait_open()
    return (
        b"the venue is closed: it opens at %s-00:00:00 UTC" % tomorrow().strftime("%Y%m%d").encode()
    )


def told(stage: Stage, name: bytes, password: bytes, more: Fields | None = None) -> list[Fields]:
    """What one Logon is answered before the connection ends: 35, 34 and 58 of each message."""
    with Wire(stage.door.port) as wire:
        assert wire.logon(name, password, more=more)
        found = []
        while (message := wire.read(CLOSED)) is not None:
            found.append([(tag, message.value(tag) or b"") for tag in (35, 34, 58)])
            wire.raw(wire.message(b"5", name, []))  # the firm's own Logout
        assert wire.closed_within(CLOSED), "the connection stays"
        return found


def logout(number: int, text: bytes) -> list[Fields]:
    return [[(35, b"5"), (34, b"%d" % number), (58, text)]]


def test_who_is_told(stage_of_log: Stage) -> None:
    """A firm by its password, under numbers that go on behind a gateway that was killed; a stranger is told nothing."""
    stage = stage_of_log
    text = closed(stage)
    assert told(stage, NAME, PASSWORD) == logout(1, text)
    assert told(stage, NAME, PASSWORD) == logout(2, text)
    for name, password in ((NAME, b"another"), (b"NOBODY", PASSWORD), (NAME, b"")):
        assert told(stage, name, password) == [], "a stranger is told something"
    stage.door.kill()
    stage.door.start()
    stage.door.wait_open()
    found: list[Fields] = []

    def is_told() -> bool:
        found.extend(told(stage, NAME, PASSWORD))
        return bool(found)

    # Without a word, and without a number, as long as the database has the connection of the gateway that was killed.
    until("it is told again", LONG, is_told)
    assert found == logout(3, text)
    assert told(stage, NAME, PASSWORD, [(141, b"Y")]) == logout(4, text)
    assert told(stage, INVESTOR.name.encode(), INVESTOR.password.encode()) == logout(1, text)
    assert refusals(stage) >= 3
    assert stage.counters()["mireseason_logons_total"] == 0
    assert 'refused what="closed" firm=DLR1' in words(stage)
    assert stage.door.stop() == 0


def test_a_logout_that_is_cut_off(stage: Stage) -> None:
    """Somebody takes the last one out of the log while no gateway runs: nobody is sent its number a second time."""
    text = closed(stage)
    for number in (1, 2):
        assert told(stage, NAME, PASSWORD) == logout(number, text)
    assert stage.door.stop() == 0
    file = stage.folder / ("day-%s.db" % tomorrow().strftime("%Y%m%d"))
    with closing(sqlite3.connect(file)) as log, log:
        log.execute("DELETE FROM seal WHERE number > 1")
    stage.door.start()
    stage.door.wait_open()
    assert told(stage, NAME, PASSWORD) == []
    assert "the log does not go on behind the Logouts that left here" in words(stage)
    assert stage.door.stop() == 0


def test_other_credentials(stage: Stage) -> None:
    """They hold at once, also before the day opens."""
    text = closed(stage)
    assert told(stage, NAME, PASSWORD) == logout(1, text)
    file = stage.folder / "credentials.toml"
    file.write_text(file.read_text().replace("[DLR1]", '[DLR1]\nends = "20200101"'))
    before = words(stage)
    until("they are read", LONG, lambda: "credentials changed" in words(stage)[len(before) :])
    until("they hold", LONG, lambda: told(stage, NAME, PASSWORD) == [])
    assert stage.door.stop() == 0


def test_credentials_beside_a_fault(stage: Stage) -> None:
    """What is taken away, and read again, is gone also where another file is at fault."""
    text = closed(stage)
    assert told(stage, NAME, PASSWORD) == logout(1, text)
    venue = stage.folder / "venue.toml"
    venue.write_text(venue.read_text() + '[[bond]]\nid = "x"\n')
    until("the fault is told", LONG, lambda: "configuration at fault" in words(stage))
    without(stage, DEALER.name)
    hang_up(stage)

    def has_no_access() -> bool:
        told(stage, NAME, PASSWORD)
        return 'refused what="no access" firm=DLR1' in words(stage)

    until("they are gone", LONG, has_no_access)
    assert told(stage, INVESTOR.name.encode(), INVESTOR.password.encode()) == logout(1, text)
    assert stage.door.stop() == 0


def refusals(stage: Stage) -> float:
    return stage.counters().get('mireseason_refused_total{reason="closed"}', 0)


def words(stage: Stage) -> str:
    return stage.door.told.read_text(errors="replace")


def logouts(firm: Firm) -> int:
    """How often its engine was told that the venue is closed."""
    firm.look()
    return sum(b"the venue is closed" in (message.value(58) or b"") for message in firm.admin)


def refused(firms: list[Firm], times: int) -> None:
    """Each of these is told so many times from now on."""
    before = [logouts(firm) for firm in firms]
    until(
        "each engine has its Logouts",
        LONG,
        lambda: all(logouts(firm) >= was + times for firm, was in zip(firms, before)),
    )


def start_firms(week: Week) -> list[Firm]:
    """Stock engines with an empty store, which try to log on until they are."""
    for firm in week.stage.firms:
        week.place(firm, "stores")
        firm.start()
    return week.stage.firms


def test_stock_engines_go_on_when_the_day_opens(week: Week) -> None:
    """They have counted what they were told, of two gateways one after the other; they log on by themselves, and trade. No
    connection is refused while the day begins."""
    stage = week.stage
    week.write()
    week.set_clock(week.day(0), OPENS, -2 * HOUR)
    stage.door.start()
    week.wait_told("closed until=")
    firms = start_firms(week)
    refused(firms, 2)
    stage.door.kill()
    before = week.told()
    stage.door.start()
    refused(firms, 2)
    week.set_clock(week.day(0), OPENS, -1)

    def is_ready() -> bool:
        with socket.socket() as probe:
            assert probe.connect_ex(("127.0.0.1", stage.door.port)) == 0, "nobody listens"
        time.sleep(BETWEEN)
        return " ready " in week.told()[len(before) :]

    until("the day is open", LONG, is_ready)
    until("all are logged on", LONG, lambda: all(firm.logged_on() for firm in firms))
    stage.auction()
    week.end_day(0)


def test_a_day_that_has_ended_has_its_numbers(week: Week) -> None:
    """On its date no Logon is answered. Where it is opened again its firms go on with their numbers as they are."""
    stage = week.stage
    week.write()
    file = stage.folder / "gateway.toml"
    text = file.read_text()
    file.write_text(text.replace('ends = "08:55"', 'ends = "08:30"'))
    week.set_clock(week.day(0), OPENS, 1)
    stage.door.start()
    stage.door.wait_open()
    firms = start_firms(week)
    until("all are logged on", LONG, lambda: all(firm.logged_on() for firm in firms))
    stage.auction()
    assert stage.door.stop() == 0
    week.set_clock(week.day(0), OPENS, 1801)
    stage.door.start()
    until("it is open to connections", LONG, stage.door.is_open)
    until("each has tried again and again", LONG, lambda: refusals(stage) >= 5 * len(firms))
    assert not any(map(logouts, firms)), "an engine has counted a Logout"
    file.write_text(text)
    assert stage.door.stop() == 0
    stage.door.start()
    until("all are back", LONG, lambda: all(firm.logged_on() for firm in firms))
    stage.auction()
