"""The hours of a day: from `closes` on no new request, never one whose deadline is after `ends`, and at `ends` each notice."""

import time
from datetime import datetime, timedelta, timezone
from pathlib import Path

import pytest

from tests.admin.test_orders import quoted, request_fields
from tests.gateway.door import today
from tests.gateway.firm import Received
from tests.gateway.market import moment_in
from tests.gateway.stage import DEALER, INVESTOR, Stage
from tests.gateway.wait import LONG, until
from tests.gateway.wire import Fields, Wire
from tests.harness.clock import Clock
from tests.limits.flood import logged_on, not_taken
from tests.operating.test_configuration import VENUE, told

OTHER, NOT_AVAILABLE = b"0", b"4"  # BusinessRejectReason (380)
MINUTE = 60
OPEN, EXPIRED = b"0", b"7"  # QuoteStatus (297) of a request


def written(stage: Stage, hours: str) -> None:
    """The gateway's files, whose venue has no date of its own, with these hours."""
    (stage.folder / "venue.toml").write_text(VENUE)
    stage.door.write()
    file = stage.folder / "gateway.toml"
    file.write_text(file.read_text() + "[day]\n" + hours)


def asked(wire: Wire, name: bytes, deadline: bytes) -> None:
    """A request that is accepted."""
    assert wire.raw(wire.message(b"R", wire.name, request_fields(name, deadline)))
    answer = wire.got_until(lambda message: message.value(131) == name)
    assert answer.value(297) == OPEN, "a request is answered %r" % answer.raw


def test_from_closes_on_no_new_request_is_taken(stage: Stage) -> None:
    """A request that is open then goes on: the dealer quotes on it, and the investor hits. What is not taken is in no log."""
    until("the day is two minutes old", 3 * MINUTE, lambda: time.time() % 86400 > 2 * MINUTE)
    written(stage, "")
    stage.door.start()
    stage.door.wait_open()
    with logged_on(stage, DEALER) as dealer, logged_on(stage, INVESTOR) as investor:
        asked(investor, b"A1", moment_in(600))
        assert dealer.read_kind(b"R") is not None
        numbers = dealer.number, investor.number
    assert stage.door.stop() == 0
    written(stage, 'opens = "00:00"\ncloses = "00:01"\n')
    stage.door.start()
    stage.door.wait_open()
    with (
        logged_on(stage, DEALER, number=numbers[0]) as dealer,
        logged_on(stage, INVESTOR, number=numbers[1]) as investor,
    ):
        entries = stage.entries_of(stage.investor)
        fields = request_fields(b"A2", moment_in(600))
        not_taken(investor, b"R", fields, NOT_AVAILABLE, b"has closed for new requests")
        assert stage.entries_of(stage.investor) == entries, "what is not taken is in the log"
        quoted(dealer, b"q1")
        shown = investor.got(b"S")
        hit: Fields = [(50, b"V1"), (693, b"h1"), (694, b"1"), (117, shown.given(117))]
        assert investor.raw(investor.message(b"AJ", b"INV1", hit))
        answer = investor.got_until(lambda message: message.value(693) == b"h1")
        assert answer.value(297) == b"0", "a hit is answered %r" % answer.raw


def test_a_deadline_behind_the_end(stage: Stage) -> None:
    """It is not taken at any time; one that is the day's end is, in both spellings. What is of another day, or no moment, is the venue's
    to reject."""
    written(stage, 'ends = "23:59"\n')
    stage.door.start()
    stage.door.wait_open()
    date = today().encode()
    with logged_on(stage, INVESTOR) as investor:
        for name, deadline in ((b"A1", b"23:59:00.001"), (b"A2", b"23:59:59")):
            fields = request_fields(name, date + b"-" + deadline)
            not_taken(investor, b"R", fields, OTHER, b"this deadline (ExpireTime, 126) is behind")
        asked(investor, b"A3", date + b"-23:59:00")
        asked(investor, b"A4", date + b"-23:59:00.000")
        for deadline, reason in (
            (b"20990101-00:00:00", b"5"),
            (date + b"-24:00:00", b"6"),
            (date + b"-23:59:60", b"6"),
            (date + b"-23:60:00.000", b"6"),
            (date + b"-23:59:00.000001", b"6"),
        ):
            number = investor.number
            assert investor.raw(investor.message(b"R", b"INV1", request_fields(b"A5", deadline)))
            reject = investor.got(b"3")
            found = [reject.value(tag) for tag in (45, 371, 373)]
            assert found == [b"%d" % number, b"126", reason], "it is answered %r" % reject.raw


def test_at_the_end_each_notice_is_there(stage: Stage, clock: Clock) -> None:
    """A request may last until the very end: both firms hear that it expired, and then they are logged out."""
    now = datetime.now(timezone.utc)
    ends = now.replace(second=0, microsecond=0) + timedelta(minutes=5)
    written(stage, 'ends = "%s"\n' % ends.strftime("%H:%M"))
    stage.door.start()
    stage.door.wait_open()
    # With the longest heartbeat there is, since the clock jumps by some minutes.
    with (
        logged_on(stage, DEALER, heartbeat=b"300") as dealer,
        logged_on(stage, INVESTOR, heartbeat=b"300") as investor,
    ):
        asked(investor, b"A1", ends.strftime("%Y%m%d-%H:%M:%S").encode())
        assert dealer.read_kind(b"R") is not None
        clock.set(round((ends - datetime.now(timezone.utc)).total_seconds()) - 1)
        assert [message.kind for message in rest_of(dealer)] == [b"AJ", b"5"]
        last = rest_of(investor)
        assert [message.kind for message in last] == [b"AI", b"5"]
        assert last[0].value(297) == EXPIRED
    until("the next day is waited for", LONG, lambda: "closed until=" in words(stage))
    assert "left without a notice" not in words(stage)


def rest_of(wire: Wire) -> list[Received]:
    """All messages until the connection ends."""
    return list(iter(wire.read, None))


def words(stage: Stage) -> str:
    return stage.door.told.read_text(errors="replace")


FAULTS = {
    'closes = "25:00"\n': 'closes = "25:00": it has to be a time of day as HH:MM, from 00:00 to 24:00',
    'closes = ""\n': 'closes = "": it has to be a time of day as HH:MM, from 00:00 to 24:00',
    'opens = "08:00"\ncloses = "08:00"\n': 'closes = "08:00": it has to be after opens, 08:00, and not after ends, 24:00',
    'closes = "17:31"\nends = "17:30"\n': 'closes = "17:31": it has to be after opens, 00:00, and not after ends, 17:30',
    'ends = "08:00"\nopens = "08:00"\n': 'ends = "08:00": a day opens before it ends, and this one opens at 08:00 and ends at 08:00',
    'zone = "Amerika"\n': 'zone = "Amerika": the tz database has no such zone',
    'zone = "America/New_York"\nopens = "12:00"\n': "opens is at fault: from 12:00 to 24:00 in America/New_York: ",
    'zone = "America/New_York"\n': "zone is at fault: from 00:00 to 24:00 in America/New_York: ",
}


@pytest.mark.parametrize("hours", FAULTS)
def test_hours_at_fault_are_told_with_their_line(stage: Stage, hours: str) -> None:
    written(stage, hours)
    file = stage.folder / "gateway.toml"
    key = FAULTS[hours].partition(" ")[0]
    line = next(
        n for n, text in enumerate(file.read_text().splitlines(), 1) if text.startswith(key)
    )
    found = told(stage)
    expected = "gateway.toml: line %d: [day] %s" % (line, FAULTS[hours])
    assert (found.returncode, expected in found.stderr) == (1, True), found.stderr
    assert not Path(stage.door.database).exists()
