"""`end-day`: the operator ends the day early, with or without waiting for what is open, and the gateway goes on with the next
one.
"""

from pathlib import Path

from tests.admin.operator import acts, admin, audit, did, rows
from tests.admin.test_orders import quoted, request_fields
from tests.gateway.door import today
from tests.gateway.market import moment_in
from tests.gateway.stage import DEALER, INVESTOR, Stage
from tests.gateway.wait import LONG, until
from tests.gateway.wire import Fields, Wire
from tests.limits.flood import logged_on, not_taken
from tests.operating.test_configuration import VENUE
from tests.operating.test_configuration import told as check

NOT_AVAILABLE = b"4"  # BusinessRejectReason (380)
ENDED = 'stop cause="the operator has ended the day"'


def opened(stage: Stage) -> None:
    """A gateway of many days."""
    (stage.folder / "venue.toml").write_text(VENUE)
    stage.door.operators = ""
    stage.door.write()
    stage.door.start()
    stage.door.wait_open()


def asked(stage: Stage, dealer: Wire, investor: Wire) -> None:
    """A request that is open, with a quote on it."""
    assert investor.raw(investor.message(b"R", b"INV1", request_fields(b"A1", moment_in(600))))
    quoted(dealer, b"q1", dealer.got(b"R").given(131))
    assert rows(stage, "status")[0]["open_requests"] == 1


def told(stage: Stage) -> str:
    return stage.door.told.read_text(errors="replace")


def ended(stage: Stage) -> None:
    """The day has ended, and the gateway waits for the next one."""
    until("the day ends", LONG, lambda: ENDED in told(stage))
    waits(stage)


def waits(stage: Stage) -> None:
    """For the next day; nobody may log on."""
    until("the next day is waited for", LONG, lambda: "closed until=" in told(stage))
    said = rows(stage, "status")[0]
    assert said["state"] == "waits" and "the trading day" in said["for"], said
    stage.door.wait_open()
    with Wire(stage.door.port) as wire:
        assert wire.logon(INVESTOR.name.encode(), INVESTOR.password.encode())
        assert wire.closed_within(LONG) and not wire.waiting, "a firm may log on"


def test_it_waits_for_open_requests(stage: Stage) -> None:
    """No new request is taken; quotes and hits on the one that is open are, also after a kill; and when it has ended the day ends."""
    opened(stage)
    with logged_on(stage, DEALER) as dealer, logged_on(stage, INVESTOR) as investor:
        asked(stage, dealer, investor)
        assert rows(stage, "status")[0]["takes_business"] is True
        said = did(stage, "end-day", "--because", "a storm")
        assert "the day ends once these 1 have ended" in said and "A1" in said, said
        assert rows(stage, "status")[0]["takes_business"] is False
        assert acts(stage)[-1].endswith(b' end-day because="a storm"')
        fields = request_fields(b"A2", moment_in(600))
        not_taken(investor, b"R", fields, NOT_AVAILABLE, b"the operator ends the day")
        numbers = dealer.number, investor.number
    stage.door.kill()
    stage.door.start()
    stage.door.wait_open()
    with (
        logged_on(stage, DEALER, number=numbers[0]) as dealer,
        logged_on(stage, INVESTOR, number=numbers[1]) as investor,
    ):
        assert rows(stage, "status")[0]["operator_ends_day"] is True
        quoted(dealer, b"q2")
        shown = investor.got_until(lambda m: m.kind == b"S" and m.value(43) != b"Y")
        assert ENDED not in told(stage)
        hit: Fields = [(50, b"V1"), (693, b"h1"), (694, b"1"), (117, shown.given(117))]
        assert investor.raw(investor.message(b"AJ", b"INV1", hit))
        assert investor.got_until(lambda m: m.value(693) == b"h1").value(297) == b"0"
        logout = investor.got(b"5")
        assert logout.value(58) == b"the operator has ended the day"
    ended(stage)
    assert audit(stage, "check").status == 0
    stage.door.kill()
    Path(stage.door.told).unlink()
    stage.door.start()
    until("it is known to have ended", LONG, lambda: "it is not opened again" in told(stage))
    waits(stage)
    assert "ready address=" not in told(stage), "a day that has ended is opened again"
    assert stage.door.stop() == 0


def test_now(stage: Stage) -> None:
    """What is open is named, and gets no notice."""
    opened(stage)
    assert admin(stage, "end-day", "--soon").status == 1
    with logged_on(stage, DEALER) as dealer, logged_on(stage, INVESTOR) as investor:
        asked(stage, dealer, investor)
        said = did(stage, "end-day", "--now")
        assert "1 open requests end without a notice" in said and "A1" in said, said
        came = [message.kind for message in iter(lambda: investor.read(LONG), None)]
        assert came[-1] == b"5" and b"AI" not in came[came.index(b"S") :], came
    ended(stage)
    assert 'left without a notice firm=INV1 request="A1"' in told(stage)
    assert audit(stage, "check").status == 0


def test_no_trade_that_one_side_is_not_told(stage: Stage) -> None:
    """A hit behind the order is not taken, as long as it is answered at all: the dealer may be logged out before it is told."""
    opened(stage)
    with logged_on(stage, DEALER) as dealer, logged_on(stage, INVESTOR) as investor:
        asked(stage, dealer, investor)
        quote = investor.got(b"S").given(117)
        did(stage, "end-day", "--now")
        fields: Fields = [(50, b"V1"), (693, b"h1"), (694, b"1"), (117, quote)]
        investor.raw(investor.message(b"AJ", b"INV1", fields))
        answers = [m for m in iter(lambda: investor.read(LONG), None) if m.kind in (b"AI", b"j")]
        assert not any(message.value(693) == b"h1" for message in answers), "it is traded"
        for message in answers:
            assert (message.value(380), message.value(379)) == (NOT_AVAILABLE, b"h1")
            assert b"nothing is traded any more" in message.given(58)
        assert not any(m.kind == b"AJ" for m in iter(lambda: dealer.read(LONG), None))
    ended(stage)
    assert audit(stage, "check").status == 0


def test_a_restart_behind_it(stage: Stage) -> None:
    """It opens nothing, adds nothing to the log and makes no second copy; --check and `status` say so before."""
    (stage.folder / "copies").mkdir()
    opened(stage)
    with (stage.folder / "gateway.toml").open("a") as file:
        file.write('[copies]\nfolder = "copies"\n')
    assert stage.door.stop() == 0
    stage.door.start()
    stage.door.wait_open()
    did(stage, "end-day")
    ended(stage)
    until("the day is copied", LONG, (stage.folder / "copies" / today()).exists)
    says = "a restart now opens no day yet: "
    assert did(stage, "status").startswith(says), did(stage, "status")
    found = check(stage)
    assert found.returncode == 0 and says in found.stdout, found
    entries = stage.door.ledger().entries
    stage.door.kill()
    before = told(stage)
    stage.door.start()
    until("the next day is waited for", LONG, lambda: "closed until=" in told(stage)[len(before) :])
    assert "an operator has ended this day" in told(stage)[len(before) :]
    assert stage.door.stop() == 0
    assert stage.door.ledger().entries == entries
    assert [path.name for path in (stage.folder / "copies").iterdir()] == [today()]


def test_an_old_log_behind_it(stage: Stage) -> None:
    """What was ended is the log that was signed: in the place of another one the gateway looks at that, and waits for the operator."""
    opened(stage)
    assert stage.door.stop() == 0
    old = stage.door.database.read_bytes()
    stage.door.start()
    stage.door.wait_open()
    did(stage, "end-day")
    ended(stage)
    assert stage.door.stop() == 0
    stage.door.database.write_bytes(old)
    stage.door.start()
    until("it waits for the operator", LONG, lambda: "waits for the operator" in told(stage))


def test_with_nothing_open(stage: Stage) -> None:
    """It ends at once; with a configuration of one day the gateway ends too, with status 0, and does not come back to it."""
    stage.door.operators = ""
    stage.open(stage.investor)
    assert "none is open, so the day ends now" in did(stage, "end-day")
    assert stage.door.wait_end() == 0
    stage.door.start()
    assert stage.door.wait_end() == 0
    assert told(stage).count(ENDED) == 2
    assert told(stage).count("ready address=") == 1
