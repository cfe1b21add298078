"""A venue that hangs: the gateway tells it within five seconds and ends in a stated time, and another one takes over."""

import os
import shutil
import signal
import time
from dataclasses import replace
from pathlib import Path

from tests.gateway.door import Door, Programs
from tests.gateway.ledger import PostgresLog
from tests.gateway.stage import DEALER, INVESTOR, Stage
from tests.gateway.wait import LONG, until
from tests.harness.budget import Budget, seconds_of
from tests.harness.fixtures import MakeGateway

SECONDS = 15  # venue_seconds of these tests: no venue that works takes so long, however busy the machine is
SILENT, ENDED = "venue does not answer", "has answered nothing for %d s" % SECONDS


def hanging(programs: Programs, folder: Path) -> Programs:
    """A venue that says and reads nothing where there is a file `hang` as it begins."""
    script = folder / "venue.sh"
    script.write_text('[ -e "%s/hang" ] && exec sleep 600\nexec "$@"\n' % folder)
    return replace(programs, venue=("sh", str(script), *programs.venue))


def tells(door: Door, words: str, since: int = 0) -> bool:
    return words in door.told.read_bytes()[since:].decode(errors="replace")


def begun(stage: Stage) -> None:
    """A day with some entries, whose gateway has ended."""
    stage.door.limits |= {"venue_seconds": SECONDS}
    stage.door.programs = hanging(stage.door.programs, stage.folder)
    stage.open(stage.dealer)
    stage.ping(stage.dealer)
    stage.log_off(stage.dealer)
    assert stage.door.stop() == 0


def test_a_venue_that_hangs_at_its_start(stage: Stage) -> None:
    """It is told within five seconds, and the start ends with status 1 after `venue_seconds`."""
    begun(stage)
    (stage.folder / "hang").touch()

    def measure() -> float:
        told, began = len(stage.door.told.read_bytes()), time.monotonic()
        stage.door.start()
        until("the silence is told", LONG, lambda: tells(stage.door, SILENT, told))
        took = time.monotonic() - began
        assert stage.door.wait_end() == 1
        ended = time.monotonic() - began
        assert tells(stage.door, ENDED, told), "it does not say why it ends"
        assert ended >= SECONDS, "it ends after %.1f s" % ended
        return took

    Budget("that a venue hangs at its start", most=5).hold(measure)
    (stage.folder / "hang").unlink()
    stage.door.start()
    stage.door.wait_open()
    stage.log_on(stage.dealer)
    stage.ping(stage.dealer)


def test_a_venue_that_hangs_while_it_is_fed(stage: Stage) -> None:
    """A venue that is stopped is told before it ends the gateway, which says why; tests/gateway/test_promises.py has when."""
    begun(stage)
    stage.door.start()
    stage.door.wait_open()
    stage.log_on(stage.dealer)
    stage.ping(stage.dealer)
    for pid in stage.door.venues():
        os.kill(pid, signal.SIGSTOP)
    told = len(stage.door.told.read_bytes())
    stage.say(stage.dealer, "Z", [(298, b"5"), (117, b"unheard")])
    assert stage.door.wait_end() == 1
    text = stage.door.told.read_bytes()[told:].decode(errors="replace")
    assert SILENT in text.split(ENDED)[0], "it is not told before the gateway ends: %s" % text
    assert ENDED in text, "it does not say why it ends"


def test_another_gateway_takes_over(make_gateway: MakeGateway, postgres_database: str) -> None:
    """Of two gateways on one log the first one's venue hangs as it begins again: the other one speaks."""
    log = PostgresLog(postgres_database, "day")
    first, second = [
        make_gateway([DEALER], [INVESTOR], {"venue_seconds": SECONDS}, log) for _ in range(2)
    ]
    first.programs = hanging(first.programs, first.folder)
    first.write()
    shutil.copytree(first.keys, second.keys)
    second.write()
    first.start()
    first.wait_open()
    second.start()
    until("the second one stands by", LONG, lambda: tells(second, "stands by"))
    (first.folder / "hang").touch()
    assert first.kill_venue()
    took = seconds_of(
        lambda: until("the second one speaks", LONG, lambda: tells(second, " speaks "))
    )
    assert took <= SECONDS + LONG / 2, "it takes over after %.1f s" % took
    assert first.wait_end() == 1
    second.wait_open()
