"""Tests the fixtures themselves: each gives what tests/README.md says of it."""

import os
import subprocess
import sys

import pytest

from tests.admin.operator import did
from tests.gateway.ledger import answers
from tests.gateway.stage import DEALER, INVESTOR, Stage, check
from tests.gateway.wait import LONG, until
from tests.harness.browser import Browser
from tests.harness.clock import Clock
from tests.harness.fixtures import MakeGateway, OpenWire


def test_a_day_in_either_database(stage_of_log: Stage) -> None:
    """A request, two quotes and a hit are in the log as the firms' engines sent and got them."""
    stage_of_log.open(*stage_of_log.firms)
    stage_of_log.auction()
    stage_of_log.whole()


def test_a_gateway_of_ones_own(make_gateway: MakeGateway) -> None:
    door = make_gateway([DEALER], [INVESTOR])
    door.write()
    door.start()
    door.wait_open()
    assert door.stop() == 0
    assert door.ledger().messages_of("DLR1") == []


def test_a_wire_is_not_let_in_by_another_password(stage: Stage, wire: OpenWire) -> None:
    stage.open()
    stranger = wire()
    stranger.logon(b"DLR1", b"not its password")
    assert stranger.closed_within(LONG)
    with_password = wire()
    with_password.logon(b"DLR1", DEALER.password.encode())
    answer = with_password.read_kind(b"A")
    assert answer is not None and answer.value(34) == b"1"


def test_a_clock_that_is_set(stage: Stage, clock: Clock) -> None:
    stage.door.operators = ""
    stage.open(*stage.firms)
    clock.set(24 * 60 * 60)
    assert stage.door.wait_end() == 1
    clock.set(0)
    stage.door.start()
    until("the firms are on again", LONG, lambda: all(firm.logged_on() for firm in stage.firms))
    did(stage, "clock", "accept")
    stage.auction()
    check(
        answers(list(stage.tools.programs.venue), stage.door.ledger().day()),
        "the venue answers nothing",
    )
    stage.whole()


WAITS = {
    "sleeps": "time.sleep(86400)",
    "waits for a lock": "lock.acquire(timeout=86400)",
    "waits beside a thread that works": "threading.Thread(target=work, daemon=True).start(); time.sleep(86400)",
}


@pytest.mark.parametrize("wait", WAITS)
def test_a_program_that_waits_while_time_passes(clock: Clock, wait: str) -> None:
    """It waits for a day, and goes on within a fifth of a second once a day has passed by its clock."""
    text = "import threading, time\nlock = threading.Lock()\nlock.acquire()\ndef work():\n  while True: pass\n"
    program = subprocess.Popen(
        [sys.executable, "-c", text + WAITS[wait]], env={**os.environ, **clock.environment}
    )

    def has_ended_an_hour_later() -> bool:
        clock.has_passed(clock.passed + 60 * 60)
        return program.poll() is not None

    try:
        until("it ends", LONG, has_ended_an_hour_later)
    finally:
        program.kill()
    assert program.wait() == 0


def test_a_page_in_a_browser(browser: Browser, stage: Stage) -> None:
    page = stage.folder / "page.html"
    page.write_text(
        "<title>before</title><p id=word></p><script>document.getElementById('word').textContent = 6 * 7</script>"
    )
    shown = browser.show(page.as_uri())
    assert '<p id="word">42</p>' in shown.dom
    assert not shown.complaints
