"""PostgreSQL ends a gateway's connections during its start, or while it takes over. The gateway goes on or ends, and each firm
is sent again what it was sent."""

import random

from tests.gateway.door import Door
from tests.gateway.stage import Stage, check
from tests.gateway.test_copy import Day
from tests.gateway.test_reasons import (  # noqa: F401, the fixtures are called by their names
    follow,
    followed,
    keeps_checkpoints,
    noting,
)
from tests.gateway.test_seals import Intruder
from tests.gateway.wait import LONG, until, within

END_ALL = """SELECT count(pg_terminate_backend(pid)) FROM pg_stat_activity
WHERE pid <> pg_backend_pid() AND datname = current_database()"""
STARTS = 5
SOON = 1.5  # seconds: by then a gateway has found that its writer's connection is gone


def ended_now_and_then(door: Door, times: int) -> None:
    """Ends all connections so often while a gateway comes up; behind it one is open."""
    intruder = Intruder(door)
    for _ in range(times):
        intruder.rows(END_ALL)
    until("it opens or ends", LONG, lambda: door.is_open() or door.has_ended())
    if within(SOON, door.has_ended):
        door.start()
        door.wait_open()


def test_reads_that_end(followed: tuple[Stage, Door], seed: int) -> None:  # noqa: F811
    """In some starts, and then in a take-over."""
    (stage, second), draw = followed, random.Random("reads %d" % seed)
    first, day = stage.door, Day(stage)
    for number in range(STARTS):
        check(first.stop() == 0, "the gateway does not end well")
        first.start()
        ended_now_and_then(first, draw.randint(1, 8))
        day.check("start %d" % number)
    follow(stage, second)
    keeps_checkpoints(second)
    first.kill()
    ended_now_and_then(second, draw.randint(1, 8))
    stage.door = second
    day.check("another gateway")
