"""Faults while 64 firms send as fast as the gateway answers (load.py): SIGKILL, and commits that fail.

Each firm logs on again and asks for what it missed, as a stock engine does. In the end each has what the venue gives for the log,
once and under the number that it had at first; what it had when a gateway ended was on disk by then; each trade was told to both of
its sides; and the audit finds the day whole.
"""

import random
from collections.abc import Callable
from itertools import cycle

from tests.gateway.ledger import PostgresLog
from tests.gateway.load_day import Day, make_day  # noqa: F401, a fixture is called by its name
from tests.gateway.stage import Tools, check
from tests.harness.options import Options

MakeDay = Callable[..., Day]
KILLS, LONG_KILLS = 3, 30
SLOW = 300  # milliseconds that a sync takes more
SOON, LATE = 200, 3000  # messages that come to firms from a start until the next end, as drawn


def moments(draw: random.Random, count: int) -> list[int]:
    """After how many messages from its start each gateway ends: in full load, or while firms still log on."""
    ranges = [(SOON, LATE), (1, SOON), (SOON, LATE)]
    return [draw.randrange(*ranges[at % len(ranges)]) for at in range(count)]


def test_killed_under_load(
    make_day: MakeDay, log_place: PostgresLog | None, tools: Tools, options: Options
) -> None:
    """SIGKILL ends the gateway again and again. Of a log in SQLite every second one has slow syncs, so that even a slow venue has
    answered much of what is not on disk yet."""
    draw, day = random.Random("kills of %d" % options.seed), make_day(log_place)
    paces = cycle(["%d" % SLOW, "0"])
    day.door.environment = {"LD_PRELOAD": str(tools.shim), "DISK_SLOW": next(paces)}
    day.open()
    for messages in moments(draw, KILLS if options.is_short else LONG_KILLS):
        day.goes_on_for(messages, draw.uniform(0, SLOW / 1000))
        day.door.environment["DISK_SLOW"] = next(paces)
        day.kill()
    day.goes_on_for(SOON)
    day.whole()


# ---------------------------------------------------------------- commits that fail


def ends_by_itself(day: Day) -> None:
    """The firms go on until a commit has failed, and the gateway has ended."""
    day.load.run("the gateway ends", [], day.door.has_ended)
    status = day.door.wait_end()
    check(status == 1, "the gateway ended with status %d: %s" % (status, day.door.last_words()))


def test_a_commit_fails_under_load(make_day: MakeDay, tools: Tools, options: Options) -> None:
    """Again and again a sync takes half a second more, in which the venue answers, and then fails: what it was to bring to the disk
    was told to nobody."""
    draw, day = random.Random("commits of %d" % options.seed), make_day()
    broken = day.door.folder / "broken"
    files = {"DISK_SLOW_IN": str(broken), "DISK_BROKEN": str(broken)}
    day.door.environment = {"LD_PRELOAD": str(tools.shim), **files}
    day.open()
    for _ in range(2 if options.is_short else 10):
        day.goes_on_for(draw.randrange(SOON, LATE))
        with day.committed() as places:
            broken.write_text("500")  # milliseconds
            ends_by_itself(day)
            day.note_end(places)
        broken.unlink()
        day.door.start()
    day.goes_on_for(SOON)
    day.whole()


def test_the_disk_is_full_under_load(make_day: MakeDay, tools: Tools, options: Options) -> None:
    """From some commit on nothing can be written; later there is room again."""
    draw, day = random.Random("disks of %d" % options.seed), make_day()
    day.door.environment = {"LD_PRELOAD": str(tools.shim)}
    for at in range(2 if options.is_short else 10):
        day.door.environment["DISK_FULL"] = str(draw.randrange(20, 200))
        if at == 0:
            day.open()
        else:
            day.door.start()
        ends_by_itself(day)
        with day.committed() as places:
            day.note_end(places)
    del day.door.environment["DISK_FULL"]
    day.door.start()
    day.goes_on_for(SOON)
    day.whole()
