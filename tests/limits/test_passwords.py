"""Strangers who guess passwords cost the gateway half of its processors at most."""

import os
import signal
import threading
import time
from concurrent.futures import ThreadPoolExecutor
from pathlib import Path

from tests.gateway.door import bring_to_a_stop
from tests.gateway.stage import DEALER, Stage, check
from tests.gateway.wait import LONG, until
from tests.gateway.wire import Wire

ADDRESSES = (
    40  # each is judged four times a second at most, so all together on some eight processors
)
AT_ONCE = max(1, min(4, len(os.sched_getaffinity(0)) // 2))  # passwords are hashed at one time
SPARE = 0.5  # processors: all that the gateway does beside, with room
SECONDS = 4
LOOKS = 40  # so often it is seen who hashes
COUNTED = 'mireseason_wrong_passwords_total{firm="DLR1"}'


def guess(stage: Stage, source: str, over: threading.Event) -> None:
    """One wrong password after the other, until it is over."""
    while not over.is_set():
        with Wire(stage.door.port, source=source) as wire:
            wire.logon(b"DLR1", b"guess")
            wire.closed_within(LONG)


def code_of_hashes(pid: int) -> list[range]:
    """Where the library that hashes passwords is in the gateway's memory."""
    lines = Path("/proc/%d/maps" % pid).read_text().splitlines()
    found = [line.split()[0].split("-") for line in lines if "libcrypt.so" in line]
    return [range(int(begin, 16), int(end, 16)) for begin, end in found]


def place_of(task: Path) -> int:
    """What a stopped thread was at; 0 where that was a call of the system, or can't be read."""
    try:
        words = (task / "syscall").read_text().split()
    except OSError:
        return 0
    return int(words[2], 16) if words[:1] == ["-1"] else 0


def hashing(pid: int, code: list[range]) -> int:
    """How many threads of the gateway hash a password. It stands still while they are counted: so the load does not matter."""
    bring_to_a_stop(pid)
    try:
        tasks = Path("/proc/%d/task" % pid).iterdir()
        places = [place_of(task) for task in tasks]
        return sum(any(place in part for part in code) for place in places)
    finally:
        os.kill(pid, signal.SIGCONT)


def judged(stage: Stage) -> float:
    return stage.counters().get(COUNTED, 0)


def more_are_judged(stage: Stage) -> None:
    before = judged(stage)
    until("more are judged", LONG, lambda: judged(stage) > before)


def most_hashing(stage: Stage) -> int:
    """The greatest number of passwords that are hashed at one time, of many looks."""
    pid = stage.door.running.pid
    code = code_of_hashes(pid)
    assert code, "the gateway has no library that hashes passwords"
    most = 0
    for _ in range(LOOKS):
        more_are_judged(stage)
        most = max(most, hashing(pid, code))
    return most


def test_half_of_the_processors(stage: Stage) -> None:
    """Forty addresses guess a firm's password without end: they have half of the processors, and the firms that trade the rest."""
    stage.open(stage.other)
    over = threading.Event()
    with ThreadPoolExecutor(ADDRESSES) as pool:
        sources = ["127.0.2.%d" % (at + 1) for at in range(ADDRESSES)]
        guessers = [pool.submit(guess, stage, source, over) for source in sources]
        try:
            until("all have begun", LONG, lambda: judged(stage) >= ADDRESSES)
            began, worked = time.monotonic(), stage.worked()
            until("some seconds are over", LONG, lambda: time.monotonic() - began >= SECONDS)
            used = (stage.worked() - worked) / (time.monotonic() - began)
            most = most_hashing(stage)
            stage.ping(stage.other)
            with Wire(stage.door.port) as wire:
                assert wire.logon(b"DLR1", DEALER.password.encode())
                check(wire.read_kind(b"A") is not None, "the right password is not judged")
        finally:
            over.set()
    for guesser in guessers:
        guesser.result()
    check(most <= AT_ONCE, "%d passwords are hashed at one time, and not %d" % (most, AT_ONCE))
    check(
        used <= AT_ONCE + SPARE or not stage.tools.measures,
        "the gateway uses %.1f processors, and not %d" % (used, AT_ONCE),
    )
