"""Connections that never become a session, and more of them than there is room for."""

import resource
import select
import socket
import threading
import time
from collections.abc import Callable
from concurrent.futures import ThreadPoolExecutor
from pathlib import Path

from tests.gateway.stage import DEALER, LOGON_SECONDS, Stage, check
from tests.gateway.test_logon import SLACK, refused_for
from tests.gateway.wait import LONG, until
from tests.gateway.wire import Wire

MOST_GROWTH = 24 * 2**20


def test_half_a_logon(stage: Stage) -> None:
    """Connections that say nothing, or half a Logon, end at the limit; nobody waits for them."""
    stage.open()
    with Wire(stage.door.port) as silent, Wire(stage.door.port) as half:
        half.raw(b"8=FIXT.1.1\x019=100\x0135=A\x0149=DLR1\x01")
        stage.log_on(stage.other)
        stage.ping(stage.other)
        check(half.closed_within(LOGON_SECONDS + SLACK), "half a Logon stays")
        check(silent.closed_within(SLACK), "a silent connection stays")
    stage.log_on(stage.dealer)


def test_endless_logon(stage: Stage) -> None:
    """Bytes that never become a Logon: the connection ends, and memory does not grow with them."""
    stage.open(stage.other)
    for begin in (
        b"8=FIXT.1.1\x019=999999999\x0135=A\x01",
        b"8=FIXT.1.1\x019=",
        b"x",
        b"8=FIXT.1.1\x019=5\x0135=A\x01\x0110=",
    ):
        before = stage.memory()
        with Wire(stage.door.port) as wire:
            wire.raw(begin)
            taken = sum(wire.raw(b"z" * 65536) for _ in range(1024) if not wire.closed_within(0))
            check(
                taken < 1024 or wire.closed_within(LOGON_SECONDS + SLACK),
                "64 MiB after %r are taken" % begin,
            )
        check(
            stage.memory() - before < MOST_GROWTH,
            "%d bytes of memory more after %r" % (stage.memory() - before, begin),
        )
    stage.ping(stage.other)


def test_many_connections(stage: Stage) -> None:
    """More silent connections of one address than it may have: the others are closed at once, firms that are logged on notice nothing,
    and another logs on once there is room."""
    stage.door.limits |= {"strangers_per_address": 8, "logon_seconds": int(LONG)}
    stage.open(stage.other, stage.dealer)
    wires = [Wire(stage.door.port) for _ in range(100)]

    def closed() -> int:
        return sum(wire.closed_within(0.001) for wire in wires)

    # A firm that has just logged on may have a stranger's place for a moment more: then fewer of these have one.
    until("those past the limit are closed", LONG, lambda: closed() >= 92)
    until(
        "they are counted",
        LONG,
        lambda: stage.counters().get(refused_for("too many strangers of an address")) == closed(),
    )
    check(closed() < 100, "nobody has a place")
    stage.ping(stage.other)
    stage.ping(stage.dealer)
    for wire in wires:
        wire.socket.close()
    stage.log_on(stage.investor)
    stage.ping(stage.dealer)


def test_silent_ones_of_another_address(stage: Stage) -> None:
    """256 silent connections of one address, opened again as they are closed, keep nobody of another address out."""
    stage.open()
    again, over = threading.Event(), threading.Event()
    with ThreadPoolExecutor(1) as attacker:
        done = attacker.submit(knock_until, over, again, stage.door.port)
        try:
            check(
                again.wait(LONG), "the gateway ends none of 256 silent connections of one address"
            )
            for firm in stage.firms:
                stage.log_on(firm)
            stage.auction()
        finally:
            over.set()
        done.result()


def knock_until(over: threading.Event, again: threading.Event, port: int) -> None:
    """Keeps 256 silent connections from 127.0.0.2 open, a round of them every quarter of a second, until it is over; from
    the second round on it says so."""
    wires: list[socket.socket] = []
    rounds = 0
    while not over.wait(0.25):
        for _ in range(256 - len(wires)):
            wires.append(
                socket.create_connection(
                    ("127.0.0.1", port), timeout=LONG, source_address=("127.0.0.2", 0)
                )
            )
        rounds += 1
        if rounds > 1:
            again.set()
        ended = select.select(wires, [], [], 0)[0]
        for wire in ended:
            wire.close()
        wires = [wire for wire in wires if wire not in ended]
    for wire in wires:
        wire.close()


def test_many_passwords(stage: Stage) -> None:
    """Many Logons at once: their passwords take memory and time in turns, and a firm logs on meanwhile."""
    stage.door.limits["strangers_per_address"] = 64
    stage.open(stage.other)
    before = stage.memory()
    wires = [Wire(stage.door.port) for _ in range(60)]
    for wire in wires:
        wire.logon(DEALER.name.encode(), b"wrong")
    stage.log_on(stage.investor)
    for wire in wires:
        check(wire.closed_within(SLACK), "a wrong password stays")
        wire.socket.close()
    check(
        stage.most_memory() - before < 160 * 2**20,
        "%d bytes of memory more" % (stage.most_memory() - before),
    )
    stage.log_on(stage.dealer)
    stage.ping(stage.dealer)


def test_no_descriptor_left(stage: Stage) -> None:
    """Connections past what the process may have open: that is told, and a firm logs on once there is room."""
    stage.open(stage.other)
    for spare in (
        4,
        5,
    ):  # a connection takes two: one time none is left for the next one, and one time a single one
        told = len(stage.door.told.read_bytes())
        without_descriptors(
            stage, spare, lambda: b"Too many open files" in stage.door.told.read_bytes()[told:]
        )
    stage.log_on(stage.dealer)
    stage.ping(stage.dealer)


def without_descriptors(stage: Stage, spare: int, is_told: Callable[[], bool]) -> None:
    """Waits, while the gateway may open so many more and twenty connections come."""
    pid = stage.door.running.pid
    limits, used = resource.prlimit(pid, resource.RLIMIT_NOFILE), len(
        list(Path("/proc/%d/fd" % pid).iterdir())
    )
    resource.prlimit(pid, resource.RLIMIT_NOFILE, (used + spare, limits[1]))
    wires = [Wire(stage.door.port) for _ in range(20)]
    until("it is told", LONG, is_told)
    resource.prlimit(pid, resource.RLIMIT_NOFILE, limits)
    for wire in wires:
        wire.socket.close()
    until(
        "its connections have ended", LONG, lambda: stage.counters()["mireseason_connections"] == 1
    )


def held(stage: Stage) -> tuple[int, int, int]:
    """How many descriptors, threads and processes the gateway has."""
    process = Path("/proc/%d" % stage.door.running.pid)
    return (
        len(list((process / "fd").iterdir())),
        len(list((process / "task").iterdir())),
        len(stage.door.children()),
    )


def test_nothing_left(stage: Stage) -> None:
    """Connections that end in each way, sessions, and a venue that is ended leave no descriptor, no thread and no process."""
    stage.open(stage.other)
    number = ways_of_ending(stage, 1, 1)
    before = most_held(stage)  # by who has done all of it once
    ways_of_ending(stage, number, 40)
    stage.door.kill_venue()
    stage.ping(stage.other)
    until(
        "what they had is given back: %r" % (before,),
        LONG,
        lambda: all(now <= was for now, was in zip(held(stage), before)),
    )


def most_held(stage: Stage) -> tuple[int, int, int]:
    """What the gateway has for good, once it was the same for a second."""
    found, since = held(stage), time.monotonic()

    def is_still() -> bool:
        nonlocal found, since
        if (now := held(stage)) != found:
            found, since = now, time.monotonic()
        return time.monotonic() - since >= 1

    until("it has the same for a second", LONG, is_still)
    return found


def ways_of_ending(stage: Stage, number: int, rounds: int) -> int:
    """Connections that end in each way, so many times; the next number of the session among them."""
    for _ in range(rounds):
        wires = [Wire(stage.door.port) for _ in range(4)]
        wires[1].raw(b"8=FIXT.1.1\x019=100\x0135=A\x0149=DLR1\x01")
        wires[2].logon(b"NOBODY", b"secret")
        wires[3].number = number
        wires[3].logon(DEALER.name.encode(), DEALER.password.encode())
        check(wires[3].read_kind(b"A") is not None, "it is not logged on")
        number = wires[3].number
        for wire in wires:
            wire.socket.close()
    return number
