"""Strangers at the door: what they say in a firm's name, however often and long, changes nothing and tells them nothing."""

import re
import statistics
import threading
import time
from collections.abc import Callable
from functools import partial

import pytest

from tests.gateway.stage import DEALER, INVESTOR, Stage, Wrong, check
from tests.gateway.strangers import (
    ATTACKS,
    CLOSED,
    WAYS,
    Attack,
    Way,
    body_of,
    changes,
    firm_away,
    forms_of,
    of_wrong_length,
    quiet_firms,
    refusals,
    rows_of,
    said,
    still_state,
    told_since,
    trades,
    with_others,
    with_repeats,
)
from tests.gateway.wait import LONG, until, within
from tests.gateway.wire import Wire, framed


def unchanged(stage: Stage, act: Callable[[], int]) -> None:
    """Does what strangers do on so many connections, and looks whether nothing has changed and each is counted as refused."""
    before, refused = still_state(stage), refusals(stage)
    count = act()
    found = list(changes(before, still_state(stage)))
    check(not found, "; ".join(found[:4]))
    within(LONG, lambda: refusals(stage) - refused >= count)
    check(
        refusals(stage) - refused == count,
        "%g of %d are counted as refused" % (refusals(stage) - refused, count),
    )


def told(stage: Stage, act: Callable[[], object]) -> None:
    """Does something of which the operator has to be told more than that a connection has ended."""
    begin = len(stage.door.told.read_bytes())
    act()
    check(told_since(stage, begin), "the operator is told nothing but that connections ended")


# ---------------------------------------------------------------- in the name of a firm that is away


@pytest.mark.parametrize("way", WAYS, ids=[way.name for way in WAYS])
@pytest.mark.parametrize("known", ATTACKS, ids=[known.name for known in ATTACKS])
def test_attack(known: Attack, way: Way, stage: Stage) -> None:
    """An attack that once went through, and each other message in the place of each of its own: then the firm comes and trades."""
    scene = firm_away(stage, way)

    def each(attacks: list[tuple[str, ...]]) -> int:
        for messages in attacks:
            said(stage, way, forms_of(messages, scene))
        return len(attacks)

    told(stage, partial(unchanged, stage, partial(each, [known.messages])))
    for at in range(len(known.messages)):
        unchanged(stage, partial(each, list(with_others(known, at))))
    trades(stage, stage.investor, scene.quote)
    stage.whole()


@pytest.mark.parametrize("way", WAYS, ids=[way.name for way in WAYS])
def test_repeated_fields(way: Way, stage: Stage) -> None:
    """Logons in which a field stands again, with the right length and sum, and with a wrong length."""
    scene = firm_away(stage, way)

    def all_of_them() -> int:
        count = 0
        for messages in with_repeats():
            frames = forms_of(messages, scene)
            for first in (frames[0], of_wrong_length(frames[0], 1), of_wrong_length(frames[0], -1)):
                said(stage, way, [first, *frames[1:]])
                count += 1
        return count

    told(stage, partial(unchanged, stage, all_of_them))
    trades(stage, stage.investor, scene.quote)
    stage.whole()


# ---------------------------------------------------------------- passwords


def test_wrong_passwords_tell_nothing(stage: Stage) -> None:
    """Ten Logons with a wrong password: no number moves, and no byte comes back, whether something waits for the firm or not."""
    quiet_firms(stage)
    stage.open(stage.other, stage.investor)
    request = stage.ask(dealers=[stage.other])
    stage.log_off(stage.investor)
    stage.quote(stage.other, request)

    def ten_of_each() -> int:
        for _ in range(10):
            for name in (
                DEALER.name,
                INVESTOR.name,
            ):  # one that has never been on, and one for which a quote waits
                with Wire(stage.door.port) as wire:
                    wire.logon(name.encode(), b"wrong")
                    check(wire.closed_within(CLOSED), "the connection stays")
                    check(wire.waiting == b"", "%s is told %r" % (name, wire.waiting))
        return 20

    told(stage, partial(unchanged, stage, ten_of_each))
    stage.log_on(stage.dealer, stage.investor)
    stage.ping(stage.dealer)
    stage.answer(stage.investor, "a quote", lambda message: message.kind == b"S")
    stage.whole()


def seconds_of_refusal(stage: Stage, source: str, name: str, user: str, password: str) -> float:
    """How long a Logon's connection lasts after it was sent, from an address of which no other came: it waits for no judgement."""
    with Wire(stage.door.port, source=source) as wire:
        wire.logon(name.encode(), password.encode(), user.encode())
        began = time.monotonic()
        check(wire.closed_within(CLOSED), "the connection stays")
        check(wire.waiting == b"", "%s is told %r" % (name, wire.waiting))
        return time.monotonic() - began


ROUNDS = 4  # a machine with much else to do moves medians by a third or more now and then


def test_time_tells_nothing(stage: Stage) -> None:
    """A name that nobody has, one of a firm that is on, one of a firm that is away, and a wrong username take the same time."""
    stage.open(stage.other)
    password = DEALER.password
    tries = {
        "nobody": ("NOBODY", "NOBODY", password),
        "away": (DEALER.name, DEALER.name, "wrong"),
        "on": (stage.other.name, stage.other.name, "wrong"),
        "user": (DEALER.name, "nobody", password),
        "long": (DEALER.name, DEALER.name, "w" * 400),
        "no password": (DEALER.name, DEALER.name, ""),
    }
    sources = ("127.0.%d.%d" % (row, place) for row in range(1, 255) for place in range(1, 255))
    for _ in range(ROUNDS):
        took: dict[str, list[float]] = {what: [] for what in tries}
        for _ in range(20):
            for what, words in tries.items():
                took[what].append(seconds_of_refusal(stage, next(sources), *words))
        medians = {what: statistics.median(times) for what, times in took.items()}
        # A password that is not hashed is refused in a twentieth of the time, in each round.
        if max(medians.values()) < 1.6 * min(medians.values()) + 0.003:
            return
    raise Wrong(
        "times tell who is known: "
        + ", ".join("%s %.1f ms" % (what, 1000 * value) for what, value in medians.items())
    )


def test_words_behind_a_refusal(stage: Stage) -> None:
    """What stands behind a Logon in one segment is not looked at where that is refused, and is answered after it where it is not."""
    stage.open(stage.other, stage.investor)
    for password, heartbeat in ((b"wrong", b"30"), (DEALER.password.encode(), b"301")):
        with Wire(stage.door.port) as wire:
            wire.raw(logon_and_cancel(wire, password, heartbeat))
            check(wire.closed_within(CLOSED), "the connection stays")
            check(
                b"35=AI" not in wire.waiting,
                "a message behind a refused Logon is answered: %r" % wire.waiting,
            )
    check(stage.entries_of(stage.dealer) == 0, "a message behind a refused Logon is in the log")
    with Wire(stage.door.port) as wire:
        wire.raw(logon_and_cancel(wire, DEALER.password.encode(), b"30"))
        first = wire.read()
        check(
            first is not None and first.kind == b"A",
            "the first answer is %r" % (first and first.raw),
        )
        check(wire.read_kind(b"AI") is not None, "a message behind a Logon is not answered")


def logon_and_cancel(wire: Wire, password: bytes, heartbeat: bytes) -> bytes:
    name = wire.name = DEALER.name.encode()
    fields = [(98, b"0"), (108, heartbeat), (553, name), (554, password), (1137, b"9")]
    cancel = [(50, DEALER.trader.encode()), (298, b"5"), (117, b"behind")]
    return wire.message(b"A", name, fields) + wire.message(b"Z", name, cancel)


# ---------------------------------------------------------------- how many, and how loud


class Crowd:
    """Connections of one host that say nothing, and come again as soon as they are ended."""

    def __init__(self, port: int, source: str, count: int) -> None:
        self._port, self._source, self._goes_on = port, source, True
        self._threads = [threading.Thread(target=self._come, daemon=True) for _ in range(count)]
        for thread in self._threads:
            thread.start()

    def _come(self) -> None:
        while self._goes_on:
            try:
                with Wire(self._port, source=self._source) as wire:
                    while self._goes_on and not wire.closed_within(0.2):
                        pass
            except OSError:
                time.sleep(0.01)  # no place at the listening socket

    def go(self) -> None:
        self._goes_on = False
        for thread in self._threads:
            thread.join()


def test_silent_crowd(stage: Stage) -> None:
    """256 connections of one host that say nothing keep nobody of another host out."""
    stage.door.limits["logon_seconds"] = 60
    stage.open(stage.other)
    crowd = Crowd(stage.door.port, "127.0.0.2", 256)
    try:
        number = 1
        for turn in range(20):
            with Wire(stage.door.port) as wire:
                wire.number = number
                wire.logon(DEALER.name.encode(), DEALER.password.encode())
                check(
                    wire.read_kind(b"A") is not None, "Logon %d of 20 is not answered" % (turn + 1)
                )
                number = wire.number
        stage.ping(stage.other)
    finally:
        crowd.go()


def test_firms_of_one_address(stage: Stage) -> None:
    """Sixteen Logons at once from one address have room, beside sessions that stand."""
    stage.open(*stage.firms)
    wires = [Wire(stage.door.port) for _ in range(16)]
    for wire in wires:
        wire.logon(b"NOBODY", b"secret")
    ended = [wire.closed_within(CLOSED) for wire in wires]
    check(all(ended), "%d of 16 stay" % ended.count(False))
    until(
        "all are judged",
        LONG,
        lambda: stage.counters().get('mireseason_refused_total{reason="unknown name"}', 0) == 16,
    )
    stage.ping(stage.other)


NOISE: dict[str, Callable[[Wire], object]] = {
    "an unknown name": lambda wire: wire.logon(b"NOBODY\n" + bytes(range(2, 256)) * 20, b"secret"),
    "a wrong password": lambda wire: wire.logon(DEALER.name.encode(), b"wrong"),
    "garbage": lambda wire: wire.raw(b"\x1b[2J\nGET / HTTP/1.1\r\n\r\n" * 20),
    "no Logon": lambda wire: wire.raw(wire.message(b"0", b"DLR1\nx" * 900, [])),
    "a wrong sum": lambda wire: wire.raw(wire.message(b"A", b"DLR1", [])[:-4] + b"999\x01"),
    "nothing": lambda wire: None,
}
PER_MINUTE, LONGEST = 10, 200
OF_A_KIND = re.compile(rb'\w (?:refused|left out) what="([^"]+)"(?:.* (?:left_out|lines)=(\d+))?')
OF_GUESSES = re.compile(rb"wrong passwords .*count=10+ ")


def at_most(since: float) -> int:
    """How many of a kind are told in the time since this moment: in any minute no more than ten, whenever it begins."""
    return PER_MINUTE * (1 + int((time.monotonic() - since) // 60))


def kinds_of(lines: list[bytes]) -> dict[str, list[int]]:
    """The lines about strangers by their kind: how many each stands for. Refused counts itself, and those left out before it."""
    kinds: dict[str, list[int]] = {}
    for line in lines:
        if found := OF_A_KIND.search(line):
            itself = 0 if b" left out what=" in line else 1
            kinds.setdefault(found[1].decode(), []).append(itself + int(found[2] or 0))
    return kinds


def test_noise(stage: Stage) -> None:
    """Strangers who come as fast as they can: in any minute ten lines of each kind, of at most 200 bytes, that leave nobody uncounted."""
    stage.open(stage.other)
    begin, began = len(stage.door.told.read_bytes()), time.monotonic()
    for act in NOISE.values():
        end = time.monotonic() + 2
        while time.monotonic() < end:
            with Wire(stage.door.port) as wire:
                act(wire)
    stage.ping(stage.other)
    told, most = told_since(stage, begin), at_most(began)
    for kind, lines in kinds_of(told).items():
        check(len(lines) <= most, "%d lines of %s, and not %d" % (len(lines), kind, most))
    others = [line for line in told if not OF_A_KIND.search(line) and not OF_GUESSES.search(line)]
    check(
        not any(b"address=127.0.0.1" in line for line in others),
        "strangers are told in other lines: %r" % others[:3],
    )
    counted = reasons(stage)
    check(
        len(counted) >= 3 and sum(counted.values()) > 10 * PER_MINUTE,
        "there is no noise: %r" % counted,
    )
    stage.door.stop()
    whole = (
        stage.door.told.read_bytes()
    )  # counted since its start: whoever looks for an open door is a stranger too
    text = whole[begin:]
    stood_for = {kind: sum(lines) for kind, lines in kinds_of(whole.splitlines()).items()}
    missing = [reason for reason, count in counted.items() if stood_for.get(reason, 0) < count]
    check(not missing, "%r are counted, and the lines stand for %r" % (counted, stood_for))
    longest = max(text.splitlines(), key=len)
    check(len(longest) <= LONGEST, "a line of %d bytes: %r" % (len(longest), longest))
    check(
        not any(byte < 32 and byte != 10 or byte == 127 for byte in text), "a control byte is told"
    )


def reasons(stage: Stage) -> dict[str, float]:
    """How many were refused, by their reason."""
    found = {}
    for name, value in stage.counters().items():
        if name.startswith("mireseason_refused_total"):
            found[name.split('"')[1]] = value
    return found


def test_rows_of_strangers(stage: Stage) -> None:
    """The log's database grows no faster by strangers than the operator's lines."""
    stage.open(stage.other)
    began = time.monotonic()
    for _ in range(150):
        with Wire(stage.door.port) as wire:
            wire.logon(DEALER.name.encode(), b"wrong")
            check(wire.closed_within(CLOSED), "the connection stays")
    rows = [row for row in rows_of(stage, "connection") if DEALER.name in row]
    check(0 < len(rows) <= at_most(began), "%d rows of 150 wrong passwords" % len(rows))


def test_frames_before_a_logon(stage: Stage) -> None:
    """One read of many frames: the first decides, and no other is looked at."""
    scene = firm_away(stage, WAYS[0])

    def many() -> int:
        hit = framed(
            body_of("35=AJ|49=NAME|56=VENUE|34=NEXT|52=NOW|50=V1|693=s|694=1|117=QUOTE|", scene)
        )
        said(stage, WAYS[0], [hit * 1000])
        return 1

    unchanged(stage, many)
    trades(stage, stage.investor, scene.quote)


def test_quiet_example(stage: Stage) -> None:
    """The same scene without a stranger: nothing changes in it by itself, or the tests above would show nothing."""
    quiet_firms(stage)
    firm_away(stage, WAYS[0])
    before = still_state(stage)
    within(2, lambda: False)
    check(not list(changes(before, still_state(stage))), "something changes by itself")
