"""Somebody reads the gateway's code and looks for a way past its door: pieces, names, races, and many at once."""

import socket
import struct
import threading
import time
from functools import partial

from tests.gateway.stage import INVESTOR, LOGON_SECONDS, Stage, check
from tests.gateway.strangers import (
    CALM,
    CLOSED,
    NAME,
    WAYS,
    body_of,
    firm_away,
    quiet_firms,
    refusals,
    rows_of,
    scene_now,
    still_state,
    told_printable,
    trades,
)
from tests.gateway.test_connections import held
from tests.gateway.test_strangers import Crowd, told, unchanged
from tests.gateway.wait import LONG, until
from tests.gateway.wire import Fields, Wire, framed, now

PLAIN = WAYS[0]
PASSWORD = INVESTOR.password.encode()


# ---------------------------------------------------------------- pieces


def test_logon_in_pieces(stage: Stage) -> None:
    """A Logon that comes byte by byte is one; one whose bytes come too slowly is none; and half of one keeps the firm out for no time."""
    quiet_firms(stage)
    stage.open(stage.other)
    with Wire(stage.door.port) as wire:
        wire.name = NAME
        for byte in logon_bytes(wire):
            wire.raw(bytes([byte]))
        check(wire.read_kind(b"A") is not None, "a Logon in pieces is not answered")
    number = wire.number
    with Wire(stage.door.port) as slow:
        slow.name, slow.number = NAME, number
        data, end = logon_bytes(slow), time.monotonic() + LOGON_SECONDS + CLOSED
        for byte in data:
            if slow.closed_within(LOGON_SECONDS / 20) or time.monotonic() > end:
                break
            slow.raw(bytes([byte]))
        check(
            slow.is_over and slow.waiting == b"",
            "a Logon of %d bytes that takes its time is waited for" % len(data),
        )
    with Wire(stage.door.port) as wire:
        wire.number = number
        wire.logon(NAME, PASSWORD)
        check(wire.read_kind(b"A") is not None, "the firm is kept out")


def logon_bytes(wire: Wire, more: Fields | None = None) -> bytes:
    fields = [(98, b"0"), (108, b"30"), (553, NAME), (554, PASSWORD), (1137, b"9")]
    return wire.message(b"A", NAME, fields + (more or []))


def test_odd_names(stage: Stage) -> None:
    """Names that are nearly a firm's, or more than a name: of nobody, whatever the password."""
    scene = firm_away(stage, PLAIN)
    names = [
        b"INV1 ",
        b" INV1",
        b"INV1\x00",
        b"inv1",
        b"/INV1",
        b"INV1/",
        b"VENUE",
        b"'; DROP TABLE entry; --",
        b"%s%n{}",
        b"\xc2\x9b2J",
        b"I" * 3900,
        b"INV1\xe2\x80\xa8stop",
        b'" firm="DLR1',
    ]

    def all_of_them() -> int:
        for name in names:
            with Wire(stage.door.port) as wire:
                wire.number = scene.next
                wire.logon(name, PASSWORD, NAME)
                check(wire.closed_within(CLOSED), "the connection of %r stays" % name)
                check(wire.waiting == b"", "%r is told %r" % (name, wire.waiting))
        return len(names)

    told(stage, partial(unchanged, stage, all_of_them))
    told_printable(stage)
    trades(stage, stage.investor, scene.quote)
    stage.whole()


def test_odd_passwords(stage: Stage) -> None:
    """Passwords that hold the right one: with a zero byte, a blank or a line feed behind it, longer than a hash takes, or as its hash."""
    scene = firm_away(stage, PLAIN)
    stored = (
        (stage.folder / "credentials.toml")
        .read_text()
        .split("[INV1]", 1)[1]
        .split('password = "', 1)[1]
        .split('"', 1)[0]
        .encode()
    )
    words = [
        PASSWORD + b"\x00",
        PASSWORD + b"\x00x",
        PASSWORD + b" ",
        PASSWORD + b"\n",
        PASSWORD[:-1],
        PASSWORD.upper(),
        PASSWORD * 40,
        stored,
        b"*0",
        b"\x00",
    ]

    def all_of_them() -> int:
        for word in words:
            with Wire(stage.door.port) as wire:
                wire.number = scene.next
                wire.logon(NAME, word)
                check(
                    wire.closed_within(CLOSED) and wire.waiting == b"",
                    "%r is told %r" % (word, wire.waiting),
                )
        return len(words)

    unchanged(stage, all_of_them)
    trades(stage, stage.investor, scene.quote)


# ---------------------------------------------------------------- who knows the password


# Fields of a Logon with the right password, and whether it is accepted.
LOGONS: list[tuple[Fields, bool]] = [
    ([(43, b"Y"), (122, b"20250314-09:00:00")], True),
    ([(43, b"Y")], True),
    ([(97, b"Y")], True),
    ([(57, b"ELSEWHERE")], True),
    ([(141, b"Y")], False),
    ([(789, b"4294967297")], False),
    ([(789, b"999999999")], False),
    ([(789, b"1")], True),
    ([(95, b"3"), (96, b"a=b")], True),
]


def test_odd_logons(stage: Stage) -> None:
    """Logons that a resend, a reset or another engine would make: accepted or refused, and the numbers stand in any case."""
    scene = firm_away(stage, PLAIN)
    number = scene.next
    for fields, is_accepted in LOGONS:
        with Wire(stage.door.port) as wire:
            wire.name, wire.number = NAME, number
            wire.raw(logon_bytes(wire, fields))
            answer = wire.read(limit=CLOSED)
            check(
                (answer is not None and answer.kind == b"A") == is_accepted,
                "%r is answered %r" % (fields, answer),
            )
        until(
            "its connection has ended", LONG, lambda: stage.counters()["mireseason_sessions"] == 2
        )
        least = number + is_accepted
        until(
            "%r behind %d is counted" % (fields, number),
            LONG,
            lambda: scene_now(stage, scene.quote).next >= least,
        )
        number = scene_now(stage, scene.quote).next
    stage.log_off(stage.dealer)
    stage.log_on(stage.dealer)
    stage.ping(stage.dealer)


def test_second_with_words(stage: Stage) -> None:
    """A second connection with the right password and a message behind its Logon, while the first one stands: that one is asked,
    answers, and stands; nothing of the second is taken, and it is told nothing."""
    quiet_firms(stage)
    stage.open(*stage.firms)
    stage.ask()
    stage.answer(stage.investor, "that its request is taken", lambda message: message.kind == b"AI")
    scene = scene_now(stage, b"Q1")

    still_state(stage, CALM)
    before = [rows_of(stage, table) for table in ("entry", "sent")]
    with Wire(stage.door.port) as wire:
        wire.name, wire.number = NAME, scene.next
        wire.raw(
            logon_bytes(wire)
            + framed(
                body_of(
                    "35=AJ|49=NAME|56=VENUE|34=NEXT+1|52=NOW|50=V1|693=second|694=6|131=x|",
                    scene,
                )
            )
        )
        check(wire.closed_within(CLOSED), "a second connection stays")
        check(wire.waiting == b"", "it is told %r" % wire.waiting)
    check(
        before == [rows_of(stage, table) for table in ("entry", "sent")],
        "something of a second connection is in the log",
    )
    stage.auction()
    stage.whole()


def test_races(stage: Stage) -> None:
    """Two connections with the right password and many with a wrong one, all at once and again and again: one at a time has the session."""
    stage.door.limits["logon_seconds"] = int(LONG)
    quiet_firms(stage)
    stage.open(stage.other)
    number, rounds, answers = 1, 12, 0
    for _ in range(rounds):
        wires = [Wire(stage.door.port) for _ in range(8)]
        moment = now()  # of both, so that neither comes from an engine that has lost its store
        for place, wire in enumerate(wires):
            wire.number = number
            words = {"password": PASSWORD if place in (3, 5) else b"wrong", "sending": moment}
            threading.Thread(target=wire.logon, args=(NAME,), kwargs=words).start()
        found = [
            wire
            for place, wire in enumerate(wires)
            if place in (3, 5) and wire.read_kind(b"A") is not None
        ]
        check(len(found) <= 1, "two connections have the session under one number")
        answers += len(found)
        number += len(found)
        for wire in wires:
            wire.socket.close()
        until(
            "their connections have ended",
            LONG,
            lambda: stage.counters()["mireseason_connections"] == 1,
        )
        until("the Logon is counted", LONG, lambda: scene_number(stage, number) == number)
    check(answers >= rounds // 2, "%d of %d rounds had a session" % (answers, rounds))
    one_at_a_time(stage)
    stage.ping(stage.other)


def scene_number(stage: Stage, number: int) -> int:
    return stage.door.ledger().expected.get(INVESTOR.name, number)


def one_at_a_time(stage: Stage) -> None:
    """Of the firm each Logon that was accepted ends in the log before the next one."""

    def kinds() -> list[str]:
        rows = [row for row in rows_of(stage, "connection") if INVESTOR.name in row]
        return [
            "logon" if "logon" in row else "end" for row in rows if "logon" in row or "end" in row
        ]

    until("the last one has ended in the log", LONG, lambda: kinds()[-1] == "end")
    check(kinds() == ["logon", "end"] * (len(kinds()) // 2), "the log has %r" % kinds())


# ---------------------------------------------------------------- many


def cut_off(wire: Wire) -> None:
    """Ends a connection by a reset."""
    wire.socket.setsockopt(socket.SOL_SOCKET, socket.SO_LINGER, struct.pack("ii", 1, 0))
    wire.socket.close()


def test_cut_off_at_each_place(stage: Stage) -> None:
    """Connections that are reset at once, within a Logon, behind it, and while it is judged: nothing is left of them."""
    scene = firm_away(stage, PLAIN)
    before = held(stage)

    def all_of_them() -> int:
        refused = refusals(stage)
        for place in range(120):
            wire = Wire(stage.door.port, source="127.0.0.%d" % (2 + place % 8))
            wire.number = scene.next
            if place % 4:
                wire.raw(
                    logon_bytes(wire).replace(PASSWORD, b"x" * len(PASSWORD))[
                        : (None, 40, 100, None)[place % 4]
                    ]
                )
            cut_off(wire)
        until("each is counted", LONG, lambda: refusals(stage) - refused >= 120)
        return 120

    unchanged(stage, all_of_them)
    until(
        "what they had is given back",
        LONG,
        lambda: all(now_has <= had for now_has, had in zip(held(stage), before)),
    )
    trades(stage, stage.investor, scene.quote)


def test_crowd_of_many_addresses(stage: Stage) -> None:
    """Sixteen silent connections of each of twelve addresses leave room for the firms of another one."""
    stage.door.limits["logon_seconds"] = int(LONG)
    quiet_firms(stage)
    stage.open(stage.other)
    wires = [
        Wire(stage.door.port, source="127.0.0.%d" % (2 + place % 12)) for place in range(12 * 16)
    ]
    stage.log_on(stage.dealer)
    stage.ping(stage.dealer)
    ended = sum(wire.closed_within(0) for wire in wires)
    check(ended == 0, "%d of them had no room, which is theirs" % ended)
    for wire in wires:
        wire.socket.close()


def test_storm_of_addresses(stage: Stage) -> None:
    """More addresses than there are slots, each with one silent connection that comes again as soon as it is ended: whoever sends a
    Logon at once is answered."""
    stage.door.limits["logon_seconds"] = 30
    quiet_firms(stage)
    stage.open(stage.other)
    crowds = [
        Crowd(stage.door.port, "127.2.%d.%d" % (place // 250, 1 + place % 250), 1)
        for place in range(300)
    ]
    number = 1
    try:
        until(
            "all slots are taken", LONG, lambda: stage.counters()["mireseason_connections"] >= 256
        )
        for turn in range(5):
            with Wire(stage.door.port) as wire:
                wire.number = number
                wire.logon(NAME, PASSWORD)
                check(
                    wire.read_kind(b"A", limit=CLOSED) is not None,
                    "Logon %d of 5 is not answered" % (turn + 1),
                )
                number = wire.number
    finally:
        for crowd in crowds:
            crowd.go()
    stage.ping(stage.other)


def test_passwords_of_one_address(stage: Stage) -> None:
    """Sixteen connections of one address that send one wrong password after the other: a firm of another address logs on meanwhile."""
    quiet_firms(stage)
    stage.open(stage.other)
    goes_on = True

    def guess() -> None:
        while goes_on:
            with Wire(stage.door.port, source="127.0.0.2") as wire:
                wire.logon(NAME, b"guess")
                wire.closed_within(CLOSED)

    guessers = [threading.Thread(target=guess) for _ in range(16)]
    for guesser in guessers:
        guesser.start()
    try:
        number = 1
        for _ in range(5):
            with Wire(stage.door.port) as wire:
                wire.number = number
                wire.logon(NAME, PASSWORD)
                check(
                    wire.read_kind(b"A", limit=CLOSED) is not None,
                    "the right password waits for %g s" % CLOSED,
                )
                number = wire.number
    finally:
        goes_on = False
        for guesser in guessers:
            guesser.join()
    stage.ping(stage.other)


def test_stops_among_strangers(stage: Stage) -> None:
    """A gateway that is told to stop waits for no stranger."""
    stage.door.limits["logon_seconds"] = int(LONG)
    quiet_firms(stage)
    stage.open()
    wires = [Wire(stage.door.port, source="127.0.0.%d" % (2 + place % 4)) for place in range(40)]
    for wire in wires[::2]:
        wire.raw(b"8=FIXT.1.1\x019=100\x0135=A\x01")
    began = time.monotonic()
    check(stage.door.stop() == 0, "it ends with a fault")
    check(time.monotonic() - began < LONG / 2, "it takes %.1f s" % (time.monotonic() - began))
    for wire in wires:
        wire.socket.close()
