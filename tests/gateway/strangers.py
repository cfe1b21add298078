"""Strangers at the gateway's door: what they say, how they come, and how a test sees that nothing came of it."""

import sqlite3
import time
from collections.abc import Callable, Iterator
from contextlib import closing
from dataclasses import dataclass

from tests.gateway.firm import Firm
from tests.gateway.stage import INVESTOR, OTHER, Stage, check
from tests.gateway.test_logon import authority, certificate, context, secured
from tests.gateway.wait import LONG, until
from tests.gateway.wire import Wire, framed, now

NAME = INVESTOR.name.encode()  # in whose name they come
CLOSED = (
    60.0  # seconds in which a connection has to have ended, on a machine that has much else to do
)
STILL = 0.2  # seconds without a change after which strangers are taken to have changed nothing
CALM = 2.0  # the same after what firms did, so that nothing of theirs is taken for a stranger's
TABLES = ("entry", "sent")
COUNTED = (
    "entries_total",
    "sent_total",
    "delivered_total",
    "logons_total",
    "sessions",
    "logged_seconds_count",
    "answered_seconds_count",
)

Rows = list[tuple[object, ...]]


# ---------------------------------------------------------------- how they come


@dataclass(frozen=True)
class Way:
    """How the firms and the stranger connect."""

    name: str
    prepare: Callable[[Stage], None]
    connect: Callable[[Stage], Wire]


def with_tls(stage: Stage, certificates: bool) -> None:
    """A gateway with TLS, that asks for certificates or does not, and firms that have theirs."""
    authority(stage.folder, "authority")
    certificate(stage.folder, "venue", "localhost", "authority")
    for firm in stage.firms:
        certificate(stage.folder, firm.name, firm.name, "authority")
        secured(firm, stage.folder, firm.name)
    stage.door.tls = {"certificate": '"venue.pem"', "key": '"venue.key"'}
    if certificates:
        stage.door.tls |= {"authorities": '"authority.pem"', "client_certificates": "true"}


WAYS = (
    Way("plain", lambda stage: None, lambda stage: Wire(stage.door.port)),
    Way(
        "tls",
        lambda stage: with_tls(stage, False),
        lambda stage: Wire(stage.door.port, context(stage.folder, None)),
    ),
    # A dealer by its own certificate, in another firm's name.
    Way(
        "certificate",
        lambda stage: with_tls(stage, True),
        lambda stage: Wire(stage.door.port, context(stage.folder, OTHER.name)),
    ),
)


# ---------------------------------------------------------------- what they say


@dataclass(frozen=True)
class Scene:
    """What a stranger may know of the firm that is away, and has to guess else."""

    quote: bytes  # one that the firm may hit
    next: int  # its next number


def body_of(text: str, scene: Scene) -> bytes:
    """The bytes of a body that is written with bars: NAME, NOW, QUOTE, NEXT and NEXT+1 stand for what they say."""
    body = text.replace("|", "\x01").encode()
    for word, value in (
        (b"NEXT+1", b"%d" % (scene.next + 1)),
        (b"NEXT", b"%d" % scene.next),
        (b"NOW", now()),
        (b"QUOTE", scene.quote),
        (b"NAME", NAME),
    ):
        body = body.replace(word, value)
    return body


def head(kind: str, number: str = "NEXT") -> str:
    return "35=%s|49=NAME|56=VENUE|34=%s|52=NOW|" % (kind, number)


LOGON = head("A") + "98=0|108=30|1137=9|"
TWO_TYPES = head("A", "9999") + "35=0|" * 12
TWO_VERSIONS = head("0") + "8=FIX.4.2|" * 14
HIT = head("AJ", "NEXT+1") + "50=V1|693=stolen|694=1|117=QUOTE|"
ALL_AGAIN = head("2", "NEXT+1") + "7=1|16=0|"
FAR = head("4") + "36=1000000000|"


@dataclass(frozen=True)
class Attack:
    name: str
    messages: tuple[str, ...]


ATTACKS = (
    Attack("hits", (TWO_TYPES, TWO_VERSIONS, HIT)),
    Attack("reads", (TWO_TYPES, TWO_VERSIONS, ALL_AGAIN)),
    Attack("locks_out", (TWO_TYPES, FAR)),
)

# Each message that there is, for the place of each of an attack's.
OTHERS = (
    head("0"),
    head("1") + "112=x|",
    head("2") + "7=1|16=0|",
    head("3") + "45=1|373=5|",
    head("4") + "123=Y|36=1000000|",
    head("4") + "123=N|36=1000000|",
    head("5"),
    LOGON,
    LOGON + "553=NAME|554=wrong|",
    LOGON + "141=Y|",
    LOGON + "43=Y|122=NOW|",
    head("AJ") + "50=V1|693=s|694=1|117=QUOTE|",
    head("AG") + "50=V1|131=R1|658=10|",
    head("S") + "50=V1|117=s|131=R1|48=B|22=4|133=99|",
    head("Z") + "50=V1|298=4|",
    head("R") + "50=V1|131=s|146=1|55=[N/A]|48=B|22=4|54=1|38=1|453=0|",
    head("AI"),
    head("U"),
)


def with_others(attack: Attack, at: int) -> Iterator[tuple[str, ...]]:
    """The attack with each other message in the place of one of its own."""
    for other in OTHERS:
        yield attack.messages[:at] + (other,) + attack.messages[at + 1 :]


REPEATED = (
    "8=FIX.4.2",
    "9=5",
    "10=000",
    "35=0",
    "35=AJ",
    "34=1",
    "34=9999",
    "49=DLR1",
    "56=NAME",
    "52=NOW",
    "43=Y",
    "97=Y",
    "122=NOW",
    "50=V1",
    "57=X",
    "553=NAME",
    "554=wrong",
    "98=0",
    "108=30",
    "141=Y",
    "789=1",
    "1137=9",
    "7=1",
    "16=0",
    "36=9",
    "112=x",
    "123=Y",
)


def with_repeats() -> Iterator[tuple[str, ...]]:
    """Logons of which one field stands again, at its begin or at its end, few or many times; and all that could follow."""
    for field in REPEATED:
        for times in (1, 4, 12, 17):
            begin, rest = LOGON.split("|", 1)
            for logon in (
                begin + "|" + (field + "|") * times + rest,
                LOGON + (field + "|") * times,
            ):
                yield (logon, FAR, TWO_VERSIONS, HIT, ALL_AGAIN)


def of_wrong_length(frame: bytes, by: int) -> bytes:
    """The same with another length, and the sum that belongs to it."""
    begin, rest = frame.split(b"\x019=", 1)
    length, body = rest.split(b"\x01", 1)
    text = begin + b"\x019=%d\x01" % (int(length) + by) + body[: -len(b"10=000\x01")]
    return text + b"10=%03d\x01" % (sum(text) % 256)


# ---------------------------------------------------------------- what came of it


def rows_of(stage: Stage, table: str) -> Rows:
    with closing(
        sqlite3.connect("file:%s?mode=ro" % stage.door.database, uri=True, timeout=60)
    ) as connection:
        return list(connection.execute("SELECT * FROM %s ORDER BY 1, 2" % table))


@dataclass(frozen=True)
class State:
    """All that may not change by what a stranger does."""

    tables: dict[str, Rows]
    counted: dict[str, float]
    seen: dict[
        str, tuple[int, int, int]
    ]  # of each firm: how many messages it was sent, and how often it logged on


def state_of(stage: Stage) -> State:
    counters = stage.counters()
    seen = {}
    for firm in stage.firms:
        firm.look()
        seen[firm.name] = len(firm.received), len(firm.admin), firm.times_on
    counted = {name: counters["mireseason_" + name] for name in COUNTED}
    return State({table: rows_of(stage, table) for table in TABLES}, counted, seen)


def still_state(stage: Stage, seconds: float = STILL) -> State:
    """Once it has not changed for a time."""
    found, since = state_of(stage), time.monotonic()

    def is_still() -> bool:
        nonlocal found, since
        if (other := state_of(stage)) != found:
            found, since = other, time.monotonic()
        return time.monotonic() - since >= seconds

    until("nothing happens", LONG, is_still)
    return found


def changes(before: State, after: State) -> Iterator[str]:
    for table, rows in before.tables.items():
        new = [row for row in after.tables[table] if row not in rows]
        if new:
            yield "%s has %r, and %d rows more or others" % (table, new[0], len(new) - 1)
    for name, value in before.counted.items():
        if after.counted[name] != value:
            yield "%s was %g and is %g" % (name, value, after.counted[name])
    for firm, counts in before.seen.items():
        if after.seen[firm] != counts:
            yield "%s was sent or told something: %r, %r before" % (firm, after.seen[firm], counts)


def refusals(stage: Stage) -> float:
    """How many connections and Logons were refused, for whatever reason."""
    return sum(
        value
        for name, value in stage.counters().items()
        if name.startswith("mireseason_refused_total")
    )


def told_since(stage: Stage, begin: int) -> list[bytes]:
    """The operator's lines behind so many bytes, but for those that say no more than that a connection has ended."""
    lines = stage.door.told.read_bytes()[begin:].splitlines()
    return [line for line in lines if b" connection closed " not in line]


def told_printable(stage: Stage) -> None:
    """The operator's lines, and the rows of the log about connections, are printable."""
    lines = stage.door.told.read_bytes().splitlines()
    odd = [line for line in lines if any(not 32 <= byte < 127 for byte in line)]
    check(not odd, "a line has %r" % odd[:1])
    check(
        all(line[:4].isdigit() for line in lines),
        "a line has no moment: %r" % [line for line in lines if not line[:4].isdigit()][:1],
    )
    texts = [
        value for row in rows_of(stage, "connection") for value in row if isinstance(value, str)
    ]
    check(all(text.isprintable() and text.isascii() for text in texts), "a row has an odd text")
    check(all(len(text) <= 200 for text in texts), "a row has a text past 200 bytes")


# ---------------------------------------------------------------- a firm that is away


def quiet_firms(stage: Stage) -> None:
    """Their engines say nothing of themselves while a test lasts."""
    for firm in stage.firms:
        firm.more = {**firm.more, "HeartBtInt": "300"}


def firm_away(stage: Stage, way: Way) -> Scene:
    """The dealers are logged on. The investor has a quote that it may hit, has left, and something waits for it."""
    way.prepare(stage)
    quiet_firms(stage)
    stage.open(*stage.firms)
    request = stage.ask()
    stage.quote(stage.dealer, request)
    found = stage.answer(stage.investor, "a quote", lambda message: message.kind == b"S")
    stage.log_off(stage.investor)
    stage.quote(stage.other, b"R%d" % stage.shown(stage.other))
    until(
        "the investor's session is over", LONG, lambda: stage.counters()["mireseason_sessions"] == 2
    )
    still_state(stage, CALM)
    return scene_now(stage, found.value(117) or b"")


def scene_now(stage: Stage, quote: bytes) -> Scene:
    return Scene(quote, stage.door.ledger().expected[INVESTOR.name])


def said(stage: Stage, way: Way, frames: list[bytes]) -> None:
    """A stranger's connection: it is ended, and no byte comes back."""
    with way.connect(stage) as wire:
        for frame in frames:
            wire.raw(frame)
        check(wire.closed_within(CLOSED), "the connection stays after %r" % frames[:3])
        check(wire.waiting == b"", "%r is told %r" % (frames[:3], wire.waiting))


def trades(stage: Stage, firm: Firm, quote: bytes) -> None:
    """The firm logs on with its password and its numbers, and hits the quote that the stranger was after."""
    stage.log_on(firm)
    answer = stage.hit(quote, firm)
    check(answer.value(297) == b"0", "a lawful hit is answered %r" % answer.raw)
    for dealer in (stage.dealer, stage.other):
        stage.answer(dealer, "a notice", lambda message: message.kind == b"AJ")


def forms_of(messages: tuple[str, ...], scene: Scene) -> list[bytes]:
    return [framed(body_of(text, scene)) for text in messages]
