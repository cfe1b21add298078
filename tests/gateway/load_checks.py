"""What has to hold in the end of a load (load.py) that was ended on the way: says what does not.

It is looked for in what the firms received and in the log, by the venue's program over that log; of trades by what firms were told
alone.
"""

import re
from collections import Counter
from collections.abc import Iterator
from dataclasses import dataclass
from pathlib import Path

from tests.gateway.engine import Came, Engine, value
from tests.gateway.firm import Firm, Places, received_of
from tests.gateway.held import altered, differences, unkept, unlogged
from tests.gateway.ledger import TEXT, TRADE_ID, Ledger, Told, by_firm, printed
from tests.gateway.load import Load
from tests.gateway.settle import MODEL

NOT_ITS_OWN = re.compile(rb"(?:^|\x01)(?:8|9|52|43|122|10)=[^\x01]*(?=\x01)")
SESSIONS = (b"A", b"0", b"1", b"2", b"4", b"5")  # of the session alone: not sent again
NOWHERE = Places(Path(), Path(), (Path(), Path()), 0)


@dataclass(frozen=True)
class Cut:
    """Where the log and the firms stood when a gateway had ended."""

    places: int  # entries that are on disk
    had: dict[bytes, int]  # messages that had come to each firm


def cut(load: Load, places: int) -> Cut:
    return Cut(places, {engine.name: len(engine.came) for engine in load.engines})


@dataclass(frozen=True)
class Given:
    """What a program of the venue gives over a log."""

    frames: dict[str, list[bytes]]  # to each firm
    told: dict[str, Told]  # beside them
    counts: list[dict[str, int]]  # by place, how many each firm was given until then


def given(program: list[str], ledger: Ledger) -> Given:
    text = printed([*program, "live", "--frames", "--marks", "--notes"], ledger.day())
    frames: list[bytes] = []
    told: dict[str, Told] = {}
    counts, count = [dict[str, int]()], Counter[str]()
    for line in text.splitlines():
        kind, *words = line.split(b" ")
        if kind in (b"done", b"fault"):
            counts.append(dict(count))
        elif kind in (b"why", b"trade"):
            field = (TEXT, ledger.reasons[words[2]]) if kind == b"why" else (TRADE_ID, words[2])
            told.setdefault(words[0].decode(), {})[int(words[1])] = field
        else:
            frames.append(line)
            count[kind.decode()] += 1
    return Given(by_firm(b"\n".join(frames)), told, counts)


def firm_of(engine: Engine) -> Firm:
    """As the checks of drawn days have a firm."""
    firm = Firm(NOWHERE, engine.who)
    for came in engine.came:
        if came.kind not in SESSIONS:
            received = received_of(came.raw)
            (firm.received if received.venue_number else firm.admin).append(received)
    for number, kept in engine.store.items():
        firm.sent["%d" % number] = number
        fields = received_of(kept.fields).fields
        firm.told["%d" % number] = [(35, kept.kind), *fields]
    return firm


def faults(program: tuple[str, ...], load: Load, cuts: list[Cut], ledger: Ledger) -> Iterator[str]:
    wanted = given(list(program), ledger)
    if list(program) != MODEL and given(MODEL, ledger) != wanted:
        yield "the second implementation of the venue gives something else for the log"
    for engine in load.engines:
        firm = firm_of(engine)
        told = wanted.told.get(firm.name, {})
        yield from differences(firm, wanted.frames.get(firm.name, []), ledger, told)
        yield from unlogged(firm, ledger)
        yield from altered(firm, ledger)
        yield from two_bodies(engine)
        yield from left_early(engine, cuts, wanted)
        for text in engine.logouts:
            yield "%s was logged out: %r" % (firm.name, text)
    yield from unkept(ledger, wanted.frames)
    yield from wrong_trades(load)


def two_bodies(engine: Engine) -> Iterator[str]:
    """Numbers under which a firm got something, and something else, or nothing that is kept, when it was sent again; and new ones
    that were had already."""
    known: dict[int, bytes] = {}
    for came in engine.came:
        is_own = came.kind in SESSIONS
        body = b"" if is_own else NOT_ITS_OWN.sub(b"", came.raw)
        for number in range(came.number, end_of(came)):
            before = known.setdefault(number, body)
            if body != before:
                yield "%s: %d came as %r and as %r" % (engine.who.name, number, before, came.raw)
    for came in engine.low:
        yield "%s: %d is used twice: %r" % (engine.who.name, came.number, came.raw)


def end_of(came: Came) -> int:
    """The number behind those that it stands for."""
    return int(value(came.raw, b"36") or 0) if came.kind == b"4" else came.number + 1


def left_early(engine: Engine, cuts: list[Cut], wanted: Given) -> Iterator[str]:
    """Messages of the venue that a firm had when a gateway had ended, and whose entry was not on disk by then."""
    for at, one in enumerate(cuts):
        may_have = wanted.counts[one.places - 1].get(engine.who.name, 0) if one.places else 0
        for came in engine.came[: one.had[engine.name]]:
            number = int(value(came.raw, b"1181") or 0) if came.kind not in SESSIONS else 0
            if number > may_have:
                text = "%s had %d at end %d, and the %d entries on disk give it %d"
                yield text % (engine.who.name, number, at + 1, one.places, may_have)


def not_again(engine: Engine, since: int) -> Iterator[str]:
    """It has asked for all from message `since` on: what it had before does not come."""
    again = {came.number for came in engine.came[since:] if came.kind not in SESSIONS}
    missing = {came.number for came in engine.came[:since] if came.kind not in SESSIONS} - again
    if missing:
        yield "%s: these do not come again: %r" % (engine.who.name, sorted(missing))


# ---------------------------------------------------------------- trades


@dataclass(frozen=True)
class Trade:
    """As one side was told it."""

    name: bytes
    dealer: bytes
    bond: bytes
    quantity: bytes
    price: bytes


def texts(raw: bytes, *tags: bytes) -> list[bytes]:
    return [value(raw, tag) or b"" for tag in tags]


def is_won(came: Came) -> bool:
    """An investor's accepted hit, or the notice of the dealer that has won."""
    hit = came.kind == b"AI" and value(came.raw, b"693") and value(came.raw, b"297") == b"0"
    return bool(hit) or (came.kind == b"AJ" and value(came.raw, b"694") == b"1")


def wrong_trades(load: Load) -> Iterator[str]:
    bought: list[Trade] = []
    sold: list[Trade] = []
    for engine in load.engines:
        once = {came.number: came for came in engine.came if came.kind not in SESSIONS}
        won = [came for came in once.values() if is_won(came)]
        for what, tag in ((b"AI", b"117"), (b"AI", b"131"), (b"AJ", b"117"), (b"AJ", b"131")):
            named = [value(came.raw, tag) for came in won if came.kind == what]
            if len(set(named)) != len(named):
                yield "%s: a quote or a request is traded twice" % engine.who.name
        quotes = {value(came.raw, b"117"): came.raw for came in once.values() if came.kind == b"S"}
        prices = {value(kept.fields, b"117"): kept.fields for kept in engine.store.values()}
        for came in won:
            if came.kind == b"AI":
                bought.append(as_bought(came.raw, quotes[value(came.raw, b"117")]))
            else:
                sold.append(as_sold(engine, came.raw))
                own = prices[value(came.raw, b"117")]
                if value(own, b"133") != value(came.raw, b"133"):
                    yield "%s: %r was quoted as %r" % (engine.who.name, came.raw, own)
    if len({trade.name for trade in bought}) != len(bought):
        yield "two trades have one name"
    if Counter(bought) != Counter(sold):
        yield "the sides of these were told otherwise: %r" % list(set(bought) ^ set(sold))[:4]
    if not bought:
        yield "nothing was traded"


def as_bought(answer: bytes, quote: bytes) -> Trade:
    """By the answer to a hit, and the quote that it names."""
    return Trade(*texts(answer, b"1003"), *texts(quote, b"448", b"48", b"135", b"133"))


def as_sold(engine: Engine, notice: bytes) -> Trade:
    name, *rest = texts(notice, b"1003", b"48", b"38", b"133")
    return Trade(name, engine.name, *rest)
