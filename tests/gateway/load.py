"""The load of 64 firms: auctions of 32 investors, each of four of 32 dealers, as fast as a gateway answers.

Each dealer that is asked quotes four times at once, and the investor hits the last quote that it is shown; some hit it a second
time, which is refused. Now and then a dealer sends what the venue or the session has to reject. A gateway that is gone is looked
for until it, or another one, listens; then each firm logs on again, asks for what it missed, and sends again what it is asked for.
"""

import random
import selectors
import socket
import time
from collections.abc import Callable, Iterable
from dataclasses import dataclass, field
from itertools import cycle, islice

from tests.gateway.door import Door, today
from tests.gateway.engine import Came, Engine, value
from tests.gateway.firm import Identity
from tests.gateway.market import BOND, moment_in
from tests.gateway.stage import check
from tests.gateway.wait import LONG, TooLong

DEALERS = [Identity("DLR%d" % n, "T%d" % n, "secret") for n in range(1, 33)]
INVESTORS = [Identity("INV%d" % n, "V%d" % n, "secret") for n in range(1, 33)]
ASKED, QUOTES = 4, 4
REQUESTS = 128  # that an investor may make: with them the day has all that a venue takes
ASKS = 120  # that it makes, so that no dealer's quotes are used up either
PRICES = (b"99.5", b"99.4375", b"99.25", b"100")
SECOND_HIT, REJECTED = 0.3, 0.02  # how often
LOOK = 0.02  # seconds from one look for a gateway to the next
REST = 3.0  # seconds in which nothing comes
MOST_TOLD = 2000  # characters of what a load waits for in vain


def venue_text() -> str:
    """A configuration by which none of these is refused for its number or size."""
    text = 'version = 1\ndate = "%s"\n[[bond]]\nid = "%s"\n' % (today(), BOND.decode())
    for who in DEALERS:
        text += '[[dealer]]\nname = "%s"\ntraders = ["%s"]\n' % (who.name, who.trader)
        text += "quotes = %d\nexposure = 1000000000000\n" % (REQUESTS * ASKED * QUOTES)
    for who in INVESTORS:
        text += '[[investor]]\nname = "%s"\ntraders = ["%s"]\n' % (who.name, who.trader)
        text += "requests = %d\nopen = %d\nquantity = 5000000\n" % (REQUESTS, REQUESTS)
    return text


@dataclass
class Seen:
    """What a firm is still owed, and what it was shown."""

    named: int = 0
    asked: int = 0  # requests that it made
    unanswered: set[bytes] = field(default_factory=set)  # names of its messages
    open: set[bytes] = field(default_factory=set)  # a dealer's requests without a notice
    shown: dict[bytes, int] = field(default_factory=dict)  # quotes of an investor's request

    def name(self) -> bytes:
        """The name of its next message."""
        self.named += 1
        name = b"m%d" % self.named
        self.unanswered.add(name)
        return name


class Auctions:
    """Says what a firm sends next, by what it was sent."""

    def __init__(self, seed: int, engines: list[Engine]) -> None:
        self.draw, self.goes_on = random.Random("auctions of %d" % seed), True
        self.deadline = moment_in(3600)
        self.seen = {engine.name: Seen() for engine in engines}
        self.dealers = cycle(who.name.encode() for who in DEALERS)
        self.fresh = 0  # messages that came to firms, each once

    def is_done(self) -> bool:
        return not any(seen.unanswered or seen.open for seen in self.seen.values())

    def took(self, engine: Engine, came: Came) -> None:
        self.fresh += 1
        if came.kind == b"R":
            self._quote(engine, came.raw)
        elif came.kind == b"S":
            self._show(engine, came.raw)
        elif came.kind == b"AJ":
            self.seen[engine.name].open.discard(value(came.raw, b"131") or b"")
        elif came.kind == b"AI":
            self._answered(engine, came.raw)
        elif came.kind == b"3":
            self.seen[engine.name].unanswered.discard(b"#" + (value(came.raw, b"45") or b""))

    def is_used_up(self) -> bool:
        """Nobody asks any more."""
        return all(self.seen[who.name.encode()].asked == ASKS for who in INVESTORS)

    def ask(self, engine: Engine) -> None:
        seen = self.seen[engine.name]
        if seen.asked == ASKS:
            return
        seen.asked += 1
        name = seen.name()
        fields = b"50=%s\x01131=%s\x01146=1\x0155=[N/A]\x0148=%s\x0122=4\x0154=1\x0138=2000000\x01"
        text = fields % (engine.who.trader.encode(), name, BOND)
        text += b"126=%s\x01453=%d\x01" % (self.deadline, ASKED)
        for dealer in islice(self.dealers, ASKED):
            text += b"448=%s\x01447=D\x01452=35\x01" % dealer
        engine.say(b"R", text)

    def _quote(self, engine: Engine, raw: bytes) -> None:
        request, seen = value(raw, b"131") or b"", self.seen[engine.name]
        seen.open.add(request)
        for _ in range(QUOTES):
            words = (engine.who.trader.encode(), seen.name(), request, BOND)
            fields = b"50=%s\x01117=%s\x01131=%s\x0148=%s\x0122=4\x01133=%s\x01"
            engine.say(b"S", fields % (*words, self.draw.choice(PRICES)))
        drawn = self.draw.random()
        if drawn < REJECTED:
            engine.test(b"")
        elif drawn < 2 * REJECTED:
            # Nobody of the dealer's has this name: the venue rejects it.
            seen.unanswered.add(b"#%d" % engine.say(b"Z", b"50=T99\x01298=4\x01"))

    def _show(self, engine: Engine, raw: bytes) -> None:
        request, seen = value(raw, b"131") or b"", self.seen[engine.name]
        seen.shown[request] = seen.shown.get(request, 0) + 1
        if seen.shown[request] == ASKED * QUOTES:
            for _ in range(2 if self.draw.random() < SECOND_HIT else 1):
                words = (engine.who.trader.encode(), seen.name(), value(raw, b"117"))
                engine.say(b"AJ", b"50=%s\x01693=%s\x01694=1\x01117=%s\x01" % words)

    def _answered(self, engine: Engine, raw: bytes) -> None:
        seen, hit = self.seen[engine.name], value(raw, b"693")
        if value(raw, b"297") == b"17":
            return  # another quote of the dealer stands in the place of one
        quote = value(raw, b"117")
        seen.unanswered.discard(hit or quote or value(raw, b"131") or b"")
        if hit and value(raw, b"297") == b"0" and self.goes_on:
            self.ask(engine)


class Load:
    """All of these firms, in one loop."""

    def __init__(self, seed: int) -> None:
        everyone = [*DEALERS, *INVESTORS]
        self.engines = [Engine(who, "127.0.0.%d" % at) for at, who in enumerate(everyone, 2)]
        self.auctions = Auctions(seed, self.engines)
        self._ports: list[int] = []
        self._selector, self._looks_from = selectors.DefaultSelector(), 0.0

    def begin(self, *doors: Door) -> None:
        """The first requests, which leave once a gateway is there: each firm goes to whichever of these listens."""
        self._ports = [door.port for door in doors]
        for engine in self.engines[len(DEALERS) :]:
            self.auctions.ask(engine)

    def close(self) -> None:
        for engine in self.engines:
            engine.lose()
        self._selector.close()

    @property
    def fresh(self) -> int:
        return self.auctions.fresh

    def all_on(self) -> bool:
        return all(engine.is_on and engine.highest == 0 for engine in self.engines)

    def run(self, what: str, doors: Iterable[Door], holds: Callable[[], bool]) -> None:
        """Goes on until this holds; these gateways may not end meanwhile."""
        end = time.monotonic() + LONG
        while not holds():
            for door in doors:
                check(not door.has_ended(), "the gateway ended: %s" % door.last_words())
            if time.monotonic() > end:
                why = self._missing() + self._used_twice()
                raise TooLong("%s: not within %g s%s" % (what, LONG, why))
            self._step()

    def goes_on_for(self, messages: int, doors: Iterable[Door], seconds: float = 0) -> None:
        """Until so many more messages have come to firms, or nobody asks any more, and so much longer."""
        enough, auctions = self.fresh + messages, self.auctions
        text = "%d more messages" % messages
        self.run(text, doors, lambda: self.fresh >= enough or auctions.is_used_up())
        end = time.monotonic() + seconds
        self.run("a moment", doors, lambda: time.monotonic() >= end)

    def rests(self, doors: Iterable[Door]) -> None:
        """Until nothing has come to any firm for a while: what was let go is handed over late by a busy machine."""
        seen = [self.fresh, time.monotonic()]

        def rests() -> bool:
            if self.fresh != seen[0]:
                seen[:] = [self.fresh, time.monotonic()]
            return time.monotonic() - seen[1] > REST

        self.run("nothing comes any more", doors, rests)

    def _missing(self) -> str:
        """Who is not on, and of the others who waits for what."""
        told = ""
        for engine in self.engines:
            seen = self.auctions.seen[engine.name]
            if not engine.is_on or engine.highest:
                told += "; %s is not on, or has a gap (%d)" % (engine.who.name, engine.highest)
            elif seen.unanswered or seen.open:
                told += "; %s waits for %r %r" % (engine.who.name, seen.unanswered, seen.open)
        return told[:MOST_TOLD]

    def _used_twice(self) -> str:
        """A number that an engine had already, so that it has dropped a message, and waits for what it says in vain."""
        low = [(engine.who.name, came.raw) for engine in self.engines for came in engine.low]
        return "; %s got a number again: %r" % low[0] if low else ""

    def drain(self) -> None:
        """Takes what a gateway that has ended had sent."""
        for engine in self.engines:
            if engine.socket is not None:
                self._selector.unregister(engine.socket)
                engine.read_to_the_end(self.auctions.took)

    def _step(self) -> None:
        self._look_for_gateway()
        for engine in self.engines:
            engine.flush()
        for key, _ in self._selector.select(LOOK):
            engine = key.data
            engine.read(self.auctions.took)
            if engine.socket is None:
                self._selector.unregister(key.fileobj)
            else:
                engine.flush()

    def _look_for_gateway(self) -> None:
        if time.monotonic() < self._looks_from:
            return
        self._looks_from = time.monotonic() + LOOK
        absent = [engine for engine in self.engines if engine.socket is None]
        port = next(filter(is_open, self._ports), None) if absent else None
        if port is None:
            return
        for engine in absent:
            if engine.connect(port) and engine.socket is not None:
                self._selector.register(engine.socket, selectors.EVENT_READ, engine)


def is_open(port: int) -> bool:
    with socket.socket() as probe:
        return probe.connect_ex(("127.0.0.1", port)) == 0
