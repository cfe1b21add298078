"""One venue of a day: the firms that trade there, what they do next, and what its log says."""

from collections.abc import Callable, Iterator
from dataclasses import dataclass
from pathlib import Path

import tests.lab.gateway as parts_gateway
from tests.gateway.door import venue_text
from tests.gateway.firm import Firm, Identity, Places
from tests.gateway.held import altered, clock_faults, count_of, differences, unkept, unlogged
from tests.gateway.ledger import Ledger, answers, marks, told_over
from tests.gateway.market import Act, Market
from tests.gateway.wait import until, within

ROOT = Path(__file__).resolve().parents[2]
DICTIONARIES = (ROOT / "fix" / "FIXT11.xml", ROOT / "fix" / "MIRESEASON.xml")
PATIENCE = 420.0  # seconds in which what is on its way comes, on a machine that is busy
LATE = "no clock line came"  # of a fault of the gateway's tests: databases may be away for longer


@dataclass
class Side:
    name: str  # of the venue; empty where there is one alone
    dealers: list[Firm]
    investors: list[Firm]
    market: Market
    read: Callable[[], Ledger]
    sent: int = 0

    @property
    def firms(self) -> list[Firm]:
        return self.dealers + self.investors

    def start(self) -> None:
        for firm in self.firms:
            firm.start()

    def all_on(self) -> bool:
        return all([firm.logged_on() for firm in self.firms])

    def wait_all_on(self, limit: float = PATIENCE) -> None:
        until("all firms are logged on", limit, self.all_on)

    def send(self, wait: float) -> None:
        """The next message of some firm; waits so long for an answer."""
        self.market.look()
        act: Act = self.market.next()
        self.sent += 1
        name, before = "m%d" % self.sent, len(act.firm.received)
        act.firm.send(name, act.kind, act.fields)
        act.firm.wait_sent(name)

        def is_answered() -> bool:
            act.firm.look()
            return len(act.firm.received) > before

        within(wait, is_answered)

    def close(self) -> None:
        for firm in self.firms:
            if firm.process:
                firm.kill()

    # ------------------------------------------------------------ what firms have, and the log

    def caught_up(self, venue: list[str]) -> int:
        """Waits until each firm has what the log of now gives it; the entries of that log."""
        within(PATIENCE, self.is_logged)
        ledger = self.read()
        wanted = answers(venue, ledger.day())
        within(PATIENCE, lambda: self.has_all(wanted))
        return len(ledger.entries)

    def is_logged(self) -> bool:
        """Whether the log has all that the firms' engines have sent."""
        ledger = self.read()
        return not any(True for firm in self.firms for _ in unlogged(firm, ledger))

    def has_all(self, wanted: dict[str, list[bytes]]) -> bool:
        for firm in self.firms:
            firm.look()
        return all(count_of(firm) >= len(wanted.get(firm.name, [])) for firm in self.firms)

    def faults(self, venue: list[str]) -> Iterator[str]:
        """What is wrong with what the firms have and with the log, once nothing comes any more."""
        ledger = self.read()
        wanted = answers(venue, ledger.day())
        told = told_over(venue, ledger)
        for firm in self.firms:
            firm.look()
            yield from differences(firm, wanted.get(firm.name, []), ledger, told.get(firm.name, {}))
            yield from unlogged(firm, ledger)
            yield from altered(firm, ledger)
        yield from unkept(ledger, wanted)
        for fault in clock_faults(ledger, marks(venue, ledger.day())):
            if LATE not in fault:
                yield fault


@dataclass(frozen=True)
class Cast:
    """Who trades at each venue of a day."""

    dealers: tuple[Identity, ...]
    investors: tuple[Identity, ...]

    @classmethod
    def of(cls, dealers: int, investors: int) -> "Cast":
        return cls(
            tuple(identity("DLR", "T", "dealer", n) for n in range(1, dealers + 1)),
            tuple(identity("INV", "V", "investor", n) for n in range(1, investors + 1)),
        )

    @property
    def all(self) -> tuple[Identity, ...]:
        return self.dealers + self.investors

    def venue_text(self) -> str:
        """The configuration of a venue for them."""
        return venue_text(list(self.dealers), list(self.investors))

    def credentials(self, gateway: Path) -> str:
        """The file of a gateway's firms, made by its program."""
        firms = [parts_gateway.Firm(who.name, who.name, who.password) for who in self.all]
        return parts_gateway.credentials_of(gateway, firms)


def identity(letters: str, trader: str, role: str, number: int) -> Identity:
    return Identity(
        "%s%d" % (letters, number), "%s%d" % (trader, number), "%s-%d-secret" % (role, number)
    )


@dataclass(frozen=True)
class Stage:
    """Where the firms of a day are, and what they are started by."""

    folder: Path
    player: Path
    port: int
    settings: dict[str, str]  # of the initiators, beside the usual ones
    inside: tuple[str, ...] = ()  # in front of the initiators' command

    def side(self, name: str, seed: int, cast: Cast, read: Callable[[], Ledger]) -> Side:
        places = self.places(name, name)
        dealers = [Firm(places, who, self.settings) for who in cast.dealers]
        investors = [Firm(places, who, self.settings) for who in cast.investors]
        return Side(name, dealers, investors, Market(seed, dealers, investors), read)

    def places(self, name: str, venue: str) -> Places:
        """A folder of initiators that name this venue in their Logons."""
        own = self.folder / "-".join(filter(None, ("firms", name)))
        own.mkdir()
        script = own / "player"
        named = ["PLAYER_VENUE='%s'" % venue] if venue else []
        words = [*named, "exec", *self.inside, str(self.player)]
        script.write_text('#!/bin/sh\n%s "$@"\n' % " ".join(words))
        script.chmod(0o755)
        return Places(script, own, DICTIONARIES, self.port)
