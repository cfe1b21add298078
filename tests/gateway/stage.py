"""A gateway with two dealers and an investor, on which faults are tried."""

import os
import re
import urllib.request
from collections.abc import Callable
from dataclasses import dataclass, field
from pathlib import Path

from tests.gateway.door import Door, Programs
from tests.gateway.firm import Firm, Identity, Places, Received
from tests.gateway.ledger import PostgresLog
from tests.gateway.market import BOND, Fields, moment_in
from tests.gateway.settle import settled
from tests.gateway.wait import LONG, until, within

DEALER, OTHER = Identity("DLR1", "T1", "dealer-1-secret"), Identity("DLR2", "T2", "dealer-2-secret")
INVESTOR = Identity("INV1", "V1", "investor-1-secret")
LOGON_SECONDS = 3  # the gateway's limit in these tests


class Wrong(AssertionError):
    """Something is not as it was written beforehand."""


def check(holds: object, text: str) -> None:
    if not holds:
        raise Wrong(text)


@dataclass(frozen=True)
class Tools:
    """What the tests are run with."""

    programs: Programs
    player: Path
    dictionaries: tuple[Path, Path]
    shim: Path  # stands between the gateway and the disk
    measures: bool = True  # the gateway's memory and work are its own, and not those of a sanitizer


@dataclass
class Stage:
    tools: Tools
    folder: Path
    postgres: PostgresLog | None = None  # the log, in the place of a file of SQLite
    limits: dict[str, int] = field(default_factory=lambda: {"logon_seconds": LOGON_SECONDS})
    door: Door = field(init=False)
    dealer: Firm = field(init=False)
    other: Firm = field(init=False)
    investor: Firm = field(init=False)
    asked: bytes = b""  # the investor's name of the last request
    deadline: str = ""  # of the last request, HH:MM:SS.sss
    ahead: int = 0  # seconds that the gateway's clock is ahead of the machine's
    _named: int = 0

    def __post_init__(self) -> None:
        self.door = Door(
            self.tools.programs,
            self.folder,
            [DEALER, OTHER],
            [INVESTOR],
            limits=self.limits,
            postgres=self.postgres,
        )
        self.dealer, self.other, self.investor = [
            self.firm(who) for who in (DEALER, OTHER, INVESTOR)
        ]

    @property
    def firms(self) -> list[Firm]:
        return [self.dealer, self.other, self.investor]

    def firm(self, who: Identity) -> Firm:
        return Firm(
            Places(self.tools.player, self.folder, self.tools.dictionaries, self.door.port), who
        )

    def close(self) -> None:
        for firm in self.firms:
            if firm.process:
                firm.kill()
        self.door.close()

    # ------------------------------------------------------------ the gateway

    def open(self, *firms: Firm) -> None:
        """Starts the gateway and these firms' initiators, and waits until they are logged on."""
        self.door.write()
        self.door.start()
        self.door.wait_open()
        self.log_on(*firms)

    def log_on(self, *firms: Firm) -> None:
        for firm in firms:
            firm.start()
        for firm in firms:
            firm.wait_on()

    def log_off(self, *firms: Firm) -> None:
        for firm in firms:
            firm.stop()

    def refused(self, *patterns: str) -> None:
        """Starts the gateway, which has to end by itself, to say why in such words, and to leave its log alone."""
        before, told = (
            self.log_as_it_is(),
            len(self.door.told.read_bytes()) if self.door.told.exists() else 0,
        )
        self.door.start()
        status = self.door.wait_end()
        text = self.door.told.read_bytes()[told:].decode(errors="replace")
        check(status == 1, "the gateway ended with status %d: %s" % (status, text))
        for pattern in patterns:
            check(
                re.search(r"\b(?:%s)\b" % pattern, text), "it does not say %r: %s" % (pattern, text)
            )
        check(self.log_as_it_is() == before, "its log is another")

    def log_as_it_is(self) -> object:
        if not self.door.database.exists():
            return None
        ledger = self.door.ledger()
        return ledger.entries, ledger.sent

    def counters(self) -> dict[str, float]:
        """What the gateway counts, by the names of its page."""
        with urllib.request.urlopen(
            "http://127.0.0.1:%d/metrics" % self.door.metrics, timeout=LONG
        ) as page:
            lines = page.read().decode().splitlines()
        return {
            name: float(value)
            for name, value in (line.rsplit(" ", 1) for line in lines if line and line[0] != "#")
        }

    def memory(self) -> int:
        """The resident bytes of the gateway's process; 0 where they would say nothing."""
        return self._bytes("VmRSS")

    def most_memory(self) -> int:
        """The same when there were most of them."""
        return self._bytes("VmHWM")

    def _bytes(self, what: str) -> int:
        if not self.tools.measures:
            return 0
        text = Path("/proc/%d/status" % self.door.running.pid).read_text()
        return int(re.findall(r"%s:\s+(\d+) kB" % what, text)[0]) * 1024

    def worked(self) -> float:
        """The seconds of a processor that the gateway has had."""
        words = Path("/proc/%d/stat" % self.door.running.pid).read_text().rsplit(")", 1)[1].split()
        return sum(map(int, words[11:13])) / os.sysconf("SC_CLK_TCK")

    def entries_of(self, firm: Firm) -> int:
        return len(self.door.ledger().messages_of(firm.name))

    def has_entry(self, firm: Firm, number: int) -> bool:
        return any(entry.number == number for entry in self.door.ledger().messages_of(firm.name))

    # ------------------------------------------------------------ messages

    def name(self, letter: str) -> bytes:
        self._named += 1
        return b"%s%d" % (letter.encode(), self._named)

    def say(self, firm: Firm, kind: str, fields: Fields, trader: str | None = None) -> int:
        """Sends a message; the number that its engine gave it."""
        name = self.name("m").decode()
        firm.send(name, kind, [(50, (trader or firm.who.trader).encode())] + fields)
        number = firm.wait_sent(name)
        check(number, "%s refuses to send: %s" % (firm.name, firm.refused.get(name)))
        return number

    def answer(
        self, firm: Firm, what: str, fits: Callable[[Received], bool], limit: float = LONG
    ) -> Received:
        """The first message of a firm that fits, which may still have to come."""
        until("%s is sent %s" % (firm.name, what), limit, lambda: any(map(fits, firm.looked())))
        return next(filter(fits, firm.received))

    def ask_of(self, dealers: list[Firm], seconds: float = 600) -> None:
        """A request of the investor to these dealers."""
        self.asked, deadline = self.name("A"), moment_in(seconds, self.ahead)
        self.deadline = deadline[9:].decode()
        fields = [
            (131, self.asked),
            (146, b"1"),
            (55, b"[N/A]"),
            (48, BOND),
            (22, b"4"),
            (54, b"1"),
            (38, b"2000000"),
        ]
        fields += [(126, deadline), (453, b"%d" % len(dealers))]
        for dealer in dealers:
            fields += [(448, dealer.name.encode()), (447, b"D"), (452, b"35")]
        self.say(self.investor, "R", fields)

    def ask(self, seconds: float = 600, dealers: list[Firm] | None = None) -> bytes:
        """A request to dealers, both if none are named, and the first one's name of it once all are shown it."""
        dealers = dealers or [self.dealer, self.other]
        counts = [self.shown(dealer) for dealer in dealers]
        self.ask_of(dealers, seconds)
        for dealer, count in zip(dealers, counts):
            until("%s is shown a request" % dealer.name, LONG, lambda: self.shown(dealer) > count)
        return b"R%d" % self.shown(dealers[0])

    @staticmethod
    def shown(dealer: Firm) -> int:
        """How many requests a dealer was shown."""
        dealer.look()
        return len({message.venue_number for message in dealer.received if message.kind == b"R"})

    def quote_fields(self, request: bytes, name: bytes, price: bytes = b"99.5") -> Fields:
        return [(117, name), (131, request), (48, BOND), (22, b"4"), (133, price)]

    def quote(
        self, firm: Firm, request: bytes, price: bytes = b"99.5", more: Fields | None = None
    ) -> bytes:
        """An accepted quote, with more fields behind the usual ones; its name."""
        name = self.name("q")
        self.say(firm, "S", self.quote_fields(request, name, price) + (more or []))
        answer = self.answer(
            firm, "what became of a quote", lambda message: message.value(117) == name
        )
        check(answer.value(297) == b"0", "a lawful quote is answered %r" % answer.raw)
        return name

    def ping(self, firm: Firm) -> Received:
        """A cancel of no quote of the dealer, and its answer: what came before it is answered too."""
        name = self.name("x")
        self.say(firm, "Z", [(298, b"5"), (117, name)])
        answer = self.answer(
            firm, "what became of a cancel", lambda message: message.value(117) == name
        )
        check(answer.value(297) == b"9", "a cancel of no quote is answered %r" % answer.raw)
        return answer

    def hit(self, quote: bytes, firm: Firm | None = None) -> Received:
        """The investor hits a quote, by its own name of it; the answer."""
        firm, name = firm or self.investor, self.name("h")
        self.say(firm, "AJ", [(693, name), (694, b"1"), (117, quote)])
        return self.answer(firm, "what became of a hit", lambda message: message.value(693) == name)

    def auction(self, dealers: list[Firm] | None = None) -> None:
        """A request, a quote of each dealer, and a hit."""
        dealers = dealers or [self.dealer, self.other]
        self.ask(dealers=dealers)
        for dealer in dealers:
            self.quote(dealer, b"R%d" % self.shown(dealer))
        quote = self.answer(
            self.investor,
            "a quote",
            lambda message: message.kind == b"S" and message.value(131) == self.asked,
        )
        answer = self.hit(quote.given(117))
        check(answer.value(297) == b"0", "a lawful hit is answered %r" % answer.raw)
        for dealer in dealers:
            request = b"R%d" % self.shown(dealer)
            self.answer(
                dealer,
                "a notice",
                lambda message: message.kind == b"AJ" and message.value(131) == request,
            )

    def whole(self) -> None:
        """Waits for all that is still to come, ends the gateway, and holds the initiators' messages against the log."""
        faults = settled(self.door, [firm for firm in self.firms if firm.process])
        check(not faults, "; ".join(faults[:3]))


def quiet(stage: Stage, firms: list[Firm], act: Callable[[], object], seconds: float = 0.5) -> None:
    """Does something, and for a time looks whether these firms are sent anything."""
    before = {firm.name: len(firm.looked()) for firm in firms}
    act()

    def something() -> bool:
        return any(len(firm.looked()) > before[firm.name] for firm in firms)

    check(not within(seconds, something), "a firm is sent something")
