"""Plays the auction of docs/CONNECTING.md with stock QuickFIX initiators and a gateway: its frames are the page's."""

import re
import subprocess
from collections.abc import Callable, Iterator
from dataclasses import dataclass, field
from datetime import datetime, timedelta, timezone

import pytest
from mireseason_certify.relay import Relay

from tests.gateway.door import Door
from tests.gateway.firm import Fields, Firm, Identity, Places, Received, of_bars
from tests.gateway.stage import Tools
from tests.gateway.wait import LONG, until
from tests.harness.fixtures import MakeGateway
from tests.harness.options import ROOT
from tests.model.frames import checksum

DEALERS = [Identity("DLR%d" % at, "T%d" % at, "dlr%d-secret" % at) for at in (1, 2, 3)]
INVESTOR = Identity("INV1", "T8", "inv1-secret")
LONG6, SHORT2, NONE = "BONDA0000001", "BONDB0000002", "BONDC0000003"
SHOWN = re.compile(rb"(?m)^    (8=FIXT.*)$")
# What differs from one day to the next: moments, the sum, and the day in the name of a trade.
VARIES = re.compile(
    rb"(?<=\|)(52|60|62|122|126)=[0-9:.-]+|(?<=\|)(10)=[0-9]{3}|(?<=\|)(1003)=[0-9]{8}"
)
PASSWORD = re.compile(rb"\|554=[^|]*")

VENUE = 'version = 2\n[[bond]]\nid = "%s"\ngrid = 256\n[[bond]]\nid = "%s"\ngrid = 32\n' % (
    LONG6,
    SHORT2,
)
DEALER_ROW = '[[dealer]]\nname = "%s"\ntraders = ["%s"]\nquotes = 4096\nexposure = 60000000\n'
INVESTOR_ROW = (
    '[[investor]]\nname = "%s"\ntraders = ["%s"]\nrequests = 64\nopen = 8\nquantity = 5000000\n'
)


def masked(frame: bytes) -> bytes:
    """A frame with bars, without what differs from day to day."""
    text = VARIES.sub(lambda found: (found[1] or found[2] or found[3]) + b"=*", frame)
    return PASSWORD.sub(b"|554=*", text)


def later(seconds: int) -> str:
    moment = datetime.now(timezone.utc) + timedelta(seconds=seconds)
    return moment.strftime("%Y%m%d-%H:%M:%S.000")


@dataclass
class Market:
    """Firms with stock initiators, and what each said and was told, byte for byte."""

    door: Door
    firms: dict[str, Firm]
    relays: dict[str, Relay]
    _count: int = 0
    _at: dict[str, int] = field(default_factory=dict)

    def say(self, who: str, kind: str, body: str) -> None:
        self._count += 1
        name = "m%d" % self._count
        trader = self.firms[who].who.trader
        fields: Fields = [(50, trader.encode()), *of_bars(body)]
        self.firms[who].send(name, kind, fields)
        assert self.firms[who].wait_sent(name), self.firms[who].refused

    def told(self, who: str, fits: Callable[[Received], bool]) -> Received:
        """The next message of the venue to this firm, which has to fit."""
        at = self._at.get(who, 0)
        until("%s is told" % who, LONG, lambda: len(self.firms[who].looked()) > at)
        message = self.firms[who].received[at]
        assert fits(message), message.raw
        self._at[who] = at + 1
        return message

    def is_told(self, who: str, kind: str, **values: str) -> Received:
        """The same, by its type and by fields: `t297="0"`."""
        wanted = {int(tag[1:]): value.encode() for tag, value in values.items()}
        return self.told(
            who,
            lambda one: one.kind == kind.encode()
            and all(one.value(tag) == value for tag, value in wanted.items()),
        )

    def operator(self, *words: str) -> None:
        program = self.door.programs.gateway.with_name("mireseason-admin")
        command = [str(program), "--socket", str(self.door.folder / "admin.sock"), *words]
        subprocess.run(command, check=True, capture_output=True, timeout=LONG)

    def frames(self) -> set[bytes]:
        """All that went over the lines."""
        return {
            seen.message.raw.replace(b"\x01", b"|")
            for relay in self.relays.values()
            for seen in relay.since(0)
        }


@pytest.fixture
def market(tools: Tools, make_gateway: MakeGateway) -> Iterator[Market]:
    door = make_gateway(DEALERS, [INVESTOR])
    rows = [DEALER_ROW % (who.name, who.trader) for who in DEALERS]
    rows.append(INVESTOR_ROW % (INVESTOR.name, INVESTOR.trader))
    (door.folder / "venue.toml").write_text(VENUE + "".join(rows))
    door.operators = ""
    door.write()
    door.start()
    door.wait_open()
    relays = {who.name: Relay(0, door.port) for who in (*DEALERS, INVESTOR)}
    firms = {
        who.name: Firm(
            Places(tools.player, door.folder, tools.dictionaries, relays[who.name].port),
            who,
            {"HeartBtInt": "30"},
        )
        for who in (*DEALERS, INVESTOR)
    }
    try:
        for firm in firms.values():
            firm.start()
        for firm in firms.values():
            firm.wait_on()
        yield Market(door, firms, relays)
    finally:
        for firm in firms.values():
            if firm.process:
                firm.kill()
        for relay in relays.values():
            relay.close()


def asked(name: str, bond: str, side: int, quantity: int, dealers: str, seconds: int) -> str:
    parties = "".join("|448=%s|447=D|452=35" % dealer for dealer in dealers.split())
    return "131=%s|146=1|55=[N/A]|48=%s|22=4|54=%d|38=%d|126=%s|453=%d%s" % (
        name,
        bond,
        side,
        quantity,
        later(seconds),
        len(dealers.split()),
        parties,
    )


def quoted(request: str, name: str, bond: str, price: str) -> str:
    return "131=%s|117=%s|48=%s|22=4|%s" % (request, name, bond, price)


def auction(market: Market) -> None:
    """The diagram of the page."""
    say, is_told = market.say, market.is_told
    say("INV1", "R", asked("A", LONG6, 1, 2000000, "DLR1 DLR2 DLR3", 300))
    is_told("INV1", "AI", t131="A", t297="0")
    for dealer in ("DLR1", "DLR2", "DLR3"):
        is_told(dealer, "R", t131="R1")
    say("DLR1", "S", quoted("R1", "a1", LONG6, "133=99.50390625"))
    is_told("DLR1", "AI", t117="a1", t297="0")
    is_told("INV1", "S", t117="Q1")
    say("DLR2", "S", quoted("R1", "b1", LONG6, "133=99.515625|62=" + later(240)))
    is_told("DLR2", "AI", t117="b1", t297="0")
    is_told("INV1", "S", t117="Q2")
    say("DLR3", "AG", "131=R1|658=10")
    is_told("DLR3", "AI", t131="R1", t297="11")
    is_told("INV1", "AI", t297="11")
    say("DLR1", "S", quoted("R1", "a2", LONG6, "133=99.25"))
    is_told("DLR1", "AI", t117="a2", t297="0")
    is_told("INV1", "AI", t117="Q1", t297="17")
    is_told("INV1", "S", t117="Q3")
    say("DLR2", "Z", "298=5|117=b1")
    is_told("DLR2", "AI", t117="b1", t297="17")
    is_told("INV1", "AI", t117="Q2", t297="17")
    say("DLR2", "Z", "298=4")
    is_told("DLR2", "AI", t297="9")
    say("INV1", "AJ", "693=h1|117=Q2|694=1")
    is_told("INV1", "AI", t693="h1", t300="4", t58="Gone")
    say("INV1", "AJ", "693=h2|117=Q3|694=1")
    is_told("INV1", "AI", t693="h2", t297="0")
    is_told("DLR1", "AJ", t694="1")
    for dealer in ("DLR2", "DLR3"):
        is_told(dealer, "AJ", t694="5")
    say("DLR1", "Z", "298=5|117=a2")
    is_told("DLR1", "AI", t117="a2", t300="4")


def what_follows(market: Market) -> None:
    """A Reject, a request that is refused, one that is passed, one that is not taken, and one that expires."""
    say, is_told = market.say, market.is_told
    market.firms["DLR1"].send("bare", "Z", [(298, b"4")])
    is_told("DLR1", "3", t371="50", t373="1")
    say("INV1", "R", asked("B", NONE, 2, 1000000, "DLR1 DLR2", 300))
    is_told("INV1", "AG", t131="B", t658="1")
    say("INV1", "R", asked("B", SHORT2, 2, 1000000, "DLR1 DLR2", 300))
    is_told("INV1", "AI", t131="B", t297="0")
    for dealer in ("DLR1", "DLR2"):
        is_told(dealer, "R", t131="R2")
    say("DLR1", "S", quoted("R2", "a3", SHORT2, "132=101"))
    is_told("DLR1", "AI", t117="a3", t297="0")
    is_told("INV1", "S", t117="Q4", t132="101")
    say("DLR2", "S", quoted("R2", "b2", SHORT2, "132=100.99609375"))
    is_told("DLR2", "AI", t117="b2", t300="8")
    say("INV1", "AJ", "693=p1|131=B|694=6")
    is_told("INV1", "AI", t693="p1", t297="11")
    for dealer in ("DLR1", "DLR2"):
        is_told(dealer, "AJ", t694="6")
    say("INV1", "R", asked("C", LONG6, 1, 1000000, "DLR2", 2))
    is_told("INV1", "AI", t131="C", t297="0")
    is_told("DLR2", "R", t131="R3")
    is_told("INV1", "AI", t131="C", t297="7")
    is_told("DLR2", "AJ", t694="3")
    market.operator("halt", "--because", "prices are in doubt")
    say("INV1", "R", asked("D", LONG6, 1, 1000000, "DLR2", 300))
    is_told("INV1", "j", t380="4")


def test_frames_on_the_wire(market: Market) -> None:
    auction(market)
    what_follows(market)
    shown = SHOWN.findall((ROOT / "docs" / "CONNECTING.md").read_bytes())
    assert len(shown) >= 20
    for frame in shown:
        text = frame.replace(b"|", b"\x01")
        assert text.endswith(b"\x0110=%s\x01" % checksum(text[:-7])), frame
    seen = {masked(frame) for frame in market.frames()}
    assert {masked(frame) for frame in shown} - seen == set()
