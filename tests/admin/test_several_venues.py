"""What an operator orders where one gateway has several venues with the same firms: each venue has its own trades and traders."""

import tomllib
from collections.abc import Iterator
from contextlib import contextmanager
from urllib.request import urlopen

import pytest

from tests.admin.operator import admin, did, wait_open
from tests.admin.test_orders import quoted, quoted_by, request_fields
from tests.gateway.firm import Identity
from tests.gateway.ledger import read_ledger
from tests.gateway.market import moment_in
from tests.gateway.stage import DEALER, INVESTOR, Stage
from tests.gateway.wait import LONG
from tests.gateway.wire import Fields, Wire

NORTH, SOUTH = VENUES = ("north", "south")
WHY = ("--because", "both firms agreed by phone")


@pytest.fixture
def two(stage: Stage) -> Stage:
    """A gateway of two venues that is open. At the northern one the dealer has another trader, T3."""
    stage.door.operators = ""
    stage.door.write()
    file = stage.folder / "gateway.toml"
    part, log, rest = file.read_text().partition("[log]")
    parts = [
        part.replace("[venue]", "[venue.%s]" % name).replace("venue.toml", name + ".toml")
        for name in VENUES
    ]
    file.write_text("".join(parts) + log + rest.replace("day.db", "{venue}.db"))
    text = (stage.folder / "venue.toml").read_text()
    (stage.folder / "south.toml").write_text(text)
    assert 'traders = ["T1"]' in text
    (stage.folder / "north.toml").write_text(text.replace('["T1"]', '["T1", "T3"]'))
    stage.door.start()
    wait_open(stage)
    return stage


@contextmanager
def logged_on(stage: Stage, who: Identity, venue: str) -> Iterator[Wire]:
    with Wire(stage.door.port) as wire:
        assert wire.logon(
            who.name.encode(), who.password.encode(), more=[(57, venue.encode())]
        ), "the connection has ended"
        wire.got(b"1")  # reading answers it
        yield wire


def requested(dealer: Wire, investor: Wire, number: int) -> None:
    """The investor's request of this number, as the dealer is shown it."""
    fields = request_fields(b"A%d" % number, moment_in(600))
    assert investor.raw(investor.message(b"R", b"INV1", fields))
    assert dealer.got(b"R").given(131) == b"R%d" % number


def traded(stage: Stage, venue: str, count: int = 1) -> str:
    """The name of the last of so many trades."""
    with (
        logged_on(stage, DEALER, venue) as dealer,
        logged_on(stage, INVESTOR, venue) as investor,
    ):
        for number in range(1, count + 1):
            requested(dealer, investor, number)
            quoted(dealer, b"q%d" % number, b"R%d" % number)
            name, shown = b"h%d" % number, investor.got(b"S")
            hit: Fields = [(50, b"V1"), (693, name), (694, b"1"), (117, shown.given(117))]
            assert investor.raw(investor.message(b"AJ", b"INV1", hit))
            answer = investor.got_until(lambda message: message.value(693) == name)
            assert answer.value(297) == b"0", "a hit is answered %r" % answer.raw
        return answer.given(1003).decode()


def acts_at(stage: Stage, venue: str) -> list[str]:
    """What operators have ordered, by its log."""
    lines = [entry.line for entry in read_ledger(stage.folder / (venue + ".db")).entries]
    return [line.decode() for line in lines if line.startswith(b"# act ")]


def page_of(stage: Stage) -> str:
    """The gateway's page for its operators."""
    with urlopen("http://127.0.0.1:%d/" % stage.door.metrics, timeout=LONG) as answer:
        return str(answer.read().decode())


def refused(stage: Stage, why: str, *words: str) -> None:
    answer = admin(stage, *words, *WHY)
    assert answer.status == 1 and why in answer.err, answer.text


def test_a_trade_of_one_of_two_venues(two: Stage) -> None:
    """Each counts the trades of two firms for itself. Of two trades of one name `bust` voids none before it is told whose."""
    only, both = traded(two, SOUTH, count=2), traded(two, NORTH)
    assert (only[-2:], both) == ("-2", only[:-1] + "1")
    refused(two, "say whose by --venue: north, south", "bust", both)
    refused(two, "there is no trade %s today at north" % only, "bust", only, "--venue", NORTH)
    refused(two, "there is no trade", "bust", only, "--venue", "east")
    refused(two, "--venue needs a name after it", "bust", only, "--venue", "")
    refused(two, "usage: bust TRADE [--venue NAME]", "bust", only, "--at", SOUTH)
    assert [acts_at(two, venue) for venue in VENUES] == [[], []]
    did(two, "bust", only, *WHY)
    did(two, "bust", both, "--venue", SOUTH, *WHY)
    refused(two, "is void already", "bust", both, "--venue", SOUTH)
    assert acts_at(two, NORTH) == []
    found = acts_at(two, SOUTH)
    wanted = [' bust %s because="%s"' % (trade, WHY[1]) for trade in (only, both)]
    assert all(map(str.endswith, found, wanted)) and len(found) == 2, found


def test_a_trader_of_one_of_two_venues(two: Stage) -> None:
    """Their quotes are cancelled where they are a trader of the firm. The page says at which venue a request is open."""
    with (
        logged_on(two, DEALER, NORTH) as dealer,
        logged_on(two, INVESTOR, NORTH) as investor,
    ):
        requested(dealer, investor, 1)
        assert "<td>INV1 of north</td><td>A1</td>" in page_of(two)
        quoted_by(dealer, b"T3", b"q1", b"R1")
        refused(two, "DLR1 has no trader T9", "cancel", "DLR1", "--trader", "T9")
        refused(two, "INV1 is an investor", "cancel", "INV1")
        did(two, "cancel", "DLR1", "--trader", "T3", *WHY)
        dealer.got_until(lambda message: (message.value(117), message.value(297)) == (b"q1", b"17"))
    assert len(acts_at(two, NORTH)) == 1 and acts_at(two, SOUTH) == []


def test_a_session_at_one_of_two_venues(two: Stage) -> None:
    """A reset can't be taken back: it is of the venue that is named, and the firm's session at the other one goes on."""
    with logged_on(two, DEALER, NORTH) as north, logged_on(two, DEALER, SOUTH) as south:
        north.ask()
        refused(two, "say which by --venue: north, south", "reset-session", "DLR1")
        refused(two, "the venue east has no firm DLR1", "reset-session", "DLR1", "--venue", "east")
        assert [acts_at(two, venue) for venue in VENUES] == [[], []]
        did(two, "reset-session", "DLR1", "--venue", SOUTH, *WHY)
        assert south.closed_within(LONG), "the session that is reset goes on"
        north.ask()
    assert acts_at(two, NORTH) == [] and len(acts_at(two, SOUTH)) == 1
    with logged_on(two, DEALER, SOUTH) as south:
        south.ask()
    did(two, "release", "DLR1", "--venue", NORTH, *WHY)
    did(two, "release", "DLR1", *WHY)
    assert (len(acts_at(two, NORTH)), len(acts_at(two, SOUTH))) == (2, 2)


def test_what_a_firm_is_handed_of_one_of_two_venues(two: Stage) -> None:
    """A file that a desk reads: of both together it is none."""
    handed = [did(two, "hand-out", "DLR1", "--venue", venue) for venue in VENUES]
    rows = [tomllib.loads(text)["dealer"] for text in handed]
    own = [next(row for row in some if row["name"] == "DLR1") for some in rows]
    assert [row["traders"] for row in own] == [["T1", "T3"], ["T1"]]
    assert did(two, "hand-out", "DLR1") == handed[0].removesuffix("\n") + handed[1]
