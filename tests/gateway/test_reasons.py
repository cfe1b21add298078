"""Why a message is refused, in Text (58), and which trade it is, in TradeID (1003). The tests hold messages against the tables
of docs/MARKET.md, the words of fix/reasons.txt, and docs/CONNECTING.md, which has them for firms."""

import re
import shutil
import socket
import subprocess
from collections.abc import Iterator
from dataclasses import replace
from pathlib import Path

import pytest

from tests.gateway.door import Door, Programs, today
from tests.gateway.firm import Firm, Received
from tests.gateway.ledger import PostgresLog
from tests.gateway.market import BOND, Fields, moment_in
from tests.gateway.midnight import wait_for_room
from tests.gateway.stage import DEALER, INVESTOR, OTHER, Stage, Tools, check
from tests.gateway.test_seals import audited
from tests.gateway.wait import LONG, until
from tests.gateway.wire import Wire
from tests.harness.options import ROOT, SECOND

MARKET = (ROOT / "docs" / "MARKET.md").read_text()
CONNECTING = (ROOT / "docs" / "CONNECTING.md").read_text()
OTHER_BOND = b"BONDB0000002"
TABLES = {
    "A quote": "S",
    "A cancel": "Z",
    "A decline": "AG",
    "Asking": "R",
}  # the parts of MARKET.md that have them
REFUSED, NOT_FOUND = b"5", b"9"  # 297
# The venue's program, which calls a refusal of what has the QuoteID `as-NAME` by that name.
RENAMING = r"""#!/bin/sh
"$@" | sed -u -E '/\|117=as-/{h;n;G;s/^(why [^ ]+ [0-9]+ )[^\n]*\n.*\|117=as-([A-Za-z]+)\|.*$/\1\2/}'
"""
# The same program without the flag.
WITHOUT = """#!/bin/sh
case " $* " in *" --notes "*) exit 2;; esac
exec "$@"
"""


def table() -> dict[str, bytes]:
    """The words for each name."""
    lines = [
        line
        for line in (ROOT / "fix" / "reasons.txt").read_text().splitlines()
        if line and not line.startswith("#")
    ]
    return {name: words.encode() for name, _, words in (line.partition(" ") for line in lines)}


def names_in(part: str) -> list[str]:
    """The names of a table of MARKET.md, in its order; a line without one refuses nothing."""
    text = MARKET.split("\n## %s\n" % part)[1].split("\n## ")[0]
    return re.findall(r"^\| \d+ \| `(\w+)` \|", text, re.MULTILINE)


def codes_in(part: str) -> dict[str, str]:
    """The code beside each of these names: 300 or 658, or 297 where the table has none of both."""
    text = MARKET.split("\n## %s\n" % part)[1].split("\n## ")[0]
    lines = re.findall(r"^\| \d+ \| (`\w+` \|.*)\|$", text, re.MULTILINE)
    cells = [[cell.strip(" `") for cell in line.split("|")] for line in lines]
    return {row[0]: row[-1] or "297=" + row[-2] for row in cells}


def has_notes(venue: tuple[str, ...]) -> bool:
    """Whether the program has the flag --notes: one that has not calls it a wrong argument."""
    return (
        subprocess.run(
            [*venue, "live", "--notes"], input=b"", capture_output=True, check=False
        ).returncode
        != 2
    )


@pytest.fixture(scope="session")
def noting(tools: Tools) -> Tools:
    """The programs, with a venue that has the flag --notes: the second implementation where the chosen one has it not."""
    venue = tools.programs.venue if has_notes(tools.programs.venue) else SECOND
    return with_venue(tools, venue)


def with_venue(tools: Tools, venue: tuple[str, ...]) -> Tools:
    return replace(tools, programs=Programs(tools.programs.gateway, venue))


def behind(script: str, place: Path, tools: Tools) -> Tools:
    """The programs, with their venue started by a script of the shell."""
    file = place / "program" / "venue.sh"
    file.parent.mkdir(exist_ok=True)
    file.write_text(script)
    file.chmod(0o755)
    return with_venue(tools, (str(file), *tools.programs.venue))


@pytest.fixture
def stage(noting: Tools, place: Path, request: pytest.FixtureRequest) -> Iterator[Stage]:
    """A stage of that venue."""
    wait_for_room(request.node.name)
    made = Stage(noting, place)
    yield made
    made.close()


def limited(stage: Stage, dealer: str, investor: str) -> None:
    """Gives all dealers and the investor other limits, the bonds a band, and the venue another bond and seven dealers more."""
    text = 'version = 3\ndate = "%s"\n' % today()
    row = '[[bond]]\nid = "%s"\ngrid = 256\nlow = "99"\nhigh = "100"\n'
    text += "".join(row % bond.decode() for bond in (BOND, OTHER_BOND))
    for name, trader in [
        ("DLR1", "T1"),
        ("DLR2", "T2"),
        *(("D%d" % at, "T") for at in range(3, 10)),
    ]:
        text += '[[dealer]]\nname = "%s"\ntraders = ["%s"]\n%s\n' % (name, trader, dealer)
    text += '[[investor]]\nname = "INV1"\ntraders = ["V1"]\n%s\n' % investor
    (stage.folder / "venue.toml").write_text(text)


# ------------------------------------------------------------ what is said, and what is answered


def answered(stage: Stage, firm: Firm, kind: str, fields: Fields) -> Received:
    """A message of a firm that is told nothing else meanwhile, and the answer."""
    before = len(firm.looked())
    stage.say(firm, kind, fields)
    until("%s is answered" % firm.name, LONG, lambda: len(firm.looked()) > before)
    return firm.received[before]


def refuses(
    stage: Stage,
    firm: Firm,
    kind: str,
    fields: Fields,
    name: str,
    code: bytes,
    status: bytes = REFUSED,
) -> None:
    """A message that has to be refused: with 297 and 300, or 658, as MARKET.md has them, and the words of the name in 58."""
    answer = answered(stage, firm, kind, fields)
    codes = [answer.value(658)] if kind == "R" else [answer.value(297), answer.value(300) or b""]
    wanted = [code] if kind == "R" else [status, code]
    check(codes == wanted, "%s: %r" % (name, answer.raw))
    texts = [value for tag, value in answer.fields if tag == 58]
    check(texts == [table()[name]], "%s: %r" % (name, answer.raw))
    check(answer.value(1003) is None, "a refusal names a trade: %r" % answer.raw)


def takes(stage: Stage, firm: Firm, kind: str, fields: Fields, status: bytes) -> None:
    """A message that is taken, and told no reason."""
    answer = answered(stage, firm, kind, fields)
    check(
        answer.value(297) == status and answer.value(58) is None, "it is answered %r" % answer.raw
    )


def passed(stage: Stage) -> bytes:
    """A request that both dealers were shown and the investor has passed; the dealers' name of it."""
    request = stage.ask()
    stage.say(stage.investor, "AJ", [(693, stage.name("p")), (694, b"6"), (131, stage.asked)])
    for dealer in (stage.dealer, stage.other):
        stage.answer(
            dealer,
            "the end of a request",
            lambda message: message.kind == b"AJ" and message.value(131) == request,
        )
    return request


def request_fields(stage: Stage, name: bytes, dealers: list[bytes], **other: bytes) -> Fields:
    values = {"bond": BOND, "quantity": b"2000000", "until": moment_in(600), "role": b"35", **other}
    fields = [
        (131, name),
        (146, b"1"),
        (55, b"[N/A]"),
        (48, values["bond"]),
        (22, b"4"),
        (54, b"1"),
    ]
    fields += [(38, values["quantity"]), (126, values["until"]), (453, b"%d" % len(dealers))]
    for dealer in dealers:
        fields += [(448, dealer), (447, b"D"), (452, values["role"])]
    return fields


# ------------------------------------------------------------ each name of the four tables


def test_each_reason_of_a_quote(stage: Stage) -> None:
    """All but `DeadlinePassed` and `Lifted`, which no quote meets whose request is swept at its deadline and told at its hit."""
    limited(stage, "quotes = 2\nexposure = 3000000", "requests = 9\nopen = 9\nquantity = 5000000")
    stage.open(*stage.firms)
    closed, declined, quoted = passed(stage), stage.ask(), stage.ask()
    takes(stage, stage.dealer, "AG", [(131, declined), (658, b"10")], b"11")
    live, asked = stage.quote(stage.dealer, quoted), stage.ask()
    cases: list[tuple[str, bytes, bytes, Fields]] = [
        ("UnknownRequest", b"99", b"R99", []),
        ("Declined", b"99", declined, []),
        ("Closed", b"4", closed, []),
        ("OtherBond", b"1", asked, [(48, OTHER_BOND)]),
        ("InvalidPrice", b"8", asked, [(133, b"99.501")]),
        ("OutsideBand", b"8", asked, [(133, b"100.00390625")]),
        ("OtherQuantity", b"99", asked, [(135, b"1000000")]),
        ("NotTradeable", b"99", asked, [(537, b"0")]),
        ("DuplicateQuote", b"6", asked, [(117, live)]),
        ("ValidityPassed", b"99", asked, [(62, moment_in(-1))]),
        ("ExposureExceeded", b"3", asked, []),
    ]
    for name, code, request, other in cases:
        fields = dict(stage.quote_fields(request, stage.name("q"))) | dict(other)
        refuses(stage, stage.dealer, "S", list(fields.items()), name, code)
    stage.quote(stage.dealer, quoted)
    refuses(
        stage, stage.dealer, "S", stage.quote_fields(asked, stage.name("q")), "QuotesUsedUp", b"3"
    )
    assert {name for name, *_ in cases} | {"QuotesUsedUp"} == set(names_in("A quote")) - {
        "DeadlinePassed",
        "Lifted",
    }
    stage.whole()


def test_each_reason_of_a_cancel(stage: Stage) -> None:
    """All but `Lifted`."""
    stage.open(*stage.firms)
    ended = stage.quote(stage.dealer, stage.ask())
    stage.say(stage.investor, "AJ", [(693, stage.name("p")), (694, b"6"), (131, stage.asked)])
    stage.answer(stage.dealer, "the end of a request", lambda message: message.kind == b"AJ")
    gone = stage.quote(stage.dealer, stage.ask())
    takes(stage, stage.dealer, "Z", [(298, b"5"), (117, gone)], b"17")
    cases: list[tuple[str, bytes, bytes, Fields]] = [
        ("UnknownCancelType", REFUSED, b"99", [(298, b"1")]),
        ("UnknownQuote", NOT_FOUND, b"", [(298, b"5"), (117, b"none")]),
        ("Withdrawn", REFUSED, b"99", [(298, b"5"), (117, gone)]),
        ("Closed", REFUSED, b"4", [(298, b"5"), (117, ended)]),
        ("NothingToCancel", NOT_FOUND, b"", [(298, b"4")]),
    ]
    for name, status, code, fields in cases:
        refuses(stage, stage.dealer, "Z", fields, name, code, status)
    assert {name for name, *_ in cases} == set(names_in("A cancel")) - {"Lifted"}
    stage.whole()


def test_each_reason_of_a_decline(stage: Stage) -> None:
    stage.open(*stage.firms)
    closed, declined, quoted = passed(stage), stage.ask(), stage.ask()
    takes(stage, stage.dealer, "AG", [(131, declined), (658, b"10")], b"11")
    stage.quote(stage.dealer, quoted)
    cases = [
        ("UnknownRequest", b"99", b"R99"),
        ("Declined", b"99", declined),
        ("Closed", b"4", closed),
        ("LiveQuote", b"99", quoted),
    ]
    for name, code, request in cases:
        refuses(stage, stage.dealer, "AG", [(131, request), (658, b"10")], name, code)
    assert [name for name, *_ in cases] == names_in("A decline")
    stage.whole()


def accepted(stage: Stage) -> None:
    """The investor has been told that its last request is accepted: its dealers may be shown it before."""
    name = stage.asked
    stage.answer(
        stage.investor,
        "that its request is accepted",
        lambda message: message.value(131) == name and message.value(297) == b"0",
    )


def test_each_reason_of_a_request(stage: Stage) -> None:
    limited(stage, "quotes = 9\nexposure = 60000000", "requests = 3\nopen = 2\nquantity = 5000000")
    stage.open(*stage.firms)
    stage.ask()
    first, both, many = (
        stage.asked,
        [b"DLR1", b"DLR2"],
        [b"DLR1", b"DLR2", *(b"D%d" % at for at in range(3, 10))],
    )
    new = stage.name("A")
    cases: list[tuple[str, bytes, Fields]] = [
        ("DuplicateRequest", b"99", request_fields(stage, first, both)),
        ("UnknownBond", b"1", request_fields(stage, new, both, bond=b"BONDC0000003")),
        ("QuantityExceeded", b"3", request_fields(stage, new, both, quantity=b"5000001")),
        ("NoDealer", b"99", request_fields(stage, new, both, role=b"13")),
        ("UnknownDealer", b"99", request_fields(stage, new, [b"DLR1", b"NOBODY"])),
        ("DealerTwice", b"99", request_fields(stage, new, [b"DLR1", b"DLR1"])),
        ("TooManyDealers", b"99", request_fields(stage, new, many)),
        ("DeadlinePassed", b"4", request_fields(stage, new, both, until=moment_in(-1))),
    ]
    accepted(stage)
    for name, code, fields in cases:
        refuses(stage, stage.investor, "R", fields, name, code)
    stage.ask()
    accepted(stage)
    refuses(stage, stage.investor, "R", request_fields(stage, new, both), "TooManyOpen", b"3")
    takes(stage, stage.investor, "AJ", [(693, stage.name("p")), (694, b"6"), (131, first)], b"11")
    stage.ask()
    accepted(stage)
    refuses(stage, stage.investor, "R", request_fields(stage, new, both), "RequestsUsedUp", b"3")
    assert {name for name, *_ in cases} | {"TooManyOpen", "RequestsUsedUp"} == set(
        names_in("Asking")
    )
    stage.whole()


@pytest.mark.parametrize("kind, part", [("S", "A quote"), ("Z", "A cancel")])
def test_each_name_that_the_program_may_say(
    noting: Tools, place: Path, kind: str, part: str
) -> None:
    """Also those that a day line by line does not come to: each refusal is called by the name that its QuoteID has."""
    made = Stage(behind(RENAMING, place, noting), place)
    try:
        made.open(made.dealer)
        for name in names_in(part):
            own = b"as-" + name.encode()
            fields = made.quote_fields(b"R99", own) if kind == "S" else [(298, b"5"), (117, own)]
            status, code = (REFUSED, b"99") if kind == "S" else (NOT_FOUND, b"")
            refuses(made, made.dealer, kind, fields, name, code, status)
    finally:
        made.close()


def test_a_name_without_words(noting: Tools, place: Path) -> None:
    """The program says a name that the day's table does not have: nothing of it goes to the firm, and the gateway ends."""
    made = Stage(behind(RENAMING, place, noting), place)
    try:
        made.open(made.dealer)
        made.say(made.dealer, "Z", [(298, b"5"), (117, b"as-Foreign")])
        check(made.door.wait_end() == 1, "the gateway goes on")
        check(
            "for a reason that has no text: Foreign" in made.door.last_words(),
            made.door.last_words(),
        )
        check(not made.dealer.looked(), "the dealer is told something")
    finally:
        made.close()


# ------------------------------------------------------------ trades


def names_told(firm: Firm) -> dict[int, bytes]:
    """The names of trades that a firm was told, by the venue's numbers of the messages."""
    return {
        message.venue_number: message.given(1003)
        for message in firm.looked()
        if message.value(1003) is not None
    }


def trade_told(stage: Stage, count: int) -> None:
    """An auction that the first dealer wins: both firms are told the same name, the count-th of these two, and nobody else is told one."""
    before = {firm.name: set(names_told(firm)) for firm in stage.firms}
    stage.auction()
    for firm in stage.firms:
        told = [
            name for number, name in names_told(firm).items() if number not in before[firm.name]
        ]
        wanted = [b"%s-INV1-DLR1-%d" % (today().encode(), count)] if firm is not stage.other else []
        check(told == wanted, "%s is told %r" % (firm.name, told))


def all_on(stage: Stage) -> None:
    until("all firms are back", LONG, lambda: all([firm.logged_on() for firm in stage.firms]))


def test_both_sides_are_told_one_name(stage_of_log: Stage, noting: Tools) -> None:
    """Also after an end of the venue, and of the gateway: the count goes on, and what was told is what it was."""
    stage = stage_of_log
    stage.door.programs = noting.programs
    stage.open(*stage.firms)
    trade_told(stage, 1)
    check(stage.door.kill_venue(), "there is no venue")
    trade_told(stage, 2)
    stage.door.kill()
    stage.door.start()
    stage.door.wait_open()
    all_on(stage)
    trade_told(stage, 3)
    stage.whole()


def told_on(stage: Stage, wire: Wire) -> list[Received]:
    """A refusal and a trade, as the first dealer is told of them on a wire."""
    cancel: Fields = [(50, b"T1"), (298, b"4")]
    wire.raw(wire.message(b"Z", b"DLR1", cancel))
    told = [wire.got(b"AI")]
    check(
        told[0].value(58) == table()["NothingToCancel"],
        "a cancel of nothing is answered %r" % told[0].raw,
    )
    stage.ask_of([stage.dealer])
    request = wire.got(b"R").given(131)
    wire.raw(wire.message(b"S", b"DLR1", [(50, b"T1"), *stage.quote_fields(request, b"q")]))
    shown = stage.answer(stage.investor, "a quote", lambda message: message.kind == b"S")
    stage.say(stage.investor, "AJ", [(693, b"h"), (694, b"1"), (117, shown.given(117))])
    told.append(wire.got(b"AJ"))
    check(
        told[1].value(1003) == b"%s-INV1-DLR1-1" % today().encode(),
        "a trade is told as %r" % told[1].raw,
    )
    return told


def check_again(wire: Wire, told: list[Received]) -> None:
    """A ResendRequest of all: what was told comes again with the same bytes behind 1181."""
    wire.raw(wire.message(b"2", b"DLR1", [(7, b"1"), (16, b"0")]))
    for was in told:
        again = wire.got_until(
            lambda message: message.session_number == was.session_number
            and message.value(43) == b"Y"
        )
        bodies = [
            message.raw.partition(b"\x011181=")[2].rpartition(b"\x0110=")[0]
            for message in (was, again)
        ]
        check(bodies[0] == bodies[1], "%r is sent again as %r" % (was.raw, again.raw))


def test_what_is_told_comes_again(stage: Stage) -> None:
    """At a resend, and at one after a SIGKILL of the gateway."""
    stage.open(stage.investor)
    with Wire(stage.door.port) as wire:
        wire.logon(b"DLR1", stage.dealer.who.password.encode())
        told = told_on(stage, wire)
        check_again(wire, told)
        # Behind a message that is in the log no number of the session is lost.
        wire.raw(wire.message(b"Z", b"DLR1", [(50, b"T1"), (298, b"4")]))
        told.append(
            wire.got_until(
                lambda message: message.session_number > told[-1].session_number
                and message.kind == b"AI"
            )
        )
        number = wire.number
        until(
            "all of it is in the log",
            LONG,
            lambda: len(stage.door.ledger().sent.get("DLR1", [])) == 5,
        )
        stage.door.kill()
    stage.door.start()
    stage.door.wait_open()
    with Wire(stage.door.port) as wire:
        wire.number = number
        wire.logon(b"DLR1", stage.dealer.who.password.encode())
        check_again(wire, told)
    stage.whole()


# ------------------------------------------------------------ two gateways


def refused_cancel(stage: Stage) -> Received:
    return answered(stage, stage.dealer, "Z", [(298, b"4")])


@pytest.fixture
def followed(
    noting: Tools, place: Path, postgres_database: str, request: pytest.FixtureRequest
) -> Iterator[tuple[Stage, Door]]:
    """A stage on a log in PostgreSQL, and a second gateway of it, which its firms know too and nobody has started."""
    wait_for_room(request.node.name)
    log = PostgresLog(postgres_database, "day")
    made, folder = Stage(noting, place, log), place / "second"
    folder.mkdir()
    first, second = made.door, Door(
        noting.programs, folder, [DEALER, OTHER], [INVESTOR], limits=made.limits, postgres=log
    )
    for firm in made.firms:
        firm.more |= {"SocketConnectHost1": "127.0.0.1", "SocketConnectPort1": str(second.port)}
    yield made, second
    made.close()
    for door in (first, second):
        door.close()


def follow(stage: Stage, second: Door) -> None:
    """The second gateway follows the first."""
    shutil.copytree(stage.door.keys, second.keys)
    second.write()
    second.start()
    until("the second one stands by", LONG, lambda: "stands by" in second.last_words())


def keeps_checkpoints(second: Door) -> None:
    """The second gateway has one of the first's, without which it would not take over."""
    kept = second.folder / "checkpoints"
    until("the second one keeps a checkpoint", LONG, lambda: any(kept.glob("*.checkpoint")))


def test_another_gateway_tells_the_same(followed: tuple[Stage, Door]) -> None:
    """One that follows takes over, and goes on with the words and the count of the day."""
    stage, second = followed
    stage.open(*stage.firms)
    follow(stage, second)
    trade_told(stage, 1)
    keeps_checkpoints(second)
    stage.door.kill()
    second.wait_open()
    stage.door = second
    all_on(stage)
    trade_told(stage, 2)
    check(
        refused_cancel(stage).value(58) == table()["NothingToCancel"],
        "another gateway tells another reason",
    )
    stage.whole()
    check(second.stop() == 0, second.last_words())
    named = [line.split() for line in audited(stage).stdout.splitlines() if "gateway   " in line]
    terms = [int(words[-1]) for words in named]
    check(len(named) > 2 and terms == sorted(terms) and terms[-1] == terms[1] + 1, repr(named))
    check(all(words[1] == socket.gethostname() for words in named[1:]), repr(named))
    check(all("mireseason-gateway" in words for words in named), repr(named))


def test_one_that_follows_finds_another_reason(followed: tuple[Stage, Door], noting: Tools) -> None:
    """The venue of the one that follows gives the same message, and notes another reason beside it: it ends, and the first goes on."""
    stage, second = followed
    second.programs = behind(RENAMING, second.folder, noting).programs
    stage.open(stage.dealer)
    follow(stage, second)
    answered(stage, stage.dealer, "Z", [(298, b"5"), (117, b"as-Closed")])
    check(second.wait_end() == 1, "it goes on")
    check("gives other messages" in second.last_words(), second.last_words())
    check(refused_cancel(stage).value(58) == table()["NothingToCancel"], "the first does not go on")


# ------------------------------------------------------------ days with notes, and days without


def test_a_program_without_the_flag(noting: Tools, place: Path) -> None:
    """The day goes on without reasons and names of trades, says so, and goes on so where the program has the flag later."""
    made = Stage(behind(WITHOUT, place, noting), place)
    try:
        made.open(*made.firms)
        check(refused_cancel(made).value(58) is None, "a reason is told")
        made.auction()
        check("no reasons and no trade names" in made.door.last_words(), made.door.last_words())
        check(made.door.ledger().reasons == {}, "entry 0 has reasons")
        check(made.door.stop() == 0, made.door.last_words())
        made.door.programs = noting.programs
        made.door.write()
        made.door.start()
        made.door.wait_open()
        all_on(made)
        check(refused_cancel(made).value(58) is None, "a reason is told on a day without")
        check(
            not any(message.value(1003) for firm in made.firms for message in firm.looked()),
            "a trade is named",
        )
        made.whole()
    finally:
        made.close()


def test_a_day_with_notes_needs_the_flag(stage: Stage, noting: Tools) -> None:
    """Entry 0 has the table of fix/reasons.txt; a program without the flag can't go on with such a day."""
    stage.open(*stage.firms)
    check(refused_cancel(stage).value(58) == table()["NothingToCancel"], "no reason is told")
    entry = {name.decode(): words for name, words in stage.door.ledger().reasons.items()}
    check(entry == table(), "entry 0 has %r" % entry)
    check(stage.door.stop() == 0, stage.door.last_words())
    stage.log_off(*stage.firms)
    stage.door.programs = behind(WITHOUT, stage.folder, noting).programs
    stage.door.write()
    stage.refused("entry 0", "does not know --notes")


# ------------------------------------------------------------ pages and tables


def test_pages_and_table_agree() -> None:
    """Each name of MARKET.md's tables has words, and nothing else has; CONNECTING.md has the same table."""
    names = {name for part in TABLES for name in names_in(part)}
    assert names == set(table()) and len(names) > 25
    assert len(set(table().values())) == len(table())
    part = re.split(r"\n##+ ", CONNECTING.split("\n### The words of a refusal\n")[1])[0]
    rows = re.findall(r"^\| `(\w+)` \| `([^`]+)` \| ([0-9=]+) \|", part, re.MULTILINE)
    said = {name: words for name, words, _ in rows}
    assert said == {name: words.decode() for name, words in table().items()}
    assert len(rows) == len(names)
    codes = {(name, code) for of in TABLES for name, code in codes_in(of).items()}
    assert codes == {(name, code) for name, _, code in rows}
