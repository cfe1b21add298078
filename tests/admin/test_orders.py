"""What an operator orders of a firm and of the venue: a suspension, a cancel, a halt, and the ways back for a firm that lost
its store. Each is an act, and holds again after the gateway was killed."""

import re

from tests.admin.operator import acts, admin, audit, did, firm_row, rows
from tests.admin.stream import Stream, quote_fields
from tests.gateway.firm import Received
from tests.gateway.market import BOND, moment_in
from tests.gateway.stage import DEALER, INVESTOR, Stage
from tests.gateway.stage import check as check_text
from tests.gateway.wait import LONG, until
from tests.gateway.wire import Fields, Wire
from tests.limits.flood import cancel, logged_on, not_taken
from tests.operating.test_service import asked

WHY = "their risk desk called"
NOT_AVAILABLE = b"4"  # BusinessRejectReason (380)
GONE = DROPPED = b"17"  # QuoteStatus (297): to the investor, and to the dealer
LOGGED_ON = 'mireseason_firm_logged_on{firm="DLR1"}'
HALTED = b"the venue is halted"
BOND_HALTED = b"this bond is halted"


def check(holds: object, seen: object) -> None:
    check_text(holds, seen if isinstance(seen, str) else repr(seen))


def opened(stage: Stage) -> None:
    stage.door.operators = ""
    stage.open(stage.other, stage.investor)


def started_again(stage: Stage) -> None:
    stage.door.kill()
    stage.door.start()
    stage.door.wait_open()


def quoted(wire: Wire, name: bytes, request: bytes = b"R1") -> None:
    """A quote that is accepted."""
    assert wire.raw(wire.message(b"S", wire.name, quote_fields(name, request)))
    answer = wire.got_until(lambda message: message.value(117) == name)
    check(answer.value(297) == b"0", "a quote is answered %r" % answer.raw)


def is_refused(stage: Stage, number: int) -> None:
    """A Logon of the dealer is refused: nothing of a session follows it, and no session of the dealer is counted. Other firms may
    be logging on meanwhile."""
    with Wire(stage.door.port) as wire:
        wire.number = number
        assert wire.logon(b"DLR1", DEALER.password.encode())
        check(wire.read_kind(b"A") is None, "a firm that is refused has its Logon answered")
        check(stage.counters()[LOGGED_ON] == 0, "a session of the dealer is counted")


def ends_of(stage: Stage, count: int) -> list[bytes]:
    """What the gateway said in the firm's name behind the last act: entries of the firm without a number."""
    entries = stage.door.ledger().entries
    last = max(entry.place for entry in entries if entry.line.startswith(b"# act "))
    found = [entry for entry in entries if last < entry.place <= last + count]
    check(all(entry.firm and entry.number is None for entry in found), found)
    return [bytes.fromhex(entry.line.split()[-1].decode()) for entry in found]


def test_a_dealer_that_is_suspended(stage_of_log: Stage) -> None:
    """It is logged out and told why, its quote is cancelled with the act, and its Logons are refused, also by the next gateway, until
    it is let in again."""
    stage = stage_of_log
    opened(stage)
    with logged_on(stage, DEALER) as wire:
        stage.ask_of([stage.dealer, stage.other])
        assert wire.read_kind(b"R") is not None
        quoted(wire, b"q1")
        said = admin(stage, "suspend", "DLR1")
        check(said.status == 1 and "say why" in said.err, said.text)
        did(stage, "suspend", "DLR1", "--because", WHY)
        logout = wire.got(b"5")
        check(b"suspended" in (logout.value(58) or b""), "it is told %r" % logout.raw)
        number = wire.number
    check(acts(stage)[-1].endswith(b' suspend DLR1 because="their risk desk called"'), acts(stage))
    (end,) = ends_of(stage, 1)
    check(b"\x0135=Z\x01" in end and b"\x01298=4\x01" in end and b"\x0150=T1\x01" in end, end)
    stage.answer(
        stage.investor,
        "that the quote is gone",
        lambda message: message.kind == b"AI" and message.value(297) == GONE,
    )
    is_refused(stage, number)
    started_again(stage)
    is_refused(stage, number)
    check(firm_row(stage, "DLR1")["set"] == "suspended", firm_row(stage, "DLR1"))
    metric = 'mireseason_firm_suspended{firm="DLR1"}'
    until("it is counted", LONG, lambda: stage.counters()[metric] == 1)
    check("<td>suspended</td>" in asked(stage.door, "/")[1], "the page does not say it")
    did(stage, "resume", "DLR1")
    check(firm_row(stage, "DLR1")["set"] == "", firm_row(stage, "DLR1"))
    logged_on(stage, DEALER, number=number).socket.close()
    check(audit(stage, "check").status == 0, audit(stage, "check").text)


def frames_behind_last_act(stage: Stage) -> list[bytes]:
    """The frames of the dealer's entries behind the last act, each with its number (34)."""
    entries = stage.door.ledger().entries
    last = max(entry.place for entry in entries if entry.line.startswith(b"# act "))
    return [
        bytes.fromhex(entry.line.split()[-1].decode())
        for entry in entries
        if entry.place > last and entry.firm == "DLR1"
    ]


def numbers_of(stage: Stage) -> list[int]:
    """The venue's numbers (34) of the dealer's entries, in the order of the log."""
    frames = [
        bytes.fromhex(entry.line.split()[-1].decode())
        for entry in stage.door.ledger().entries
        if entry.firm == "DLR1"
    ]
    return [int(frame.split(b"\x0134=")[1].split(b"\x01")[0]) for frame in frames]


def test_a_dealer_that_is_suspended_while_it_quotes(stage: Stage) -> None:
    """Behind the act stands the cancel of all its quotes, and nothing more of the firm: so it has no quote that lives."""
    opened(stage)
    with logged_on(stage, DEALER) as wire:
        stage.ask_of([stage.dealer, stage.other])
        assert wire.read_kind(b"R") is not None
        with Stream(wire) as stream:
            stream.wait_for_more()
            did(stage, "suspend", "DLR1", "--because", WHY)
    until("it is logged out", LONG, lambda: stage.counters()["mireseason_sessions"] == 2)
    (end,) = frames_behind_last_act(stage)
    check(b"\x01298=4\x01" in end, end)
    until("the record is whole", LONG, lambda: audit(stage, "check").status == 0)


def test_quotes_that_are_cancelled_while_the_dealer_quotes(stage: Stage) -> None:
    """Its messages stand in the log in the order of their numbers, the operator's cancels among them: so the venue takes them all."""
    opened(stage)
    with logged_on(stage, DEALER) as wire:
        stage.ask_of([stage.dealer, stage.other])
        assert wire.read_kind(b"R") is not None
        with Stream(wire) as stream:
            for _ in range(5):
                stream.wait_for_more()
                did(stage, "cancel", "DLR1", "--because", WHY)
    numbers = numbers_of(stage)
    check(numbers == list(range(1, len(numbers) + 1)), "the numbers are %r" % numbers[-50:])
    until("the record is whole", LONG, lambda: audit(stage, "check").status == 0)


def test_an_investor_that_is_suspended(stage: Stage) -> None:
    """Its open request is passed with the act, and the dealers are told so."""
    stage.door.operators = ""
    stage.open(*stage.firms)
    request = stage.ask()
    stage.quote(stage.dealer, request)
    did(stage, "suspend", "INV1", "--because", WHY)
    (end,) = ends_of(stage, 1)
    check(b"\x0135=AJ\x01" in end and b"\x01694=6\x01" in end, end)
    check(b"\x01131=%s\x01" % stage.asked in end, end)
    for dealer in (stage.dealer, stage.other):
        stage.answer(
            dealer,
            "that the request was passed",
            lambda message: message.kind == b"AJ" and message.value(694) == b"6",
        )
    said = admin(stage, "cancel", "INV1", "--because", WHY)
    check(said.status == 1 and "is an investor, and has no quotes" in said.err, said.text)


def test_quotes_that_are_cancelled(stage: Stage) -> None:
    """`cancel` takes back all quotes of a dealer that is there, which is told as of a cancel of its own and goes on."""
    opened(stage)
    with logged_on(stage, DEALER) as wire:
        stage.ask_of([stage.dealer, stage.other])
        assert wire.read_kind(b"R") is not None
        quoted(wire, b"q1")
        before = firm_row(stage, "DLR1")
        did(stage, "cancel", "DLR1", "--because", WHY)
        after = firm_row(stage, "DLR1")
        check(after["messages"] == before["messages"] + 1, "the cancel is no message of the firm's")
        check(after["day_bytes"] > before["day_bytes"], "the cancel's bytes are not the firm's")
        answer = wire.got_until(
            lambda message: message.value(117) == b"q1" and message.value(297) != b"0"
        )
        check(answer.value(297) == DROPPED, "it is told %r" % answer.raw)
        quoted(wire, b"q2")


TWO_TRADERS = 'traders = ["T1", "T3"]'


def quoted_by(wire: Wire, trader: bytes, name: bytes, request: bytes) -> None:
    """A quote of this trader that is accepted."""
    fields = [(50, trader), *quote_fields(name, request)[1:]]
    assert wire.raw(wire.message(b"S", wire.name, fields))
    answer = wire.got_until(lambda message: message.value(117) == name)
    check(answer.value(297) == b"0", "a quote is answered %r" % answer.raw)


def test_quotes_of_one_trader(stage_of_log: Stage) -> None:
    """`cancel FIRM --trader` takes back each live quote that this trader sent, in the trader's name, and no other's; a gateway that
    was killed knows who sent which."""
    stage = stage_of_log
    stage.door.operators = ""
    stage.door.write()
    venue = stage.folder / "venue.toml"
    venue.write_text(venue.read_text().replace('traders = ["T1"]', TWO_TRADERS))
    stage.door.start()
    stage.door.wait_open()
    stage.log_on(stage.other, stage.investor)
    with logged_on(stage, DEALER) as wire:
        for name, request, trader in (
            (b"q1", b"R1", b"T1"),
            (b"q2", b"R2", b"T3"),
            (b"q3", b"R3", b"T1"),
            (b"q4", b"R3", b"T3"),
            (b"q5", b"R4", b"T1"),
        ):
            if request != b"R3" or name == b"q3":
                stage.ask_of([stage.dealer, stage.other])
                assert wire.read_kind(b"R") is not None
            quoted_by(wire, trader, name, request)
        number = wire.number
    started_again(stage)
    with logged_on(stage, DEALER, number=number) as wire:
        said = admin(stage, "cancel", "DLR1", "--trader", "T9", "--because", WHY)
        check(said.status == 1 and "has no trader T9: its traders are T1, T3" in said.err, said)
        said = admin(stage, "cancel", "DLR1", "--trader", "")
        check(said.status == 1 and "--trader needs a name after it" in said.err, said)
        did(stage, "cancel", "DLR1", "--trader", "T1", "--because", WHY)
        check(
            acts(stage)[-1].endswith(b' cancel DLR1 --trader T1 because="%s"' % WHY.encode()),
            acts(stage),
        )
        ends = ends_of(stage, 2)
        wanted = [b"\x0150=T1\x01298=5\x01117=%s\x01" % name for name in (b"q1", b"q5")]
        check(all(want in end for want, end in zip(wanted, ends, strict=True)), ends)
        for name in (b"q1", b"q5"):
            wire.got_until(
                lambda message: message.value(117) == name and message.value(297) == DROPPED
            )
        did(stage, "cancel", "DLR1", "--trader", "T1", "--because", WHY)
        check(frames_behind_last_act(stage) == [], "what is gone is cancelled again")
        quoted_by(wire, b"T1", b"q6", b"R1")
    check(audit(stage, "check").status == 0, audit(stage, "check").text)


def hit_not_taken(wire: Wire, quote: bytes, text: bytes, kind: bytes = b"1") -> None:
    fields: Fields = [(50, b"V1"), (693, b"h1"), (694, kind), (117, quote)]
    number = wire.number
    assert wire.raw(wire.message(b"AJ", wire.name, fields))
    reject = wire.got(b"j")
    found = [reject.value(tag) for tag in (45, 372, 379, 380)]
    check(found == [b"%d" % number, b"AJ", b"h1", NOT_AVAILABLE], "a hit is answered %r" % found)
    check(text in (reject.value(58) or b""), "it is told %r" % reject.raw)
    wire.ask()


def request_fields(name: bytes, deadline: bytes) -> Fields:
    fields: Fields = [(50, b"V1"), (131, name), (146, b"1"), (55, b"[N/A]"), (48, BOND)]
    fields += [(22, b"4"), (54, b"1"), (38, b"1000000"), (126, deadline), (453, b"1")]
    return fields + [(448, b"DLR1"), (447, b"D"), (452, b"35")]


def halted(dealer: Wire, investor: Wire, shown: Received, text: bytes) -> None:
    """A quote, a request and a hit are not taken, a cancel is."""
    not_taken(dealer, b"S", quote_fields(b"q9"), NOT_AVAILABLE, text)
    not_taken(investor, b"R", request_fields(b"A9", moment_in(600)), NOT_AVAILABLE, text)
    hit_not_taken(investor, shown.given(117), text)
    hit_not_taken(investor, shown.given(117), text, kind=b"001")  # a number, for the venue too
    assert dealer.raw(cancel(dealer, dealer.number, b"x9"))
    answer = dealer.got_until(lambda message: message.value(117) == b"x9")
    check(answer.value(297) == b"9", "a cancel is answered %r" % answer.raw)
    dealer.number += 1


def halt_is_seen(stage: Stage, words: str, takes_business: bool) -> None:
    """By the operator, and among the metrics."""
    row = rows(stage, "status")[0]
    check((row["halted"], row["takes_business"]) == (words, takes_business), row)
    bonds = 0 if words in ("yes", "no") else len(words.split())
    until(
        "it is counted",
        LONG,
        lambda: (  # which are there from the first look on
            stage.counters().get("mireseason_halted"),
            stage.counters().get("mireseason_halted_bonds"),
        )
        == (words == "yes", bonds),
    )


def test_a_halt(stage: Stage) -> None:
    """Of the venue and of one bond: requests, quotes and hits are not taken, cancels are, until it goes on; also by the next
    gateway."""
    stage.door.operators = ""
    stage.open(stage.other)
    with logged_on(stage, DEALER) as dealer, logged_on(stage, INVESTOR) as investor:
        deadline = moment_in(600, stage.ahead)
        assert investor.raw(investor.message(b"R", b"INV1", request_fields(b"A1", deadline)))
        assert dealer.read_kind(b"R") is not None
        quoted(dealer, b"q1")
        shown = investor.got(b"S")
        did(stage, "halt", "--because", "rumours")
        halted(dealer, investor, shown, HALTED)
        halt_is_seen(stage, "yes", takes_business=False)
        page = asked(stage.door, "/")[1]
        check(page.count("an operator has halted the venue") == 1, page)
        code, words = asked(stage.door, "/ready")
        check(code == 200 and "(an operator has halted the venue)" in words, words)
        event = re.compile(r'operator act="\w+\(\d+\) halt" because="rumours"$', re.MULTILINE)
        check(event.search(stage.door.told.read_text()), "an event has no such act")
        check(did(stage, "resume") == "the venue goes on\n", "it is halted")
        halt_is_seen(stage, "no", takes_business=True)
        quoted(dealer, b"q2")
        shown = investor.got_until(
            lambda message: message.kind == b"S" and message.value(117) != shown.value(117)
        )
        said = admin(stage, "halt", "--bond", "BONDX0000009", "--because", WHY)
        check(said.status == 1 and "has no bond BONDX0000009" in said.err, said.text)
        for word in ("halt", "resume"):
            said = admin(stage, word, "--bond", "")
            check(said.status == 1 and "--bond needs an ID after it" in said.err, said)
        did(stage, "halt", "--bond", BOND.decode(), "--because", WHY)
        halted(dealer, investor, shown, BOND_HALTED)
        halt_is_seen(stage, BOND.decode(), takes_business=True)
        rest = "the venue goes on, but for this:\nan operator has halted bonds: %s\n"
        check(did(stage, "resume") == rest % BOND.decode(), "the bond is not told")
        numbers = dealer.number, investor.number
    started_again(stage)
    with logged_on(stage, DEALER, number=numbers[0]) as dealer:
        not_taken(dealer, b"S", quote_fields(b"q3"), NOT_AVAILABLE, BOND_HALTED)
        did(stage, "resume", "--bond", BOND.decode())
        quoted(dealer, b"q4")
    check(audit(stage, "check").status == 0, audit(stage, "check").text)


def missed(wire: Wire) -> Received:
    """The last request that the venue shows, once the firm has asked for all that it missed."""
    assert wire.raw(wire.message(b"2", wire.name, [(7, b"1"), (16, b"0")]))
    wire.got(b"R")
    return wire.got(b"R")


def lost_store(stage: Stage) -> int:
    """A dealer with a request that it has not seen, whose engine begins at 1 again and is refused; the number that it had."""
    opened(stage)
    with logged_on(stage, DEALER) as wire:
        stage.ask_of([stage.dealer, stage.other])
        assert wire.read_kind(b"R") is not None
        wire.ask()
        number = wire.number
    stage.ask_of([stage.dealer, stage.other])
    is_refused(stage, 1)
    until("it is told", LONG, lambda: "lost store" in stage.door.told.read_text(errors="replace"))
    is_refused(stage, number)
    return number


def test_a_firm_that_lost_its_store_begins_anew(stage_of_log: Stage) -> None:
    """After `reset-session` its Logon with 34=1 is taken, and what it is not known to have comes as a copy (97=Y); a killed gateway
    resets nothing twice."""
    stage = stage_of_log
    lost_store(stage)
    did(stage, "reset-session", "DLR1", "--because", "their store is gone")
    started_again(stage)
    with logged_on(stage, DEALER) as wire:
        copy = missed(wire)
        check(copy.value(97) == b"Y", "what it misses comes as %r" % copy.raw)
        wire.ask()
        number = wire.number
    started_again(stage)
    with logged_on(stage, DEALER, number=number) as wire:
        wire.ask()
    check(audit(stage, "check").status == 0, audit(stage, "check").text)


def test_a_firm_that_is_released(stage: Stage) -> None:
    """After `release` a firm that found its store again goes on with its numbers as they are."""
    number = lost_store(stage)
    did(stage, "release", "DLR1")
    with logged_on(stage, DEALER, number=number) as wire:
        check(missed(wire).value(97) is None, "what it misses comes as a copy")
