"""What somebody who knows the gateway's code tried against it: as a firm with a password, at a bad moment of an operator, by
writing to the log while no gateway runs and while one does, and from a browser's page of another origin."""

import re
import socket
import struct
from collections.abc import Callable
from concurrent.futures import ThreadPoolExecutor
from pathlib import Path

import pytest

from tests.admin.operator import answer_to, did, socket_of
from tests.admin.stream import Stream
from tests.admin.test_orders import quoted, request_fields
from tests.gateway.firm import Received
from tests.gateway.market import moment_in
from tests.gateway.stage import DEALER, INVESTOR, Stage, check
from tests.gateway.test_seals import Intruder, hit_of
from tests.gateway.wait import LONG, until, within
from tests.gateway.wire import Fields, Wire, framed
from tests.limits.flood import cancel, logged_on

LAST = 999_999_990  # the last number of a session


def asked(dealer: Wire, investor: Wire, name: bytes = b"A1") -> None:
    """A request of the investor, which the dealer is shown."""
    fields = request_fields(name, moment_in(600))
    assert investor.raw(investor.message(b"R", investor.name, fields))
    assert dealer.read_kind(b"R") is not None


def hit(wire: Wire, name: bytes, quote: bytes, kind: bytes = b"1") -> Received:
    """A hit, and what it is answered, by the session or by the venue."""
    fields: Fields = [(50, b"V1"), (693, name), (694, kind), (117, quote)]
    assert wire.raw(wire.message(b"AJ", wire.name, fields))
    return wire.got_until(lambda message: name in (message.value(379), message.value(693)))


@pytest.mark.parametrize("words", [("halt",), ("halt", "--bond", "BONDA0000001")], ids=" ".join)
def test_a_hit_in_other_spellings(stage: Stage, words: tuple[str, ...]) -> None:
    """694 is a number: with zeros in front it is a hit all the same, and a halt stops it."""
    stage.door.operators = ""
    stage.open()
    with logged_on(stage, DEALER) as dealer, logged_on(stage, INVESTOR) as investor:
        asked(dealer, investor)
        quoted(dealer, b"q1")
        quote = investor.got(b"S").given(117)
        did(stage, *words, "--because", "rumours")
        for kind in (b"1", b"01", b"000000001"):
            answer = hit(investor, b"h" + kind, quote, kind)
            check(answer.kind == b"j", "694=%r is answered %r" % (kind, answer.raw))
        did(stage, "resume", *words[1:])
        answer = hit(investor, b"h", quote, b"01")
        check(answer.value(297) == b"0", "without a halt it is answered %r" % answer.raw)


# ---------------------------------------------------------------- an operator at a bad moment


def numbers_of(stage: Stage, firm: str) -> list[int]:
    """The numbers (34) of a firm's messages, as the venue was given them; those that the gateway said in its name too."""
    entries = [entry for entry in stage.door.ledger().entries if entry.firm == firm]
    found = [re.search(rb"\x0134=(\d+)\x01", entry.message) for entry in entries]
    return [int(each[1]) for each in found if each]


def calls(path: Path, line: bytes) -> list[bytes]:
    """What an operator is answered who says this again and again."""
    return [answer_to(path, line) for _ in range(15)]


def test_an_act_within_a_stream(stage: Stage) -> None:
    """An operator cancels a dealer's quotes again and again while the dealer sends: what the gateway says in its name has its place
    among the dealer's own messages, and the venue goes on to take these."""
    stage.door.operators = ""
    stage.open()
    with logged_on(stage, DEALER) as wire:
        words = socket_of(stage), b"1 text cancel DLR1 --because again\n"
        with ThreadPoolExecutor(3) as operators:
            called = [operators.submit(calls, *words) for _ in range(3)]
            many = range(wire.number, wire.number + 400)
            assert wire.raw(b"".join(cancel(wire, number, b"x%d" % number) for number in many))
            wire.number += len(many)
            last = b"%d" % many[-1]
            wire.got_until(
                lambda message: message.value(117) == b"x" + last or message.value(45) == last
            )
            done = [answer for each in called for answer in each.result()]
        check(any(answer.startswith(b"ok\n") for answer in done), "no act is done: %r" % done[:3])
        assert wire.raw(cancel(wire, wire.number, b"y"))
        answer = wire.got_until(
            lambda message: message.value(117) == b"y" or message.value(371) == b"34"
        )
        check(answer.value(297) == b"9", "a cancel of no quote is answered %r" % answer.raw)
    found = numbers_of(stage, "DLR1")
    check(found == list(range(1, len(found) + 1)), "the venue was given %r" % found)


def test_nothing_stands_after_a_suspension(stage: Stage) -> None:
    """A dealer that quotes without end is suspended: no quote of it is behind the cancel that the gateway says in its name."""
    stage.door.operators = ""
    stage.open()
    with logged_on(stage, INVESTOR) as investor, logged_on(stage, DEALER) as wire:
        asked(wire, investor)
        with Stream(wire) as stream:
            stream.wait_for_more()
            did(stage, "suspend", "DLR1", "--because", "their risk desk called")

    def last_is_a_cancel() -> bool:
        last = [entry for entry in stage.door.ledger().entries if entry.firm == "DLR1"][-1]
        return last.number is None and b"\x0135=Z\x01" in last.message

    check(within(LONG, last_is_a_cancel), "a message of the dealer is behind the last cancel")


# ---------------------------------------------------------------- numbers, connections


def test_a_reset_that_leaves_nothing(stage: Stage) -> None:
    """An operator resets a session that keeps nothing, twice; its firm logs on with 141=Y and asks for all that it was sent: the
    gateway goes on, and so does a start."""
    stage.door.operators = ""
    stage.open()
    for _ in range(2):
        did(stage, "reset-session", "DLR1")
    with Wire(stage.door.port) as wire:
        wire.logon(b"DLR1", DEALER.password.encode(), more=[(141, b"Y")])
        wire.got(b"A")
        wire.got(b"1")
        check(sent_again(wire) == [], "it is sent something again")
        number = wire.number
    check(stage.door.stop() == 0, "the gateway does not end well")
    stage.door.start()
    stage.door.wait_open()
    with logged_on(stage, DEALER, number=number) as wire:
        check(sent_again(wire) == [], "it is sent something again")


def test_a_message_that_grows(stage: Stage) -> None:
    """An operator has reset a session: the venue's number of a message has more digits than its 34. What no frame has room for then is
    not taken, and uses up no number of the venue."""
    stage.door.operators = ""
    stage.open(stage.other)
    with logged_on(stage, DEALER) as wire:
        for number in range(9):
            assert wire.raw(cancel(wire, wire.number, b"x%d" % number))
            wire.number += 1
        wire.ask()
    did(stage, "reset-session", "DLR1")
    with logged_on(stage, DEALER) as wire:

        def long(size: int) -> Fields:
            return [(50, b"T1"), (298, b"5"), (117, b"none"), (58, b"x" * size)]

        def length(size: int) -> int:
            return len(wire.message(b"Z", b"DLR1", long(size), number=wire.number))

        most = next(size for size in range(3900, 4096) if length(size) == 4096)
        for size, kind in ((most, b"j"), (most - 1, b"AI")):
            assert wire.raw(wire.message(b"Z", b"DLR1", long(size)))
            answer = wire.got_until(lambda message: message.kind in (b"3", b"j", b"AI"))
            check(answer.kind == kind, "with %d bytes it is answered %r" % (size, answer.raw))
            if kind == b"j":
                said = answer.value(380), answer.value(58)
                check(
                    said == (b"0", b"the message is longer than the venue takes"),
                    "it is answered %r" % answer.raw,
                )
    check(numbers_of(stage, "DLR1") == [*range(1, 11)], "the venue has other numbers")


def test_numbers_at_their_end(stage: Stage) -> None:
    """A firm that uses up all numbers of its day harms itself alone: others trade, and a start opens the day."""
    stage.open(stage.other)
    with logged_on(stage, DEALER) as wire:
        assert wire.raw(wire.message(b"4", wire.name, [(36, b"%d" % (LAST - 2))]))
        for number in range(LAST - 2, LAST + 1):
            assert wire.raw(cancel(wire, number))
        check(wire.closed_within(LONG), "a session without a number goes on")
    check(stage.door.stop() == 0, "the gateway does not end well")
    stage.door.start()
    stage.door.wait_open()
    until("the other is back", LONG, stage.other.logged_on)
    stage.ping(stage.other)
    with Wire(stage.door.port) as wire:
        wire.number = LAST + 1
        assert wire.logon(b"DLR1", DEALER.password.encode())
        check(wire.closed_within(LONG) and not wire.waiting, "it is told %r" % wire.waiting)
    check(numbers_of(stage, "DLR1") == [1, 2, 3], "other messages of it are in the log")


def cut_off(wire: Wire) -> None:
    """Ends a connection by a reset."""
    wire.socket.setsockopt(socket.SOL_SOCKET, socket.SO_LINGER, struct.pack("ii", 1, 0))
    wire.socket.close()


def test_a_reset_connection_takes_no_work(stage: Stage) -> None:
    """A Logon that waits for the firm's old connection, which lives, and is reset meanwhile: the gateway waits, and does not work."""
    most = 0.15  # seconds of a processor, of the two seconds for which a Logon waits at most
    stage.open()
    with logged_on(stage, DEALER, heartbeat=b"300") as wire:
        second = Wire(stage.door.port)
        second.number = wire.number
        assert second.logon(b"DLR1", DEALER.password.encode())
        assert wire.read_kind(b"1") is not None  # it is asked, and answers: the new one waits
        worked = stage.worked()
        cut_off(second)
        until("it is refused", LONG, lambda: b"second connection" in stage.door.told.read_bytes())
        took = stage.worked() - worked
        wire.ask()
    check(took < most or not stage.tools.measures, "it worked for %.2f s" % took)


# ---------------------------------------------------------------- the log, while no gateway runs

TRADE = framed(
    b"35=AI\x011181=77\x01131=A1\x01693=h9\x01117=Q1\x0155=[N/A]\x01"
    b"60=20261128-01:00:00.000\x01297=0\x011003=20261128-INV1-DLR1-9\x01"
)
PUT_IN = (
    "INSERT INTO sent (firm, number, place, bytes) "
    "SELECT 'INV1', max(number) + 1, max(place), %s FROM sent WHERE firm = 'INV1'"
)
TRADE_NAME = b"1003=20261128-INV1-DLR1-9"


def sent_again(wire: Wire) -> list[Received]:
    """What a firm is sent again of all that it was sent, up to the answer to a question behind it."""
    assert wire.raw(wire.message(b"2", wire.name, [(7, b"1"), (16, b"0")]))
    assert wire.raw(wire.message(b"1", wire.name, [(112, b"behind")]))
    got: list[Received] = []

    def is_last(message: Received) -> bool:
        got.append(message)
        return message.value(112) == b"behind"

    wire.got_until(is_last)
    return [message for message in got if message.value(43) == b"Y" and message.kind != b"4"]


def test_a_resend_asks_no_database(stage_of_log: Stage) -> None:
    """Somebody who writes to the database of a running gateway changes what sessions keep, puts a trade there that never was, and
    takes messages out: each firm is sent again what it was sent, and nothing else."""
    stage = stage_of_log
    stage.open()
    with logged_on(stage, DEALER) as dealer, logged_on(stage, INVESTOR) as investor:
        asked(dealer, investor)
        quoted(dealer, b"q1")
        hit(investor, b"h1", investor.got(b"S").given(117))
        done = dealer.got_until(lambda message: message.value(694) == b"1")
        before = [message.value(1181) for message in sent_again(dealer)]
        check(done.value(1181) in before, "the trade is not sent again: %r" % before)
        intruder = Intruder(stage.door)
        trade = intruder.literal(TRADE)
        given = {
            wire.name: [number for number, _ in stage.door.ledger().sent[wire.name.decode()]]
            for wire in (dealer, investor)
        }
        intruder.rows("UPDATE sent SET bytes = %s, told = NULL WHERE firm = 'DLR1'" % trade)
        intruder.rows("DELETE FROM sent WHERE firm = 'INV1' AND number > 1")
        intruder.rows(PUT_IN % trade)
        for wire in (dealer, investor):
            again = sent_again(wire)
            check(all(TRADE_NAME not in message.raw for message in again), "%r" % again)
            numbers = [int(message.given(1181)) for message in again]
            check(numbers == given[wire.name], "again came %r" % numbers)
        check(
            [message.value(1181) for message in sent_again(dealer)] == before,
            "the dealer is sent something else",
        )


def an_act_becomes_a_hit(stage: Stage, quote: bytes) -> None:
    """An operator's act, in the database alone: it becomes the investor's hit of a quote, and all hashes behind it are made anew."""
    ledger, intruder = stage.door.ledger(), Intruder(stage.door)
    (act,) = [each for each in ledger.entries if each.line.startswith(b"# act ")]
    moment = act.line.split()[2]
    message = hit_of(stage, quote, moment.decode())
    line = b"hex INV1 %s %s" % (moment, message.hex().upper().encode())
    query = "SELECT max(number) + 1, max(connection) FROM entry WHERE firm = 'INV1'"
    ((number, connection),) = intruder.rows(query)
    change = "firm = 'INV1', number = %s, connection = %s, line = %s"
    change %= (number, connection, intruder.literal(line))
    intruder.rows("UPDATE entry SET %s WHERE place = %d" % (change, act.place))
    intruder.chain_anew(act.place)


def test_a_venue_that_is_fed_again(stage_of_log: Stage) -> None:
    """Somebody who writes to the database of a running gateway puts a hit there, before the venue ends and is fed again: no firm is
    told of a trade, and the gateway ends."""
    stage = stage_of_log
    stage.door.operators = ""
    stage.open()
    with logged_on(stage, DEALER) as dealer, logged_on(stage, INVESTOR) as investor:
        asked(dealer, investor)
        quoted(dealer, b"q1")
        quote = investor.got(b"S").given(117)
        did(stage, "limit", "DLR2", "messages_burst=500")
        number = dealer.number
    check(stage.door.stop() == 0, "the gateway does not end well")
    stage.door.start()
    stage.door.wait_open()
    with logged_on(stage, DEALER, number=number) as dealer:
        an_act_becomes_a_hit(stage, quote)
        check(stage.door.kill_venue(), "there is no venue")
        notice = dealer.read_kind(b"AJ")
        check(notice is None, "the dealer is told %r" % notice)
    check(stage.door.wait_end() == 1, "the gateway ends otherwise")
    check("does not follow on entry" in stage.door.last_words(), stage.door.last_words())


def test_what_was_not_taken_is_not_asked_for(stage: Stage) -> None:
    """A hit is not taken during a halt, and the firm is told so: after a start it is not asked for again, and trades at no later one."""
    stage.door.operators = ""
    stage.open()
    with logged_on(stage, DEALER) as dealer, logged_on(stage, INVESTOR) as investor:
        asked(dealer, investor)
        quoted(dealer, b"q1")
        quote = investor.got(b"S").given(117)
        did(stage, "halt", "--because", "rumours")
        answer = hit(investor, b"h1", quote)
        check(answer.kind == b"j", "a hit during a halt is answered %r" % answer.raw)
        number = investor.number
        did(stage, "resume")
    check(stage.door.stop() == 0, "the gateway does not end well")
    stage.door.start()
    stage.door.wait_open()
    with logged_on(stage, INVESTOR, number=number) as investor:
        investor.ask()
    expected = stage.door.ledger().expected["INV1"]
    check(expected > number, "the session expects %d, and %d came" % (expected, number))


# ---------------------------------------------------------------- a page of another origin

HOST = "Host: 127.0.0.1:%d\r\n"
PAGES: dict[str, tuple[str, bytes]] = {
    "another host": ("GET / HTTP/1.1\r\nHost: evil.example\r\n\r\n", b"403"),
    "no host": ("GET /metrics HTTP/1.1\r\n\r\n", b"403"),
    "another host first": ("GET / HTTP/1.1\r\nHost: evil.example\r\n" + HOST + "\r\n", b"403"),
    "a post": ("POST / HTTP/1.1\r\n" + HOST + "Content-Length: 1\r\n\r\nx", b"403"),
    "a post of another origin": (
        "POST / HTTP/1.1\r\n" + HOST + "Origin: http://evil.example\r\nContent-Length: 0\r\n\r\n",
        b"403",
    ),
    "a socket": (
        "GET / HTTP/1.1\r\n" + HOST + "Connection: Upgrade\r\nUpgrade: websocket\r\n"
        "Sec-WebSocket-Version: 13\r\nSec-WebSocket-Key: dGhlIHNhbXBsZSBub25jZQ==\r\n\r\n",
        b"403",
    ),
    "another file": ("GET /../../etc/passwd HTTP/1.1\r\n" + HOST + "\r\n", b"404"),
    "a long header": ("GET / HTTP/1.1\r\n" + HOST + "X: " + "y" * 20000 + "\r\n\r\n", b""),
}


def page_says(port: int, text: str) -> bytes:
    with socket.create_connection(("127.0.0.1", port), timeout=LONG) as connection:
        connection.sendall(text.replace("%d", str(port)).encode())
        answer = b""
        try:
            while b"\r\n\r\n" not in answer and (data := connection.recv(65536)):
                answer += data
        except ConnectionError:
            pass
        return answer


def test_pages_of_another_origin(stage: Stage) -> None:
    """The gateway's page is for this machine's own names, is read alone, and lets no other page show or read it."""
    stage.open()
    port = stage.door.metrics
    for what, (text, status) in PAGES.items():
        answer = page_says(port, text)
        seen = answer.split(b" ")[1] if answer else b""
        check(seen == status, "%s is answered %r" % (what, answer[:60]))
    head = page_says(port, "GET / HTTP/1.1\r\n" + HOST + "\r\n").lower()
    for words in (
        b"cross-origin-resource-policy: same-origin",
        b"x-content-type-options: nosniff",
        b"frame-ancestors 'none'",
        b"default-src 'none'",
    ):
        check(words in head, "the page's head lacks %r" % words)
    check(b"access-control-allow" not in head, "another origin may read it")


# ---------------------------------------------------------------- the last checkpoint

SWAPPED: dict[str, Callable[[bytes, bytes], bytes]] = {
    "nothing": lambda old, new: b"",
    "half of it": lambda old, new: new[: len(new) // 2],
    "the signature of an older one": lambda old, new: (
        new.split(b"signature ")[0] + b"signature " + old.split(b"signature ")[1]
    ),
}


def test_a_checkpoint_that_is_swapped(stage: Stage) -> None:
    """The file of the last checkpoint is none that a gateway of this log has signed: no start; with its own bytes again the day goes
    on."""
    stage.open(stage.dealer)
    until("there is a checkpoint", LONG, lambda: b"signature " in stage.door.kept.read_bytes())
    old = stage.door.kept.read_bytes()
    stage.ping(stage.dealer)
    check(stage.door.stop() == 0, "the gateway does not end well")
    new = stage.door.kept.read_bytes()
    check(old != new, "the last checkpoint is the one before")
    for swapped in SWAPPED.values():
        stage.door.kept.write_bytes(swapped(old, new))
        stage.refused("no checkpoint of this log")
    stage.door.kept.write_bytes(new)
    stage.door.start()
    stage.door.wait_open()
