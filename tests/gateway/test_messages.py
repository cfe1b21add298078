"""Messages within a session: what is odd in them, and how they come."""

import socket
import threading

from tests.gateway.firm import Received
from tests.gateway.ledger import answers, fields_of
from tests.gateway.stage import DEALER, Stage, check, quiet
from tests.gateway.wait import LONG, until
from tests.gateway.wire import Fields, Wire, a_while_ago, framed, now

TEXT = 58


def logged(stage: Stage, number: int) -> bytes:
    """The bytes that the venue was given of DLR1's message under this number of the session."""
    entries = [entry for entry in stage.door.ledger().messages_of("DLR1") if entry.number == number]
    check(len(entries) == 1, "%d entries under the session's number %d" % (len(entries), number))
    return entries[0].message


def text_of(message: bytes) -> bytes | None:
    return dict(fields_of(message) or []).get(TEXT)


# ---------------------------------------------------------------- odd messages of stock initiators


def test_every_byte_in_text(stage: Stage) -> None:
    """Each value of a byte but SOH in 58: answered as without it, in the log as it came, and nobody else hears of it."""
    stage.open(*stage.firms)
    cancel: Fields = [(298, b"5"), (117, b"none")]

    def send_all() -> None:
        for byte in range(256):
            if byte == 1:
                continue
            text = b"a" + bytes([byte]) + b"z"
            number = stage.say(stage.dealer, "Z", cancel + [(TEXT, text)])
            until(
                "an entry for the byte %d" % byte,
                LONG,
                lambda: stage.has_entry(stage.dealer, number),
            )
            check(
                text_of(logged(stage, number)) == text,
                "58 with the byte %d is %r in the log" % (byte, logged(stage, number)),
            )

    quiet(stage, [stage.other, stage.investor], send_all)
    until("255 answers", LONG, lambda: len(stage.dealer.looked()) >= 255)
    check(
        {message.value(297) for message in stage.dealer.received} == {b"9"},
        "one of 255 cancels is answered otherwise",
    )
    stage.whole()


def test_another_firms_words(stage: Stage) -> None:
    """Bars, line feeds and lines of steps in 58 are no message of another firm."""
    stage.open(*stage.firms)
    request = stage.ask()
    for dealer in (stage.dealer, stage.other):
        stage.quote(dealer, request)

    def quotes() -> int:
        stage.investor.look()
        return sum(message.kind == b"S" for message in stage.investor.received)

    until("the investor is shown both quotes", LONG, lambda: quotes() == 2)
    texts = [
        b"x\nhex DLR2 09:00:00 00",
        b"x\nsay DLR2 T2 09:00:00 Z 298=4",
        b"x|34=7|",
        b"x\r\n%%\r\n",
        b"\n\n\n",
        b"# x\n#",
        b"x\nclock 23:59:59\n",
    ]

    def send_all() -> None:
        for text in texts:
            stage.say(stage.dealer, "Z", [(298, b"5"), (117, b"none"), (TEXT, text)])
        stage.ping(stage.dealer)

    quiet(stage, [stage.other, stage.investor], send_all)
    stage.whole()


def rejected(stage: Stage, number: int) -> bool:
    """Whether the gateway itself has rejected DLR1's message under this number of the session."""
    stage.dealer.look()
    return any(
        message.kind == b"3" and message.value(45) == b"%d" % number
        for message in stage.dealer.admin
    )


def test_five_thousand_bytes(stage: Stage) -> None:
    """No frame of the venue's: rejected by the gateway, not in the log, and the next message is answered as ever."""
    stage.open(*stage.firms)
    for size in (5000, 4097, 10_000):
        number = stage.say(stage.dealer, "Z", [(298, b"5"), (117, b"none"), (TEXT, b"x" * size)])
        stage.ping(stage.dealer)
        check(rejected(stage, number), "the message with a 58 of %d bytes is not rejected" % size)
        check(
            all(entry.number != number for entry in stage.door.ledger().messages_of("DLR1")),
            "it is in the log",
        )
    stage.ping(stage.other)
    stage.whole()


def test_about_the_longest_frame(stage: Stage) -> None:
    """Messages that the gateway's framing makes a frame, or no frame any more: the venue's number follows the venue."""
    stage.open(*stage.firms)
    numbers = [
        stage.say(stage.dealer, "Z", [(298, b"5"), (117, b"none"), (TEXT, b"x" * size)])
        for size in range(3950, 4030)
    ]
    stage.ping(stage.dealer)
    answers_to = sum(message.value(117) == b"none" for message in stage.dealer.received)
    check(0 < answers_to < 80, "%d of 80 were answered" % answers_to)
    check(
        [rejected(stage, number) for number in numbers]
        == [False] * answers_to + [True] * (80 - answers_to),
        "others were rejected",
    )
    longest = max(len(entry.message) for entry in stage.door.ledger().messages_of("DLR1"))
    check(longest == 4096, "the longest that was taken has %d bytes" % longest)
    stage.door.kill()
    stage.door.start()
    stage.dealer.wait_on()
    stage.ping(stage.dealer)
    stage.whole()


def test_microseconds(stage: Stage) -> None:
    stage.dealer.more = {"TimestampPrecision": "6"}
    stage.other.more = {"TimestampPrecision": "9"}
    stage.open(*stage.firms)
    stage.auction()
    for firm in (stage.dealer, stage.other):
        for entry in stage.door.ledger().messages_of(firm.name):
            sending = dict(fields_of(entry.message))[52]
            check(len(sending) == len("20250314-09:00:00.000"), "52 is %r in the log" % sending)
    stage.whole()


def test_poss_resend(stage: Stage) -> None:
    """A message by 97=Y is a new one, and the venue judges it: its 117 was used."""
    stage.open(*stage.firms)
    request = stage.ask()
    name = stage.quote(stage.dealer, request)
    number = stage.say(stage.dealer, "S", [(97, b"Y")] + stage.quote_fields(request, name))
    answer = stage.answer(stage.dealer, "a refusal", lambda message: message.value(300) is not None)
    check((answer.value(297), answer.value(300)) == (b"5", b"6"), "it is answered %r" % answer.raw)
    check(97 not in dict(fields_of(logged(stage, number))), "97 is in the log's frame")
    stage.whole()


def test_unknown_trader(stage: Stage) -> None:
    """The venue's Reject names the session's number, also after a message that never came to the venue."""
    stage.open(*stage.firms)
    stage.ping(stage.dealer)
    stage.say(stage.dealer, "Z", [(298, b"5"), (117, b"none"), (TEXT, b"x" * 5000)])
    number = stage.say(stage.dealer, "Z", [(298, b"4")], trader="T9")
    reject = stage.answer(stage.dealer, "a Reject", lambda message: message.kind == b"3")
    check(
        (reject.value(45), reject.value(371)) == (b"%d" % number, b"50"),
        "it is %r, of the session's %d" % (reject.raw, number),
    )
    stage.whole()


# ---------------------------------------------------------------- what no stock engine sends


def on_a_wire(stage: Stage, number: int = 1, heartbeat: bytes = b"30") -> Wire:
    """A session of DLR1 that begins with this number of its own, and is ready."""
    wire = Wire(stage.door.port)
    wire.number = number
    wire.logon(DEALER.name.encode(), DEALER.password.encode(), heartbeat=heartbeat)
    check(wire.read_kind(b"A") is not None, "no Logon on a wire")
    check(wire.read_kind(b"1") is not None, "no TestRequest after a Logon")
    return wire


def cancel(name: bytes) -> Fields:
    return [(50, DEALER.trader.encode()), (298, b"5"), (117, name)]


def answered(wire: Wire, name: bytes) -> Received:
    """The venue's answer to a cancel of this name."""
    message = wire.got_until(lambda message: message.value(117) == name)
    check(message is not None, "no answer to %r" % name)
    return message


def test_poss_dup(stage: Stage) -> None:
    """43=Y under a number that came before is dropped, and is not in the log again."""
    stage.open(stage.other, stage.investor)
    with on_a_wire(stage) as wire:
        number = wire.number
        wire.raw(wire.message(b"Z", b"DLR1", cancel(b"one")))
        answered(wire, b"one")
        again = [(43, b"Y"), (122, now())] + cancel(b"one")
        wire.raw(wire.message(b"Z", b"DLR1", again, number=number))
        wire.raw(wire.message(b"Z", b"DLR1", cancel(b"two")))
        check(answered(wire, b"two").value(297) == b"9", "the next is not answered as ever")
        check(stage.entries_of(stage.dealer) == 2, "%d entries" % stage.entries_of(stage.dealer))
    stage.whole()


def test_wrong_clock(stage: Stage) -> None:
    """A 52 of more than two minutes ago is rejected by the session, which is logged out; the next one goes on."""
    stage.open(stage.other, stage.investor)
    with on_a_wire(stage) as wire:
        number = wire.number
        wire.raw(wire.message(b"Z", b"DLR1", cancel(b"late"), sending=a_while_ago()))
        reject = wire.got(b"3")
        check(reject is not None and reject.value(1181) is None, "no Reject of the session")
        check(
            (reject.value(45), reject.value(373)) == (b"%d" % number, b"10"),
            "it is %r" % reject.raw,
        )
        check(wire.read_kind(b"5") is not None, "no Logout")
        number = wire.number
    check(stage.entries_of(stage.dealer) == 0, "it is in the log")
    with on_a_wire(stage, number) as wire:
        wire.raw(wire.message(b"Z", b"DLR1", cancel(b"next")))
        check(answered(wire, b"next").value(297) == b"9", "the next is not answered as ever")
    stage.whole()


def test_fields_of_no_use(stage: Stage) -> None:
    """58, 60 and 1128 are taken, and ignored by the venue; without a trader the venue rejects."""
    stage.open(stage.other, stage.investor)
    with on_a_wire(stage) as wire:
        number = wire.number
        wire.raw(
            wire.message(
                b"Z", b"DLR1", [(1128, b"9"), *cancel(b"one"), (60, now()), (TEXT, b"text")]
            )
        )
        check(answered(wire, b"one").value(297) == b"9", "it is not answered as ever")
        check(
            {58, 60, 1128} <= set(dict(fields_of(logged(stage, number)))),
            "a field is not in the log",
        )
        number = wire.number
        wire.raw(wire.message(b"Z", b"DLR1", [(298, b"4")]))
        reject = wire.got(b"3")
        check(reject is not None and reject.value(1181), "no Reject of the venue")
        check(
            (reject.value(45), reject.value(371), reject.value(373))
            == (b"%d" % number, b"50", b"1"),
            "it is %r" % reject.raw,
        )
    stage.whole()


def test_no_frames(stage: Stage) -> None:
    """A wrong sum is passed over, and its number not used; what is no frame otherwise is rejected by the session, and its number is
    used. None of it is in the log, and the session goes on."""
    stage.open(stage.other, stage.investor)
    head = b"35=Z\x0149=DLR1\x0156=VENUE\x0134=%d\x0152=%s\x01"
    odd: list[tuple[bytes, tuple[bytes | None, bytes]]] = [
        (b"nothing\x01", (b"52", b"17")),
        (b"=x\x01", (None, b"0")),
        (b"58=a\x01b\x01", (b"58", b"17")),
        (b"35=0\x01", (b"35", b"13")),
        (b"8=FIX.4.2\x01", (b"8", b"13")),
        (b"58=x", (b"58", b"6")),
    ]
    with on_a_wire(stage) as wire:
        wire.raw(wire.message(b"Z", b"DLR1", cancel(b"x"), number=wire.number)[:-4] + b"999\x01")
        for place, (tail, fault) in enumerate(odd):
            number, wire.number = wire.number, wire.number + 1
            wire.raw(framed(head % (number, now()) + tail))
            reject = wire.got_until(lambda message: message.value(45) == b"%d" % number)
            check(
                reject is not None and (reject.kind, reject.value(1181)) == (b"3", None),
                "no Reject of the session for %r" % tail,
            )
            check((reject.value(371), reject.value(373)) == fault, "it is %r" % reject.raw)
            wire.raw(wire.message(b"Z", b"DLR1", cancel(b"n%d" % place)))
            check(
                answered(wire, b"n%d" % place).value(297) == b"9",
                "the message after %r is not answered" % tail,
            )
    check(stage.entries_of(stage.dealer) == len(odd), "%d entries" % stage.entries_of(stage.dealer))
    stage.whole()


def test_no_numbers_of_the_venue(stage: Stage) -> None:
    """What is no frame of the venue's uses up no number of its own: tags that are no tags, and those of a frame."""
    stage.open(stage.other, stage.investor)
    tails = [b"0117=x\x01", b"1234567890=x\x01", b"8=x\x01", b"9=5\x01", b"5000=\x01"]
    with on_a_wire(stage) as wire:
        for place, tail in enumerate(tails):
            wire.raw(wire.message(b"Z", b"DLR1", cancel(b"x"), tail=tail))
            name = b"n%d" % place
            wire.raw(wire.message(b"Z", b"DLR1", cancel(name)))
            message = answered(wire, name)
            check(message.value(297) == b"9", "after %r the answer is %r" % (tail, message.raw))
    ledger = stage.door.ledger()
    wanted = answers(list(stage.door.programs.venue), ledger.day())["DLR1"]
    check(
        not any(b"\x01371=34\x01" in frame for frame in wanted),
        "the venue was given a number that it does not expect",
    )
    stage.whole()


def test_no_number(stage: Stage) -> None:
    """A message without a number, with two, or with one that is none: the session is logged out with a text, and no number is used."""
    stage.open(stage.other, stage.investor)
    number = 1
    for numbers in (
        b"",
        b"34=%d\x0134=%d\x01",
        b"34=x%d\x01",
        b"34=429496729%d\x01",
        b"34=-%d\x01",
    ):
        with on_a_wire(stage, number) as wire:
            number = wire.number
            told = numbers % ((number,) * numbers.count(b"%d"))
            wire.raw(
                framed(
                    b"35=Z\x0149=DLR1\x0156=VENUE\x01"
                    + told
                    + b"52=%s\x0150=T1\x01298=4\x01" % now()
                )
            )
            wire.raw(wire.message(b"Z", b"DLR1", cancel(b"behind"), number=number))
            message = wire.got(b"5")
            check(message is not None and message.value(58), "no Logout with a text for %r" % told)
            check(wire.closed_within(LONG), "the connection stays for %r" % told)
    check(stage.entries_of(stage.dealer) == 0, "%d entries" % stage.entries_of(stage.dealer))
    stage.whole()


def without(wire: Wire, tag: int) -> Received:
    """A cancel that lacks a field of its header, and the session's Reject of it."""
    number, fields = wire.number, fields_of(wire.message(b"Z", b"DLR1", cancel(b"x")))
    wire.raw(framed(b"".join(b"%d=%s\x01" % item for item in fields if item[0] != tag)))
    reject = wire.got_until(lambda message: message.value(45) == b"%d" % number)
    check(
        (reject.kind, reject.value(1181)) == (b"3", None),
        "without %d: no Reject of the session" % tag,
    )
    return reject


def test_no_time(stage: Stage) -> None:
    """Without 52 the session rejects: its number is used up, and the venue's is not."""
    stage.open(stage.other, stage.investor)
    with on_a_wire(stage) as wire:
        reject = without(wire, 52)
        check((reject.value(371), reject.value(373)) == (b"52", b"1"), "it is %r" % reject.raw)
        wire.raw(wire.message(b"Z", b"DLR1", cancel(b"next")))
        check(answered(wire, b"next").value(297) == b"9", "the next is not answered as ever")
        check(stage.entries_of(stage.dealer) == 1, "%d entries" % stage.entries_of(stage.dealer))
    stage.whole()


def test_no_name(stage: Stage) -> None:
    """Without 49 or 56 a message is no more the firm's than with another's: a Reject that uses up its number, and a Logout."""
    stage.open(stage.other, stage.investor)
    number = 1
    for tag in (49, 56):
        with on_a_wire(stage, number) as wire:
            reject = without(wire, tag)
            check(
                (reject.value(371), reject.value(373)) == (b"%d" % tag, b"9"),
                "it is %r" % reject.raw,
            )
            check(wire.read_kind(b"5") is not None, "no Logout")
            number = wire.number
    with on_a_wire(stage, number) as wire:
        wire.raw(wire.message(b"Z", b"DLR1", cancel(b"next")))
        check(answered(wire, b"next").value(297) == b"9", "the next is not answered as ever")
        check(stage.entries_of(stage.dealer) == 1, "%d entries" % stage.entries_of(stage.dealer))
    stage.whole()


def test_faster_than_the_log(stage: Stage) -> None:
    """Thousands of messages at once, on a slow disk: read no faster than they are committed, and others are served."""
    stage.door.environment = {"LD_PRELOAD": str(stage.tools.shim), "DISK_SLOW": "20"}
    stage.door.limits["bytes_burst"] = (
        2**26
    )  # else it is the firm's rate that holds it, and not the log
    stage.open(stage.other, stage.investor)
    # A slow venue answers for minutes, in which the firm says nothing.
    with on_a_wire(stage, heartbeat=b"300") as wire:
        before, count = (
            stage.memory(),
            8000,
        )  # 50 MB of lines, of which a gateway keeps some four times 4 MiB, and more of a slow venue

        def send() -> None:
            # Each is made as it is sent: the gateway takes no 52 that is two minutes old.
            for number in range(count):
                wire.raw(
                    wire.message(b"Z", b"DLR1", cancel(b"c%d" % number) + [(TEXT, b"x" * 3000)])
                )

        sender = threading.Thread(target=send)
        sender.start()
        stage.ping(stage.other)
        # The second implementation answers a hundred a second, and a busy machine has fewer.
        last = wire.read_until(
            lambda message: message.value(117) == b"c%d" % (count - 1), 10 * LONG
        )
        state = "has ended" if wire.is_over else "stands"
        check(last is not None, "the last is not answered, and the connection %s" % state)
        sender.join()
        check(
            stage.memory() - before < 60 * 2**20,
            "%d bytes of memory more" % (stage.memory() - before),
        )
    check(
        stage.entries_of(stage.dealer) == count,
        "%d of %d are in the log" % (stage.entries_of(stage.dealer), count),
    )
    stage.whole()


def test_longer_than_may_be(stage: Stage) -> None:
    """A message past 65,536 bytes ends the connection with a Logout, and memory does not grow with it."""
    stage.open(stage.other, stage.investor)
    with on_a_wire(stage) as wire:
        before = stage.memory()
        wire.raw(b"8=FIXT.1.1\x019=900000000\x0135=Z\x0149=DLR1\x01")
        taken = sum(wire.raw(b"z" * 65536) for _ in range(1024) if not wire.closed_within(0))
        check(taken < 1024 or wire.closed_within(LONG), "64 MiB are taken")
        check(
            stage.memory() - before < 24 * 2**20,
            "%d bytes of memory more" % (stage.memory() - before),
        )
        number = wire.number
    with on_a_wire(stage, number) as wire:
        wire.ask()
    stage.ping(stage.other)


def test_one_that_does_not_read(stage: Stage) -> None:
    """A firm that takes no byte is disconnected at a limit, the others are served, and it is sent all at its next Logon."""
    stage.door.limits["send_seconds"] = 2
    stage.open(stage.other, stage.investor)
    with on_a_wire(stage) as wire:
        wire.socket.setsockopt(1, 8, 2048)  # SOL_SOCKET, SO_RCVBUF
        count = 0
        while count < 3000 and wire.raw(wire.message(b"Z", b"DLR1", cancel(b"x" * 40))):
            count += 1
        stage.ping(stage.other)
        check(stage.memory() < 512 * 2**20, "%d bytes of memory" % stage.memory())
    stage.auction([stage.other])


def test_asks_and_does_not_read(stage: Stage) -> None:
    """A firm that asks for all again, takes none of it, and goes on sending: the gateway waits for it without work, and ends
    the connection at the limit."""
    seconds, count = 8, 1000
    stage.door.limits["send_seconds"] = seconds
    stage.open(stage.other, stage.investor)
    with on_a_wire(stage) as wire:
        wire.raw(
            b"".join(
                wire.message(b"Z", b"DLR1", cancel(b"c%d" % number)) for number in range(count)
            )
        )
        last = b"c%d" % (count - 1)
        check(
            wire.read_until(lambda message: message.value(117) == last) is not None,
            "the last is not answered",
        )
        wire.socket.setsockopt(socket.SOL_SOCKET, socket.SO_RCVBUF, 2048)
        before = stage.worked()
        wire.raw(b"".join(wire.message(b"2", b"DLR1", [(7, b"1"), (16, b"0")]) for _ in range(100)))
        wire.raw(b"".join(wire.message(b"0", b"DLR1", []) for _ in range(200)))
        until(
            "its connection has ended",
            LONG,
            lambda: stage.counters()["mireseason_connections"] == 2,
        )
        worked = stage.worked() - before
        check(
            worked < seconds / 2 or not stage.tools.measures,
            "the gateway has worked for %.1f s" % worked,
        )
    stage.whole()
