"""Faults before there is a session: credentials, firms, and TLS."""

import ssl
import subprocess
from pathlib import Path

from tests.gateway.firm import Firm, Identity
from tests.gateway.stage import DEALER, INVESTOR, LOGON_SECONDS, OTHER, Stage, check, quiet
from tests.gateway.test_messages import on_a_wire
from tests.gateway.wait import LONG, until, within
from tests.gateway.wire import Fields, Wire, a_while_ago, framed, now

SLACK = LONG  # that a limit of the gateway may be late on a busy machine
LOST_STORE = b"lost its store"  # told of an engine that has


def refused_for(reason: str) -> str:
    """The counter of connections that were refused for this reason."""
    return 'mireseason_refused_total{reason="%s"}' % reason


WRONG_PASSWORD, NO_LOGON, SECOND = (
    refused_for("wrong password"),
    refused_for("no Logon"),
    refused_for("second connection"),
)


def test_wrong_password(stage: Stage) -> None:
    """A stock initiator is disconnected without an answer, again and again, and never logged on."""
    stage.open(stage.other)
    stage.dealer = stage.firm(Identity(DEALER.name, DEALER.trader, "another"))
    stage.dealer.start()
    until("it is refused again", LONG, lambda: stage.counters().get(WRONG_PASSWORD, 0) >= 2)
    stage.dealer.look()
    check(stage.dealer.times_on == 0, "it was logged on")
    check(
        not any(message.kind in (b"5", b"A") for message in stage.dealer.admin),
        "it is told something",
    )
    check(stage.entries_of(stage.dealer) == 0, "something of it is in the log")
    stage.dealer.kill()
    stage.dealer = stage.firm(DEALER)
    stage.log_on(stage.dealer)
    stage.ping(stage.dealer)


def test_wrong_password_of_one_away(stage: Stage) -> None:
    """Messages wait for a firm whose password is wrong. It has them all once that is right."""
    stage.open(*stage.firms)
    stage.log_off(stage.dealer)
    stage.ask_of([stage.dealer, stage.other])
    stage.answer(stage.other, "a request", lambda message: message.kind == b"R")
    stage.dealer.who = Identity(DEALER.name, DEALER.trader, "another")
    stage.dealer.start()
    until("it is refused again", LONG, lambda: stage.counters().get(WRONG_PASSWORD, 0) >= 2)
    stage.dealer.kill()
    stage.dealer.who = DEALER
    stage.log_on(stage.dealer)
    stage.answer(stage.dealer, "a request", lambda message: message.kind == b"R")
    stage.auction()
    stage.whole()


def grown(before: dict[str, float], after: dict[str, float]) -> list[str]:
    """Counters of logons that were refused, by what is in their names, that have grown."""
    names = [
        name
        for name in after
        if any(word in name for word in ("refused", "reject", "failed", "wrong"))
    ]
    return [name for name in names if after[name] > before.get(name, 0)]


REFUSED_TIMES = 20


def test_refused_again_and_again(stage: Stage) -> None:
    """A firm's own Logons at fault, one after the other: each is told why under a number of its own, nothing of them is counted, and
    a stock engine that comes after them trades."""
    stage.open(stage.other)
    for count in range(REFUSED_TIMES):
        with Wire(stage.door.port) as wire:
            wire.logon(DEALER.name.encode(), DEALER.password.encode(), heartbeat=b"0")
            logout = wire.read_kind(b"5")
            check(logout is not None and logout.value(58), "no Logout with a text")
            assert logout is not None
            check(logout.session_number == count + 1, "it is %r" % logout.raw)
            wire.raw(wire.message(b"5", DEALER.name.encode(), []))
            check(wire.closed_within(SLACK), "the connection stays")
    check(stage.counters().get(refused_for("heartbeat")) == REFUSED_TIMES, "not all are counted")
    stage.ping(stage.other)
    stage.log_on(stage.dealer)
    stage.ping(stage.dealer)


def test_not_told_where_it_may_miss_a_message(stage: Stage) -> None:
    """The venue owes the firm a message, which a stock engine would lose by a Logout: a Logon at fault is closed without a word, and
    the firm's next one brings the message. Once it has answered a TestRequest behind that, it is told again.
    """
    stage.open(stage.other, stage.investor)
    with on_a_wire(stage) as wire:
        stage.ask_of([stage.dealer, stage.other])
        request = wire.got(b"R")
        number = wire.number
    for _ in range(3):
        with Wire(stage.door.port) as wire:
            wire.number = number
            wire.logon(DEALER.name.encode(), DEALER.password.encode(), heartbeat=b"0")
            check(wire.closed_within(SLACK), "the connection stays")
            check(wire.waiting == b"", "it is told %r" % wire.waiting)
    with on_a_wire(stage, number) as wire:
        wire.raw(wire.message(b"2", DEALER.name.encode(), [(7, b"2"), (16, b"0")]))
        again = wire.got(b"R")
        check(again.session_number == request.session_number, "it is %r" % again.raw)
        wire.ask()
        number = wire.number
    with Wire(stage.door.port) as wire:
        wire.number = number
        wire.logon(DEALER.name.encode(), DEALER.password.encode(), heartbeat=b"0")
        check(wire.read_kind(b"5") is not None, "it is not told")


def test_wrong_passwords_cost_nothing(stage: Stage) -> None:
    """Logons with a wrong password are told nothing, and use up no number, whether or not something waits for the firm."""
    stage.open(stage.other, stage.investor)
    for waits in (False, True):
        if waits:
            stage.ask_of([stage.dealer, stage.other])
            until(
                "the dealer's is in the log",
                LONG,
                lambda: len(stage.door.ledger().sent.get(DEALER.name, [])) == 1,
            )
        for _ in range(12):
            with Wire(stage.door.port) as wire:
                wire.logon(DEALER.name.encode(), b"wrong")
                check(wire.closed_within(SLACK), "the connection stays")
                check(wire.waiting == b"", "it is told %r" % wire.waiting)
    with Wire(stage.door.port) as wire:
        wire.logon(DEALER.name.encode(), DEALER.password.encode())
        answer = wire.read_kind(b"A")
        # What waits for the firm has 2: 1 is left for the answer to its first Logon.
        check(
            answer is not None and answer.session_number == 1,
            "a wrong password has used up a number",
        )
        wire.ask()
    until("all are counted", LONG, lambda: stage.counters().get(WRONG_PASSWORD) == 24)


def test_wrong_words(stage: Stage) -> None:
    """A wrong user, no password, an empty one, and one with any bytes."""
    stage.open(stage.other)
    tries = [
        (b"secret", b"other"),
        (None, None),
        (b"", None),
        (bytes(range(2, 256)), None),
        (OTHER.password.encode(), None),
    ]
    for password, user in tries:
        with Wire(stage.door.port) as wire:
            wire.logon(DEALER.name.encode(), password, user)
            check(wire.closed_within(SLACK), "the connection stays for %r" % password)
            check(wire.waiting == b"", "it is told %r for %r" % (wire.waiting, password))
    counted = {"wrong password": 3, "wrong name": 2}
    until(
        "the operator is told which it was",
        LONG,
        lambda: all(
            stage.counters().get(refused_for(why)) == count for why, count in counted.items()
        ),
    )
    stage.ping(stage.other)
    stage.log_on(stage.dealer)
    stage.ping(stage.dealer)


def test_unknown_firm(stage: Stage) -> None:
    stage.open(stage.other)
    for name in (b"NOBODY", b"VENUE", b"", b"dlr1"):
        before = stage.counters()
        with Wire(stage.door.port) as wire:
            wire.logon(name, b"secret")
            check(wire.closed_within(LOGON_SECONDS + SLACK), "the connection of %r stays" % name)
            check(wire.waiting == b"", "%r was told %r" % (name, wire.waiting))
        until(
            "a counter has grown for %r" % name, LONG, lambda: bool(grown(before, stage.counters()))
        )
    stage.ping(stage.other)


def test_words_of_a_stranger(stage: Stage) -> None:
    """What a stranger says stands within a line of the events: it can't write lines of its own there."""
    stage.open(stage.other)
    with Wire(stage.door.port) as wire:
        wire.logon(b"NOBODY\nstop \x1b[2J", b"secret")
        check(wire.closed_within(LOGON_SECONDS + SLACK), "the connection stays")
    until("it is told", LONG, lambda: b"NOBODY?stop ?[2J" in stage.door.told.read_bytes())
    check(
        not any(line.startswith(b"stop") for line in stage.door.told.read_bytes().split(b"\n")),
        "a line of a stranger",
    )


def test_stranger_in_a_firms_name(stage: Stage) -> None:
    """A Logon in a firm's name that is no message ends its connection at once, one with a wrong password as soon as it is judged, and
    half a one keeps the firm out for no time."""
    stage.door.limits["logon_seconds"] = int(3 * LONG)
    stage.open(stage.other)
    with Wire(stage.door.port) as wrong_sum, Wire(stage.door.port) as no_field, Wire(
        stage.door.port
    ) as half, Wire(stage.door.port) as wrong:
        frame = wrong_sum.message(
            b"A", DEALER.name.encode(), [(98, b"0"), (108, b"30"), (1137, b"9")]
        )
        half.raw(frame[:-8])
        wrong_sum.raw(frame[:-4] + b"999\x01")
        no_field.raw(framed(b"35=A\x0149=DLR1\x0156=VENUE\x0134=1\x0152=%s\x01nothing\x01" % now()))
        wrong.logon(DEALER.name.encode(), b"wrong")
        for wire in (wrong_sum, no_field, wrong):
            check(wire.closed_within(SLACK), "a Logon that is none, or has a wrong password, stays")
            check(wire.waiting == b"", "it is told %r" % wire.waiting)
        until("they are counted", LONG, lambda: stage.counters().get(NO_LOGON) == 2)
        stage.log_on(stage.dealer)
        stage.ping(stage.dealer)
        check(SECOND not in stage.counters(), "the firm was refused as a second connection")
    stage.ping(stage.dealer)


def test_second_connection(stage: Stage) -> None:
    """The first one is asked, answers, and stands."""
    stage.open(stage.dealer)
    times = stage.dealer.times_on
    for _ in range(3):
        with Wire(stage.door.port) as wire:
            wire.logon(DEALER.name.encode(), DEALER.password.encode())
            check(wire.closed_within(LOGON_SECONDS + SLACK), "the second connection stays")
            check(b"\x0135=A\x01" not in wire.waiting, "the second connection was logged on")
        stage.ping(stage.dealer)
    check(
        stage.dealer.is_on and stage.dealer.times_on == times, "the first connection was disturbed"
    )


def test_numbers_are_not_reset(stage: Stage) -> None:
    """141=Y once the venue was given a message of the firm, and an old Logon that comes again under a number that came before: a
    Logout with a text, and the numbers stand."""
    stage.open(stage.other, stage.investor)
    early = now()
    with on_a_wire(stage) as wire:
        cancels(wire)
        number = wire.number
    # It has had all that it was sent, and has said so.
    with on_a_wire(stage, number) as wire:
        wire.ask()
        number = wire.number
    logons: list[tuple[Fields, bytes]] = [([(141, b"Y")], now()), ([], early)]
    for more, sending in logons:
        with Wire(stage.door.port) as wire:
            wire.logon(DEALER.name.encode(), DEALER.password.encode(), more=more, sending=sending)
            message = wire.read_kind(b"5")
            check(message is not None and message.value(58), "no Logout with a text")
            check(wire.closed_within(SLACK), "the connection stays")
    with on_a_wire(stage, number) as wire:
        wire.ask()
    stage.auction([stage.other])


def cancels(wire: Wire) -> None:
    """A cancel of no quote, and its answer."""
    fields = [(50, DEALER.trader.encode()), (298, b"5"), (117, b"none")]
    wire.raw(wire.message(b"Z", DEALER.name.encode(), fields))
    check(wire.read_kind(b"AI") is not None, "no answer to a cancel")


def test_lost_store(stage: Stage) -> None:
    """An engine that lost its store logs on below its number, now: it is kept out until an operator acts, also under the right number
    and after a start of the gateway, and nothing that it sends is taken for what it sent before."""
    stage.open(stage.other, stage.investor)
    with on_a_wire(stage) as wire:
        cancels(wire)
        wire.ask()
        expected = wire.number
    until("its session is over", LONG, lambda: stage.counters()["mireseason_sessions"] == 2)
    for number in (1, 2, expected):
        kept_out(stage, number)
    until("the operator is told", LONG, lambda: LOST_STORE in stage.door.told.read_bytes())
    check(stage.counters().get(refused_for("lost its store"), 0) >= 1, "it is not counted")
    stage.door.kill()
    stage.door.start()
    stage.door.wait_open()
    kept_out(stage, expected)
    until(
        "the session expects what it did",
        LONG,
        lambda: stage.door.ledger().expected.get(DEALER.name) == expected,
    )
    for firm in (stage.other, stage.investor):
        firm.wait_on()
    stage.auction([stage.other])


def kept_out(stage: Stage, number: int) -> None:
    """A Logon of the dealer under this number ends its connection."""
    with Wire(stage.door.port) as wire:
        wire.number = number
        wire.logon(DEALER.name.encode(), DEALER.password.encode())
        check(wire.closed_within(SLACK), "the connection stays")
        check(b"\x0135=A\x01" not in wire.waiting, "it is logged on with number %d" % number)


def test_reset_as_the_first(stage: Stage) -> None:
    """141=Y in the first message of the day is an ordinary Logon."""
    stage.open(stage.other)
    with Wire(stage.door.port) as wire:
        wire.logon(DEALER.name.encode(), DEALER.password.encode(), more=[(141, b"Y")])
        check(wire.read_kind(b"A") is not None, "it is not logged on")
    stage.ping(stage.other)


def test_reset_behind_messages(stage: Stage) -> None:
    """A dealer was sent a request before it came: its first Logon may have 141=Y all the same, and a stock engine has the request. Within
    the day it is refused as ever."""
    stage.open(stage.other, stage.investor)
    stage.ask_of([stage.dealer, stage.other])
    stage.answer(stage.other, "a request", lambda message: message.kind == b"R")
    until(
        "the dealer's is in the log",
        LONG,
        lambda: len(stage.door.ledger().sent.get(DEALER.name, [])) == 1,
    )
    stage.dealer.more = {"ResetOnLogon": "Y"}
    stage.log_on(stage.dealer)
    stage.answer(stage.dealer, "a request", lambda message: message.kind == b"R")
    stage.ping(stage.dealer)
    stage.log_off(stage.dealer)
    stage.dealer.start()
    until("it is refused", LONG, lambda: stage.counters().get(refused_for("reset"), 0) > 0)


def test_reset_behind_a_refusal(stage: Stage) -> None:
    """The first Logon of the day was refused: one with 141=Y is still an ordinary Logon, for a stock engine too."""
    stage.open(stage.other)
    with Wire(stage.door.port) as wire:
        wire.logon(
            DEALER.name.encode(), DEALER.password.encode(), more=[(141, b"Y")], heartbeat=b"0"
        )
        check(wire.read_kind(b"5") is not None, "no Logout")
        check(wire.closed_within(SLACK), "the connection stays")
    with Wire(stage.door.port) as wire:
        wire.logon(INVESTOR.name.encode(), INVESTOR.password.encode(), heartbeat=b"0")
        check(wire.read_kind(b"5") is not None, "no Logout")
        check(wire.closed_within(SLACK), "the connection stays")
    with Wire(stage.door.port) as wire:
        wire.logon(INVESTOR.name.encode(), INVESTOR.password.encode(), more=[(141, b"Y")])
        check(wire.read_kind(b"A") is not None, "it is not logged on")
    stage.dealer.more = {"ResetOnLogon": "Y"}
    stage.log_on(stage.dealer)
    stage.ping(stage.dealer)


def test_heartbeats(stage: Stage) -> None:
    """108 is 1 to 300."""
    stage.open(stage.other)
    for interval in (b"0", b"301", b"-1", b"x", b"4294967326"):
        with Wire(stage.door.port) as wire:
            wire.logon(DEALER.name.encode(), DEALER.password.encode(), heartbeat=interval)
            message = wire.read_kind(b"5")
            check(
                message is not None and message.value(58), "no Logout with a text for %r" % interval
            )
            check(wire.closed_within(SLACK), "the connection stays for %r" % interval)
    with Wire(stage.door.port) as wire:
        wire.logon(DEALER.name.encode(), DEALER.password.encode(), heartbeat=b"300")
        check(wire.read_kind(b"A") is not None, "300 is refused")
    stage.ping(stage.other)


def test_late_logon(stage: Stage) -> None:
    """A Logon whose 52 is more than two minutes from the gateway's clock."""
    stage.open(stage.other)
    before = stage.counters()
    with Wire(stage.door.port) as wire:
        wire.logon(DEALER.name.encode(), DEALER.password.encode(), sending=a_while_ago())
        message = wire.read_kind(b"5")
        check(message is not None and message.value(58), "no Logout with a text")
        check(wire.closed_within(SLACK), "the connection stays")
    until("a counter has grown", LONG, lambda: bool(grown(before, stage.counters())))
    stage.log_on(stage.dealer)
    stage.ping(stage.dealer)


def test_logon_at_fault(stage: Stage) -> None:
    """A Logon that the engine would leave without an answer: 1137 is not 9, or 52 is no moment. Its number is not used up."""
    stage.open(stage.other)
    header = {35: b"A", 49: DEALER.name.encode(), 56: b"VENUE", 34: b"1", 52: b""}
    body = {
        98: b"0",
        108: b"30",
        553: DEALER.name.encode(),
        554: DEALER.password.encode(),
        1137: b"9",
    }
    for tag, value in ((1137, None), (1137, b"7"), (52, None), (52, b"yesterday")):
        before, fields = stage.counters(), header | {52: now()} | body | {tag: value}
        with Wire(stage.door.port) as wire:
            wire.raw(
                framed(
                    b"".join(b"%d=%s\x01" % item for item in fields.items() if item[1] is not None)
                )
            )
            message = wire.read_kind(b"5")
            check(
                message is not None and message.value(58),
                "no Logout with a text where %d is %r" % (tag, value),
            )
            check(wire.closed_within(SLACK), "the connection stays where %d is %r" % (tag, value))
        until(
            "a counter has grown where %d is %r" % (tag, value),
            LONG,
            lambda: bool(grown(before, stage.counters())),
        )
    stage.log_on(stage.dealer)
    stage.ping(stage.dealer)


# ---------------------------------------------------------------- TLS


def openssl(folder: Path, *words: str) -> None:
    subprocess.run(["openssl", *words], cwd=folder, check=True, capture_output=True)


def authority(folder: Path, name: str) -> None:
    openssl(
        folder,
        "req",
        "-x509",
        "-newkey",
        "rsa:2048",
        "-nodes",
        "-keyout",
        name + ".key",
        "-out",
        name + ".pem",
        "-days",
        "2",
        "-subj",
        "/CN=" + name,
    )


def certificate(folder: Path, name: str, common: str, signer: str) -> None:
    """A key and a certificate of this common name by an authority."""
    openssl(
        folder,
        "req",
        "-newkey",
        "rsa:2048",
        "-nodes",
        "-keyout",
        name + ".key",
        "-out",
        name + ".csr",
        "-subj",
        "/CN=" + common,
    )
    openssl(
        folder,
        "x509",
        "-req",
        "-in",
        name + ".csr",
        "-CA",
        signer + ".pem",
        "-CAkey",
        signer + ".key",
        "-CAcreateserial",
        "-days",
        "2",
        "-out",
        name + ".pem",
    )


def with_tls(stage: Stage) -> None:
    """A gateway that asks for certificates, and the keys of its firms and of strangers."""
    folder = stage.folder
    for name in ("authority", "stranger"):
        authority(folder, name)
    certificate(folder, "venue", "localhost", "authority")
    for firm in stage.firms:
        certificate(folder, firm.name, firm.name, "authority")
        secured(firm, folder, firm.name)
    certificate(folder, "strange", DEALER.name, "stranger")
    stage.door.tls = {
        "certificate": '"venue.pem"',
        "key": '"venue.key"',
        "authorities": '"authority.pem"',
        "client_certificates": "true",
    }


def secured(firm: Firm, folder: Path, name: str) -> None:
    firm.tls = True
    firm.more = {
        "CertificationAuthoritiesFile": str(folder / "authority.pem"),
        "ClientCertificateFile": str(folder / (name + ".pem")),
        "ClientCertificateKeyFile": str(folder / (name + ".key")),
        "SSLProtocol": "TLSv1_2",
    }


def context(folder: Path, name: str | None) -> ssl.SSLContext:
    found = ssl.create_default_context(cafile=folder / "authority.pem")
    found.check_hostname = False
    if name:
        found.load_cert_chain(folder / (name + ".pem"), folder / (name + ".key"))
    return found


def test_by_tls(stage: Stage) -> None:
    with_tls(stage)
    stage.open(*stage.firms)
    stage.auction()


def test_tls_begun_anew(stage: Stage) -> None:
    """A client that would resume its TLS, as some engines do, is given a new one each time."""
    with_tls(stage)
    stage.open(stage.investor)
    number = 1
    for version in (ssl.TLSVersion.TLSv1_2, ssl.TLSVersion.TLSv1_3):
        known, begun = context(stage.folder, DEALER.name), None
        known.maximum_version = version
        for _ in range(3):
            with Wire(stage.door.port, known, begun) as wire:
                assert isinstance(wire.socket, ssl.SSLSocket)
                check(not wire.socket.session_reused, "TLS was resumed")
                wire.number = number
                wire.logon(DEALER.name.encode(), DEALER.password.encode())
                check(wire.read_kind(b"A") is not None, "it is not logged on")
                begun, number = wire.socket.session, wire.number
    stage.log_on(stage.other)
    stage.ping(stage.other)


def test_certificate_of_another_firm(stage: Stage) -> None:
    """The right password with another firm's certificate."""
    with_tls(stage)
    stage.open(stage.investor)
    with Wire(stage.door.port, context(stage.folder, OTHER.name)) as wire:
        wire.logon(DEALER.name.encode(), DEALER.password.encode())
        check(wire.closed_within(LOGON_SECONDS + SLACK), "the connection stays")
        check(wire.waiting == b"", "it is told %r" % wire.waiting)
    until(
        "it is counted", LONG, lambda: stage.counters().get(refused_for("wrong certificate")) == 1
    )
    stage.log_on(stage.dealer, stage.other)
    stage.auction()


def test_certificate_of_another_authority(stage: Stage) -> None:
    with_tls(stage)
    stage.open(stage.investor)
    for name in ("strange", None):
        check(not gets_a_logon(stage, name), "it was logged on with the certificate %r" % name)
    stage.log_on(stage.dealer, stage.other)
    stage.auction()


def gets_a_logon(stage: Stage, name: str | None) -> bool:
    """Whether a Logon is answered on a connection with this certificate."""
    try:
        with Wire(stage.door.port, context(stage.folder, name)) as wire:
            wire.logon(DEALER.name.encode(), DEALER.password.encode())
            over = wire.closed_within(LOGON_SECONDS + SLACK)
            check(over or b"\x0135=A\x01" in wire.waiting, "the connection stays without an answer")
            return b"\x0135=A\x01" in wire.waiting
    except (ssl.SSLError, OSError):
        return False


def test_plain_to_tls(stage: Stage) -> None:
    """Plain TCP, and connections that begin no handshake: closed at the limit, and no other handshake waits for them."""
    longest = 60  # seconds: a stock engine has to have logged on by then, on a busy machine too
    stage.door.limits["logon_seconds"] = longest
    with_tls(stage)
    stage.open(stage.investor)
    silent = [Wire(stage.door.port) for _ in range(8)]
    with Wire(stage.door.port) as plain:
        plain.logon(DEALER.name.encode(), DEALER.password.encode())
        stage.dealer.start()
        check(
            within(longest - 1, stage.dealer.logged_on),
            "a handshake waits for connections that begin none",
        )
        check(plain.closed_within(longest + SLACK), "a plain connection stays")
        check(b"35=A" not in plain.waiting, "a plain Logon was answered")
    for wire in silent:
        check(wire.closed_within(longest + SLACK), "a connection without a handshake stays")
        wire.socket.close()
    quiet(stage, [stage.investor], lambda: stage.ping(stage.dealer))
    check(
        INVESTOR.name == stage.investor.name and stage.investor.is_on,
        "another session was disturbed",
    )
