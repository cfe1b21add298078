"""Certificates that are nearly a firm's, and handshakes that are none."""

import ssl
import struct
import subprocess
from functools import partial
from pathlib import Path

from tests.gateway.stage import INVESTOR, LOGON_SECONDS, OTHER, Stage, check
from tests.gateway.strangers import CLOSED, NAME, WAYS, body_of, firm_away, told_printable, trades
from tests.gateway.test_logon import certificate, context
from tests.gateway.test_strangers import unchanged
from tests.gateway.wait import LONG, until
from tests.gateway.wire import Wire, framed

CERTIFICATE = WAYS[2]


def signed_anew(folder: Path, name: str, old: bytes, new: bytes) -> None:
    """Changes bytes of a certificate for as many others, and signs it by the authority again."""
    pem = (folder / (name + ".pem")).read_text()
    der = ssl.PEM_cert_to_DER_cert(pem)
    length = (
        4 + struct.unpack(">H", der[6:8])[0]
    )  # of the part that is signed, a SEQUENCE of long form
    part = der[4 : 4 + length].replace(old, new)
    (folder / "part").write_bytes(part)
    words = ["openssl", "dgst", "-sha256", "-sign", "authority.key", "part"]
    signature = subprocess.run(words, cwd=folder, check=True, capture_output=True).stdout
    whole = der[:4] + part + der[4 + length : -len(signature)] + signature
    (folder / (name + ".pem")).write_text(ssl.DER_cert_to_PEM_cert(whole))


# What stands behind `/CN=` of a certificate, and bytes of it that are changed before the authority signs it.
CERTIFICATES = {
    "two names": ("INV1/CN=DLR2", b"", b""),
    "two names, the other way": ("DLR2/CN=INV1", b"", b""),
    "the same name twice": ("INV1/CN=INV1", b"", b""),
    "a zero byte": ("INV1Xevil", b"INV1Xevil", b"INV1\x00evil"),
    "a zero byte at the end": ("INV1X", b"INV1X", b"INV1\x00"),
    "two bytes a letter": ("ABCDEFGH", b"\x0c\x08ABCDEFGH", b"\x1e\x08\0I\0N\0V\x001"),
    "a space": ("INV1 ", b"", b""),
    "small letters": ("inv1", b"", b""),
    "no name": (
        "INV1",
        b"\x06\x03\x55\x04\x03",
        b"\x06\x03\x55\x04\x0a",
    ),  # 2.5.4.3 becomes 2.5.4.10
    "words of its own": ("x X stop firm=DLR1", b"x X stop", b"x\n\x1b[stop"),
    "quotation marks": ('" firm="DLR1', b"", b""),
}


def test_odd_certificates(stage: Stage) -> None:
    """The right password by certificates that are nearly the firm's: refused without a byte, and told in printable words."""
    scene = firm_away(stage, CERTIFICATE)
    for place, (_, (subject, old, new)) in enumerate(CERTIFICATES.items()):
        certificate(stage.folder, "odd%d" % place, subject, "authority")
        if old:
            signed_anew(stage.folder, "odd%d" % place, old, new)

    def once(name: str, number: int) -> int:
        with Wire(stage.door.port, context(stage.folder, name)) as wire:
            wire.number = number
            wire.logon(NAME, INVESTOR.password.encode())
            check(wire.closed_within(CLOSED), "the connection stays by %s" % name)
            check(wire.waiting == b"", "%s is told %r" % (name, wire.waiting))
        return 1

    for place in range(len(CERTIFICATES)):
        unchanged(stage, partial(once, "odd%d" % place, scene.next))
    told_printable(stage)
    trades(stage, stage.investor, scene.quote)
    stage.whole()


# ---------------------------------------------------------------- handshakes


def hello(folder: Path) -> bytes:
    """The first bytes of a handshake, as a client says them."""
    coming, going = ssl.MemoryBIO(), ssl.MemoryBIO()
    talk = context(folder, None).wrap_bio(coming, going, server_hostname="localhost")
    try:
        talk.do_handshake()
    except ssl.SSLWantReadError:
        pass
    return going.read()


def test_half_handshakes(stage: Stage) -> None:
    """Handshakes that stop, that are none, and such as are begun again: each ends at the limit at the latest, and nobody waits."""
    scene = firm_away(stage, CERTIFICATE)
    first = hello(stage.folder)
    tries = [
        b"",
        first[:3],
        first[:60],
        first,
        first[:-1] + b"x",
        first * 3,
        b"\x16\x03\x01\xff\xff" + b"x" * 70000,
        b"\x15\x03\x03\x00\x02\x01\x00" * 1000,
        framed(
            body_of(
                "35=A|49=NAME|56=VENUE|34=NEXT|52=NOW|98=0|108=30|1137=9|553=NAME|554=x|", scene
            )
        ),
        b"GET / HTTP/1.1\r\n\r\n",
    ]

    def all_of_them() -> int:
        wires = [Wire(stage.door.port) for _ in tries]
        for wire, data in zip(wires, tries):
            wire.raw(data)
        for wire, data in zip(wires, tries):
            check(
                wire.closed_within(LOGON_SECONDS + CLOSED), "the connection of %r stays" % data[:20]
            )
            check(b"35=" not in wire.waiting, "it is told %r" % wire.waiting)
            wire.socket.close()
        return len(tries)

    unchanged(stage, all_of_them)
    silent_by_certificate(stage)
    begun_again(stage)
    trades(stage, stage.investor, scene.quote)
    stage.whole()


def silent_by_certificate(stage: Stage) -> None:
    """A whole handshake and no word after it."""
    with CERTIFICATE.connect(stage) as wire:
        check(wire.closed_within(LOGON_SECONDS + CLOSED), "the connection stays")
        check(wire.waiting == b"", "it is told %r" % wire.waiting)


def begun_again(stage: Stage) -> None:
    """A client that negotiates anew within a connection of TLS 1.2, and one that wants new keys without end in 1.3: no Logon, so it ends."""
    for version, order in (("-tls1_2", b"R\n" * 3), ("-tls1_3", b"K\n" * 2000)):
        words = [
            "openssl",
            "s_client",
            "-connect",
            "127.0.0.1:%d" % stage.door.port,
            version,
            "-cert",
            OTHER.name + ".pem",
            "-key",
            OTHER.name + ".key",
            "-CAfile",
            "authority.pem",
        ]
        client = subprocess.Popen(
            words,
            cwd=stage.folder,
            stdin=subprocess.PIPE,
            stdout=subprocess.DEVNULL,
            stderr=subprocess.DEVNULL,
        )
        assert client.stdin is not None
        try:
            client.stdin.write(order)
            client.stdin.flush()
        except BrokenPipeError:
            pass
        until(
            "a client that begins again ends",
            LOGON_SECONDS + LONG,
            lambda: client.poll() is not None,
        )
        client.stdin = None
