"""Credentials and certificates that the gateway reads again while it runs, and from where a firm may come."""

import os
import re
import ssl
import subprocess
import time
import urllib.request
from datetime import datetime, timedelta, timezone
from pathlib import Path

import pytest

from tests.gateway.door import today
from tests.gateway.stage import DEALER, Stage
from tests.gateway.strangers import with_tls
from tests.gateway.test_configuration import checked
from tests.gateway.test_logon import context, refused_for
from tests.gateway.wait import LONG, until
from tests.gateway.wire import Wire
from tests.harness.budget import seconds_of
from tests.limits.flood import cancel, hang_up, logged_on

GUESSES = 10
LONGEST_PAUSE = 0.25  # seconds: what each wrong password after the fifth makes the next one wait
GONE = b"the credentials of this session are not valid any more"


def renew(stage: Stage, words: str = "were read again") -> None:
    """Has the gateway read them again, and waits until it has said so."""
    told = len(stage.door.told.read_bytes())
    hang_up(stage)
    until("they are read", LONG, lambda: words in stage.door.told.read_bytes()[told:].decode())


def edit(stage: Stage, old: str, new: str, count: int = 1) -> None:
    file = stage.door.folder / "credentials.toml"
    text = file.read_text()
    assert old in text
    file.write_text(text.replace(old, new, count))


def without(stage: Stage, firm: str) -> None:
    """Takes a firm out of the credentials."""
    file = stage.door.folder / "credentials.toml"
    parts = re.split(r"(?=^\[)", file.read_text(), flags=re.M)
    file.write_text("".join(part for part in parts if not part.startswith("[%s]" % firm)))


def test_only_who_has_lost_its_credentials_is_logged_out(stage: Stage) -> None:
    """SIGHUP: one firm's credentials are gone, and it is told so and stays out; the others' sessions go on; a file that is at fault
    changes nothing."""
    stage.open(stage.other, stage.investor)
    with logged_on(stage, DEALER) as wire:
        on = stage.other.times_on
        edit(stage, "[DLR1]", "[DLR1]\nnothing = 1")
        renew(stage, "stay as they were")
        edit(stage, "nothing = 1", "")
        without(stage, "DLR1")
        renew(stage)
        logout = wire.read_kind(b"5")
        assert logout is not None and logout.value(58) == GONE, "it is told %r" % logout
        assert wire.closed_within(LONG)
        number = wire.number
    with Wire(stage.door.port) as again:
        again.number = number
        again.logon(b"DLR1", DEALER.password.encode())
        assert again.closed_within(LONG) and not again.waiting
    stage.ping(stage.other)
    assert stage.other.times_on == on, "another firm's session was ended"
    assert not stage.door.has_ended()


def ended_within(wire: Wire, limit: float) -> bool:
    """Whether a connection ends within this time that answers each TestRequest: one that has a session stays."""
    end = time.monotonic() + limit
    while not wire.is_over and time.monotonic() < end:
        wire.read(end - time.monotonic())
    return wire.is_over


def test_a_logon_that_waits_has_no_old_credentials(stage: Stage) -> None:
    """It waits for the firm's old connection, and the firm's credentials are taken away meanwhile: the old session ends, and what
    waited gets none."""
    stage.open(stage.other)
    with logged_on(stage, DEALER) as old, Wire(stage.door.port) as second:
        old.answers = False
        second.number = old.number
        without(stage, "DLR1")
        assert second.logon(b"DLR1", DEALER.password.encode())
        assert second.raw(cancel(second, second.number))
        old.got(b"1")  # it is asked whether it is alive, and says nothing
        renew(stage)
        assert old.closed_within(LONG), "the old connection stays"
        assert ended_within(second, LONG), "it is logged on by credentials that are gone"
    stage.ping(stage.other)


def test_credentials_end_on_a_date(stage: Stage) -> None:
    """The last day is one on which they hold, and the day after is none."""
    stage.open(stage.other)
    with logged_on(stage, DEALER) as wire:
        edit(stage, "[DLR1]", '[DLR1]\nends = "%s"' % today())
        renew(stage)
        wire.ask()
        yesterday = datetime.now(timezone.utc) - timedelta(days=1)
        edit(stage, today(), yesterday.strftime("%Y%m%d"))
        renew(stage)
        logout = wire.read_kind(b"5")
        assert logout is not None and logout.value(58) == GONE
        number = wire.number
    with Wire(stage.door.port) as again:
        again.number = number
        again.logon(b"DLR1", DEALER.password.encode())
        assert again.closed_within(LONG) and not again.waiting
    until(
        "it is told",
        LONG,
        lambda: 'refused what="credentials have ended" firm=DLR1' in stage.door.told.read_text(),
    )
    stage.ping(stage.other)


def test_addresses_are_taken_back(stage: Stage) -> None:
    """A firm that is in from an address that is not its own any more is logged out, and one whose address is still its own stays."""
    stage.open(stage.other)
    with logged_on(stage, DEALER) as wire:
        on = stage.other.times_on
        edit(stage, "[DLR2]", '[DLR2]\naddresses = ["127.0.0.0/8"]')
        edit(stage, "[DLR1]", '[DLR1]\naddresses = ["127.0.0.0/8", "192.0.2.7"]')
        renew(stage)
        wire.ask()
        edit(stage, '"127.0.0.0/8", ', "")
        renew(stage)
        logout = wire.got(b"5")
        assert logout.value(58) == GONE, "it is told %r" % logout.raw
        assert wire.closed_within(LONG)
    stage.ping(stage.other)
    assert stage.other.times_on == on, "another firm's session was ended"


def test_addresses_that_are_no_firms(stage: Stage) -> None:
    """Whoever comes from an address of no firm is refused before a password is judged, however many they are; a firm that comes from
    another firm's address is refused too."""
    stage.door.limits |= {"strangers": 256}
    stage.door.write()
    edit(stage, "[DLR1]", '[DLR1]\naddresses = ["127.0.0.9"]')
    for name in ("DLR2", "INV1"):
        edit(stage, "[%s]" % name, '[%s]\naddresses = ["127.0.0.1", "192.0.2.0/24"]' % name)
    stage.door.start()
    stage.door.wait_open()
    with Wire(stage.door.port, source="127.0.0.1") as wire:
        wire.logon(b"DLR1", DEALER.password.encode())
        assert (
            wire.closed_within(LONG) and not wire.waiting
        ), "DLR1 comes from an address that is not its own"
    with Wire(stage.door.port, source="127.0.0.9") as wire:
        wire.logon(b"DLR1", DEALER.password.encode())
        assert wire.read_kind(b"A") is not None, "DLR1 does not come from its own address"
    worked = stage.worked()
    for at in range(100):
        with Wire(stage.door.port, source="127.0.1.%d" % (at + 1)) as wire:
            wire.logon(b"DLR2", b"guess")
            assert wire.closed_within(LONG) and not wire.waiting
    spent = stage.worked() - worked
    assert spent < 1.5 or not stage.tools.measures, (
        "100 strangers cost %.1f s of a processor: their passwords are hashed" % spent
    )
    until(
        "they are counted",
        LONG,
        lambda: stage.counters().get(refused_for("wrong address"), 0) >= 101,
    )
    stage.log_on(stage.other)
    stage.ping(stage.other)


def guess(stage: Stage) -> None:
    """Wrong passwords one after the other, GUESSES of them."""
    for _ in range(GUESSES):
        with Wire(stage.door.port) as wire:
            wire.logon(b"DLR1", b"guess")
            assert wire.closed_within(LONG) and not wire.waiting


def test_wrong_passwords_are_counted_and_cost_time(stage: Stage) -> None:
    """By firm in the metrics, by address in an event at the tenth; each makes the next one wait longer to be judged."""
    stage.open(stage.other)
    guess(stage)
    until(
        "they are counted",
        LONG,
        lambda: stage.counters().get('mireseason_wrong_passwords_total{firm="DLR1"}') == 10,
    )
    until(
        "it is told",
        LONG,
        lambda: "wrong passwords address=127.0.0.1 count=10 firm=DLR1"
        in stage.door.told.read_text(),
    )
    took = seconds_of(lambda: guess(stage))
    assert took >= (GUESSES - 1) * LONGEST_PAUSE, "%d more took %.2f s" % (GUESSES, took)
    stage.log_on(stage.dealer)
    stage.ping(stage.dealer)


def openssl(folder: Path, *words: str) -> None:
    subprocess.run(["openssl", *words], cwd=folder, check=True, capture_output=True)


def revoked_list(folder: Path, *names: str) -> None:
    """A list of the authority's that takes these certificates back."""
    (folder / "ca.cnf").write_text(
        "[ca]\ndefault_ca = own\n[own]\ndatabase = index.txt\ndefault_md = sha256\n"
        "default_crl_days = 2\ncrlnumber = crlnumber\ncertificate = authority.pem\nprivate_key = authority.key\n"
    )
    if not (folder / "index.txt").exists():
        (folder / "index.txt").write_text("")
        (folder / "crlnumber").write_text("01\n")
    for name in names:
        openssl(folder, "ca", "-config", "ca.cnf", "-revoke", name + ".pem")
    openssl(folder, "ca", "-config", "ca.cnf", "-gencrl", "-out", "revoked.pem")


def end_of_list(folder: Path) -> float:
    """When the list ends, as openssl says it."""
    words = ["openssl", "crl", "-in", str(folder / "revoked.pem"), "-noout", "-nextupdate"]
    told = subprocess.run(words, capture_output=True, text=True, check=True).stdout.strip()
    return ssl.cert_time_to_seconds(told.partition("=")[2])


def list_until(stage: Stage, begins: timedelta, ends: timedelta) -> None:
    """A list of the authority's, of this time, seen from now."""
    now = datetime.now(timezone.utc)
    revoked_list(stage.folder)
    openssl(
        stage.folder,
        *("ca", "-config", "ca.cnf", "-gencrl", "-out", "revoked.pem"),
        *("-crl_lastupdate", (now + begins).strftime("%Y%m%d%H%M%SZ")),
        *("-crl_nextupdate", (now + ends).strftime("%Y%m%d%H%M%SZ")),
    )


def ready(stage: Stage) -> str:
    """What /ready says."""
    address = "http://127.0.0.1:%d/ready" % stage.door.metrics
    with urllib.request.urlopen(address, timeout=LONG) as answer:
        return str(answer.read().decode())


def test_a_list_that_ends(stage: Stage) -> None:
    """It is told days before; by one that is over, or has not begun, nobody is logged out who is on: it is not taken. Nor does a start
    take it."""
    hour, day = timedelta(hours=1), timedelta(days=1)
    with_tls(stage, True)
    list_until(stage, -hour, 4 * day)
    stage.door.tls |= {"revoked": '"revoked.pem"'}
    stage.open(*stage.firms)
    number = 'mireseason_revoked_expiry_timestamp_seconds{file="%s"}' % (
        stage.folder / "revoked.pem"
    )
    assert stage.counters()[number] == end_of_list(stage.folder)
    assert "nobody can log on" not in ready(stage) + checked(stage).stderr
    list_until(stage, -hour, 2 * day)
    renew(stage)
    assert stage.counters()[number] == end_of_list(stage.folder)
    end = datetime.fromtimestamp(end_of_list(stage.folder), timezone.utc)
    moment = end.strftime("%Y-%m-%dT%H:%M:%SZ")
    assert "nobody can log on from %s on" % moment in ready(stage)
    doubtful = checked(stage)
    assert doubtful.returncode == 0, doubtful.stderr
    assert 'revoked.pem" ends at %s, and then nobody can log on' % moment in doubtful.stderr
    on = stage.dealer.times_on
    for begins, ends, words in (
        (-2 * hour, -hour, "is over: put a new one in its place"),
        (hour, day, "has not begun"),
    ):
        list_until(stage, begins, ends)
        refused = checked(stage)
        assert refused.returncode == 1 and words in refused.stderr, refused.stderr
        renew(stage, "stay as they were")
        assert words in stage.door.last_words()
        for dealer in (stage.dealer, stage.other):
            stage.ping(dealer)
    assert stage.dealer.times_on == on, "a firm's session was ended"
    list_until(stage, -hour, 4 * day)
    renew(stage)
    assert "nobody can log on" not in ready(stage)
    stage.auction()


def test_a_certificate_that_is_taken_back(stage: Stage) -> None:
    """The list names one firm's certificate: its session ends, and no other begins by it. The others go on."""
    with_tls(stage, True)
    revoked_list(stage.folder)
    stage.door.tls |= {"revoked": '"revoked.pem"'}
    stage.open(*stage.firms)
    stage.auction()
    on = stage.other.times_on
    revoked_list(stage.folder, DEALER.name)
    renew(stage)
    until(
        "its session ends",
        LONG,
        lambda: "the certificate is not valid any more" in stage.door.told.read_text(),
    )
    until("it can't come again", LONG, lambda: stage.counters().get(refused_for("no TLS"), 0) >= 1)
    stage.ping(stage.other)
    assert stage.other.times_on == on, "another firm's session was ended"


@pytest.mark.parametrize("name", ["credentials.toml", "revoked.pem"])
def test_a_pipe_in_the_place_of_a_file(stage: Stage, name: str) -> None:
    """It can't be read: what was read before stays in force, and the gateway waits for nobody."""
    with_tls(stage, True)
    revoked_list(stage.folder)
    stage.door.tls |= {"revoked": '"revoked.pem"'}
    stage.open(stage.other)
    (stage.folder / name).unlink()
    os.mkfifo(stage.folder / name, 0o600)
    renew(stage, "stay as they were")
    assert name in stage.door.last_words()
    stage.ping(stage.other)
    assert stage.door.stop() == 0


def test_a_certificate_that_is_taken_back_before_its_logon(stage: Stage) -> None:
    """Its connection has done its handshake by then, and is nobody's yet: it gets no session."""
    with_tls(stage, True)
    revoked_list(stage.folder)
    stage.door.tls |= {"revoked": '"revoked.pem"'}
    stage.limits["logon_seconds"] = 600
    stage.open(stage.other)
    with Wire(stage.door.port, context(stage.folder, DEALER.name)) as early:
        revoked_list(stage.folder, DEALER.name)
        renew(stage)
        early.logon(b"DLR1", DEALER.password.encode())
        assert ended_within(early, LONG), "it is logged on by a certificate that was taken back"
    stage.ping(stage.other)


@pytest.mark.parametrize(
    ("words", "is_taken"),
    [
        (("-tls1_3",), True),
        (("-tls1_2", "-cipher", "ECDHE-RSA-AES256-GCM-SHA384"), True),
        (("-tls1_2", "-cipher", "AES256-GCM-SHA384"), False),
        (("-tls1_2", "-cipher", "ECDHE-RSA-AES256-SHA384"), False),
        (("-tls1_2", "-cipher", "DHE-RSA-AES256-GCM-SHA384"), False),
        (("-tls1_3", "-groups", "P-384"), True),
        (("-tls1_3", "-groups", "ffdhe2048"), False),
        (("-tls1_3", "-groups", "ffdhe8192"), False),
    ],
)
def test_suites(stage: Stage, words: tuple[str, ...], is_taken: bool) -> None:
    """TLS 1.3, and of TLS 1.2 what nobody can read later who is given the key; and no keys that cost a stranger nothing, and the
    gateway a fifth of a second."""
    with_tls(stage, False)
    stage.open()
    run = subprocess.run(
        [
            "openssl",
            "s_client",
            "-connect",
            "127.0.0.1:%d" % stage.door.port,
            *words,
            "-CAfile",
            "authority.pem",
        ],
        cwd=stage.folder,
        stdin=subprocess.DEVNULL,
        capture_output=True,
        timeout=LONG,
        check=False,
    )
    assert (b"Cipher is (NONE)" not in run.stdout) == is_taken, run.stdout[-500:]
