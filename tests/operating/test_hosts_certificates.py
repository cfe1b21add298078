"""The certificates of an installation's hosts: who is known by which, and what a second call leaves as it is."""

import pwd
import subprocess
import sys
from pathlib import Path

import certificates
import pytest
from parts.certificates import make_certificates, make_reader, put_certificate
from parts.fault import Fault

from tests.admin.operator import is_root
from tests.gateway.wait import LONG
from tests.operating.test_hosts import SITE

HOSTS = {"db1": "10.77.0.11", "gw1": "10.77.0.21"}
DAY = 24 * 3600


def told(*words: str) -> str:
    """What openssl says; it has to find nothing wrong."""
    done = subprocess.run(
        ["openssl", *words], capture_output=True, text=True, timeout=LONG, check=False
    )
    assert done.returncode == 0, done.stdout + done.stderr
    return done.stdout


def is_of(authority: Path, certificate: Path, purpose: str) -> bool:
    """Whether a certificate is good for a server or a client, by this authority."""
    words = ["openssl", "verify", "-purpose", purpose, "-CAfile", str(authority), str(certificate)]
    return subprocess.run(words, capture_output=True, timeout=LONG, check=False).returncode == 0


def lasts(certificate: Path, days: int) -> bool:
    words = ["openssl", "x509", "-in", str(certificate), "-noout", "-checkend", str(days * DAY)]
    return subprocess.run(words, capture_output=True, timeout=LONG, check=False).returncode == 0


def content(folder: Path) -> dict[str, bytes]:
    return {path.name: path.read_bytes() for path in folder.iterdir()}


def test_a_hosts_certificate(place: Path) -> None:
    """It is a server's and a client's, under the host's name and address and its own machine's, for 825 days; its key is nobody else's."""
    folder = place / "made" / "here"
    make_certificates(HOSTS, folder)
    made = ["authority", "db1", "gw1"]
    keys = {name + ".key" for name in made}
    assert set(content(folder)) - {"authority.srl"} == {name + ".pem" for name in made} | keys
    assert {path.name for path in folder.iterdir() if path.stat().st_mode & 0o077 == 0} == keys
    authority = folder / "authority.pem"
    assert "CN = Mireseason site authority" in told(
        "x509", "-in", str(authority), "-noout", "-text"
    )
    assert lasts(authority, 3649) and not lasts(authority, 3650)
    for name, address in HOSTS.items():
        one = folder / (name + ".pem")
        text = told("x509", "-in", str(one), "-noout", "-text")
        assert "Subject: CN = %s\n" % name in text
        others = "DNS:localhost, IP Address:%s, IP Address:127.0.0.1\n" % address
        assert "DNS:%s, %s" % (name, others) in text
        assert "CA:FALSE" in text and lasts(one, 824) and not lasts(one, 825)
        assert is_of(authority, one, "sslserver") and is_of(authority, one, "sslclient")
        key = told("pkey", "-in", str(folder / (name + ".key")), "-pubout")
        assert key == told("x509", "-in", str(one), "-noout", "-pubkey")


def test_a_host_that_is_added(place: Path) -> None:
    """What is there stays, byte for byte, and the same authority signs the new one."""
    make_certificates({"db1": "10.77.0.11"}, place)
    before = content(place)
    make_certificates(HOSTS, place)
    after = content(place)
    before.pop("authority.srl", None)
    assert {name: after[name] for name in before} == before
    assert is_of(place / "authority.pem", place / "gw1.pem", "sslserver")


def test_readers(place: Path) -> None:
    """Another authority signs them: by a reader's certificate nobody is a host. A second call changes nothing."""
    make_certificates(HOSTS, place)
    make_reader(place)
    readers, reader = place / "readers.pem", place / "reader.pem"
    assert is_of(readers, reader, "sslclient") and not is_of(readers, reader, "sslserver")
    assert not is_of(place / "authority.pem", reader, "sslclient")
    assert not is_of(readers, place / "db1.pem", "sslclient")
    assert "Subject: CN = reader\n" in told("x509", "-in", str(reader), "-noout", "-text")
    assert "CN = Mireseason readers" in told("x509", "-in", str(readers), "-noout", "-text")
    before = content(place)
    make_reader(place)
    assert content(place) == before


def test_readers_alone(place: Path) -> None:
    make_reader(place / "new" / "folder")
    assert (place / "new" / "folder" / "reader.pem").exists()


@pytest.mark.parametrize("has_readers", [True, False])
def test_the_command(has_readers: bool, place: Path, monkeypatch: pytest.MonkeyPatch) -> None:
    """It makes those of all hosts of a site, and the readers' where the site has a host for them."""
    site = place / "site.toml"
    site.write_text(SITE if has_readers else SITE.replace("[readers]", "[others]"))
    monkeypatch.setattr(sys, "argv", ["certificates.py", str(site), str(place / "made")])
    certificates.main()
    hosts = {"authority", "db1", "db2", "db3", "gw1", "gw2", "keep1"}
    more = {"read1", "read2", "readers", "reader"} if has_readers else set()
    assert {path.stem for path in (place / "made").glob("*.pem")} == hosts | more


def test_the_command_without_a_site(place: Path, monkeypatch: pytest.MonkeyPatch) -> None:
    words = ["certificates.py", str(place / "none.toml"), str(place / "made")]
    monkeypatch.setattr(sys, "argv", words)
    with pytest.raises(SystemExit, match="^certificates.py: .*none.toml"):
        certificates.main()
    assert not (place / "made").exists()


def test_a_certificate_that_can_not_be_made(place: Path) -> None:
    """Its key goes too, or the next call would take the host for one that has a certificate."""
    make_certificates({}, place)
    with pytest.raises(Fault, match="openssl x509 -req"):
        make_certificates({"db1": "no address"}, place)
    assert not [path for path in place.iterdir() if path.stem == "db1"]
    make_certificates(HOSTS, place)
    assert is_of(place / "authority.pem", place / "db1.pem", "sslserver")


@pytest.mark.skipif(not is_root(), reason="another user's files need root")
def test_a_certificate_in_its_place(place: Path) -> None:
    """As the host's programs name it, for one user, who alone reads the key."""
    make_certificates(HOSTS, place / "made")
    folder = place / "tls"
    put_certificate(place / "made", "gw1", folder, "man")
    put_certificate(place / "made", "gw1", folder, "man")
    assert content(folder) == {
        "authority.pem": (place / "made" / "authority.pem").read_bytes(),
        "host.pem": (place / "made" / "gw1.pem").read_bytes(),
        "host.key": (place / "made" / "gw1.key").read_bytes(),
    }
    owner = pwd.getpwnam("man")
    assert owner.pw_uid != owner.pw_gid, "an owner with two numbers"
    for path in folder.iterdir():
        stat = path.stat()
        assert (stat.st_uid, stat.st_gid) == (owner.pw_uid, owner.pw_gid)
        assert stat.st_mode & 0o777 == (0o600 if path.name == "host.key" else 0o644)
