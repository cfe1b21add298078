"""Makes the certificates of a site's hosts with openssl, by an authority of its own: etcd, Patroni, PostgreSQL and the
gateways know one another by them.
"""

import os
import pwd
import shutil
from collections.abc import Mapping
from pathlib import Path

from .command import run
from .fault import Fault

DAYS = 825  # that a host's certificate is good for
AUTHORITY_DAYS = 3650
CURVE = ("-newkey", "ec", "-pkeyopt", "ec_paramgen_curve:P-256", "-noenc")

# A host is a server and a client of the others, under its name and its address.
HOST = """subjectAltName = DNS:%s, DNS:localhost, IP:%s, IP:127.0.0.1
extendedKeyUsage = serverAuth, clientAuth
keyUsage = digitalSignature
basicConstraints = CA:FALSE
"""
# A reader is a client of one kind of server, by its name.
READER = """extendedKeyUsage = clientAuth
keyUsage = digitalSignature
basicConstraints = CA:FALSE
"""


def make_certificates(hosts: Mapping[str, str], folder: Path) -> None:
    """Makes `authority.pem` and `authority.key`, where there are none, and of each host, by its
    name and address, `HOST.pem` and `HOST.key`. A host's files that are there stay.
    """
    folder.mkdir(parents=True, exist_ok=True)
    if not (folder / "authority.key").exists():
        _make_authority(folder, "authority", "Mireseason site authority")
    for name, address in hosts.items():
        if not (folder / (name + ".key")).exists():
            _make_signed(folder, name, HOST % (name, address), "authority")


def make_reader(folder: Path) -> None:
    """Makes `readers.pem` and `readers.key`, an authority that signs readers alone, and `reader.pem` and `reader.key`. A reader
    has no certificate of the hosts' authority: etcd and Patroni take everybody who has one for a host.
    """
    folder.mkdir(parents=True, exist_ok=True)
    if not (folder / "readers.key").exists():
        _make_authority(folder, "readers", "Mireseason readers")
    if not (folder / "reader.key").exists():
        _make_signed(folder, "reader", READER, "readers")


def put_certificate(made: Path, name: str, folder: Path, user: str) -> None:
    """Puts a host's certificate into a folder of its own, for one of its users."""
    folder.mkdir(exist_ok=True)
    owner = pwd.getpwnam(user)
    for source, target, mode in (
        ("authority.pem", "authority.pem", 0o644),
        (name + ".pem", "host.pem", 0o644),
        (name + ".key", "host.key", 0o600),
    ):
        path = folder / target
        shutil.copyfile(made / source, path)
        path.chmod(mode)
        os.chown(path, owner.pw_uid, owner.pw_gid)


def _make_authority(folder: Path, name: str, subject: str) -> None:
    run(
        "openssl",
        "req",
        "-x509",
        *CURVE,
        "-days",
        str(AUTHORITY_DAYS),
        "-subj",
        "/CN=" + subject,
        "-addext",
        "keyUsage=critical,keyCertSign,cRLSign",
        "-keyout",
        str(folder / (name + ".key")),
        "-out",
        str(folder / (name + ".pem")),
    )
    (folder / (name + ".key")).chmod(0o600)


def _make_signed(folder: Path, name: str, what: str, authority: str) -> None:
    """A certificate and its key, by this authority; `what` is the words of its extensions."""
    request, words = folder / (name + ".request"), folder / (name + ".words")
    key = folder / (name + ".key")
    words.write_text(what)
    try:
        run(
            "openssl",
            "req",
            "-new",
            *CURVE,
            "-subj",
            "/CN=" + name,
            "-keyout",
            str(key),
            "-out",
            str(request),
        )
        key.chmod(0o600)
        run(
            "openssl",
            "x509",
            "-req",
            "-in",
            str(request),
            "-CA",
            str(folder / (authority + ".pem")),
            "-CAkey",
            str(folder / (authority + ".key")),
            "-CAcreateserial",
            "-days",
            str(DAYS),
            "-extfile",
            str(words),
            "-out",
            str(folder / (name + ".pem")),
        )
    except Fault:
        key.unlink(missing_ok=True)
        raise
    finally:
        for file in (request, words):
            file.unlink(missing_ok=True)
