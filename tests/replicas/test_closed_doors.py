"""What somebody on a host of the site's network can reach of the database hosts without a certificate and a password: nothing
of etcd, of Patroni's interface, of replication, or of the log. The keeper and a gateway, which have theirs, can do their work.
"""

import os
import re
import shutil
import subprocess
from collections.abc import Iterator
from dataclasses import replace
from pathlib import Path

import pytest
from parts.certificates import make_certificates, put_certificate
from parts.site import KEEPER, Folders, Site

from tests.lab.database import PSQL
from tests.lab.machine import GATEWAYS, Machine, check_root, remove, site_here
from tests.gateway.wait import LONG
from tests.harness import lab
from tests.harness.options import ROOT
from tests.replicas.appends import BENCH, TESTS, Bench, Load

ATTACKER = "firms"  # a host in the same network, which has nothing of the site's
COPIES = GATEWAYS[1]  # the host of copies: in this site there is one gateway
PREFIX = "closed%d" % os.getpid()
CONFIG_KEY = "/v2/keys/service/mireseason/config"


def site() -> Site:
    """With a host of copies."""
    usual = site_here(("/bin/true",))
    return replace(
        usual,
        gateways={GATEWAYS[0].name: GATEWAYS[0].address},
        keepers={COPIES.name: COPIES.address},
        passwords={**usual.passwords, KEEPER: "keeper-secret"},
    )


@pytest.fixture(scope="module")
def machine(tmp_path_factory: pytest.TempPathFactory) -> Iterator[Machine]:
    """The database hosts, up."""
    lacking = lab.lacks()
    if lacking:
        pytest.skip(lacking)
    check_root()
    folder = Path("/tmp") / PREFIX
    made = Machine(folder, folder / "images", Path("/bin/true"), site(), PREFIX)
    try:
        made.bring_up_databases()
        yield made
    finally:
        made.down()
        remove(PREFIX, folder, folder / "images")
        shutil.rmtree(folder, ignore_errors=True)


def on(
    machine: Machine, host: str, *words: str, **environment: str
) -> subprocess.CompletedProcess[str]:
    """A command on a host."""
    named = ["env", *("%s=%s" % item for item in environment.items())]
    command = [*machine.network.words(host), *named, *words]
    return subprocess.run(command, capture_output=True, text=True, check=False, timeout=LONG)


def asked(machine: Machine, host: str, url: str, *words: str) -> str:
    """The status of an answer by HTTP, 000 where there is none."""
    done = on(
        machine,
        host,
        "curl",
        "-s",
        "-o",
        "/dev/null",
        "-m",
        "10",
        "-w",
        "%{http_code}",
        *words,
        url,
    )
    return done.stdout


def certificate(machine: Machine, host: str) -> list[str]:
    """A host's own, in words of curl."""
    folder = machine.folder / host / "tls"
    return [
        "--cacert",
        str(folder / "authority.pem"),
        "--cert",
        str(folder / "host.pem"),
        "--key",
        str(folder / "host.key"),
    ]


def test_etcd(machine: Machine) -> None:
    """Who can write there can say who is the primary, and what its settings are."""
    address = machine.cluster.databases[0].host.address
    for port in (2379, 2380):
        assert asked(machine, ATTACKER, "http://%s:%d/v2/keys" % (address, port)) in ("000", "400")
        assert asked(machine, ATTACKER, "https://%s:%d/v2/keys" % (address, port), "-k") == "000"
    write = ["-k", "-X", "PUT", "-d", "value={}"]
    assert asked(machine, ATTACKER, "https://%s:2379%s" % (address, CONFIG_KEY), *write) == "000"
    own = certificate(machine, "db1")
    assert asked(machine, "db1", "https://%s:2379%s" % (address, CONFIG_KEY), *own) == "200"


def test_patroni(machine: Machine) -> None:
    """By this interface a host can be told to run a command: it wants a certificate, and to change anything a password too."""
    address = machine.cluster.databases[0].host.address
    url, change = "https://%s:8008/config" % address, ["-X", "PATCH", "-d", '{"ttl": 16}']
    assert asked(machine, ATTACKER, "http://%s:8008/config" % address) == "000"
    assert asked(machine, ATTACKER, url, "-k") == "000"
    assert asked(machine, ATTACKER, url, "-k", *change) == "000"
    own = certificate(machine, "db1")
    assert asked(machine, "db1", url, *own) == "200"
    assert asked(machine, "db1", url, *own, *change) == "401"
    assert asked(machine, "db1", url, *own, *change, "-u", "patroni:rest-secret") == "200"


def connected(machine: Machine, host: str, words: str, password: str) -> str:
    """What PostgreSQL says of a connection to the primary; `1` where it is taken."""
    primary = machine.cluster.primary()
    assert primary is not None
    text = "host=%s connect_timeout=10 %s" % (primary.host.address, words)
    command = "SELECT 1" if "replication=" not in words else "IDENTIFY_SYSTEM"
    done = on(machine, host, PSQL, "-X", "-A", "-t", "-c", command, text, PGPASSWORD=password)
    return done.stdout.strip() or done.stderr.strip()


def test_postgres(machine: Machine) -> None:
    """In the clear nobody is let in, whatever the password; nor without a certificate where one is needed."""
    for role, database in (
        ("gateway", "mireseason"),
        ("rewinder", "postgres"),
        ("keeper", "mireseason"),
        ("reader", "mireseason"),
    ):
        secret = {
            "gateway": "gateway-secret",
            "keeper": "keeper-secret",
            "rewinder": "rewind-secret",
            "reader": "reader-secret",
        }[role]
        words = "user=%s dbname=%s" % (role, database)
        assert "no encryption" in connected(machine, ATTACKER, words + " sslmode=disable", secret)
        if role != "reader":
            told = connected(machine, ATTACKER, words + " sslmode=require", secret)
            assert "requires a valid client certificate" in told, told
        else:  # only a host for readers lets one in
            told = connected(machine, ATTACKER, words + " sslmode=require", secret)
            assert "no pg_hba.conf entry" in told, told
    folder = machine.folder / "db2" / "tls"
    own = "sslmode=verify-full sslrootcert=%s sslcert=%s sslkey=%s" % (
        folder / "authority.pem",
        folder / "host.pem",
        folder / "host.key",
    )
    assert "password authentication failed" in connected(
        machine, "db2", "user=gateway dbname=mireseason " + own, "guessed"
    )
    assert (
        connected(machine, "db2", "user=gateway dbname=mireseason " + own, "gateway-secret") == "1"
    )
    assert connected(machine, "db2", "user=keeper dbname=mireseason " + own, "keeper-secret") == "1"


def test_the_keeper(machine: Machine, place: Path) -> None:
    """By what configure.py writes for the host of copies, the keeper is let in, and makes the tables of the days that are next."""
    folder = place / "keeper"
    for name in ("copies", "keys"):
        (folder / name).mkdir(parents=True)
    make_certificates(machine.site.hosts, machine.folder / "certificates")
    put_certificate(machine.folder / "certificates", COPIES.name, folder / "site", "root")
    places = Folders(str(folder), str(folder), tls=str(folder / "site"))
    for name, text in machine.site.files(COPIES.name, places).items():
        (folder / name).write_text(text)
        (folder / name).chmod(0o600)
    for name in ("seal.pem", "keys/gw1.pub"):
        (folder / name).touch()
    with (folder / "keeper.toml").open("a") as file:
        file.write('[audit]\ncommand = ["%s"]\n' % (ROOT / "audit" / "mireseason-audit"))
    words = [str(ROOT / "keeper" / "mireseason-keeper"), str(folder / "keeper.toml")]
    checked = on(machine, COPIES.name, *words, "--check")
    assert checked.returncode == 0, checked.stdout + checked.stderr
    done = on(machine, COPIES.name, *words)
    assert done.returncode == 0 and done.stderr.count("tables made log=day_") == 2, done.stderr
    primary = machine.cluster.primary()
    assert primary is not None
    made = "tablename = 'entry' AND tableowner = 'log_owner' AND schemaname LIKE 'day_%'"
    assert primary.asked("SELECT count(*) FROM pg_tables WHERE " + made) == "2"


def test_a_gateway(machine: Machine, gateway_program: Path) -> None:
    """By what configure.py writes for its host: terms, and the rows of a log, are as on a server of one's own; and logs take
    messages. `appends.py` measures how fast."""
    out = gateway_program.parent
    if not all((out / name).exists() for name in (*TESTS, BENCH)):
        pytest.skip("the tests in C++ are not built beside the gateway")
    bench = Bench(machine, out)
    bench.begin()
    failures = bench.failures()
    assert not failures, "\n".join(failures)
    primary = machine.cluster.primary()
    assert primary is not None
    made = "tablename = 'entry' AND tableowner = 'log_owner' AND schemaname LIKE '%_test_%'"
    assert int(primary.asked("SELECT count(*) FROM pg_tables WHERE " + made) or 0) >= len(TESTS)
    told = bench.measure(Load(logs=2, threads=4), seconds=1)
    found = re.search(r": (\d+) messages a second", told)
    assert found and int(found[1]) > 0, told


def test_replication(machine: Machine) -> None:
    """The log leaves by it, whole."""
    words = "user=replicator dbname=postgres replication=true"
    assert "no encryption" in connected(
        machine, ATTACKER, words + " sslmode=disable", "replication-secret"
    )
    told = connected(machine, ATTACKER, words + " sslmode=require", "replication-secret")
    assert "requires a valid client certificate" in told, told


def test_what_comes_over_the_links_is_encrypted(machine: Machine) -> None:
    """Each standby streams over TLS."""
    primary = machine.cluster.primary()
    assert primary is not None
    found = primary.asked(
        "SELECT count(*) FROM pg_stat_replication JOIN pg_stat_ssl USING (pid) WHERE ssl AND client_dn IS NOT NULL"
    )
    assert found == "2"
