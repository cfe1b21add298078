"""What configure.py writes for each host of an installation, and what it says of a site's file that is wrong."""

import os
import shutil
import subprocess
import sys
import tomllib
from dataclasses import replace
from pathlib import Path

import configure
import pytest
from parts.command import run
from parts.fault import Fault
from parts.site import Folders, read_site

from tests.gateway.wait import LONG
from tests.harness.options import ROOT

# install/hosts/site.toml, but for a host of supervisors and what a host's name could be mistaken for.
SITE = """
network = "10.77.0.0/24"
security = '''[tls]
key = "key.pem"'''
[databases]
db1 = "10.77.0.11"
db2 = "10.77.0.12"
db3 = "10.77.0.13"
[gateways]
gw1 = "10.77.0.21"
gw2 = "10.77.0.22"
[keepers]
keep1 = "10.77.0.31"
[readers]
read1 = "10.77.0.14"
read2 = "10.77.0.15"
[passwords]
gateway = "of-gateway"
replication = "of-replication"
rewind = "of-rewind"
rest = "of-rest"
keeper = "of-keeper"
[venue]
command = ["/usr/bin/rfq_venue", "more"]
"""
DATABASES = "host=10.77.0.11,10.77.0.12,10.77.0.13 "
# What a host's certificate is, for libpq, in a folder.
SHOWN = " sslrootcert=%s/authority.pem sslcert=%s/host.pem sslkey=%s/host.key "


def shown(folder: str) -> str:
    return SHOWN % (folder, folder, folder)


def written(place: Path, host: str, text: str = SITE) -> dict[str, str]:
    """The files that configure.py writes for a host, by their names."""
    site = place / "site.toml"
    site.write_text(text)
    folder = place / "made" / host
    sys.argv[1:] = [str(site), host, str(folder)]
    configure.main()
    return {path.name: path.read_text() for path in folder.iterdir()}


@pytest.fixture(autouse=True)
def words(monkeypatch: pytest.MonkeyPatch) -> None:
    monkeypatch.setattr(sys, "argv", ["configure.py"])


HOSTS = {
    "db2": {"etcd.yml", "patroni.yml", "make_database.sh", "database.sql"},
    "gw1": {"gateway.toml", "pgpass"},
    "keep1": {"keeper.toml", "pgpass"},
    "read1": {"patroni.yml"},
}


@pytest.mark.parametrize("host", HOSTS)
def test_each_host_has_its_files(
    host: str, place: Path, capsys: pytest.CaptureFixture[str]
) -> None:
    """They are named as they are written. None but the owner's group reads them, and the script alone can be run."""
    before = os.umask(0)
    try:
        names = set(written(place, host))
    finally:
        os.umask(before)
    folder = place / "made" / host
    assert names == HOSTS[host]
    assert set(capsys.readouterr().out.splitlines()) == {str(folder / name) for name in names}
    modes = {path.name: path.stat().st_mode & 0o777 for path in folder.iterdir()}
    assert modes == {name: 0o750 if name == "make_database.sh" else 0o640 for name in names}


def test_nobody_reads_a_file_meanwhile(place: Path, monkeypatch: pytest.MonkeyPatch) -> None:
    """It has passwords from its first byte on. A second call writes over the first."""
    modes: list[int] = []
    written_text = Path.write_text

    def write_text(path: Path, text: str) -> int:
        if "made" in path.parts:
            modes.append(path.stat().st_mode & 0o777)
        return written_text(path, text)

    monkeypatch.setattr(Path, "write_text", write_text)
    before = os.umask(0)
    try:
        written(place, "gw1")
        assert modes == [0o640, 0o640]
        again = written(place, "gw1", SITE.replace("of-gateway", "another"))
    finally:
        os.umask(before)
    assert again["pgpass"] == "*:*:*:gateway:another\n"


def test_a_gateway(place: Path) -> None:
    files = written(place, "gw2")
    assert files["pgpass"] == "*:*:*:gateway:of-gateway\n"
    made = tomllib.loads(files["gateway.toml"])
    log = made["log"]
    assert (log["gateway"], log["schema"], log["synchronous_commit"]) == ("gw2", "day_{date}", "on")
    assert log["postgres"].startswith(DATABASES)
    assert " passfile=/etc/mireseason/pgpass " in log["postgres"]
    assert shown("/etc/mireseason/site") in log["postgres"]
    assert made["seal"]["signing_key"] == "keys/gw2.pem"
    assert made["seal"]["gateways"] == ["keys/gw1.pub", "keys/gw2.pub"]
    assert made["seal"]["checkpoints"] == "/var/lib/mireseason/checkpoints"
    assert made["fix"]["listen"] == "10.77.0.22" and made["tls"] == {"key": "key.pem"}
    socket = {"socket": "/run/mireseason/admin.sock", "group": "mireseason-operators"}
    assert made["operator"] == socket
    command = ["/usr/bin/rfq_venue", "more", "live", "--frames", "--marks"]
    assert made["venue"] == {"command": command, "configuration": "venue.toml"}


def test_several_venues(place: Path) -> None:
    """Each has its part, its configuration and its schema; the keeper is told their names."""
    text = SITE + 'names = ["north", "south"]\n'
    made = tomllib.loads(written(place, "gw1", text)["gateway.toml"])
    assert {name: venue["configuration"] for name, venue in made["venue"].items()} == {
        "north": "north.toml",
        "south": "south.toml",
    }
    keeper = tomllib.loads(written(place, "keep1", text)["keeper.toml"])
    assert keeper["venue"] == {"program": "/usr/bin/rfq_venue", "names": ["north", "south"]}
    assert made["log"]["schema"] == keeper["log"]["schema"] == "{venue}_{date}"


def test_a_keeper(place: Path) -> None:
    """It goes to the readers' servers for what it looks at, and to the three for what it does."""
    files = written(place, "keep1")
    assert files["pgpass"] == "*:*:*:keeper:of-keeper\n"
    made = tomllib.loads(files["keeper.toml"])
    log, tls = made["log"], shown("/etc/mireseason-keeper/site")
    assert log["postgres"].startswith(DATABASES) and tls in log["postgres"]
    assert log["readers"].startswith("host=10.77.0.14,10.77.0.15 ") and tls in log["readers"]
    for door in (log["postgres"], log["readers"]):
        assert " user=keeper " in door and " passfile=/etc/mireseason-keeper/pgpass " in door
    assert log["schema"] == "day_{date}"
    assert made["venue"] == {"program": "/usr/bin/rfq_venue"}
    assert made["copies"]["folder"] == "/var/lib/mireseason-keeper/copies"
    assert made["seal"]["gateways"] == ["keys/gw1.pub", "keys/gw2.pub"]


def test_a_keeper_without_readers(place: Path) -> None:
    text = SITE.replace("[readers]\nread1", "[others]\nread1")
    assert "readers" not in tomllib.loads(written(place, "keep1", text)["keeper.toml"])["log"]


def test_a_database(place: Path) -> None:
    """A reader is let in nowhere here."""
    files = written(place, "db3")
    etcd, patroni = files["etcd.yml"], files["patroni.yml"]
    assert 'name: "db3"\n' in etcd and 'data-dir: "/var/lib/mireseason/etcd"' in etcd
    assert 'listen-client-urls: "https://10.77.0.13:2379"' in etcd
    peers = ",".join("db%d=https://10.77.0.1%d:2380" % (one, one) for one in (1, 2, 3))
    assert 'initial-cluster: "%s"' % peers in etcd
    assert 'trusted-ca-file: "/etc/etcd/tls/authority.pem"' in etcd
    assert 'name: "db3"\n' in patroni and 'listen: "10.77.0.13:5432"' in patroni
    assert 'hosts: ["10.77.0.11:2379", "10.77.0.12:2379", "10.77.0.13:2379"]' in patroni
    assert 'data_dir: "/var/lib/mireseason/postgres/data"' in patroni
    assert 'unix_socket_directories: "/run/mireseason"' in patroni
    assert 'post_bootstrap: "/etc/patroni/make_database.sh"' in patroni
    assert 'ssl_ca_file: "/etc/patroni/tls/authority.pem"' in patroni
    for name in ("replication", "rewind", "rest"):
        assert 'password: "of-%s"' % name in patroni
    assert "  gateway     10.77.0.0/24  " in patroni
    for word in ("mireseason   reader", "nofailover", "hot_standby_feedback"):
        assert word not in patroni
    assert "ROLE gateway LOGIN PASSWORD 'of-gateway'" in files["make_database.sh"]
    assert "ALTER ROLE keeper PASSWORD 'of-keeper'" in files["make_database.sh"]
    for table in ("schema.sql", "terms.sql"):
        assert (ROOT / "gateway" / table).read_text() in files["database.sql"]


def test_a_server_of_readers(place: Path) -> None:
    """It never becomes the primary, no commit waits for it, and it alone lets readers in, by an authority more."""
    text = written(place, "read2")["patroni.yml"]
    assert 'listen: "10.77.0.15:5432"' in text
    assert "\ntags: {nofailover: true, nosync: true," in text
    assert '\n    hot_standby_feedback: "off"\n' in text
    assert "- hostssl  mireseason   reader      10.77.0.0/24   cert\n" in text
    assert 'ssl_ca_file: "/etc/patroni/tls/authorities.pem"' in text


def test_a_site_without_copies(place: Path) -> None:
    """The keeper's role has no password, and is let in nowhere."""
    text = SITE.replace('[keepers]\nkeep1 = "10.77.0.31"\n', "").replace('keeper = "of-keeper"', "")
    assert "ALTER ROLE keeper PASSWORD NULL" in written(place, "db1", text)["make_database.sh"]


def test_a_password_that_once_was(place: Path) -> None:
    """A reader's, from before readers had certificates: the file of a site need not change for it."""
    assert written(place, "gw1", SITE.replace("[venue]", 'reader = "x"\n[venue]'))


def test_all_hosts(place: Path) -> None:
    (place / "site.toml").write_text(SITE)
    site = read_site(place / "site.toml")
    assert list(site.hosts) == ["db1", "db2", "db3", "gw1", "gw2", "keep1", "read1", "read2"]
    assert site.hosts["keep1"] == "10.77.0.31" and site.hosts["read2"] == "10.77.0.15"
    keeper = {key: value for key, value in site.passwords.items() if key != "KEEPER"}
    with pytest.raises(Fault, match="the keeper has no password"):
        replace(site, passwords=keeper).files("keep1", Folders("/etc"))


NAMES = "the passwords are those of gateway, keeper, replication, rest, rewind"
FAULTS = {
    "no TOML": ("network =", "network", "site.toml: Expected '='"),
    "no network": ("network =", "networks =", "site.toml: 'network' is missing"),
    "a network of numbers": ('"10.77.0.0/24"', "10", "10 is no text"),
    "an address of numbers": ('"10.77.0.12"', "12", "12 is no text"),
    "a command of numbers": ('"more"', "7", "7 is no text"),
    "a command that is none": ('["/usr/bin/rfq_venue", "more"]', "7", "site.toml: "),
    "no command": ("command =", "commands =", "'command' is missing"),
    "hosts that are none": ("[databases]", "databases = 7\n[other]", "site.toml: "),
    "a password less": ('rest = "of-rest"', "", NAMES),
    "a password more": ("[venue]", 'root = "x"\n[venue]', NAMES),
    "a host of copies without one": ('keeper = "of-keeper"', "", NAMES),
    "a password of numbers": ('"of-rest"', "7", "7 is no text"),
    "a password with a blank": (
        '"of-rest"',
        '"of rest"',
        "the password of rest may have only letters, digits and . _ ~ + -",
    ),
    "four databases' names": ("db2 =", "dc2 =", ": nothing is said of @DB2@"),
}


@pytest.mark.parametrize("name", FAULTS)
def test_a_site_at_fault(name: str, place: Path) -> None:
    """It is told with its file, and nothing is written."""
    right, wrong, words = FAULTS[name]
    assert SITE.count(right) == 1
    with pytest.raises(SystemExit) as ended:
        written(place, "db1", SITE.replace(right, wrong))
    told = str(ended.value.code)
    assert told.startswith("configure.py: ") and words in told, told
    assert not (place / "made").exists()


@pytest.mark.parametrize("program", ["configure.py", "certificates.py"])
def test_a_program_of_its_own(program: str, place: Path) -> None:
    """As an administrator calls it, from any folder; what is wrong is one line."""
    script = ROOT / "install" / "hosts" / program
    (place / "site.toml").write_text(SITE)
    words = ["site.toml", *(["gw1"] if program == "configure.py" else []), "made"]
    for site, status in (("site.toml", 0), ("none.toml", 1)):
        command = [sys.executable, str(script), site, *words[1:]]
        done = subprocess.run(
            command, cwd=place, capture_output=True, text=True, timeout=LONG, check=False
        )
        assert done.returncode == status, done.stderr
        assert (place / "made").exists() == (status == 0)
        if status:
            assert done.stderr.startswith(program + ": ") and done.stderr.count("\n") == 1
        else:
            shutil.rmtree(place / "made")


def test_a_host_that_is_none(place: Path) -> None:
    with pytest.raises(SystemExit, match="^configure.py: there is no host db4$"):
        written(place, "db4")
    with pytest.raises(SystemExit, match="^configure.py: .*No such file"):
        sys.argv[1:] = [str(place / "none.toml"), "db1", str(place / "made")]
        configure.main()


def test_a_command_of_an_installation() -> None:
    """What it prints; or in one line which one failed, and its last words."""
    assert run("cat", text="so\n") == "so\n"
    with pytest.raises(Fault, match="^sh -c echo so >&2; exit 3: so$"):
        run("sh", "-c", "echo so >&2; exit 3")
    with pytest.raises(Fault, match="^sh -c exit 3: status 3$"):
        run("sh", "-c", "exit 3")
    with pytest.raises(Fault, match="^/no/program: "):
        run("/no/program")
    with pytest.raises(Fault, match="^sleep 60: no end within 0.2 s$"):
        run("sleep", "60", limit=0.2)
