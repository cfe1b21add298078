"""Packages on a machine with systemd: what an upgrade, a restart and a reload do to a market that goes on.

The tests share one machine, on which two firms trade with stock engines, and run in the order of their day.
"""

import json
import os
import shutil
import subprocess
from collections.abc import Iterator
from dataclasses import dataclass, replace
from pathlib import Path

import pytest

from tests.gateway.stage import Stage, Tools
from tests.gateway.wait import LONG, until
from tests.harness.options import ROOT
from tests.operating.booted import Booted, booted
from tests.operating.built_packages import NEWER, PACKAGES, VERSION, Packages, needs
from tests.operating.debian_system import fresh_debian, set_hours
from tests.operating.test_fresh_system import firm_of

pytestmark = [pytest.mark.long, pytest.mark.root]

GATEWAY, PORT = "mireseason-gateway", 9878
ETC = "etc/mireseason"
UPGRADE = ("install", "--no-remove", "--only-upgrade")  # as docs/OPERATING.md has it
PLAYER = """#!/bin/sh
exec nsenter --target %d --net -- %s "$@"
"""
# As a new gateway that takes nothing of what is configured.
REFUSES = """#!/bin/sh
echo "gateway.toml: line 3: of another time" >&2
exit 1
"""


@dataclass
class Site:
    """The machine, and its two firms."""

    machine: Booted
    stage: Stage
    older: str  # folders of packages in the machine
    newer: str

    @property
    def process(self) -> str:
        return self.machine.show(GATEWAY, "MainPID")

    def trade(self) -> None:
        """A whole auction, by whose answers each side knows of the trade."""
        dealer, investor = self.stage.dealer, self.stage.investor
        until("both are on", LONG, lambda: dealer.logged_on() and investor.logged_on())
        self.stage.auction([dealer])

    def runs_on(self, process: str, version: str) -> None:
        """The same process, with both firms, and nothing else is installed."""
        assert self.process == process and self.machine.show(GATEWAY, "ActiveState") == "active"
        assert self.machine.versions() == dict.fromkeys(PACKAGES, version)
        self.trade()


def signed_repository(place: Path, packages: list[Packages]) -> Path:
    """A repository of these versions, with a key of its own."""
    needs("apt-ftparchive", "gpg", "gpgv")
    home = place / "gnupg"
    home.mkdir(mode=0o700)
    environment = {**os.environ, "GNUPGHOME": str(home), "UNPROVED": "1", "URL": "file:/srv/apt"}
    words = ["gpg", "--batch", "--passphrase", "", "--quick-generate-key", "tests", "ed25519"]
    subprocess.run([*words, "sign", "never"], env=environment, check=True, capture_output=True)
    for each in packages:
        words = [str(ROOT / "install" / "repository.sh"), "tests", str(place / "apt")]
        subprocess.run([*words, str(each.folder)], env=environment, check=True, capture_output=True)
    return place / "apt"


def install(machine: Booted, repository: Path) -> None:
    """By the two commands of docs/OPERATING.md, of which the first brings the file with the key."""
    shutil.copytree(repository, machine.root / "srv/apt")
    (machine.root / "etc/apt/sources.list").unlink()  # this machine reaches no mirror
    shutil.copy2(repository / "mireseason.sources", machine.root / "etc/apt/sources.list.d")
    assert machine.apt("update").returncode == 0
    pinned = " ".join("%s=%s" % (name, VERSION) for name in PACKAGES)
    done = machine.apt("install", pinned)
    assert done.returncode == 0, done.stdout + done.stderr


@pytest.fixture(scope="module")
def site(
    packages: Packages, newer: Packages, tools: Tools, tmp_path_factory: pytest.TempPathFactory
) -> Iterator[Site]:
    """A venue that was installed from a repository, and two firms that are logged on."""
    place = tmp_path_factory.mktemp("machine")
    fresh_debian(place / "root")
    repository = signed_repository(place, [packages, newer])
    with booted(place / "root", place / "console") as machine:
        install(machine, repository)
        set_hours(machine.root)
        told = [machine.run("mireseason-credentials", name) for name in ("DLR1", "INV1")]
        machine.run(
            "runuser", "-u", "mireseason", "--", GATEWAY, "--check", "/%s/gateway.toml" % ETC
        )
        machine.run("systemctl", "enable", "--now", GATEWAY)
        machine.wait_status(GATEWAY, "ready: ")
        (place / "player").write_text(PLAYER % (machine.leader, tools.player))
        (place / "player").chmod(0o755)
        (place / "firms").mkdir()
        stage = Stage(replace(tools, player=place / "player"), place / "firms")
        stage.dealer = firm_of(stage, told[0], "T1", PORT)
        stage.investor = firm_of(stage, told[1], "T8", PORT)
        try:
            stage.log_on(stage.dealer, stage.investor)
            yield Site(machine, stage, machine.bring(packages), machine.bring(newer))
        finally:
            for firm in (stage.dealer, stage.investor):
                firm.kill()


def test_it_was_installed_from_the_repository(site: Site) -> None:
    """Two firms trade at once; nobody else reads the credentials."""
    assert site.machine.versions() == dict.fromkeys(PACKAGES, VERSION)
    assert (site.machine.root / ETC / "credentials.toml").stat().st_mode & 0o7777 == 0o640
    site.trade()


def test_the_keepers_metrics(site: Site) -> None:
    """As installed, Debian's node exporter has what the alerts wait for, once the keeper has run."""
    machine = site.machine
    machine.shell("install -d -m 2750 -o mireseason -g mireseason-keeper /srv/mireseason-copies")
    machine.shell("install -m 0644 /etc/mireseason/keys/gateway.pub /etc/mireseason-keeper/keys")
    machine.run("systemctl", "start", "mireseason-keeper.service")
    told = machine.run("curl", "-fsS", "http://127.0.0.1:9100/metrics")
    for name in ("copies_without_seal 0", "keeper_faults 0", "keeper_last_run_timestamp_seconds "):
        assert "\nmireseason_%s" % name in told, name


COPIES = "/srv/mireseason-copies"
PAGE = (ROOT / "docs/OPERATING.md").read_text().splitlines()
DROP_IN = next(line.strip() for line in PAGE if "ReadWritePaths=" in line and "printf" in line)


def test_copies_on_an_open_day(site: Site) -> None:
    """The unit gives the right to write there at a restart: before it, the gateway that runs says so, and fears for no restart."""
    machine = site.machine
    units = machine.root / ("etc/systemd/system/%s.service.d" % GATEWAY)
    units.mkdir(parents=True)
    machine.shell(DROP_IN)
    with (machine.root / ETC / "gateway.toml").open("a") as file:
        file.write('\n[copies]\nfolder = "%s"\n' % COPIES)
    machine.run("systemctl", "daemon-reload")
    told = json.loads(machine.run("mireseason-admin", "--json", "status"))
    assert "a restart now goes on with" in told["said"], told
    assert (
        "[copies] folder %s: Read-only file system for the gateway that runs" % COPIES
        in told["said"]
    )
    assert told["rows"][0]["restart_goes_well"] is True
    doubt = "configuration in doubt: [copies] folder %s: Read-only file system" % COPIES
    until("it is told", LONG, lambda: doubt in machine.run("journalctl", "-u", GATEWAY))
    machine.run("systemctl", "restart", GATEWAY)
    site.trade()
    assert "[copies]" not in machine.run("mireseason-admin", "status")
    # Whoever takes the folder away stops no market.
    machine.run("rm", "-r", COPIES)
    machine.run("systemctl", "restart", GATEWAY)
    site.trade()
    assert "[copies] folder: there is no folder" in machine.run("mireseason-admin", "status")
    machine.shell("install -d -m 2750 -o mireseason -g mireseason-keeper " + COPIES)
    machine.run("systemctl", "restart", GATEWAY)
    site.trade()


def test_a_reload_that_is_refused(site: Site) -> None:
    """`systemctl reload` fails, the journal has the cause, and all stays as it is."""
    process, file = site.process, site.machine.root / ETC / "credentials.toml"
    assert site.machine.called("systemctl", "reload", GATEWAY).returncode == 0
    right = file.read_text()
    file.write_text(right + "[oops\n")
    assert site.machine.called("systemctl", "reload", GATEWAY).returncode != 0
    assert "stay as they were" in site.machine.run("journalctl", "-u", GATEWAY, "-n", "20")
    file.write_text(right)
    assert site.machine.called("systemctl", "reload", GATEWAY).returncode == 0
    site.runs_on(process, VERSION)


# Of a file below /etc/mireseason, what a command makes of it.
FAULTS = {
    "a fault in the credentials": ("credentials.toml", "echo '[oops' >>%s"),
    "a venue.toml that only root may read": ("venue.toml", "chmod 0600 %s"),
    "a key that there is not": ("gateway.toml", "echo 'oops = 1' >>%s"),
}


@pytest.mark.parametrize("fault", FAULTS)
def test_an_upgrade_over_a_fault_is_refused(site: Site, fault: str) -> None:
    """Before anything is unpacked: the old process runs on, with the old program of the venue, and dpkg fails and says what to do."""
    process, (name, command) = site.process, FAULTS[fault]
    file = "/%s/%s" % (ETC, name)
    site.machine.shell("cp -a %s /root/kept" % file)
    try:
        site.machine.shell(command % file)
        done = site.machine.apt(*UPGRADE, "./mireseason*.deb", folder=site.newer)
    finally:
        site.machine.shell("cp -a /root/kept %s" % file)
    assert done.returncode != 0, done.stdout
    assert "Nothing was unpacked, and it runs on." in done.stderr and name in done.stderr
    site.runs_on(process, VERSION)


def test_upgrade_and_way_back_from_the_repository(site: Site) -> None:
    """Of all that is installed, on an open day: firms come back by themselves, and trade."""
    for version, words in (
        (NEWER, ["'mireseason*'"]),
        (VERSION, ["--allow-downgrades", "'mireseason*=%s'" % VERSION]),
    ):
        process = site.process
        request = site.stage.ask(dealers=[site.stage.dealer])
        done = site.machine.apt(*UPGRADE, *words)
        assert done.returncode == 0, done.stdout + done.stderr
        assert site.process not in (process, "0")
        site.trade()
        site.stage.quote(site.stage.dealer, request)  # which was asked before
        site.runs_on(site.process, version)


def refusing(site: Site, place: Path) -> str:
    """The newer packages, with a gateway that would not start; their folder in the machine."""
    folder = site.machine.root / "root" / "refusing"
    shutil.copytree(site.machine.root / site.newer[1:], folder)
    (file,) = folder.glob("mireseason-gateway_*.deb")
    subprocess.run(["dpkg-deb", "-R", file, place / "gateway"], check=True)
    (place / "gateway/usr/bin/mireseason-gateway").write_text(REFUSES)
    subprocess.run(["dpkg-deb", "--root-owner-group", "-b", place / "gateway", file], check=True)
    return "/root/refusing"


def test_a_new_gateway_that_would_not_start(site: Site, place: Path) -> None:
    """The old process runs on, dpkg fails and says what to do; the way back is free."""
    process = site.process
    done = site.machine.apt(*UPGRADE, "./mireseason*.deb", folder=refusing(site, place))
    assert done.returncode != 0 and "of another time" in done.stderr
    assert "dpkg --configure -a" in done.stderr and "--allow-downgrades" in done.stderr
    assert site.process == process
    site.trade()
    assert site.machine.called("dpkg", "--configure", "-a").returncode != 0
    assert site.process == process
    done = site.machine.apt(*UPGRADE, "--allow-downgrades", "./mireseason*.deb", folder=site.older)
    assert done.returncode == 0, done.stdout + done.stderr
    site.runs_on(site.process, VERSION)


# What dpkg's scripts call where it is killed, with all that it has begun.
KILLED_AT = {
    "before anything is unpacked": "/usr/bin/dpkg-query",
    "before the gateway is configured": "/usr/bin/systemd-sysusers",
    "before the restart": "/usr/bin/deb-systemd-invoke",
}
KILLER = """#!/bin/sh
process=$$
until [ "$(cat /proc/$process/comm)" = dpkg ]; do
    above="$above $process"
    process=$(sed -n 's/^PPid:[[:space:]]*//p' /proc/$process/status)
done
kill -9 "$process" $above
"""


@pytest.mark.parametrize("moment", KILLED_AT)
def test_an_upgrade_that_is_killed(site: Site, moment: str) -> None:
    """The old process runs on and trades; the same command again, behind `dpkg --configure -a`, makes it good."""
    process, program = site.process, KILLED_AT[moment]
    site.machine.shell("cp -a %s /root/program && rm %s" % (program, program))
    (site.machine.root / program[1:]).write_text(KILLER)
    (site.machine.root / program[1:]).chmod(0o755)
    try:
        done = site.machine.apt(*UPGRADE, "./mireseason*.deb", folder=site.newer)
    finally:
        site.machine.shell("rm %s && cp -a /root/program %s" % (program, program))
    assert done.returncode != 0, done.stdout
    assert site.process == process
    site.trade()
    site.machine.run("dpkg", "--configure", "-a")
    done = site.machine.apt(*UPGRADE, "./mireseason*.deb", folder=site.newer)
    assert done.returncode == 0, done.stdout + done.stderr
    assert site.process != process
    site.runs_on(site.process, NEWER)
    done = site.machine.apt(*UPGRADE, "--allow-downgrades", "./mireseason*.deb", folder=site.older)
    assert done.returncode == 0, done.stdout + done.stderr


# What is done to venue.toml.
VENUE_FAULTS = {
    "it is missing": "rm %s",
    "nobody but root may read it": "chmod 0600 %s",
    "its date is another day's": "sed -i '1,/^version/s/^version.*/&\\ndate = \"20200101\"/' %s",
    "a firm was taken out": "sed -i '/^\\[\\[investor\\]\\]/,$d' %s",
}


@pytest.mark.parametrize("fault", VENUE_FAULTS)
def test_a_restart_over_a_fault_of_venue_toml(site: Site, fault: str) -> None:
    """The day goes on by its entry 0: both firms are back, and trade."""
    file = "/%s/venue.toml" % ETC
    site.machine.shell("cp -a %s /root/kept" % file)
    try:
        site.machine.shell(VENUE_FAULTS[fault] % file)
        site.machine.run("systemctl", "restart", GATEWAY)
        site.trade()
    finally:
        site.machine.shell("cp -a /root/kept %s" % file)


def test_the_day_is_whole(site: Site) -> None:
    """After all of that."""
    site.machine.run("systemctl", "stop", GATEWAY)
    (log,) = (site.machine.root / "var/lib/mireseason").glob("day-*.db")
    key = "/%s/keys/gateway.pub" % ETC
    site.machine.run(
        "mireseason-audit", "check", "--gateway-key", key, "/var/lib/mireseason/" + log.name
    )
