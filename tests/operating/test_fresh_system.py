"""What the packages do on a fresh system that has neither `rt` nor a compiler."""

import os
import shutil
import signal
import subprocess
from collections.abc import Iterator
from contextlib import contextmanager
from dataclasses import dataclass
from pathlib import Path

import pytest

from tests.gateway.door import Port
from tests.gateway.firm import Firm, Identity, Places
from tests.gateway.stage import Stage, Tools
from tests.gateway.wait import LONG, until
from tests.operating.built_packages import PACKAGES, Packages, needs
from tests.operating.debian_system import fresh_debian, set_hours


@dataclass
class System:
    """A fresh system, in a folder, whose programs run with the network of this one."""

    root: Path
    gateway: "subprocess.Popen[bytes] | None" = None

    def run(self, *words: str, status: int = 0) -> str:
        environment = {
            "PATH": "/usr/sbin:/usr/bin:/sbin:/bin",
            "HOME": "/root",
            "DEBIAN_FRONTEND": "noninteractive",
            "LC_ALL": "C.UTF-8",
        }
        done = subprocess.run(
            ["chroot", self.root, *words],
            env=environment,
            capture_output=True,
            text=True,
            timeout=5 * LONG,
            check=False,
        )
        assert done.returncode == status, "%s: status %d\n%s%s" % (
            " ".join(words),
            done.returncode,
            done.stdout,
            done.stderr,
        )
        return done.stdout

    def bring(self, packages: Packages) -> str:
        """Puts the packages into a folder of the system; its name there."""
        folder = self.root / "root" / packages.version
        folder.mkdir(exist_ok=True)
        for file in packages.all_files:
            shutil.copy2(file, folder)
        return "/root/" + packages.version

    def install(self, packages: Packages) -> None:
        """As from a folder, without a mirror: all that they need is there."""
        files = " ".join("./%s_*.deb" % name for name in PACKAGES)
        words = "cd %s && apt-get install -y -o Dpkg::Use-Pty=0 %s"
        self.run("sh", "-c", words % (self.bring(packages), files))

    def upgrade(self, packages: Packages, word: str) -> None:
        """By the command of docs/OPERATING.md, which is also that of a way back."""
        words = "cd %s && apt-get install -y -o Dpkg::Use-Pty=0 --no-remove --only-upgrade %s ./mireseason*.deb"
        self.run("sh", "-c", words % (self.bring(packages), word))
        assert self.versions() == {name: packages.version for name in PACKAGES}

    def versions(self) -> dict[str, str]:
        """What is installed of the venue."""
        told = self.run(
            "dpkg-query", "-W", "-f", "${Package} ${Version} ${Status}\n", "mireseason*"
        )
        rows = (line.split(" ", 2) for line in told.splitlines())
        return {name: version for name, version, status in rows if status == "install ok installed"}

    def start(self) -> None:
        """As the unit does: by its user, with its command."""
        words = [
            "chroot",
            "--userspec=mireseason:mireseason",
            "--groups=mireseason-operators",
            str(self.root),
            "/usr/bin/mireseason-gateway",
            "/etc/mireseason/gateway.toml",
        ]
        self.run("install", "-d", "-o", "mireseason", "/run/mireseason")
        with (self.root / "var/lib/mireseason.told").open("ab") as told:
            self.gateway = subprocess.Popen(
                words, stdin=subprocess.DEVNULL, stdout=told, stderr=subprocess.STDOUT
            )

    def stop(self) -> None:
        if self.gateway:
            self.gateway.send_signal(signal.SIGTERM)
            assert self.gateway.wait(timeout=LONG) == 0, (
                self.root / "var/lib/mireseason.told"
            ).read_text()
            self.gateway = None

    def edit(self, file: str, old: str, new: str) -> None:
        path = self.root / file
        text = path.read_text()
        assert old in text, (file, old)
        path.write_text(text.replace(old, new))


@contextmanager
def mounted(proc: Path) -> Iterator[None]:
    """What the packages' scripts ask of the kernel (systemd-tmpfiles) is there."""
    subprocess.run(["mount", "-t", "proc", "proc", proc], check=True)
    try:
        yield
    finally:
        # What was started there may be ending still.
        until(
            "it is free",
            LONG,
            lambda: subprocess.run(["umount", proc], check=False).returncode == 0,
        )


@pytest.fixture
def fresh(place: Path) -> Iterator[System]:
    """A system that is not booted."""
    needs("chroot")
    root = place / "system"
    fresh_debian(root)
    for name, number in (("null", 3), ("zero", 5), ("random", 8), ("urandom", 9)):
        device = root / "dev" / name
        if not device.is_char_device():
            device.unlink(missing_ok=True)
            os.mknod(device, 0o020666, os.makedev(1, number))
            device.chmod(0o666)
    with mounted(root / "proc"):
        system = System(root)
        yield system
        if system.gateway:
            system.gateway.kill()
            system.gateway.wait()
    shutil.rmtree(root)


def settings(text: str) -> dict[str, str]:
    return dict(line.split("=", 1) for line in text.splitlines() if "=" in line and line[0] != "#")


def firm_of(stage: Stage, told: str, trader: str, port: int) -> Firm:
    """A stock initiator by what mireseason-credentials printed."""
    said = settings(told)
    assert said["Username"] == said["SenderCompID"] and int(said["SocketConnectPort"]) == port
    who = Identity(said["SenderCompID"], trader, said["Password"])
    return Firm(Places(stage.tools.player, stage.folder, stage.tools.dictionaries, port), who)


def keeper_is_read(fresh: System) -> None:
    """As installed it writes what the alerts wait for, to where Debian's node exporter looks."""
    folder = ["install", "-d", "-m", "2750", "-o", "mireseason", "-g", "mireseason-keeper"]
    fresh.run(*folder, "/srv/mireseason-copies")
    fresh.run("sh", "-c", "cp /etc/mireseason/keys/gateway.pub /etc/mireseason-keeper/keys")
    fresh.run("runuser", "-u", "mireseason-keeper", "mireseason-keeper")
    told = fresh.run("cat", "/var/lib/prometheus/node-exporter/mireseason.prom")
    assert "\nmireseason_copies_without_seal 0\n" in told


def both_are_on(stage: Stage) -> bool:
    return stage.dealer.logged_on() and stage.investor.logged_on()


@pytest.mark.long
def test_a_fresh_system(
    fresh: System, packages: Packages, newer: Packages, tools: Tools, place: Path
) -> None:
    """From the packages two firms trade in five commands; an upgrade of all packages in the midst of the day, and the way back,
    lose nothing; a purge leaves the record."""
    for program in ("gcc", "g++", "cc", "rt", "make"):
        assert not shutil.which(
            program, path="%s/usr/bin:%s/usr/local/bin" % (fresh.root, fresh.root)
        ), program
    fresh.install(packages)
    assert (fresh.root / "etc/mireseason").stat().st_mode & 0o7777 == 0o750
    assert (fresh.root / "etc/mireseason/credentials.toml").stat().st_mode & 0o7777 == 0o640
    fresh.run("sha256sum", "--check", "/usr/share/mireseason/programs")
    sessions, page = Port(), Port()  # held to the end: the gateway is ended and started
    port, metrics = sessions.number, page.number
    set_hours(fresh.root)
    fresh.edit("etc/mireseason/gateway.toml", "port = 9878", "port = %d" % port)
    fresh.edit("etc/mireseason/gateway.toml", "port = 9879", "port = %d" % metrics)

    # The five commands of docs/OPERATING.md; systemctl is played by this test.
    dealer = fresh.run("mireseason-credentials", "DLR1")
    investor = fresh.run("mireseason-credentials", "INV1")
    checked = fresh.run("mireseason-gateway", "--check", "/etc/mireseason/gateway.toml")
    assert "is a configuration of 2 firms for " in checked
    fresh.start()
    until(
        "it is ready",
        LONG,
        lambda: "ready: "
        in fresh.run("sh", "-c", "curl -s http://127.0.0.1:%d/ready || true" % metrics),
    )

    folder = place / "firms"
    folder.mkdir()
    stage = Stage(tools, folder)
    stage.dealer, stage.investor = firm_of(stage, dealer, "T1", port), firm_of(
        stage, investor, "T8", port
    )
    try:
        stage.log_on(stage.dealer, stage.investor)
        stage.auction([stage.dealer])
        assert "DLR1" in fresh.run("mireseason-admin", "firms")
        (fresh.root / "etc/mireseason/holidays").write_text("2030-01-01\n")
        for other, word in ((newer, "--assume-yes"), (packages, "--allow-downgrades")):
            request = stage.ask(dealers=[stage.dealer])
            fresh.stop()  # the package's own restart is played too
            fresh.upgrade(other, word)
            assert (fresh.root / "etc/mireseason/holidays").read_text() == "2030-01-01\n"
            fresh.start()
            until("both are back", LONG, lambda: both_are_on(stage))
            stage.quote(stage.dealer, request)
            stage.auction([stage.dealer])
    finally:
        for firm in (stage.dealer, stage.investor):
            firm.kill()
    fresh.stop()
    (log,) = (fresh.root / "var/lib/mireseason").glob("day-*.db")
    fresh.run(
        "mireseason-audit",
        "check",
        "--gateway-key",
        "/etc/mireseason/keys/gateway.pub",
        "/var/lib/mireseason/" + log.name,
    )
    keeper_is_read(fresh)

    fresh.run("apt-get", "purge", "-y", "-o", "Dpkg::Use-Pty=0", *PACKAGES)
    assert log.exists(), "a purge took the record away"
    assert not (fresh.root / "usr/bin/mireseason-gateway").exists()
    assert not (fresh.root / "etc/mireseason/gateway.toml").exists()
    assert (fresh.root / "etc/mireseason/keys/seal.key").exists()
