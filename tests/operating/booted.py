"""Boots a fresh Debian in systemd-nspawn: a machine with systemd as its first process, and no network but its own."""

import subprocess
from collections.abc import Iterator
from contextlib import contextmanager
from dataclasses import dataclass
from pathlib import Path

import pytest

from tests.gateway.wait import LONG, until
from tests.operating.built_packages import Packages, needs

ENVIRONMENT = ("PATH=/usr/sbin:/usr/bin:/sbin:/bin", "LC_ALL=C.UTF-8", "HOME=/root")
APT = ("DEBIAN_FRONTEND=noninteractive", "apt-get", "-y", "-o", "Dpkg::Use-Pty=0")


@dataclass
class Booted:
    """One that runs. `root` is its files, seen from here."""

    root: Path
    leader: int  # its first process

    def called(self, *words: str) -> "subprocess.CompletedProcess[str]":
        """A command in it, as root."""
        enter = ["nsenter", "--target", str(self.leader), "--all", "--", "/usr/bin/env", "-i"]
        return subprocess.run(
            [*enter, *ENVIRONMENT, *words],
            stdin=subprocess.DEVNULL,
            capture_output=True,
            text=True,
            timeout=10 * LONG,
            check=False,
        )

    def run(self, *words: str) -> str:
        """The same, which has to end well."""
        done = self.called(*words)
        told = "%s: status %d\n%s%s" % (" ".join(words), done.returncode, done.stdout, done.stderr)
        assert done.returncode == 0, told
        return done.stdout

    def shell(self, text: str) -> str:
        return self.run("sh", "-c", text)

    def apt(self, *words: str, folder: str = "/root") -> "subprocess.CompletedProcess[str]":
        """apt-get, from a folder; a word may be a pattern of the shell's."""
        return self.called("sh", "-c", "cd %s && exec env %s" % (folder, " ".join((*APT, *words))))

    def show(self, unit: str, name: str) -> str:
        return self.run("systemctl", "show", "--property", name, "--value", unit).strip()

    def wait_status(self, unit: str, text: str) -> None:
        """Until the unit's own line begins so."""
        until(
            "%s is %s" % (unit, text), LONG, lambda: self.show(unit, "StatusText").startswith(text)
        )

    def versions(self) -> dict[str, str]:
        """What of the venue is installed, with dpkg's two letters in front where that is not all well."""
        form = "${Package} ${Version} ${db:Status-Abbrev}\\n"
        rows = (
            line.split()
            for line in self.shell("dpkg-query -W -f '%s' 'mireseason*'" % form).splitlines()
        )
        return {
            name: version if state == "ii" else state + version for name, version, state in rows
        }

    def edit(self, file: str, old: str, new: str) -> None:
        path = self.root / file
        text = path.read_text()
        assert old in text, (file, old)
        path.write_text(text.replace(old, new))

    def bring(self, packages: Packages) -> str:
        """Puts packages into a folder of the machine; its name there."""
        folder = self.root / "root" / packages.version
        folder.mkdir(exist_ok=True)
        for file in packages.all_files:
            (folder / file.name).write_bytes(file.read_bytes())
        return "/root/" + packages.version


def is_first(process: str) -> bool:
    """Whether a process is the first of a namespace of its own."""
    try:
        status = Path("/proc/%s/status" % process).read_text()
    except OSError:
        return False  # it has ended, as the one that systemd-nspawn begins before it does
    (numbers,) = (line.split()[1:] for line in status.splitlines() if line.startswith("NSpid:"))
    return len(numbers) > 1 and numbers[-1] == "1"


def leader_of(process: "subprocess.Popen[bytes]") -> int | None:
    """The first process of the machine that systemd-nspawn has begun, once there is one."""
    children = Path("/proc/%d/task/%d/children" % (process.pid, process.pid))
    numbers = children.read_text().split() if process.poll() is None else []
    return next((int(number) for number in numbers if is_first(number)), None)


def is_up(machine: Booted) -> bool:
    told = machine.called("systemctl", "is-system-running").stdout.strip()
    return told in ("running", "degraded")


@contextmanager
def booted(root: Path, console: Path) -> Iterator[Booted]:
    """Boots the system of a folder; its end is the machine's."""
    needs("systemd-nspawn", "nsenter")
    (root / "etc/machine-id").unlink(missing_ok=True)
    words = ["systemd-nspawn", "--quiet", "--register=no", "--keep-unit", "--private-network"]
    words += ["--directory=%s" % root, "--machine=m%s" % root.parent.name, "--boot"]
    with console.open("wb") as told:
        process = subprocess.Popen(
            [*words, "--console=read-only"],
            stdin=subprocess.DEVNULL,
            stdout=told,
            stderr=subprocess.STDOUT,
            start_new_session=True,
        )
    try:
        until("it begins", LONG, lambda: process.poll() is not None or bool(leader_of(process)))
        leader = leader_of(process)
        if leader is None:
            last = console.read_text(errors="replace").strip().splitlines() or ["no word"]
            pytest.skip("systemd-nspawn boots nothing here: %s" % last[-1])
        machine = Booted(root, leader)
        until("it is up", LONG, lambda: is_up(machine))
        yield machine
        machine.called("systemctl", "poweroff")
        process.wait(LONG)
    finally:
        if process.poll() is None:
            process.kill()  # which ends all processes of the machine
            process.wait()
