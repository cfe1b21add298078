"""What a removal of a package ends, and what a purge takes away and leaves: its scripts, with stand-ins for what they call."""

import os
import subprocess
from dataclasses import dataclass
from pathlib import Path

import pytest

from tests.gateway.wait import LONG
from tests.operating.scripts import script_of

UNITS = {
    "mireseason-gateway": "mireseason-gateway.service",
    "mireseason-keeper": "mireseason-keeper.timer",
    "mireseason-desk": "mireseason-desk.service",
}
INVOKE = '#!/bin/sh\necho "$*" >>"%s"\nexit %d\n'


@dataclass
class Host:
    """A host whose files are those of a folder."""

    place: Path

    def has(self, *paths: str) -> None:
        """Files, with the folders that they stand in; a path that ends in `/` is a folder."""
        for path in paths:
            made = self.place / path
            if path.endswith("/"):
                made.mkdir(parents=True, exist_ok=True)
            else:
                made.parent.mkdir(parents=True, exist_ok=True)
                made.touch()

    @property
    def files(self) -> set[str]:
        """Its files, and its folders that have none."""
        found = [path for path in self.place.rglob("*") if path.name != "deb-systemd-invoke"]
        ends = [path for path in found if not path.is_dir() or not any(path.iterdir())]
        return {str(path.relative_to(self.place)) for path in ends}

    def run(self, package: str, script: str, *words: str) -> str:
        """What a script says, which has to go well."""
        text = script_of(package, script)
        for folder in ("/etc/", "/var/lib/", "/run/systemd/"):
            text = text.replace(folder, str(self.place) + folder)
        path = "%s:%s" % (self.place, os.environ["PATH"])
        done = subprocess.run(
            ["sh", "-c", text, script, *words],
            env={"PATH": path},
            capture_output=True,
            text=True,
            timeout=LONG,
            check=False,
        )
        assert done.returncode == 0, done.stderr
        return done.stderr


@pytest.mark.parametrize("status", [0, 1])
@pytest.mark.parametrize("package", UNITS)
def test_a_removal_ends_what_an_operator_started(place: Path, package: str, status: int) -> None:
    """Nothing else does; and what can't be ended keeps no package from being removed."""
    host = Host(place)
    host.has("run/systemd/system/")
    invoke = place / "deb-systemd-invoke"
    invoke.write_text(INVOKE % (place / "did", status))
    invoke.chmod(0o755)
    assert host.run(package, "prerm", "upgrade", "1.1") == ""
    assert not (place / "did").exists()
    host.run(package, "prerm", "remove")
    assert (place / "did").read_text() == "stop %s\n" % UNITS[package]
    (place / "did").unlink()
    (place / "run/systemd/system").rmdir()
    host.run(package, "prerm", "remove")
    assert not (place / "did").exists()


# Of each package: what it has where nothing was recorded yet, what a record is, and what goes all the same.
OWN = {
    "mireseason-gateway": [
        "etc/mireseason/gateway.toml",
        "etc/mireseason/gateway.toml.new",
        "etc/mireseason/keys/seal.key",
        "var/lib/mireseason/",
    ],
    "mireseason-keeper": [
        "etc/mireseason-keeper/seal.pem",
        "etc/mireseason-keeper/seal.pub",
        "etc/mireseason-keeper/.new/seal.pem",
        "etc/mireseason-keeper/keys/",
        "var/lib/mireseason-keeper/copies/",
        "var/lib/mireseason-keeper/sealed/",
        "var/lib/mireseason-keeper/metrics/mireseason.prom",
    ],
    "mireseason-desk": ["etc/mireseason-desk/fix.password", "var/lib/mireseason-desk/"],
}
RECORDS = {
    "mireseason-gateway": "var/lib/mireseason/day-20261127.db",
    "mireseason-keeper": "var/lib/mireseason-keeper/copies/20261127/day-20261127.db",
    "mireseason-desk": "var/lib/mireseason-desk/20261127.journal",
}
GOES = {
    "mireseason-gateway": {"etc/mireseason/gateway.toml", "etc/mireseason/gateway.toml.new"},
    "mireseason-keeper": set[str](),
    "mireseason-desk": {"etc/mireseason-desk/fix.password"},
}


@pytest.mark.parametrize("package", OWN)
def test_a_purge_takes_all_away_where_there_is_no_record(place: Path, package: str) -> None:
    host = Host(place)
    host.has(*OWN[package])
    assert host.run(package, "postrm", "purge") == ""
    assert host.files == {"etc", "var/lib"}
    assert host.run(package, "postrm", "purge") == ""


@pytest.mark.parametrize("package", OWN)
def test_a_purge_leaves_the_record(place: Path, package: str) -> None:
    """And the keys that show that nobody changed it; and it says so."""
    host = Host(place)
    host.has(*OWN[package], RECORDS[package])
    before = host.files
    told = host.run(package, "postrm", "purge")
    assert told.startswith(package + ": the ") and told.endswith(" stay\n")
    emptied = {"etc"} if package == "mireseason-desk" else set()
    assert host.files == (before - GOES[package]) | emptied


@pytest.mark.parametrize("package", OWN)
def test_a_purge_leaves_what_is_not_its_own(place: Path, package: str) -> None:
    """A file that somebody else has put into its folders."""
    host = Host(place)
    other = "etc/%s/other" % package.removesuffix("-gateway")
    host.has(*OWN[package], other)
    host.run(package, "postrm", "purge")
    assert host.files == {other, "var/lib"}


@pytest.mark.parametrize("package", OWN)
def test_a_removal_alone_leaves_all(place: Path, package: str) -> None:
    host = Host(place)
    host.has(*OWN[package], RECORDS[package])
    before = host.files
    assert host.run(package, "postrm", "remove") == ""
    assert host.files == before
