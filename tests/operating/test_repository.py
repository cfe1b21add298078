"""The signed repository: what apt takes from it, and what is never signed."""

import fcntl
import hashlib
import os
import shutil
import subprocess
from dataclasses import dataclass
from pathlib import Path

import pytest

from tests.gateway.wait import LONG
from tests.harness.options import ROOT
from tests.operating.built_packages import needs

NAMES = ("mireseason", "mireseason-venue", "mireseason-gateway")
CONTROL = """Package: %s
Version: %s
Architecture: %s
Maintainer: nobody <nobody@example.org>
Description: a stand-in
"""
PROGRAMS = "# rfq_venue %s: the program of mireseason %s, proved from commit %s\n"
TRIAL_COMMITS = ("0123456789ab+", "unknown")


@dataclass
class Builder:
    """Who makes releases: a folder of packages, and a key of gpg."""

    place: Path

    def __post_init__(self) -> None:
        self.home.mkdir(mode=0o700)
        self.make_key("builder")

    @property
    def home(self) -> Path:
        return self.place / "gnupg"

    @property
    def repository(self) -> Path:
        return self.place / "repository"

    @property
    def environment(self) -> dict[str, str]:
        return {**os.environ, "GNUPGHOME": str(self.home), "UNPROVED": "0", "URL": ""}

    def make_key(self, name: str) -> None:
        words = ["gpg", "--batch", "--quiet", "--passphrase", "", "--quick-generate-key"]
        subprocess.run([*words, name, "ed25519", "sign", "never"], env=self.environment, check=True)

    def package(self, version: str, commit: str = "0123456789ab", text: str = "") -> Path:
        """Stand-ins of a version's packages, which are told apart by a text."""
        folder = self.place / ("packages-%s%s%s" % (version, commit[12:], text))
        for name in NAMES:
            tree = folder / "trees" / name
            (tree / "DEBIAN").mkdir(parents=True)
            kind = "all" if name == NAMES[0] else "amd64"
            (tree / "DEBIAN/control").write_text(CONTROL % (name, version, kind))
            (tree / "usr/share/mireseason").mkdir(parents=True)
            (tree / "usr/bin").mkdir()
            (tree / "usr/share/mireseason" / "programs").write_text(
                PROGRAMS % (version, version, commit)
            )
            (tree / "usr/bin" / name).write_text(text or "a program")
            words = ["dpkg-deb", "--root-owner-group", "-b", str(tree), str(folder)]
            subprocess.run(words, check=True, capture_output=True)
        return folder

    def release(
        self, packages: Path, key: str = "builder", **more: str
    ) -> "subprocess.CompletedProcess[str]":
        return self.call(key, str(self.repository), str(packages), **more)

    def call(self, *words: str, **more: str) -> "subprocess.CompletedProcess[str]":
        return subprocess.run(
            [str(ROOT / "install" / "repository.sh"), *words],
            env={**self.environment, **more},
            capture_output=True,
            text=True,
            timeout=LONG,
            check=False,
        )

    def released(self, packages: Path, by: str = "builder", **more: str) -> None:
        done = self.release(packages, by, **more)
        assert done.returncode == 0, done.stderr


@dataclass
class Host:
    """An apt of its own, which knows that repository alone."""

    place: Path

    def __post_init__(self) -> None:
        for folder in ("etc/sources", "lists/partial", "cache/archives/partial"):
            (self.place / folder).mkdir(parents=True)
        (self.place / "status").touch()

    def trust(self, sources: Path) -> None:
        shutil.copy2(sources, self.place / "etc/sources/mireseason.sources")

    def apt(self, *words: str, by: str = "apt-get") -> "subprocess.CompletedProcess[str]":
        options = {
            "Dir::Etc::sourcelist": "/dev/null",
            "Dir::Etc::sourceparts": self.place / "etc/sources",
            "Dir::Etc::trusted": "/dev/null",
            "Dir::Etc::trustedparts": "/dev/null",
            "Dir::State::lists": self.place / "lists",
            "Dir::State::status": self.place / "status",
            "Dir::Cache": self.place / "cache",
            "APT::Sandbox::User": "root",
            "APT::Update::Error-Mode": "any",
        }
        command = [by, *("-o%s=%s" % option for option in options.items()), *words]
        return subprocess.run(
            command, cwd=self.place, capture_output=True, text=True, timeout=LONG, check=False
        )

    def update(self) -> bool:
        return self.apt("update").returncode == 0


@pytest.fixture
def builder(place: Path) -> Builder:
    needs("apt-ftparchive", "apt-get", "dpkg-deb", "gpg", "gpgv", "xz")
    return Builder(place)


@pytest.fixture
def host(builder: Builder, place: Path) -> Host:
    """One that trusts a repository with a release in it."""
    builder.released(builder.package("1.0"))
    host = Host(place / "host")
    host.trust(builder.repository / "mireseason.sources")
    assert host.update()
    return host


def versions(host: Host) -> list[str]:
    """All versions of the metapackage that can be had."""
    told = host.apt("madison", "mireseason", by="apt-cache").stdout
    return [line.split("|")[1].strip() for line in told.splitlines()]


def test_apt_takes_a_release_and_the_one_before(builder: Builder, host: Host) -> None:
    """A second release stands beside the first, so that a host can go back; each is had byte for byte."""
    newer = builder.package("1.1")
    builder.released(newer)
    builder.released(newer)  # once more changes nothing
    assert host.update() and sorted(versions(host)) == ["1.0", "1.1"]
    for version in ("1.0", "1.1"):
        done = host.apt("download", "mireseason-venue=" + version)
        assert done.returncode == 0, done.stderr
        file = "mireseason-venue_%s_amd64.deb" % version
        original = builder.place / ("packages-" + version) / file
        assert (host.place / file).read_bytes() == original.read_bytes()


def test_where_hosts_find_it(builder: Builder) -> None:
    builder.released(builder.package("1.0"), URL="https://venue.example/apt")
    text = (builder.repository / "mireseason.sources").read_text()
    assert "\nURIs: https://venue.example/apt\n" in text
    assert "\n -----BEGIN PGP PUBLIC KEY BLOCK-----\n .\n" in text


def test_another_key_is_not_trusted(builder: Builder, host: Host, place: Path) -> None:
    """Who signs the same packages by a key of its own reaches no host, and nobody goes on with a repository of another's."""
    builder.make_key("intruder")
    done = builder.release(builder.package("1.1"), key="intruder")
    assert done.returncode == 1 and "InRelease is not signed by" in done.stderr
    other = place / "other"
    shutil.move(builder.repository, other)
    builder.released(builder.package("1.2"), by="intruder")
    assert not host.update()
    assert versions(host) == ["1.0"]


TAMPERED = {
    "the index": "dists/stable/main/binary-amd64/Packages",
    "what is signed": "dists/stable/InRelease",
}


@pytest.mark.parametrize("what", TAMPERED)
def test_what_somebody_wrote_into_it_is_not_signed(builder: Builder, host: Host, what: str) -> None:
    """Not by the next release either: it ends, and says what is wrong."""
    file = builder.repository / TAMPERED[what]
    file.write_text(
        file.read_text().replace("mireseason", "mireseas0n").replace("stable", "stab1e")
    )
    done = builder.release(builder.package("1.1"))
    assert done.returncode == 1, done.stdout
    assert "not what" in done.stderr or "is not signed by" in done.stderr


def test_a_package_that_was_exchanged(builder: Builder, host: Host) -> None:
    """No host takes it, also after the next release, which has its sum from what was signed and not from the file."""
    other = builder.package("1.0", text="another program")
    name = "mireseason-gateway_1.0_amd64.deb"
    shutil.copy2(other / name, builder.repository / "pool" / name)
    builder.released(builder.package("1.1"))
    assert host.update()
    done = host.apt("download", "mireseason-gateway=1.0")
    assert done.returncode != 0 and not (host.place / name).exists()
    assert host.apt("download", "mireseason-gateway=1.1").returncode == 0


LINKS = (
    "pool/mireseason_1.1_all.deb",
    "dists/stable/InRelease.part",
    "mireseason.sources.part",
    "mireseason.sources",
)


@pytest.mark.parametrize("name", LINKS)
def test_a_link_in_it_is_not_followed(builder: Builder, host: Host, name: str) -> None:
    """Whoever else writes there has nothing of the builder's written over."""
    kept = builder.place / "kept"
    kept.write_text("the builder's own")
    place = builder.repository / name
    place.unlink(missing_ok=True)
    place.symlink_to(kept)
    builder.released(builder.package("1.1"))
    assert kept.read_text() == "the builder's own"
    assert host.update() and sorted(versions(host)) == ["1.0", "1.1"]


def test_a_version_never_changes(builder: Builder, host: Host) -> None:
    done = builder.release(builder.package("1.0", text="another program"))
    assert done.returncode == 1 and "a version never changes" in done.stderr
    assert "pool/mireseason-gateway_1.0_amd64.deb" in done.stderr


@pytest.mark.parametrize("commit", TRIAL_COMMITS)
def test_trials_are_refused(builder: Builder, commit: str) -> None:
    """Of a tree with changes, or of no commit; unless the caller says that it is a trial."""
    packages = builder.package("1.0", commit)
    done = builder.release(packages)
    assert done.returncode == 1 and "is for trials alone" in done.stderr
    assert not (builder.repository / "dists/stable/InRelease").exists()
    builder.released(packages, UNPROVED="1")


def test_sessions_that_are_not_proved_are_refused(builder: Builder) -> None:
    packages = builder.package(
        "1.0", text="mireseason-gateway 1.0 (0123), sessions not proved: model"
    )
    done = builder.release(packages)
    assert done.returncode == 1 and "mireseason-gateway_1.0_amd64.deb is for trials" in done.stderr


def test_how_it_is_called(builder: Builder) -> None:
    """With a key and a folder, and perhaps the folder of the packages; else it says how, and does nothing."""
    folder = str(builder.place / "new")
    wrong: list[list[str]] = [["builder"], ["builder", folder, folder, folder], []]
    for words in wrong:
        done = builder.call(*words)
        assert done.returncode == 2 and "install/repository.sh KEY DIR [PACKAGES]" in done.stderr
        assert not Path(folder).exists()
    done = builder.call("builder", folder, str(builder.place / "none"))
    assert done.returncode == 1 and not Path(folder).exists()
    done = builder.call("builder", folder)
    assert done.returncode != 2 and "KEY DIR" not in done.stderr


def test_an_address_with_a_blank(builder: Builder) -> None:
    done = builder.release(builder.package("1.0"), URL="https://venue.example/a b")
    assert done.returncode == 1 and "the address has a blank" in done.stderr


def test_a_key_with_a_second_one(builder: Builder) -> None:
    """The key is known by its own fingerprint, and not by that of a key that belongs to it."""
    words = ["gpg", "--batch", "--with-colons", "--list-secret-keys", "builder"]
    told = subprocess.run(words, env=builder.environment, capture_output=True, text=True)
    own = next(line.split(":")[9] for line in told.stdout.splitlines() if line[:4] == "fpr:")
    more = ["gpg", "--batch", "--quiet", "--passphrase", "", "--quick-add-key", own, "cv25519"]
    subprocess.run([*more, "encr", "never"], env=builder.environment, check=True)
    done = builder.release(builder.package("1.0"))
    assert done.returncode == 0 and "is signed by %s;" % own in done.stdout


def test_what_is_signed_stands_by_its_sum(builder: Builder, host: Host) -> None:
    """Whoever reads while a release is made finds the index that was signed: that of each release stays."""
    folder = builder.repository / "dists/stable/main/binary-amd64"
    first = {path.name for path in (folder / "by-hash/SHA256").iterdir()}
    builder.released(builder.package("1.1"))
    release = (builder.repository / "dists/stable/InRelease").read_text()
    for name in ("Packages", "Packages.xz"):
        data = (folder / name).read_bytes()
        kept = hashlib.sha256(data).hexdigest()
        assert (folder / "by-hash/SHA256" / kept).read_bytes() == data
        assert " %s " % kept in release and " main/binary-amd64/%s\n" % name in release
    assert len(first) == 2 and first < {path.name for path in (folder / "by-hash/SHA256").iterdir()}


def test_another_call_at_work(builder: Builder) -> None:
    builder.repository.mkdir()
    folder = os.open(builder.repository, os.O_RDONLY)
    try:
        fcntl.flock(folder, fcntl.LOCK_EX)
        done = builder.release(builder.package("1.0"))
    finally:
        os.close(folder)
    assert done.returncode == 1 and "another call works in" in done.stderr
    assert list(builder.repository.iterdir()) == []


def test_wrong_words(builder: Builder) -> None:
    """A key that gpg does not have, or has twice; a folder without packages."""
    packages = builder.package("1.0")
    assert "has not one secret key" in builder.release(packages, key="nobody").stderr
    (builder.place / "empty").mkdir()
    assert "build them first" in builder.release(builder.place / "empty").stderr
    builder.make_key("builder's second")
    assert "has not one secret key" in builder.release(packages, key="builder").stderr
