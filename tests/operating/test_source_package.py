"""The source package: debian/, and what it takes of what the gate proved."""

import hashlib
import os
import subprocess
from collections.abc import Iterator
from pathlib import Path

import pytest

from tests.gateway.wait import LONG
from tests.harness.options import ROOT
from tests.operating.built_packages import (
    DESK,
    PACKAGES,
    VERSION,
    Packages,
    desk_folder,
    printed,
    tree_of,
)

ELF = b"\x7fELF"
PROGRAMS = {
    "usr/bin/rfq_venue",
    "usr/bin/mireseason-gateway",
    "usr/bin/mireseason-admin",
    "usr/bin/mireseason-desk",
}
PROVED = {
    "debian/proved/rfq_venue",
    "debian/proved/libfix_sessions_c.a",
    "debian/proved/libsession_recovery_c.a",
}
STAND_IN = "#!/bin/sh\necho rfq_venue\n"


def test_its_changes_are_those_of_the_version() -> None:
    """debian/changelog is CHANGELOG.md's part, but for the moment. If not: install/packages/changelog.sh > debian/changelog"""
    made = printed(ROOT / "install" / "packages" / "changelog.sh").splitlines()
    kept = (ROOT / "debian" / "changelog").read_text().splitlines()
    assert kept[:-1] == made[:-1] and made[-1].startswith(" -- Mireseason maintainers <")


def test_it_is_built_with_what_the_parts_name() -> None:
    """What debian/control builds with is what the gateway's and the desk's own lists have."""
    control = (ROOT / "debian" / "control").read_text()
    apart = {
        "gateway": {"libquickfix-dev", "g++"},
        "desk": {"g++"},
    }  # of its tests, and of build-essential
    for part, others in apart.items():
        for name in set(printed(ROOT / part / "packages.sh").split()) - others:
            assert "\n %s" % name in control, name


def elves(root: Path) -> Iterator[str]:
    """The compiled programs and libraries below a folder."""
    for file in root.rglob("*"):
        if file.is_file() and not file.is_symlink():
            with file.open("rb") as opened:
                head = opened.read(8)
            if head[:4] == ELF or head == b"!<arch>\n":
                yield str(file.relative_to(root))


def test_nothing_of_the_kit_is_in_a_package(packages: Packages, place: Path) -> None:
    """Programs of the venue, the gateway and the desk are all that is compiled; the source has nothing but what the gate proved."""
    for name in (*PACKAGES, *([DESK] if desk_folder() else [])):
        packages.unpacked(name, place / "root")
    assert set(elves(place / "root")) <= PROGRAMS
    (place / "source").mkdir()
    archive = packages.folder / ("mireseason_%s.tar.xz" % VERSION)
    subprocess.run(["tar", "-C", place / "source", "-xf", archive], check=True)
    (source,) = (place / "source").iterdir()
    assert set(elves(source)) <= PROVED
    for name in ("debian/control", "gateway/src/main.cpp", "crates/proved.sha256", "COMMIT"):
        assert (source / name).is_file(), name
    assert not list(source.rglob("out")) and not (source / ".git").exists()


def put_together(tree: Path, gateway: Path, **more: str) -> "subprocess.CompletedProcess[str]":
    """As debian/rules does it."""
    environment = {**os.environ, "GATEWAY": str(gateway.parent), "UNPROVED": "0", **more}
    environment |= {"DEB_BUILD_PROFILES": "pkg.mireseason.nodesk", "VENUE": ""}
    return subprocess.run(
        [tree / "debian" / "build.sh"],
        env=environment,
        capture_output=True,
        text=True,
        timeout=LONG,
        check=False,
    )


@pytest.fixture
def tree(place: Path) -> Path:
    """A copy of this tree, with a program that is not the proved one."""
    tree = tree_of(VERSION, place / "tree")
    proved = tree / "debian" / "proved"
    proved.mkdir(exist_ok=True)
    (proved / "rfq_venue").write_text(STAND_IN)
    (proved / "rfq_venue").chmod(0o755)
    return tree


def test_a_program_that_is_not_the_proved_one_is_refused(tree: Path, gateway_program: Path) -> None:
    """By its sum; a trial takes it."""
    done = put_together(tree, gateway_program)
    assert done.returncode == 1 and "is not the one of crates/proved.sha256" in done.stderr
    assert put_together(tree, gateway_program, UNPROVED="1").returncode == 0
    sums = tree / "crates" / "proved.sha256"
    sum_of_it = hashlib.sha256(STAND_IN.encode()).hexdigest()
    sums.write_text("%s  crates/rfq_venue/out/rfq_venue\n" % sum_of_it)
    done = put_together(tree, gateway_program)
    assert "rfq_venue" not in done.stderr
    told = printed(gateway_program, "--version")
    assert (done.returncode == 1) == ("not proved" in told), done.stderr
    if done.returncode:
        assert "was built with the sessions' second implementation" in done.stderr
