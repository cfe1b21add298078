"""Builds the Debian packages of the programs under test."""

import os
import shutil
import subprocess
import zipapp
from collections.abc import Iterator
from dataclasses import dataclass
from pathlib import Path

import pytest

from tests.gateway.wait import LONG
from tests.harness.options import ROOT

METAPACKAGE = "mireseason"  # all that one machine's venue consists of
PACKAGES = (
    METAPACKAGE,
    "mireseason-venue",
    "mireseason-gateway",
    "mireseason-audit",
    "mireseason-keeper",
)
DESK = "mireseason-desk"  # a package of a firm's own host, where the desk is built
VERSION = (ROOT / "VERSION").read_text().strip()
NEWER = VERSION + ".1"
IN_2026 = 1_780_000_000  # some moment of that year
SECOND_MAIN = """import sys

if sys.argv[1:] == ["--version"]:
    print("rfq_venue %s, the second implementation")
else:
    from second_venue.main import main

    main()
"""


@dataclass(frozen=True)
class Packages:
    """The packages of one version, in a folder."""

    folder: Path
    version: str

    def file(self, name: str) -> Path:
        (found,) = self.folder.glob("%s_%s_*.deb" % (name, self.version))
        return found

    @property
    def files(self) -> list[Path]:
        return [self.file(name) for name in PACKAGES]

    @property
    def all_files(self) -> Iterator[Path]:
        """The desk's too, where it was built."""
        return self.folder.glob("mireseason*_%s_*.deb" % self.version)

    def unpacked(self, name: str, folder: Path) -> Path:
        """What the package installs, below a folder."""
        subprocess.run(["dpkg-deb", "-x", self.file(name), folder], check=True)
        return folder


def needs(*programs: str) -> None:
    missing = [each for each in programs if not shutil.which(each)]
    if missing:
        pytest.skip("not installed: %s" % " ".join(missing))


def one_file(venue: tuple[str, ...], folder: Path) -> Path:
    """The venue's program as a package takes it. The second implementation is packed into a file for that."""
    if len(venue) == 1:
        return Path(venue[0])
    (model,) = {Path(word).parent for word in venue if word.endswith("program.py")}
    modules, program = folder / "modules", folder / "rfq_venue"
    shutil.copytree(
        model, modules / "second_venue", ignore=shutil.ignore_patterns("test_*", "__pycache__")
    )
    (modules / "__main__.py").write_text(SECOND_MAIN % VERSION)
    for file in modules.rglob("*"):
        os.utime(file, (IN_2026, IN_2026))  # so that each packing gives the same bytes
    zipapp.create_archive(modules, program, "/usr/bin/python3")
    return program


def built(gateway: Path, venue: tuple[str, ...], folder: Path, version: str = VERSION) -> Packages:
    """The packages of these programs; of another version from a copy of the tree's texts."""
    needs("dpkg-buildpackage", "dh")
    if not (gateway.parent / "mireseason-admin").exists():
        pytest.skip("mireseason-admin is not built beside the gateway")
    root = ROOT if version == VERSION else tree_of(version, folder / "tree")
    environment = {
        **os.environ,
        "VENUE": str(one_file(venue, folder)),
        "GATEWAY": str(gateway.parent),
        "DESK": str(desk_folder() or "none"),
        "UNPROVED": "1",  # a tree without the kit has no proved sessions
    }
    words = [str(root / "install/packages/build.sh"), "--source", str(folder / "packages")]
    done = subprocess.run(
        words, env=environment, capture_output=True, text=True, timeout=10 * LONG, check=False
    )
    assert done.returncode == 0, done.stdout + done.stderr
    return Packages(folder / "packages", version)


def tree_of(version: str, root: Path) -> Path:
    """A copy of this tree that is of another version, and has no history."""
    skipped = shutil.ignore_patterns(".git", "out", "unlanded", "__pycache__", ".mypy_cache")
    shutil.copytree(ROOT, root, ignore=skipped, symlinks=True)
    (root / "VERSION").write_text(version + "\n")
    (root / "COMMIT").write_text("0123456789ab\n")
    (root / "CHANGELOG.md").write_text(
        "# Changes\n\n## %s\n\n- Nothing but its number.\n" % version
    )
    return root


def desk_folder() -> Path | None:
    """Where the desk is built: these tests build none."""
    program = Path(os.environ.get("DESK", ROOT / "desk" / "out" / DESK))
    return program.parent if program.exists() else None


def printed(*words: str | Path) -> str:
    return subprocess.run(
        [str(word) for word in words], capture_output=True, text=True, check=True, timeout=LONG
    ).stdout.strip()
