"""What `debian/build.sh` puts together for the packages, and what it refuses: in a tree of its own, with stand-ins for all
programs.
"""

import hashlib
import os
import shutil
import subprocess
from dataclasses import dataclass, field
from pathlib import Path

import pytest

from tests.gateway.wait import LONG
from tests.harness.options import ROOT

PAGES = "OPERATING FORMATS CONNECTING FAULTS MARKET SESSIONS SUPERVISING TRADING".split()
OTHERS = {
    "SECURITY.md": "SECURITY.md",
    "gateway/README.md": "gateway.md",
    "desk/README.md": "desk.md",
    "install/hosts/README.md": "deploy.md",
}
PROVED = {
    "rfq_venue/out/rfq_venue": "rfq_venue",
    "fix_sessions_c/out/libfix_sessions_c.a": "libfix_sessions_c.a",
    "session_recovery_c/out/libsession_recovery_c.a": "libsession_recovery_c.a",
}
SAYS = "#!/bin/sh\necho '%s'\n"
# What stands for a tool of the tree, or for cmake: it notes its words, and makes nothing.
NOTES = '#!/bin/sh\necho "$*" >>did\n'
MADE = ["mireseason-gateway", "mireseason-admin"]


@dataclass
class Tree:
    """A tree from which packages are made."""

    place: Path
    told: dict[str, str] = field(default_factory=dict)  # variables of the call

    def __post_init__(self) -> None:
        for name in ("debian/build.sh", "VERSION"):
            self.put(name, (ROOT / name).read_text())
        for name in ("gateway/spdx.py", "install/packages/links.py"):
            self.put(name, "open('did', 'a').write(' '.join(__import__('sys').argv) + '\\n')\n")
        for name in (*("docs/%s.md" % page for page in PAGES), *OTHERS):
            self.put(name, "This is %s.\n" % name)
        for name in MADE:
            self.put("given/" + name, SAYS % (name + " 1.3.0"))
        self.put("given/mireseason-gateway.spdx.json", "{}\n")
        self.put("given/mireseason-desk", SAYS % "mireseason-desk 1.3.0")
        sums = []
        for name, file in PROVED.items():
            text = SAYS % (file + " 1.3.0")
            self.put("crates/" + name, text)
            sums.append("%s  crates/%s\n" % (sum_of(text), name))
        self.put("crates/proved.sha256", "".join(sums))
        self.put("bin/cmake", NOTES)
        self.put("COMMIT", "0123456789ab\nmore\n")
        self.told |= {"GATEWAY": "given", "DESK": "given"}

    @property
    def tree(self) -> Path:
        return self.place / "tree"

    @property
    def built(self) -> Path:
        return self.tree / "debian" / "built"

    @property
    def did(self) -> list[str]:
        return (self.tree / "did").read_text().splitlines()

    def put(self, name: str, text: str) -> None:
        file = self.tree / name
        file.parent.mkdir(parents=True, exist_ok=True)
        file.write_text(text)
        file.chmod(0o755 if text.startswith("#!") else 0o644)

    def run(self) -> "subprocess.CompletedProcess[str]":
        (self.tree / "did").write_text("")
        path = "%s:%s" % (self.tree / "bin", os.environ["PATH"])
        return subprocess.run(
            ["sh", str(self.tree / "debian" / "build.sh")],
            env={"PATH": path, **self.told},
            cwd=self.place,
            capture_output=True,
            text=True,
            timeout=LONG,
            check=False,
        )

    def builds(self) -> set[str]:
        """The names of what it makes."""
        done = self.run()
        assert done.returncode == 0, done.stderr
        return {str(path.relative_to(self.built)) for path in self.built.rglob("*")} - {"docs"}

    def is_refused(self, words: str) -> None:
        done = self.run()
        assert done.returncode == 1 and words in done.stderr, done


def sum_of(text: str) -> str:
    return hashlib.sha256(text.encode()).hexdigest()


@pytest.fixture
def tree(place: Path) -> Tree:
    return Tree(place)


PROGRAMS = {"rfq_venue", "mireseason-gateway", "mireseason-admin", "mireseason-desk"}
DOCS = {"docs/%s.md" % page for page in PAGES} | {"docs/" + name for name in OTHERS.values()}
ALL = PROGRAMS | DOCS | {"COMMIT", "programs", "mireseason-gateway.spdx.json"}


def test_all_that_packages_have(tree: Tree) -> None:
    """Programs that can be run, the pages under their names there, and which commit the venue's program is of; nothing of a build before."""
    tree.put("debian/built/old", "")
    assert tree.builds() == ALL
    assert {name for name in ALL if (tree.built / name).stat().st_mode & 0o111} == PROGRAMS
    for name, to in OTHERS.items():
        assert (tree.built / "docs" / to).read_text() == "This is %s.\n" % name
    assert (tree.built / "COMMIT").read_text() == "0123456789ab\n"
    version = (ROOT / "VERSION").read_text().splitlines()[0]
    venue = SAYS % "rfq_venue 1.3.0"
    assert (tree.built / "programs").read_text().splitlines() == [
        "# rfq_venue 1.3.0: the program of mireseason %s, proved from commit 0123456789ab"
        % version,
        "%s  /usr/bin/rfq_venue" % sum_of(venue),
    ]
    assert tree.did == ["install/packages/links.py debian/built/docs"]


def test_what_a_gateway_is_made_of_is_written_where_nobody_has(tree: Tree) -> None:
    (tree.tree / "given" / "mireseason-gateway.spdx.json").unlink()
    tree.run()
    made = "debian/built/mireseason-gateway.spdx.json"
    assert tree.did[0] == "gateway/spdx.py given/mireseason-gateway crates.txt " + made


def test_a_desk_that_nobody_wants(tree: Tree) -> None:
    tree.told["DEB_BUILD_PROFILES"] = "nocheck pkg.mireseason.nodesk"
    (tree.tree / "given" / "mireseason-desk").unlink()
    assert tree.builds() == ALL - {"mireseason-desk"}


def test_a_tree_without_a_commit(tree: Tree) -> None:
    """No repository stands there either."""
    (tree.tree / "COMMIT").unlink()
    tree.told["GIT_CEILING_DIRECTORIES"] = str(tree.place)
    tree.builds()
    assert (tree.built / "COMMIT").read_text() == "unknown\n"


def test_a_gateway_that_is_not_there(tree: Tree) -> None:
    tree.told["GATEWAY"] = "away"
    tree.is_refused("debian/build.sh: there is no gateway in away")


def test_sessions_that_are_not_proved(tree: Tree) -> None:
    """Are for trials alone."""
    tree.put("given/mireseason-gateway", SAYS % "mireseason-gateway 1.3.0, sessions not proved")
    tree.is_refused("was built with the sessions' second implementation")
    tree.told["UNPROVED"] = "1"
    assert tree.builds() == ALL


def test_another_program_than_the_proved_one(tree: Tree) -> None:
    tree.put("crates/rfq_venue/out/rfq_venue", SAYS % "rfq_venue 6.6.6")
    tree.is_refused("is not the one of crates/proved.sha256")
    tree.told["UNPROVED"] = "1"
    assert tree.builds() == ALL
    (tree.tree / "crates/rfq_venue/out/rfq_venue").unlink()
    tree.is_refused("there is no crates/rfq_venue/out/rfq_venue")


def test_a_source_package_has_the_proved_program(tree: Tree) -> None:
    """Without a gate's own, which is no part of it; and a program that is named goes before both."""
    kept = tree.tree / "crates/rfq_venue/out/rfq_venue"
    (tree.tree / "debian/proved").mkdir()
    kept.rename(tree.tree / "debian/proved/rfq_venue")
    assert tree.builds() == ALL
    assert (tree.built / "rfq_venue").read_text() == SAYS % "rfq_venue 1.3.0"
    tree.put("venue", SAYS % "rfq_venue of mine")
    tree.told["VENUE"] = "./venue"
    tree.builds()
    assert (tree.built / "rfq_venue").read_text() == SAYS % "rfq_venue of mine"


def test_programs_that_are_built(tree: Tree) -> None:
    """Where none is named: with the proved sessions, or without any for a trial."""
    for part in ("gateway", "desk"):
        (tree.tree / "given").rename(tree.tree / "was")
        (tree.tree / part / "out").mkdir(parents=True, exist_ok=True)
        for file in (tree.tree / "was").iterdir():
            shutil.copy(file, tree.tree / part / "out")
        (tree.tree / "was").rename(tree.tree / "given")
    del tree.told["GATEWAY"], tree.told["DESK"]
    assert tree.builds() == ALL
    crates = str(tree.tree / "crates")
    libraries = (
        " -DSESSION=proved -DSESSION_LIBRARY=%s/fix_sessions_c/out/libfix_sessions_c.a"
        " -DRECOVERY_LIBRARY=%s/session_recovery_c/out/libsession_recovery_c.a" % (crates, crates)
    )
    jobs = len(os.sched_getaffinity(0))
    built = "--build %s/out -j %d --target %s"
    targets = "mireseason-gateway mireseason-admin spdx"
    expected = [
        "-S gateway -B gateway/out",
        built % ("gateway", jobs, targets),
        "-S desk -B desk/out",
        built % ("desk", jobs, "mireseason-desk"),
        "install/packages/links.py debian/built/docs",
    ]
    assert tree.did == [expected[0] + libraries, *expected[1:]]
    tree.told["UNPROVED"] = "1"
    assert tree.builds() == ALL and tree.did == expected
    tree.told.clear()
    tree.put("crates/session_recovery_c/out/libsession_recovery_c.a", "another")
    tree.is_refused("is not the one of crates/proved.sha256")
