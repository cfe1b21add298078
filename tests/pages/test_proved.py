"""tools/proved.py: it compares what is built with the sums that the repository has."""

import hashlib
import subprocess
from pathlib import Path

import proved
import pytest

CRATES = """\
fields: itoa
fix_sessions_c staticlib: fields
session_recovery_c staticlib: fields
market: fields
rfq_venue may_wait=1: market
laws: market
"""
PROGRAM = "crates/rfq_venue/out/rfq_venue"
LIBRARY = "crates/fix_sessions_c/out/libfix_sessions_c.a"
RECOVERY = "crates/session_recovery_c/out/libsession_recovery_c.a"
NAMES = ("fields", "fix_sessions_c", "session_recovery_c", "market", "rfq_venue", "laws")
WORKING = "## Next\n\n## 1.2.0\n"
RELEASE = "## 1.2.0\n\n## 1.1.0\n"


@pytest.fixture
def root(tmp_path: Path) -> Path:
    """A repository in which all are built, and noted."""
    (tmp_path / "crates.txt").write_text(CRATES)
    for name in NAMES:
        crate = tmp_path / "crates" / name
        for file in ("src/lib.rt", "src/parts/one.rt", "specs/Lib.antt", "proofs/Lib.antt"):
            (crate / file).parent.mkdir(parents=True, exist_ok=True)
            (crate / file).write_text(f"{name} {file}\n")
        (crate / "out").mkdir()
    (tmp_path / PROGRAM).write_text("venue\n")
    (tmp_path / LIBRARY).write_text("library\n")
    (tmp_path / RECOVERY).write_text("recovery\n")
    (tmp_path / "VERSION").write_text("1.2.0\n")
    (tmp_path / "CHANGELOG.md").write_text(WORKING)
    proved.write(tmp_path)
    return tmp_path


def test_sums_are_those_of_coreutils(root: Path) -> None:
    listed = proved.sources_of("rfq_venue", root)
    assert [path for path in listed if path.startswith("crates/market/")] == [
        "crates/market/specs/Lib.antt",
        "crates/market/src/lib.rt",
        "crates/market/src/parts/one.rt",
    ]
    assert not [path for path in listed if "proofs" in path or "laws" in path]
    lines = subprocess.run(["sha256sum", *listed], cwd=root, capture_output=True, check=True).stdout
    assert proved.sum_of_sources("rfq_venue", root) == hashlib.sha256(lines).hexdigest()
    check = ["sha256sum", "-c", "--strict", "--ignore-missing", proved.FILE]
    told = subprocess.run(check, cwd=root, capture_output=True, text=True, check=True).stdout
    assert told == f"{PROGRAM}: OK\n{LIBRARY}: OK\n{RECOVERY}: OK\n"


@pytest.mark.parametrize(
    ("path", "changes", "is_right", "said"),
    [
        (None, WORKING, True, f"{PROGRAM} is the one that crates/proved.sha256 has"),
        (None, RELEASE, True, f"{LIBRARY} is the one that crates/proved.sha256 has"),
        (
            PROGRAM,
            WORKING,
            False,
            "sources of rfq_venue are those of crates/proved.sha256, and what",
        ),
        (LIBRARY, WORKING, False, f"{LIBRARY}: "),
        ("crates/market/specs/Lib.antt", WORKING, True, "sources of rfq_venue are others: "),
        ("crates/market/specs/Lib.antt", RELEASE, False, "this is a release"),
        ("crates/market/proofs/Lib.antt", RELEASE, True, f"{PROGRAM} is the one"),
        ("crates/laws/src/lib.rt", RELEASE, True, f"{PROGRAM} is the one"),
    ],
    ids=["same", "release", "program", "library", "sources", "late", "proof", "above"],
)
def test_compare(
    root: Path,
    capsys: pytest.CaptureFixture[str],
    path: str | None,
    changes: str,
    is_right: bool,
    said: str,
) -> None:
    (root / "CHANGELOG.md").write_text(changes)
    if path:
        (root / path).write_text("changed\n")
    assert proved.compare(root) == is_right
    assert said in capsys.readouterr().out


def test_not_built(root: Path, capsys: pytest.CaptureFixture[str]) -> None:
    (root / PROGRAM).unlink()
    assert proved.compare(root)
    assert f"{PROGRAM} is not built" in capsys.readouterr().out
    (root / "CHANGELOG.md").write_text(RELEASE)
    assert not proved.compare(root)


def test_what_is_not_built_keeps_its_sums(root: Path) -> None:
    before = (root / proved.FILE).read_text()
    (root / PROGRAM).unlink()
    (root / LIBRARY).write_text("another library\n")
    proved.write(root)
    after = (root / proved.FILE).read_text()
    old, new = (hashlib.sha256(text).hexdigest() for text in (b"library\n", b"another library\n"))
    assert after == before.replace(old, new) != before
