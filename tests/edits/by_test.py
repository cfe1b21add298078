#!/usr/bin/env python3
"""Tries the wrong bodies that the prover accepts and a test has to find.

    python3 -m tests.edits.by_test [CRATE..]    tries those of these crates, or all of them

Such a body names its test, and what that found when it was tried. This puts each in its place on a copy of
what is committed, and builds and runs the tests of `day_tests` without a proof (`rt try`): the named test
has to fail. A first run without any wrong body has to pass.
"""

from __future__ import annotations

import re
import subprocess
import sys
import tempfile
from pathlib import Path

from tests.edits.wrong_bodies import WrongBody, bodies_of

TREE = Path(__file__).resolve().parents[2]
SECONDS = 1800


def plant(body: WrongBody, tree: Path) -> dict[Path, str]:
    """Puts a wrong body in its place, and gives what stood there."""
    before: dict[Path, str] = {}
    for file, old, new in body.changes:
        place = tree / "crates" / body.crate / file
        text = place.read_text(encoding="utf-8")
        if text.count(old) != 1:
            raise SystemExit(f"{body}: its old text stands {text.count(old)} times")
        before.setdefault(place, text)
        place.write_text(text.replace(old, new), encoding="utf-8")
    return before


def failed(tree: Path) -> set[str] | None:
    """The names of the tests that fail, or None where they are not even built."""
    run = subprocess.run(
        ["rt", "try", "--test"],
        cwd=tree / "crates" / "day_tests",
        capture_output=True,
        text=True,
        timeout=SECONDS,
        check=False,
    )
    told = run.stdout + run.stderr
    if "test result" not in told and not re.search(r"^test .* \.\.\. ", told, re.MULTILINE):
        return None
    return set(re.findall(r"^test (?:\S*::)?(\w+) \.\.\. FAILED", told, re.MULTILINE))


def tried(body: WrongBody, tree: Path) -> bool:
    """Whether the test that has to find a wrong body fails on it."""
    before = plant(body, tree)
    names = failed(tree)
    for place, text in before.items():
        place.write_text(text, encoding="utf-8")
    found = names is not None and body.test in names
    said = "found" if found else "not built" if names is None else "NOT FOUND"
    print(f"{body}: {said}", flush=True)
    return found


def main(names: list[str]) -> int:
    bodies = [body for body in bodies_of(names) if body.test]
    if not bodies:
        print("there are none")
        return 1
    with tempfile.TemporaryDirectory() as room:
        tree = Path(room) / "venue"
        subprocess.run(["git", "clone", "-q", str(TREE), str(tree)], check=True)
        if failed(tree) != set():
            print("the tests fail without any wrong body")
            return 1
        results = [tried(body, tree) for body in bodies]
    return 0 if all(results) else 1


if __name__ == "__main__":
    sys.exit(main(sys.argv[1:]))
