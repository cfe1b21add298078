"""A copy of the tree: it plants wrong bodies there, one at a time, builds it, and runs their tests."""

import os
import shutil
import subprocess
import sys
from collections.abc import Iterator
from contextlib import contextmanager
from dataclasses import dataclass
from pathlib import Path

from tests.harness.build import alone, cmake
from tests.harness.options import ROOT
from tests.harness.reports import Count, counted
from tests.mutants.mutant import Mutant

FOLDER = ROOT / "tests" / "out" / "mutants"
LIMIT = 1800  # seconds of one test
PATIENCE = "90"  # seconds that a test waits for what a wrong body never does
PROGRAMS = {"gateway": "mireseason-gateway", "desk": "mireseason-desk"}


@dataclass(frozen=True)
class Nursery:
    """The copy is made once and kept: what has not changed is not built again."""

    folder: Path
    venue: tuple[str, ...]
    gateway: Path | None  # one that is built, for tests that have a wrong body elsewhere

    def program(self, part: str) -> Path:
        return self.folder / part / "out" / PROGRAMS[part]

    def refresh(self) -> None:
        """Copies each file of the tree that is another there, and takes away those that the tree has not."""
        names = files_of(ROOT)
        for name in names:
            write_if_other(ROOT / name, self.folder / name)
        for name in set(files_below(self.folder)) - set(names):
            (self.folder / name).unlink()

    def build(self, mutant: Mutant) -> None:
        """The program of the mutant's part in the copy, or the unit test that it names, and nothing else of that part."""
        if mutant.part is None:
            return
        wanted = [mutant.unit or PROGRAMS[mutant.part], mutant.beside]
        cmake(self.folder / mutant.part, [target for target in wanted if target])

    @contextmanager
    def planted(self, mutant: Mutant) -> Iterator[None]:
        file = self.folder / mutant.file
        text = file.read_text()
        try:
            file.write_text(mutant.planted_in(text))
            self.build(mutant)
            yield
        finally:
            file.write_text(text)

    def tried(self, mutant: Mutant) -> tuple[Count, str]:
        """What its test says of it, and the last lines of that."""
        report = self.folder.parent / (mutant.name + ".xml")
        report.unlink(missing_ok=True)
        own = {
            name: value
            for name, value in os.environ.items()
            if name not in ("PYTHONPATH", "VENUE", "GATEWAY", "FORM", "DESK")
        }
        own["PATIENCE"] = PATIENCE
        if mutant.part == "desk":
            own["DESK"] = str(self.program("desk"))
        done = subprocess.run(
            self.words(mutant, report),
            cwd=self.folder,
            env=own,
            stdout=subprocess.PIPE,
            stderr=subprocess.STDOUT,
            text=True,
            timeout=LIMIT,
            check=False,
        )
        return (counted([report]) if report.exists() else Count()), done.stdout[-3000:]

    def words(self, mutant: Mutant, report: Path) -> list[str]:
        """The command that runs its test, and reports in the form of JUnit."""
        if mutant.part is not None and mutant.unit is not None:
            # A comma would end the name of the case.
            case = "--test-case=" + mutant.case.replace(",", "?")
            program = self.folder / mutant.part / "out" / mutant.unit
            return [str(program), case, "--reporters=junit", "--out=%s" % report]
        words = [
            sys.executable,
            "-m",
            "pytest",
            mutant.test,
            # The copy's own settings: paths among the options are no places to look for others.
            "-c",
            str(self.folder / "pyproject.toml"),
            "--rootdir",
            str(self.folder),
            "--junitxml",
            str(report),
            "-o",
            "junit_family=xunit1",
        ]
        return words + self.chosen_for(mutant.part)

    def chosen_for(self, part: str | None) -> list[str]:
        """The venue, and the gateway: that with the wrong body, where it is the gateway's."""
        gateway = self.program("gateway") if part == "gateway" else self.gateway
        words = ["--venue=" + " ".join(self.venue)]
        return words + (["--gateway=" + str(gateway)] if gateway is not None else [])


def files_of(root: Path) -> list[str]:
    """The files of the tree that belong to it, but for what is proved, whose program is given."""
    words = [
        "git",
        "-C",
        str(root),
        "ls-files",
        "-z",
        "--cached",
        "--others",
        "--exclude-standard",
        "--",
        ".",
        ":!crates",
    ]
    listed = subprocess.run(words, capture_output=True, check=True).stdout.decode().split("\0")
    return [name for name in listed if name and (root / name).is_file()]


def files_below(folder: Path) -> Iterator[str]:
    """What stands in the copy, but for what was built or run there."""
    for path in folder.rglob("*"):
        inner = path.relative_to(folder)
        if path.is_file() and not {"out", "__pycache__"} & set(inner.parts):
            yield str(inner)


def write_if_other(source: Path, target: Path) -> None:
    if target.exists() and target.read_bytes() == source.read_bytes():
        return
    target.parent.mkdir(parents=True, exist_ok=True)
    shutil.copy(source, target)


@contextmanager
def nursery(
    part: str, venue: tuple[str, ...], gateway: Path | None, is_fresh: bool = True
) -> Iterator[Nursery]:
    """A part's own copy, for one process at a time; what is not fresh is as it was left."""
    with alone(FOLDER / part):
        made = Nursery(FOLDER / part / "tree", venue, gateway)
        if is_fresh:
            made.refresh()
        try:
            yield made
        finally:
            # It was to be compiled with. Below the top of a tree `rt` would refuse that tree for it.
            (made.folder / "crates.txt").unlink(missing_ok=True)
