"""Builds one change in a copy of the tree, and tries it with the tests that pass through its line, until one fails."""

import os
import signal
import subprocess
import sys
import time
from collections.abc import Iterable, Iterator
from dataclasses import dataclass
from enum import Enum
from itertools import islice
from pathlib import Path

from tests.harness.durations import FILE, read_durations
from tests.harness.options import ROOT
from tests.mutants.drawn.change import Change
from tests.mutants.drawn.parts import Part
from tests.mutants.drawn.passes import Passes
from tests.mutants.drawn.remembered import Remembered
from tests.mutants.nursery import PATIENCE, Nursery

AT_ONCE = 20  # tests of one run of pytest, so that the first that fails ends it soon
UNKNOWN = 5.0  # seconds of a file of tests of which nothing is known
NOTHING_RUN = 5  # pytest's status where its words leave none of the tests
NOT_FOUND = "ERROR: not found: "  # what it says of a test that is remembered, and has another parameter by now
SLOW = 10  # times what they took when they were recorded: so long tests may take on a busy machine
SOON = 30.0  # seconds that tests may take anyway, once it is known what they take here
LEAST = 300.0  # seconds that they may take anyway: what they share, a fixture of a class, is in the time of one of them alone


DURATIONS = read_durations(FILE.read_text())


class Verdict(Enum):
    """What became of a change."""

    REFUSED = "refused"  # by a test, or by the compiler
    EQUAL = "equal"  # it changes nothing that anybody could see
    HANGS = "hangs"  # a test took many times what it takes without it, twice: counted apart
    PASSED = "passed"  # every test that passes through its line passes
    UNSEEN = "unseen"  # no test passes through its line
    OUT_OF_TIME = "out of time"  # some of its tests were not run

    @property
    def is_good(self) -> bool:
        return self in (Verdict.REFUSED, Verdict.EQUAL, Verdict.HANGS)


@dataclass(frozen=True)
class Tried:
    """A change, what became of it, and which test or compiler said so."""

    part: str
    change: Change
    told: str  # what was changed, in lines
    verdict: Verdict
    by: str
    seconds: float


@dataclass(frozen=True)
class Trial:
    """Tries the changes of one part in one copy."""

    part: Part
    tree: Nursery
    passes: Passes
    remembered: Remembered
    limit: float  # seconds of one change
    below: float | None  # only tests that take less seconds, as far as that is known
    options: tuple[str, ...]
    build: str | None = None  # whose program the tests run

    def tests(self, change: Change) -> list[str]:
        """Those that pass through its line, or its function; all of the part's files where neither is known."""
        if change.file in self.passes.lines:
            names = self.passes.through(change.file, change.line)
        elif change.file in self.remembered.files:
            names = self.remembered.through(ROOT, change.file, change.line)
        else:
            names = sorted(self.part.modules(self.tree.folder), key=self.seconds)
        return [name for name in names if self.below is None or self.seconds(name) < self.below]

    def seconds(self, name: str) -> float:
        """Of a test or a file of tests, as it was recorded; else as tests/durations has it."""
        for known in (self.passes.seconds, self.remembered.seconds):
            if name in known:
                return known[name]
        whole = sum(took for test, took in DURATIONS.items() if test.startswith(name))
        return max(whole, UNKNOWN)

    def tried(self, change: Change) -> Tried:
        """The copy is as it was afterwards."""
        file = self.tree.folder / change.file
        text, began = file.read_bytes(), time.monotonic()
        try:
            file.write_bytes(change.applied(text))
            verdict, by = self.judged(change, began)
        finally:
            file.write_bytes(text)
        seconds = time.monotonic() - began
        return Tried(self.part.name, change, change.told(text), verdict, by, seconds)

    def judged(self, change: Change, began: float) -> tuple[Verdict, str]:
        names = self.tests(change)
        return self.by_pytest(change, names, began) if names else (Verdict.UNSEEN, "")

    def by_pytest(self, change: Change, names: list[str], began: float) -> tuple[Verdict, str]:
        """Some at a time, the fastest first, within the limit of one change."""
        for batch in batches(names):
            verdict, by = self.by_batch(change, batch, began)
            if verdict is not Verdict.PASSED:
                return verdict, by
        return Verdict.PASSED, "%d tests" % len(names)

    def by_batch(self, change: Change, batch: list[str], began: float) -> tuple[Verdict, str]:
        """A test that fails without the change, too, says nothing of it: the others go on."""
        anyway: list[str] = []
        while (left := self.limit - (time.monotonic() - began)) > 0:
            most = LEAST + SLOW * sum(map(self.seconds, batch))
            try:
                failed = self.first_failed(batch, min(most, left), anyway)
            except subprocess.TimeoutExpired:
                hangs = most < left and self.hangs(change, batch, most)
                return (Verdict.HANGS if hangs else Verdict.OUT_OF_TIME), batch[0]
            if failed is None:
                return Verdict.PASSED, ""
            if self.seconds_without(change, [failed], most) is not None:
                return Verdict.REFUSED, failed
            if failed in anyway:
                break
            anyway.append(failed)
        return Verdict.OUT_OF_TIME, batch[0]

    def hangs(self, change: Change, batch: list[str], most: float) -> bool:
        """Not the machine is slow: without the change the tests end, and with it they do not once more."""
        took = self.seconds_without(change, batch, most)
        if took is None:
            return False
        try:
            self.first_failed(batch, SOON + SLOW * took)
        except subprocess.TimeoutExpired:
            return True
        return False

    def seconds_without(self, change: Change, names: list[str], most: float) -> float | None:
        """How long these tests take as the tree is; None where they fail or take longer."""
        file = self.tree.folder / change.file
        text, began = file.read_bytes(), time.monotonic()
        try:
            file.write_bytes((ROOT / change.file).read_bytes())
            passes = self.first_failed(names, most) is None
        except subprocess.TimeoutExpired:
            passes = False
        finally:
            file.write_bytes(text)
        return time.monotonic() - began if passes else None

    def first_failed(
        self, names: list[str], limit: float, anyway: Iterable[str] = ()
    ) -> str | None:
        """Runs these tests, but for those that fail anyway, until one fails."""
        words = [sys.executable, "-m", "pytest", *names, "-x", "-q", *self.options]
        words += [word for name in anyway for word in ("--deselect", name)]
        place = ["-c", str(self.tree.folder / "pyproject.toml"), "--rootdir", str(self.tree.folder)]
        running = subprocess.Popen(
            [*words, *place, *self.tree.chosen_for(self.build)],
            cwd=self.tree.folder,
            env=self.environment(),
            stdout=subprocess.PIPE,
            stderr=subprocess.STDOUT,
            text=True,
            start_new_session=True,
        )
        try:
            told, _ = running.communicate(timeout=limit)
        except subprocess.TimeoutExpired:
            # Also what the tests have started, which a wrong body may keep from ending.
            os.killpg(running.pid, signal.SIGKILL)
            running.communicate()
            raise
        if running.returncode in (0, NOTHING_RUN):
            return None
        there = there_by(told, names)
        if len(there) < len(names):
            return self.first_failed(there, limit, anyway) if there else None
        lines = [line for line in told.splitlines() if line.startswith(("FAILED", "ERROR"))]
        return named_in(lines[0]) if lines else names[0]

    def environment(self) -> dict[str, str]:
        """Nothing of the tree that is no copy; a wrong body may wait for what never comes."""
        own = {name: value for name, value in os.environ.items() if name != "PYTHONPATH"}
        own["PATIENCE"] = PATIENCE
        if self.part.name == "page":
            own["DESK_PAGES"] = str(self.tree.folder / "desk" / "page")
        return own


def there_by(told: str, names: list[str]) -> list[str]:
    """The tests that pytest has found: where it misses one, it runs none."""
    missed = [line for line in told.splitlines() if line.startswith(NOT_FOUND)]
    return [name for name in names if not any(line.endswith("/" + name) for line in missed)]


def named_in(line: str) -> str:
    """The test, or the file that could not be read, in a line of pytest's summary."""
    return line.partition(" ")[2].partition(" - ")[0].strip()


def batches(names: list[str]) -> Iterator[list[str]]:
    rest = iter(names)
    while batch := list(islice(rest, AT_ONCE)):
        yield batch


def passes_file(folder: Path, part: str) -> Path:
    return folder / part / "passes.json"
