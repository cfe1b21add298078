"""Tries the drawn changes of one build, all in one program: each by the unit tests, and then by the tests of pytest, that pass
through its function.

Which unit tests these are is recorded each time, in seconds. One that fails runs once more: on a busy machine it may fail by
itself.
"""

import subprocess
import time
from collections.abc import Iterator
from concurrent.futures import ThreadPoolExecutor
from dataclasses import dataclass, field, replace
from pathlib import Path

from tests.harness.options import ROOT
from tests.mutants.drawn.change import Change
from tests.mutants.drawn.parts import OF_BUILD, Part, modules_of
from tests.mutants.drawn.passes import (
    FOLDER,
    Passes,
    cpp_lines,
    emptied,
    prepare_marks,
    record_units,
    run_recorded,
    seconds_of,
)
from tests.mutants.drawn.remembered import Remembered
from tests.mutants.drawn.session_cases import session_cases
from tests.mutants.drawn.together import Together, sources
from tests.mutants.drawn.trial import SLOW, Trial, Tried, Verdict
from tests.mutants.drawn.units import UNIT, Unit, units

LEAST = 60.0  # seconds that a program of unit tests may take anyway


@dataclass(frozen=True)
class BuiltTrial(Trial):
    """Tries a change in a program that has it, by its number."""

    out: Path = Path()
    number: int = 0
    by_units: Passes = field(default_factory=Passes)
    known: dict[str, Unit] = field(default_factory=dict)

    def tried(self, change: Change) -> Tried:
        began = time.monotonic()
        verdict, by = self.judged(change, began)
        told = change.told((ROOT / change.file).read_bytes())
        return Tried(self.part.name, change, told, verdict, by, time.monotonic() - began)

    def judged(self, change: Change, began: float) -> tuple[Verdict, str]:
        """Unit tests first: they are the fastest."""
        for name in self.by_units.through(change.file, change.line):
            try:
                if self.fails(name) and self.fails(name):
                    return Verdict.REFUSED, name
            except subprocess.TimeoutExpired:
                if self.unit_hangs(name):
                    return Verdict.HANGS, name
        return super().judged(change, began)

    def unit_hangs(self, name: str) -> bool:
        """Not the machine is slow: without the change it ends, and with it it does not once more."""
        try:
            if replace(self, number=0).fails(name):
                return False
        except subprocess.TimeoutExpired:
            return False
        try:
            self.fails(name)
        except subprocess.TimeoutExpired:
            return True
        return False

    def seconds_without(self, change: Change, names: list[str], most: float) -> float | None:
        """What is planted alone has no program without it: what fails there has to fail a second time."""
        began = time.monotonic()
        try:
            passes = replace(self, number=0).first_failed(names, most) is None
        except subprocess.TimeoutExpired:
            return None
        return time.monotonic() - began if passes == bool(self.number) else None

    def tests(self, change: Change) -> list[str]:
        """Of pytest: the unit tests are over by then. Where nothing is known, those of the build."""
        names = [name for name in super().tests(change) if not name.startswith(UNIT)]
        own = set(modules_of(OF_BUILD[self.build])) if self.build else set()
        return [name for name in names if name.partition("::")[0] in own]

    def fails(self, name: str) -> bool:
        most = LEAST + SLOW * self.by_units.seconds[name]
        return self.known[name].run(self.out, {"DRAWN": str(self.number)}, most) is None

    def environment(self) -> dict[str, str]:
        own = super().environment() | {"DRAWN": str(self.number)}
        if self.build == "desk":
            own["DESK"] = str(self.tree.program("desk"))
        return own


def all_units(out: Path) -> list[Unit]:
    return [*units(out), *session_cases(out)]


def record_build(together: Together, words: list[str]) -> Passes:
    """Runs all tests of a build, once, in a program whose functions mark that they were passed through."""
    build = together.build
    folder, out = emptied(FOLDER / build), together.make([])
    prepare_marks(folder, together.firsts())
    seconds = record_units(folder, out, all_units(out))
    chosen = together.tree.chosen_for(build)[1:]
    report = run_recorded(together.tree.folder, folder, modules_of(OF_BUILD[build]), words + chosen)
    seconds |= dict(seconds_of(report))
    return Passes(cpp_lines(folder, sources(build)), seconds)


@dataclass
class BuiltTrials:
    """All that is drawn of one build."""

    together: Together
    limit: float
    below: float | None
    options: tuple[str, ...]
    passes: Passes  # by tests of pytest, as far as that was recorded
    remembered: Remembered

    def results(self, drawn: list[tuple[Part, Change]], jobs: int) -> Iterator[Tried]:
        out = self.together.make([change for _, change in drawn])
        folder = emptied(FOLDER / (self.together.build + "-units"))
        prepare_marks(folder, self.together.firsts())
        known = {unit.name: unit for unit in all_units(out)}
        seconds = record_units(folder, out, list(known.values()))
        by_units = Passes(cpp_lines(folder, sources(self.together.build)), seconds)
        alone = [one for one in drawn if one[1] in self.together.alone]

        def tried(one: tuple[Part, Change]) -> Tried:
            part, change = one
            if change in self.together.refused:
                return self.by_compiler(part, change)
            number = self.together.numbers.get(change, 0)
            return self.trial(part, number, by_units, known).tried(change)

        with ThreadPoolExecutor(jobs) as workers:
            yield from workers.map(tried, [one for one in drawn if one not in alone])
        for part, change in alone:
            if self.together.plant(change) is not None:
                yield self.by_compiler(part, change)
            else:
                yield self.trial(part, 0, by_units, known).tried(change)

    def trial(
        self, part: Part, number: int, by_units: Passes, known: dict[str, Unit]
    ) -> BuiltTrial:
        return BuiltTrial(
            part,
            self.together.tree,
            self.passes,
            self.remembered,
            self.limit,
            self.below,
            self.options,
            self.together.build,
            self.together.out,
            number,
            by_units,
            known,
        )

    def by_compiler(self, part: Part, change: Change) -> Tried:
        told = change.told((ROOT / change.file).read_bytes())
        return Tried(part.name, change, told, Verdict.REFUSED, "the compiler", 0.0)
