"""Draws changes by a seed, tries each, and prints which of them every test lets through.

usage: python3 -m tests.mutants.drawn [--seed N] [--count N] [--part NAME ..] [--jobs N] [--limit SECONDS]
           [--since COMMIT] [--venue VENUE] [--gateway PROGRAM] [--record] [--remember] [--below SECONDS] [--units] [--list]
           [WORDS ..]

It draws --count changes (100) of the parts (all), each part in proportion to its lines; with --since only from files that have
changed since that commit. It tries each in a copy of the tree, --jobs of them side by side, against the tests that pass through
its line, the fastest first. C++ needs nothing that is built: all changes are compiled into one program. WORDS are pytest's.
--below leaves out tests that take as many seconds. --record runs the tests of the parts first, and records through which lines
each passes. Without it the last recording is taken; if there is none, what the tree remembers of each function (--remember
writes that anew, from the recording); and otherwise all tests of a part. --units tries C++ by its unit tests alone. --list tries
nothing.

A test refuses a change if it fails with it, and passes without it. The last lines are a table: of each part how many were drawn,
refused, how many hang (tests that end without the change do not with it, twice), are equal (left_out.toml), and how many did not
fail a test or were not tried to the end. The status is 0.
"""

import argparse
import random
import subprocess
import sys
from collections import Counter
from collections.abc import Callable, Iterator
from concurrent.futures import ThreadPoolExecutor
from contextlib import ExitStack
from dataclasses import dataclass
from functools import cache
from pathlib import Path
from queue import SimpleQueue

from tests.harness.options import ROOT, usual_venue, venue_words
from tests.mutants.drawn.built import BuiltTrials, record_build
from tests.mutants.drawn.change import Change
from tests.mutants.drawn.left_out import LeftOut, read_left_out
from tests.mutants.drawn.parts import PARTS, Part, changes_of
from tests.mutants.drawn.passes import FOLDER, Passes, read_passes, record
from tests.mutants.drawn.remembered import read_remembered, write_remembered
from tests.mutants.drawn.together import Together
from tests.mutants.drawn.trial import Trial, Tried, Verdict, passes_file
from tests.mutants.nursery import Nursery, nursery

LONGEST = 900.0  # seconds of one change


@dataclass(frozen=True)
class Drawn:
    """A change, and the part that it is of."""

    part: Part
    change: Change

    def without_trial(self, verdict: Verdict) -> Tried:
        told = self.change.told((ROOT / self.change.file).read_bytes())
        return Tried(self.part.name, self.change, told, verdict, "left_out.toml", 0.0)


def lines_of(path: str) -> int:
    return (ROOT / path).read_bytes().count(b"\n")


def changed_since(commit: str) -> set[str]:
    words = ["git", "-C", str(ROOT), "diff", "--name-only", commit]
    return set(subprocess.run(words, capture_output=True, text=True, check=True).stdout.split())


def draw(
    parts: list[Part],
    count: int,
    seed: int,
    only: set[str] | None,
    out_of: Callable[[str], Path | None] = lambda build: None,
) -> Iterator[Drawn]:
    """A file by its lines, then a kind of mistake, then a place: so no kind is drawn for being frequent."""
    chance, left_out = random.Random(seed), read_left_out()
    files = [
        (part, path) for part in parts for path in part.paths() if only is None or path in only
    ]
    weights = [lines_of(path) for _, path in files]
    known: dict[str, list[Change]] = {}
    found: set[Change] = set()
    for _ in range(100 * count if files else 0):
        if len(found) == count:
            return
        part, path = chance.choices(files, weights)[0]
        if path not in known:
            out = out_of(part.builds[0]) if part.builds else None
            known[path] = kept(changes_of(path, out), left_out)
        if known[path]:
            change = one_of(known[path], chance)
            if change not in found:
                found.add(change)
                yield Drawn(part, change)


def kept(changes: list[Change], left_out: LeftOut) -> list[Change]:
    """Those that a test could see."""
    if not changes:
        return []
    text = (ROOT / changes[0].file).read_bytes()
    return [change for change in changes if not left_out.has(change, text)]


def one_of(changes: list[Change], chance: random.Random) -> Change:
    kind = chance.choice(sorted({change.kind for change in changes}, key=lambda kind: kind.name))
    return chance.choice([change for change in changes if change.kind is kind])


class Copies:
    """Of each build the copy in which its changes are compiled together, once it is asked for."""

    def __init__(self, opened: ExitStack, chosen: argparse.Namespace) -> None:
        self.opened = opened
        self.chosen = chosen
        self.made: dict[str, Together] = {}

    def of(self, build: str) -> Together:
        if build not in self.made:
            venue, place = venue_words(self.chosen.venue), "together-" + build
            tree = self.opened.enter_context(nursery(place, venue, self.chosen.gateway, False))
            self.made[build] = Together(build, tree, self.chosen.jobs)
        return self.made[build]

    def out(self, build: str) -> Path:
        return self.of(build).configured()


def record_parts(parts: list[Part], copies: Copies, chosen: argparse.Namespace) -> None:
    words = ["--venue", chosen.venue, *chosen.words]
    words += ["--below", str(chosen.below)] if chosen.below else []
    for build in builds_of(parts):
        record_build(copies.of(build), words).write(passes_file(FOLDER, build))
    words += ["--gateway", str(chosen.gateway)] if chosen.gateway else []
    for part in parts:
        if not part.builds:
            passes = record(part.name, part.paths(), part.modules(), words)
            passes.write(passes_file(FOLDER, part.name))


def builds_of(parts: list[Part]) -> list[str]:
    return sorted({build for part in parts for build in part.builds})


def names_of(parts: list[Part]) -> list[str]:
    """What is recorded, and remembered, together."""
    return [*builds_of(parts), *(part.name for part in parts if not part.builds)]


def passes_of(name: str) -> Passes:
    file = passes_file(FOLDER, name)
    return read_passes(file) if file.exists() else Passes()


def try_all(drawn: list[Drawn], copies: Copies, chosen: argparse.Namespace) -> Iterator[Tried]:
    """What is built is tried in each of its builds, until it is refused in one."""
    left_out, rest = read_left_out(), []
    for one in drawn:
        if left_out.is_equal(one.change, (ROOT / one.change.file).read_bytes()):
            yield one.without_trial(Verdict.EQUAL)
        else:
            rest.append(one)
    yield from try_scripts([one for one in rest if not one.part.builds], chosen)
    rest = [one for one in rest if one.part.builds]
    for build in builds_of(list(PARTS)):
        of_build = [(one.part, one.change) for one in rest if build in one.part.builds]
        if not of_build:
            continue
        limit = 0.0 if chosen.units else chosen.limit
        known = (passes_of(build), read_remembered(build))
        trials = BuiltTrials(copies.of(build), limit, chosen.below, tuple(chosen.words), *known)
        for tried in trials.results(of_build, chosen.jobs):
            own = next(one for one in rest if one.change == tried.change)
            if tried.verdict.is_good or build == own.part.builds[-1]:
                yield tried
                rest.remove(own)


def try_scripts(drawn: list[Drawn], chosen: argparse.Namespace) -> Iterator[Tried]:
    """Each worker has a copy of its own."""
    passes = {one.part.name: passes_of(one.part.name) for one in drawn}
    remembered = {one.part.name: read_remembered(one.part.name) for one in drawn}
    waiting: SimpleQueue[int] = SimpleQueue()
    for worker in range(chosen.jobs):
        waiting.put(worker)
    opened = ExitStack()

    @cache
    def tree_of(worker: int) -> Nursery:
        place = "drawn-%d" % worker
        return opened.enter_context(nursery(place, venue_words(chosen.venue), chosen.gateway))

    def tried(one: Drawn) -> Tried:
        worker, options = waiting.get(), tuple(chosen.words)
        try:
            known = (passes[one.part.name], remembered[one.part.name])
            trial = Trial(one.part, tree_of(worker), *known, chosen.limit, chosen.below, options)
            return trial.tried(one.change)
        finally:
            waiting.put(worker)

    with opened, ThreadPoolExecutor(chosen.jobs) as workers:
        yield from workers.map(tried, drawn)


def table(results: list[Tried]) -> Iterator[str]:
    yield "%-14s %6s %8s %6s %6s %7s" % ("part", "drawn", "refused", "hang", "equal", "passed")
    for name in [*dict.fromkeys(one.part for one in results), "all"]:
        of_part = [one for one in results if name in (one.part, "all")]
        count = Counter(one.verdict for one in of_part)
        refused, hang, equal = count[Verdict.REFUSED], count[Verdict.HANGS], count[Verdict.EQUAL]
        passed = sum(not one.verdict.is_good for one in of_part)
        words = (name, len(of_part), refused, hang, equal, passed)
        yield "%-14s %6d %8d %6d %6d %7d" % words


def arguments() -> argparse.Namespace:
    reader = argparse.ArgumentParser(prog="python3 -m tests.mutants.drawn", usage=__doc__)
    reader.add_argument("--seed", type=int, default=1)
    reader.add_argument("--count", type=int, default=100)
    reader.add_argument("--part", nargs="+", choices=[part.name for part in PARTS], default=None)
    reader.add_argument("--jobs", type=int, default=2)
    reader.add_argument("--limit", type=float, default=LONGEST)
    reader.add_argument("--since")
    reader.add_argument("--venue", default=usual_venue())
    reader.add_argument("--gateway", type=Path)
    reader.add_argument("--record", action="store_true")
    reader.add_argument("--remember", action="store_true")
    reader.add_argument("--below", type=float)
    reader.add_argument("--units", action="store_true")
    reader.add_argument("--list", action="store_true")
    chosen, words = reader.parse_known_args()
    chosen.words = words
    return chosen


def main() -> None:
    chosen = arguments()
    parts = [part for part in PARTS if chosen.part is None or part.name in chosen.part]
    with ExitStack() as opened:
        copies = Copies(opened, chosen)
        if chosen.record:
            record_parts(parts, copies, chosen)
        for name in names_of(parts) if chosen.remember else ():
            write_remembered(name, passes_of(name))
        only = changed_since(chosen.since) if chosen.since else None
        drawn = list(draw(parts, chosen.count, chosen.seed, only, copies.out))
        if chosen.list:
            for one in drawn:
                print(one.change.told((ROOT / one.change.file).read_bytes()))
            return
        results = []
        for tried in try_all(drawn, copies, chosen):
            results.append(tried)
            print(
                "%s (%s, %.0f s)\n%s" % (tried.verdict.value, tried.by, tried.seconds, tried.told)
            )
            sys.stdout.flush()
    print("\n".join(table(results)))


if __name__ == "__main__":
    main()
