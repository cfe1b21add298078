"""Tries wrong bodies on a copy of the tree: the prover must refuse each.

    python3 -m tests.edits.trial PLACE [--gate] [--since FILE] [CRATE..]

PLACE is the copy, with what is proved of it in crates/*/out: by `rt ci`, if it was written since FILE, and
otherwise in the form that `rt check` can use. It tries the wrong bodies of each crate named, or of all; with
--gate only those that each landing tries. One check tries those that can stand beside the real functions
(together.py). Those that can't, or were not refused so, are tried in their place: by a check of their crate
if `rt ci` has built what is below, and otherwise by `rt must-fail`. One that no goal refuses shows nothing,
and fails: a proof file names what it took away, or rewrites what is not there. The last line is
`N passed, M failed`.
"""

from __future__ import annotations

import argparse
import re
import sys
from collections import defaultdict
from dataclasses import dataclass, field
from pathlib import Path

from tests.harness.kit import ran
from tests.edits.together import (
    NO_GOAL_REFUSES,
    REFUSED,
    Checker,
    tried,
    twins_of,
    verdict_of_whole,
)
from tests.edits.wrong_bodies import WrongBody, bodies_of, put

OF_ONE = re.compile(r"^(?:rt: )?must-fail (\w+)/([\w-]+)\.edit: (.*)")
IS_REFUSED = "refused, as it must be"
BY_NO_GOAL = re.compile(
    r"\(only because a proof file names|no occurrence of the path|rewrites nothing in the goal"
)
NOT_BESIDE = "not tried: it can't stand beside the real function"
WHY_NO_GOAL = "no goal refuses these, so they show nothing: change a value, and keep the names"


@dataclass
class Trial:
    """A copy of the tree, and what is said of each wrong body that was tried there."""

    checker: Checker
    said: dict[str, str] = field(default_factory=dict)

    @property
    def place(self) -> Path:
        return self.checker.place

    def say(self, body: WrongBody, verdict: str) -> None:
        """Notes and prints what is said of a wrong body."""
        self.said[str(body)] = verdict
        print(f"  {body.name}: {verdict}", flush=True)

    def together(self, name: str, bodies: list[WrongBody]) -> list[WrongBody]:
        """Tries those of a crate in one check, and gives what is not refused so."""
        twins = twins_of(self.place / "crates" / name, bodies)
        print(f"{name}: {len(twins)} of {len(bodies)} wrong bodies together", flush=True)
        verdicts = tried(self.checker, name, twins) if twins else {}
        for body in bodies:
            self.say(body, verdicts.get(body.name, NOT_BESIDE))
        return [body for body in bodies if self.said[str(body)] != REFUSED]

    def rest(self, bodies: list[WrongBody]) -> None:
        """Tries what one check did not refuse: each by a check of its crate, or by `rt must-fail`."""
        for body in bodies:
            if self.checker.is_built(body.crate):
                self.say(body, verdict_of_whole(self.checker.check_with(body)))
        others = [body for body in bodies if not self.checker.is_built(body.crate)]
        if others:
            self.one_by_one(others)

    def one_by_one(self, bodies: list[WrongBody]) -> None:
        """Has `rt must-fail` try these."""
        put(bodies, self.place / "crates")
        names = sorted({body.crate for body in bodies})
        print(f"{len(bodies)} wrong bodies one by one: {' '.join(names)}", flush=True)
        told = of_each(ran(["rt", "must-fail", *names], self.place))
        for body in bodies:
            self.say(body, verdict_of(told.get(str(body), "not tried")))


def of_each(lines: list[str]) -> dict[str, str]:
    """What `rt must-fail` tells of each wrong body, by CRATE/NAME."""
    found = [OF_ONE.match(line) for line in lines]
    return {f"{one[1]}/{one[2]}": one[3] for one in found if one}


def verdict_of(told: str) -> str:
    """The verdict in what `rt must-fail` tells of a wrong body."""
    if not told.startswith(IS_REFUSED):
        return told
    return NO_GOAL_REFUSES if BY_NO_GOAL.search(told) else REFUSED


def by_crate(bodies: list[WrongBody]) -> dict[str, list[WrongBody]]:
    """Wrong bodies by their crates."""
    found: defaultdict[str, list[WrongBody]] = defaultdict(list)
    for body in bodies:
        found[body.crate].append(body)
    return found


def chosen(names: list[str], is_gate: bool) -> list[WrongBody]:
    """What is tried: none that a test finds."""
    return [body for body in bodies_of(names) if not body.test and (body.is_gate or not is_gate)]


def main() -> int:
    parser = argparse.ArgumentParser()
    parser.add_argument("place", type=Path)
    parser.add_argument("crates", nargs="*")
    parser.add_argument("--gate", action="store_true")
    parser.add_argument("--since", type=Path)
    given = parser.parse_intermixed_args()
    since = given.since.stat().st_mtime if given.since else None
    trial = Trial(Checker(given.place, since))
    left: list[WrongBody] = []
    for name, bodies in by_crate(chosen(given.crates, given.gate)).items():
        left += trial.together(name, bodies)
    trial.rest(left)
    failed = {name: said for name, said in trial.said.items() if said != REFUSED}
    for name, said in failed.items():
        print(f"{name}: {said}")
    if NO_GOAL_REFUSES in failed.values():
        print(WHY_NO_GOAL)
    print(f"{len(trial.said) - len(failed)} passed, {len(failed)} failed")
    return 1 if failed else 0


if __name__ == "__main__":
    sys.exit(main())
