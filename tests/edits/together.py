"""Tries the wrong bodies of a crate together, so that one check says of all whether the prover refuses
them.

It puts each function that a wrong body changes beside the real one, under a name of its own and with its
proof files. It does the same with the right one, which has to be proved there: so what refuses the
others is what they change. It asks for one check of all of them. What can't stand beside (a definition, a
method of a trait, a change of several functions) is tried in its place (trial.py). In the end the sources
are as they were before.
"""

from __future__ import annotations

import re
import shutil
import tempfile
from dataclasses import dataclass
from pathlib import Path

from tests.edits.functions import Function, function_at
from tests.harness.kit import Libraries, ran
from tests.edits.wrong_bodies import Change, WrongBody

RIGHT = 0  # the number of a twin without a change
REFUSED = "refused"
NO_GOAL_REFUSES = "no goal refuses it"
NO_GOAL = re.compile(
    r"has no field|is not in scope|has no `|was not admitted"
    r"|no occurrence of the path|rewrites nothing in the goal"
)
UNPROVED = re.compile(r"note: (?:\./)?(src/[^:]+):(\d+):\d+: it is not proved")
REJECTED = re.compile(r"\berror\[[\w-]+\]")


@dataclass
class Twin:
    """A function beside the real one, with some changes."""

    file: str
    real: Function
    number: int
    changes: list[Change]
    lines: range = range(0)  # of its source, once it stands there

    @property
    def name(self) -> str:
        return f"{self.real.name}_w{self.number}"

    @property
    def asked(self) -> str:
        """The path by which a check is asked for it."""
        return self.real.asked(self.name)

    def right(self) -> Twin:
        """The one without a change."""
        return Twin(self.file, self.real, RIGHT, [])

    def text(self, real: str) -> str:
        """Its text, by that of the real function."""
        for _, old, new in self.changes:
            real = real.replace(old, new)
        return re.sub(rf"\bfn {self.real.name}\b", f"fn {self.name}", real, count=1)

    def goals(self, told: list[str]) -> list[str]:
        """The goals in its source that a check did not prove."""
        found = [(UNPROVED.match(line), line) for line in told]
        return [
            line for at, line in found if at and at[1] == self.file and int(at[2]) in self.lines
        ]


def twin_of(crate: Path, body: WrongBody, number: int) -> Twin | None:
    """A wrong body as a function of its own, where all its changes are of one function."""
    file = body.changes[0].file
    if not file.startswith("src/") or any(change.file != file for change in body.changes):
        return None
    text = (crate / file).read_text(encoding="utf-8")
    if any(text.count(change.old) != 1 for change in body.changes):
        return None
    places = [text.index(change.old) for change in body.changes]
    real = function_at(crate, file, text, places[0])
    if real is None or not all(real.begins <= place < real.ends for place in places):
        return None
    own = text[real.begins : real.ends].split(f"fn {real.name}", 1)[1]
    if re.search(rf"(?:\bself\.|\bSelf::|(?<![.:\w])){real.name}\(", own):
        return None  # it calls itself
    return Twin(file, real, number, body.changes)


def put_twins(crate: Path, twins: list[Twin]) -> None:
    """Writes the twins beside the real functions, with their proof files."""
    for file in {twin.file for twin in twins}:
        put_in(crate, file, [twin for twin in twins if twin.file == file])
    for twin in twins:
        put_proofs(crate, twin)


def put_in(crate: Path, file: str, twins: list[Twin]) -> None:
    """Writes the twins of a file, the last one first, so that the places of those above stay."""
    text = (crate / file).read_text(encoding="utf-8")
    for twin in sorted(twins, key=lambda twin: twin.real.ends, reverse=True):
        begins, ends = twin.real.begins, twin.real.ends
        text = f"{text[:ends]}\n{twin.text(text[begins:ends])}{text[ends:]}"
    (crate / file).write_text(text, encoding="utf-8")
    for twin in twins:
        twin.lines = lines_of(crate, text, twin)


def lines_of(crate: Path, text: str, twin: Twin) -> range:
    """The lines of a twin in its source, which has this text."""
    named = re.search(rf"\bfn {twin.name}\b", text)
    place = function_at(crate, twin.file, text, named.start()) if named else None
    if place is None:
        return range(0)
    first, behind = (text.count("\n", 0, at) + 1 for at in (place.begins, place.ends))
    return range(first, behind)


def put_proofs(crate: Path, twin: Twin) -> None:
    """Copies the proof files of a function for its twin."""
    old, new = twin.real.proofs(crate, twin.real.name), twin.real.proofs(crate, twin.name)
    if not old.is_dir():
        return
    shutil.copytree(old, new)
    names = [".".join(one.relative_to(crate).parts) + "." for one in (old, new)]
    for path in new.rglob("*.antt"):
        text = path.read_text(encoding="utf-8")
        path.write_text(text.replace(names[0], names[1]), encoding="utf-8")


def told_of(lines: list[str], function: str) -> str:
    """What a check said of the function with this path."""
    said = re.compile(rf"fn \w+::{re.escape(function)}: (.*)")
    return next((found[1] for line in lines if (found := said.fullmatch(line))), "nothing")


def is_proved(said: str) -> bool:
    """Whether a function is proved by what a check said of it: of one that takes a lock it says
    'proved, may wait'."""
    return said.split(",")[0] == "proved"


def verdict_of(lines: list[str], twin: Twin) -> str:
    """What a check says of a twin."""
    right = told_of(lines, twin.right().asked)
    if not is_proved(right):
        return f"not tried: of the right body it says {right}"
    said = told_of(lines, twin.asked)
    if is_proved(said):
        return "PROVED"
    if not said.startswith(("not proved", "no proof")):
        return f"not tried: {said}"
    errors = [line for line in lines if f"/{twin.name}/" in line and ": error: " in line]
    if errors and all(NO_GOAL.search(line) for line in errors) and not twin.goals(lines):
        return NO_GOAL_REFUSES
    return REFUSED


def verdict_of_whole(lines: list[str]) -> str:
    """What a check of a whole crate says of a wrong body in its place."""
    last = next((line for line in reversed(lines) if line), "nothing")
    if last.startswith("logic=proved"):
        return "PROVED"
    if not last.startswith("logic=not-proved"):
        return f"not tried: {last}"
    errors = [line for line in lines if ": error: " in line or UNPROVED.match(line)]
    if errors and all(NO_GOAL.search(line) for line in errors):
        return NO_GOAL_REFUSES
    return REFUSED


class Checker:
    """Checks crates of a copy of the tree: over what `rt ci` has built there since a moment, or, where it
    did not, by `rt check`, which builds what is below first."""

    def __init__(self, place: Path, since: float | None) -> None:
        self.place, self.since = place, since
        self.libraries = Libraries.of(place)

    def is_built(self, name: str) -> bool:
        """Whether `rt ci` has built what is below a crate since that moment."""
        return self.since is not None and self.libraries.are_since(name, self.since)

    def check_with(self, body: WrongBody) -> list[str]:
        """What a check of the whole crate says of a wrong body in its place, where what is below is built."""
        with tempfile.TemporaryDirectory() as folder:
            room = Path(folder)
            copy_parts(self.place / "crates" / body.crate, room)
            for file, old, new in body.changes:
                text = (room / file).read_text(encoding="utf-8")
                (room / file).write_text(text.replace(old, new), encoding="utf-8")
            return self.libraries.check(body.crate, room, [])

    def check(self, name: str, twins: list[Twin]) -> list[str]:
        """What a check says of a crate with these twins."""
        crate = self.place / "crates" / name
        words = [word for twin in twins for word in ("--only", twin.asked)]
        with tempfile.TemporaryDirectory() as folder:
            room = Path(folder)
            copy_parts(crate, room)
            if self.is_built(name):
                put_twins(room, twins)
                return self.libraries.check(name, room, words)
            try:
                put_twins(crate, twins)
                return ran(["rt", "check", *words], crate)
            finally:
                copy_parts(room, crate)


def copy_parts(crate: Path, to: Path) -> None:
    """Copies what a check reads of a crate, and nothing else stands there then."""
    for part in ("src", "specs", "proofs"):
        shutil.rmtree(to / part, ignore_errors=True)
        if (crate / part).is_dir():
            shutil.copytree(crate / part, to / part)


def tried(checker: Checker, crate: str, twins: dict[str, Twin]) -> dict[str, str]:
    """What is said of each twin, by the name of its wrong body. Where one does not compile, the
    others are tried without it."""
    rights = {twin.right().asked: twin.right() for twin in twins.values()}
    lines = checker.check(crate, [*rights.values(), *twins.values()])
    rejected = next((line for line in lines if REJECTED.search(line)), "")
    if not rejected:
        return {name: verdict_of(lines, twin) for name, twin in twins.items()}
    if len(twins) == 1:
        return {name: f"does not compile: {rejected}" for name in twins}
    half = set(list(twins)[: len(twins) // 2])
    first = {name: twin for name, twin in twins.items() if name in half}
    second = {name: twin for name, twin in twins.items() if name not in half}
    return tried(checker, crate, first) | tried(checker, crate, second)


def twins_of(crate: Path, bodies: list[WrongBody]) -> dict[str, Twin]:
    """Those of a crate's wrong bodies that can stand beside the real functions."""
    made = {body.name: twin_of(crate, body, at) for at, body in enumerate(bodies, RIGHT + 1)}
    return {name: twin for name, twin in made.items() if twin is not None}
