"""Reads a wrong body from its file: what it does, where it goes, and the test that has to fail on it."""

from dataclasses import dataclass
from pathlib import Path

HERE = Path(__file__).resolve().parent
ENDING = ".mutant"
OLD, NEW = "old:\n", "new:\n"
IN_NODE = "tests/desk/test_modules.py"  # takes the pages as they stand in the tree, and no desk that is built


class Misfit(Exception):
    """A wrong body that can't be put in its place; the text says why."""


@dataclass(frozen=True)
class Mutant:
    name: str
    what: str  # it does, in a line
    file: str  # from the top of the tree
    test: str  # pytest's name of it, or a unit test's file and case
    old: str
    new: str
    beside: str | None = None  # what the test runs beside the part's program

    @property
    def unit(self) -> str | None:
        """The program of unit tests that is to fail, where no test of pytest is."""
        file = Path(self.test.partition("::")[0])
        if file.suffix != ".cpp":
            return None
        return "desk_test" if self.part == "desk" else file.stem

    @property
    def case(self) -> str:
        """The test's own name in its file."""
        return self.test.partition("::")[2].split("::")[-1].partition("[")[0]

    @property
    def part(self) -> str | None:
        """The part of the tree whose program has to be built anew, if one has; of common that whose unit test it is."""
        if self.test.startswith(IN_NODE):
            return None
        folder = self.file.partition("/")[0]
        if folder == "common":
            return "gateway" if self.test.startswith("gateway/unit/") else "desk"
        return folder if folder in ("gateway", "desk") else None

    def planted_in(self, text: str) -> str:
        """The file's text with the wrong body in its place."""
        if text.count(self.old) != 1:
            raise Misfit(
                "%s: its old text stands %d times in %s"
                % (self.name, text.count(self.old), self.file)
            )
        return text.replace(self.old, self.new)


def read_mutant(path: Path) -> Mutant:
    """A file of this folder: a line of words, `file:`, `test:`, perhaps `beside:`, and the text of old and new."""
    head, old_found, rest = path.read_text().partition(OLD)
    old, new_found, new = rest.partition(NEW)
    what, *lines = head.splitlines()
    keys = dict(line.split(": ", 1) for line in lines)
    beside = keys.pop("beside", None)
    if not old_found or not new_found or set(keys) != {"file", "test"} or old == new:
        raise Misfit("%s: is no mutant" % path.name)
    name = path.name.removesuffix(ENDING)
    return Mutant(name, what, keys["file"], keys["test"], old, new, beside)


def all_mutants() -> list[Mutant]:
    return [read_mutant(path) for path in sorted(HERE.glob("*" + ENDING))]
