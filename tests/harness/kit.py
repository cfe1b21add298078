"""Asks the kit about a crate whose libraries `rt ci` has just built.

`rt check` takes no library that `rt ci` left: it would prove each one below the crate again. `rt ci`
itself tries an edit by the kit's compiler, over these libraries; so does this.
"""

from __future__ import annotations

import os
import subprocess
from dataclasses import dataclass
from pathlib import Path

MEMORY_OF_A_JOB = 3 << 30  # bytes


def ran(words: list[str], place: Path) -> list[str]:
    """The lines that a command prints."""
    done = subprocess.run(
        words,
        cwd=place,
        stdin=subprocess.DEVNULL,
        stdout=subprocess.PIPE,
        stderr=subprocess.STDOUT,
        text=True,
        errors="replace",
    )
    return done.stdout.split("\n")


def jobs() -> int:
    """How many processes a check may have: half of what the machine has room for, since tests run beside it."""
    memory = os.sysconf("SC_PAGE_SIZE") * os.sysconf("SC_PHYS_PAGES")
    return max(1, min(len(os.sched_getaffinity(0)), memory // MEMORY_OF_A_JOB) // 2)


def named_in(text: str) -> dict[str, list[str]]:
    """Each crate of crates.txt, and what it names: crates, and libraries of the kit."""
    named = {}
    for line in text.splitlines():
        head, colon, below = line.partition("#")[0].partition(":")
        if colon:
            named[head.split()[0]] = below.split()
    return named


@dataclass
class Libraries:
    """A repository whose libraries stand in crates/*/out, and what crates.txt says of its crates."""

    place: Path
    kit: Path
    named: dict[str, list[str]]

    @staticmethod
    def of(place: Path) -> Libraries:
        """Those of a repository."""
        (page, *_) = ran(["rt", "doc"], place)
        text = (place / "crates.txt").read_text(encoding="utf-8")
        return Libraries(place.resolve(), Path(page).parent, named_in(text))

    def of_kit(self, name: str) -> list[str]:
        """The libraries of the kit that a crate names; each crate has std."""
        return ["std", *[one for one in self.named[name] if one not in self.named]]

    def below(self, name: str) -> list[str]:
        """The crates of the repository below one."""
        own = [one for one in self.named[name] if one in self.named]
        return sorted({each for one in own for each in [one, *self.below(one)]})

    def folder(self, name: str) -> Path:
        """Where the library of a crate stands."""
        return self.place / "crates" / name / "out" / "rlib"

    def are_since(self, name: str, moment: float) -> bool:
        """Whether a crate is a library, and each one below it was built since then."""
        if not (self.place / "crates" / name / "src" / "lib.rt").is_file():
            return False
        folders = [self.folder(one) for one in self.below(name)]
        return all(one.is_dir() and one.stat().st_mtime >= moment for one in folders)

    def asked(self, verb: str, name: str) -> list[str]:
        """The words by which the kit's compiler is asked to check or build a crate."""
        own = [one for one in self.named[name] if one in self.named]
        asked = [str(self.kit / "bin" / "rattle"), verb, "--crate-name", name, "src/lib.rt"]
        for one in self.of_kit(name):
            asked += ["--extern", f"{one}={self.kit}/rlibs/{one}.rlib"]
        for one in own:
            asked += ["--extern", f"{one}={self.folder(one)}/{one}.rlib"]
        for folder in [self.kit / "rlibs", *[self.folder(one) for one in self.below(name)]]:
            asked += ["-L", f"dependency={folder}"]
        asked += ["--antt-project", f"{self.kit}/rattle/logic/antt-project.json"]
        return [*asked, "--logic-built", f"{self.kit}/logic_built", "--jobs", str(jobs())]

    def check(self, name: str, room: Path, words: list[str]) -> list[str]:
        """What a check says of the crate with this name whose sources stand in a folder."""
        return ran([*self.asked("check", name), *words], room)

    def build_static(self, name: str) -> list[str]:
        """Builds the static library of a crate, and what the kit says of it. The crate itself is proved
        once more; those below it are as `rt ci` left them."""
        asked = [*self.asked("build", name), "--links", f"{name}=", "--crate-type", "staticlib"]
        asked += ["--toolchain", f"{self.kit}/toolchain", "--backend", "llvm"]
        return ran([*asked, "-o", f"out/lib{name}.a"], self.place / "crates" / name)
