"""All drawn changes of C++ in one program, which does the one that DRAWN names: so they are compiled and linked together.

A change within a function's body becomes a second body of that function. One that stands elsewhere, or that the compiler
refuses without saying which it is, is planted alone afterwards. Each function also marks that it was passed through, as each
statement of Python does (`recording/sitecustomize.py`).
"""

import json
import os
import re
import shutil
import subprocess
from collections import defaultdict
from collections.abc import Iterable, Iterator, Mapping
from dataclasses import dataclass, field
from pathlib import Path

from tests.harness.build import LIMIT, NotBuilt
from tests.harness.options import ROOT
from tests.mutants.drawn.change import Change
from tests.mutants.drawn.cpp_bodies import Body, bodies
from tests.mutants.nursery import Nursery, files_of, write_if_other

HERE = Path(__file__).resolve().parent
SETTINGS = (
    "-DCMAKE_BUILD_TYPE=Debug",
    # A file that ccache names shorter than its #line is a header to the compiler, in which no type is a file's own.
    # The library asserts what has no meaning, as the value of an optional that has none: such a mistake ends the program.
    "-DCMAKE_CXX_FLAGS_DEBUG=-O0 -Wno-subobject-linkage -D_GLIBCXX_ASSERTIONS",
    "-DCMAKE_PROJECT_INCLUDE=%s" % (HERE / "together.cmake"),
    "-DDPKG_QUERY=OFF",
    "-DSESSION=model",
)
NAMED = re.compile(r"drawn-(\d+):\d+:\d+: error")  # what the compiler says of a change's own body
ANY = re.compile(r"^(\S+\.cpp):(\d+):\d+: error", re.MULTILINE)
FOLDERS = {
    "gateway": ("gateway/src/**/*.cpp", "gateway/session_model/*.cpp", "common/**/*.cpp"),
    "desk": ("desk/src/*.cpp", "common/**/*.cpp"),
}


def sources(build: str, root: Path = ROOT) -> list[str]:
    """The files whose functions are marked."""
    found = {path for glob in FOLDERS[build] for path in root.glob(glob)}
    return sorted(str(path.relative_to(root)) for path in found)


def settings() -> list[str]:
    """What is built soonest: with the linker and the maker that are there, and what was compiled before."""
    found = list(SETTINGS)
    if shutil.which("ld.lld"):
        found.append("-DCMAKE_EXE_LINKER_FLAGS=-fuse-ld=lld")
    if shutil.which("ccache"):
        found.append("-DCMAKE_CXX_COMPILER_LAUNCHER=ccache")
    return (["-G", "Ninja"] if shutil.which("ninja") else []) + found


def refused_by(out: Path, jobs: int) -> str | None:
    """Builds all, as far as that goes, and gives what the compiler said if it refuses something."""
    go_on = ["-k", "0"] if (out / "build.ninja").exists() else ["-k"]
    done = run(["cmake", "--build", str(out), "-j", str(jobs), "--", *go_on], out)
    return done.stdout if done.returncode != 0 else None


def run(words: list[str], out: Path) -> subprocess.CompletedProcess[str]:
    cache = {
        "CCACHE_BASEDIR": str(out.parents[1]),
        "CCACHE_NOHASHDIR": "1",
        "CCACHE_SLOPPINESS": "pch_defines,time_macros",
    }
    return subprocess.run(
        words,
        env={**cache, **os.environ},
        stdout=subprocess.PIPE,
        stderr=subprocess.STDOUT,
        text=True,
        timeout=LIMIT,
        check=False,
    )


@dataclass
class Together:
    """A copy of the tree for one build. `numbers` are the changes that its program has."""

    build: str
    tree: Nursery
    jobs: int
    numbers: dict[Change, int] = field(default_factory=dict)
    refused: set[Change] = field(default_factory=set)
    alone: set[Change] = field(default_factory=set)

    def __post_init__(self) -> None:
        self.texts = {file: (ROOT / file).read_bytes() for file in sources(self.build)}
        self.bodies = {file: bodies(text) for file, text in self.texts.items()}

    @property
    def out(self) -> Path:
        return self.tree.folder / self.build / "out"

    def body_of(self, change: Change) -> Body | None:
        """That of the function in which a change stands."""
        for body in self.bodies.get(change.file, ()):
            if body.has(change):
                return body
        return None

    def configured(self) -> Path:
        """The folder that is built, once it says how each file is compiled."""
        self.write()
        if not (self.out / "compile_commands.json").exists():
            done = run(
                ["cmake", "-S", str(self.out.parent), "-B", str(self.out), *settings()], self.out
            )
            if done.returncode != 0:
                raise NotBuilt(done.stdout[-4000:])
        return self.out

    def make(self, changes: Iterable[Change]) -> Path:
        """Builds all of these, and gives the folder of what was built."""
        for number, change in enumerate(changes, 1):
            if self.body_of(change) is None:
                self.alone.add(change)
            else:
                self.numbers[change] = number
        while True:
            said = refused_by(self.configured(), self.jobs)
            if said is None:
                return self.out
            if not self.blame(said):
                raise NotBuilt(said[-4000:])

    def blame(self, said: str) -> bool:
        """Takes out what can't be compiled; False where no change is blamed."""
        named = {int(number) for number in NAMED.findall(said)}
        gone = {change for change, number in self.numbers.items() if number in named}
        self.refused |= gone
        if not gone:
            lines = [(name, int(line)) for name, line in ANY.findall(said)]
            gone = {change for change in self.numbers if self.is_at(change, lines)}
            self.alone |= gone
        self.numbers = {each: number for each, number in self.numbers.items() if each not in gone}
        return bool(gone)

    def is_at(self, change: Change, lines: list[tuple[str, int]]) -> bool:
        body = self.body_of(change)
        return body is not None and any(
            name.endswith("/" + change.file) and body.line <= line <= body.last
            for name, line in lines
        )

    # ---------------------------------------------------------------- what is written

    def write(self) -> None:
        """The copy is as the tree is, but for its marks and its changes; what stands there already is not written anew."""
        for name in files_of(ROOT):
            if name not in self.texts:
                write_if_other(ROOT / name, self.tree.folder / name)
        of_file: dict[str, dict[Change, int]] = defaultdict(dict)
        for change, number in self.numbers.items():
            of_file[change.file][change] = number
        for file, first in self.firsts().items():
            path = str(self.tree.folder / file)
            self.put(file, together(path, self.texts[file], first, of_file[file]))

    def put(self, file: str, text: bytes) -> None:
        target = self.tree.folder / file
        if not target.exists() or target.read_bytes() != text:
            target.parent.mkdir(parents=True, exist_ok=True)
            target.write_bytes(text)

    def firsts(self) -> dict[str, int]:
        """The number of each file's first mark. A file keeps it, so that a change of one has no other compiled anew."""
        kept = self.tree.folder.parent / "marks.json"
        rooms: dict[str, tuple[int, int]] = json.loads(kept.read_text()) if kept.exists() else {}
        end = max([first + room for first, room in rooms.values()], default=0)
        for file, text in self.texts.items():
            lines = text.count(b"\n") + 2
            if rooms.get(file, (0, 0))[1] < lines:
                rooms[file] = (end, lines)
                end += lines
        kept.write_text(json.dumps(rooms))
        return {file: rooms[file][0] for file in self.texts}

    def plant(self, change: Change) -> str | None:
        """A change alone, in a program without any other; what the compiler says if it refuses that."""
        self.numbers = {}
        self.write()
        self.put(change.file, change.applied(self.texts[change.file]))
        return refused_by(self.out, self.jobs)


def together(path: str, text: bytes, first: int, changes: Mapping[Change, int]) -> bytes:
    """A file whose functions mark that they are passed through, and have the bodies of these changes beside their own."""
    made, at = [
        b'#include "%s"\n#line 1 "%s"\n' % (str(HERE / "drawn.h").encode(), path.encode())
    ], 0
    for body in bodies(text):
        made += [text[at : body.start], b" ::drawn::passes(%d); " % (first + body.line)]
        own = [change for change in changes if body.has(change)]
        for change in own:
            inner = (
                text[body.start : change.start] + change.new.encode() + text[change.end : body.end]
            )
            number = changes[change]
            words = (number, number, inner)
            made.append(b'if (::drawn::does(%d)) {\n#line 1 "drawn-%d"\n%s\n} else ' % words)
        inner = text[body.start : body.end]
        made.append(b'{\n#line %d "%s"\n%s}' % (body.line, path.encode(), inner) if own else inner)
        at = body.end
    return b"".join([*made, text[at:]])
