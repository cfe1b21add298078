"""Python imports this at its start if its folder is on the path: so each program that a test starts records its lines.

It compiles each statement of a recorded file with a mark before it, which is set in a file that all programs of one test map
into their memory. So the lines of a program that is killed are there, too, and a program takes hardly longer than without.
coverage.py, which looks at each line of each module, takes twice the time.
"""

import ast
import marshal
import mmap
import os
import sys
from collections.abc import Callable, Iterator
from importlib.machinery import ModuleSpec, PathFinder, SourceFileLoader
from pathlib import Path
from types import CodeType, FrameType, ModuleType
from typing import Any

FOLDER = "RECORDED_FOLDER"  # in the environment: where all of a recording stands
CURRENT = "RECORDED_CURRENT"  # in the environment: a file that has the name of the marks of the test that runs
Traced = Callable[[FrameType, str, Any], Any]
MARKS = "__passed__"  # the marks' name in a recorded module


def marked(text: bytes, first: int) -> ast.Module:
    """A module whose statement of line N sets the mark number `first` + N before it runs."""
    tree = ast.parse(text)
    for node in ast.walk(tree):
        for name in ("body", "orelse", "finalbody"):
            block = getattr(node, name, None)
            if isinstance(block, list) and block and isinstance(block[0], ast.stmt):
                setattr(node, name, list(with_marks(block, first)))
    return ast.fix_missing_locations(tree)


def with_marks(block: list[ast.stmt], first: int) -> Iterator[ast.stmt]:
    for at, statement in enumerate(block):
        is_text = isinstance(statement, ast.Expr) and isinstance(statement.value, ast.Constant)
        is_first = isinstance(statement, ast.ImportFrom) and statement.module == "__future__"
        if not (is_first or (at == 0 and is_text)):
            mark = ast.parse("%s[%d] = 1" % (MARKS, first + statement.lineno)).body[0]
            for part in ast.walk(mark):
                ast.copy_location(part, statement)
            yield mark
        yield statement


class Recording:
    """What one process records, and where."""

    def __init__(self, folder: Path) -> None:
        self.folder = folder
        lines = (folder / "files").read_text().splitlines()
        pairs = (line.split(" ", 1) for line in lines)
        self.firsts = {path: int(first) for first, path in pairs}
        self.size = int((folder / "size").read_text())
        self.marks = self.marks_of(Path(os.environ[CURRENT]).read_text())

    def marks_of(self, name: str) -> mmap.mmap:
        number = os.open(self.folder / "marks" / name, os.O_RDWR | os.O_CREAT, 0o666)
        try:
            if os.fstat(number).st_size < self.size:
                os.truncate(number, self.size)
            return mmap.mmap(number, self.size)
        finally:
            os.close(number)

    def code_of(self, path: str) -> CodeType:
        """Compiled once for all processes."""
        kept = self.folder / "code" / str(self.firsts[path])
        if kept.exists():
            found: CodeType = marshal.loads(kept.read_bytes())
            return found
        made: CodeType = compile(marked(Path(path).read_bytes(), self.firsts[path]), path, "exec")
        fresh = kept.with_name("%s.%d" % (kept.name, os.getpid()))
        fresh.write_bytes(marshal.dumps(made))
        fresh.rename(kept)
        return made

    def find_spec(self, name: str, path: object = None, target: object = None) -> ModuleSpec | None:
        """What `import` asks: only a recorded module is answered."""
        spec = PathFinder.find_spec(name, path, target)  # type: ignore[arg-type]
        if spec is None or spec.origin not in self.firsts:
            return None
        spec.loader = Marked(self, name, spec.origin)
        return spec

    def begin(self) -> None:
        sys.meta_path.insert(sys.meta_path.index(PathFinder), self)
        script = sys.orig_argv[1] if len(sys.orig_argv) > 1 else ""
        first = self.firsts.get(os.path.realpath(script))
        if first is not None:
            sys.settrace(self.tracer(script, first))

    def tracer(self, script: str, first: int) -> Callable[[FrameType, str, Any], Traced | None]:
        """A program that is itself recorded is imported by nobody: its lines are looked at."""

        def in_script(frame: FrameType, event: str, _: Any) -> Traced:
            if event == "line":
                self.marks[first + frame.f_lineno] = 1
            return in_script

        def look(frame: FrameType, _: str, __: Any) -> Traced | None:
            return in_script if frame.f_code.co_filename == script else None

        return look


class Marked(SourceFileLoader):
    """Loads a module with its marks."""

    def __init__(self, recording: Recording, name: str, path: str) -> None:
        super().__init__(name, path)
        self.recording = recording

    def get_code(self, fullname: str) -> CodeType:
        return self.recording.code_of(self.path)

    def exec_module(self, module: ModuleType) -> None:
        setattr(module, MARKS, self.recording.marks)
        super().exec_module(module)


def begin() -> None:
    """A program of another user, who may not write there, runs unrecorded."""
    folder = os.environ.get(FOLDER)
    if folder is not None:
        try:
            Recording(Path(folder)).begin()
        except OSError:
            pass


if __name__ == "sitecustomize":
    begin()
