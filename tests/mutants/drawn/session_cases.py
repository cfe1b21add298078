"""The gate's cases of a session, on the second implementation as a folder has built it: one more program of unit tests.

usage: python3 -m tests.mutants.drawn.session_cases LIBRARY
"""

import shutil
import subprocess
import sys
from collections.abc import Iterator
from pathlib import Path

from tests.harness.options import ROOT
from tests.mutants.drawn.units import LIMIT, UNIT, Unit
from tests.sessions.case_file import cases_of
from tests.sessions.crossing import Crossing
from tests.sessions.desk import Desk
from tests.sessions.test_cases import CASES, files_at, without_reason

OWN = "fix_sessions_"  # what the library's calls begin with; the cases call them by `model_`


def session_cases(out: Path) -> Iterator[Unit]:
    """None where the folder has no sessions, and where there is no linker for it."""
    objects = sorted(map(str, out.glob("session_model/CMakeFiles/session_model.dir/*.o")))
    if objects and shutil.which("ld.lld"):
        library = out / "session_cases.so"
        link(objects, library)
        words = ("env", "PYTHONPATH=%s" % ROOT, sys.executable, "-m", __name__, str(library))
        yield Unit(UNIT + "session_cases", words)


def link(objects: list[str], library: Path) -> None:
    """Objects of a program may be a library's, as long as it takes no call of them from elsewhere."""
    words = ["nm", "--defined-only", "--extern-only", *objects]
    said = subprocess.run(words, capture_output=True, text=True, check=True, timeout=LIMIT).stdout
    calls = {word for word in said.split() if word.startswith(OWN)}
    names = ["-Wl,--defsym,model_%s=%s" % (call.removeprefix(OWN), call) for call in sorted(calls)]
    linked = ["g++", "-shared", "-fuse-ld=lld", "-Wl,-Bsymbolic", "-o", str(library)]
    subprocess.run([*linked, *objects, *names], check=True, timeout=LIMIT)


def main() -> None:
    library = Path(sys.argv[1])
    for name in files_at("session"):
        for case in cases_of(CASES / ("%s.cases" % name)):
            desk = Desk(library)
            for step in case.steps:
                assert desk.call(step.call) == step.lines, (case.name, step.call)
    for name in files_at("wire"):
        for case in cases_of(CASES / ("%s.cases" % name)):
            crossing = Crossing(library)
            for step in case.steps:
                expected = list(map(without_reason, step.lines))
                assert crossing.call(step.call) == expected, (case.name, step.call)


if __name__ == "__main__":
    main()
