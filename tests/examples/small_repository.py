"""A small repository with the real scripts of examples/, and stand-ins for all that they call."""

import os
import shutil
import subprocess
from collections.abc import Mapping
from dataclasses import dataclass
from pathlib import Path

ROOT = Path(__file__).resolve().parent.parent.parent
PROGRAM = Path("crates/rfq_venue/out/rfq_venue")
LIBRARY = Path("crates/fix_sessions_c/out/libfix_sessions_c.a")
RECOVERY = Path("crates/session_recovery_c/out/libsession_recovery_c.a")

# As in the real crates.txt: fields below all, libraries of C calls over the sessions, and a crate of none.
CRATES = """\
fields: itoa
sessions: fields
fix_sessions_c staticlib: fields sessions # for the gateway
session_recovery_c staticlib: sessions
market may_wait=9: fields
rfq_venue may_wait=1: market
laws: market sessions
"""

# What rt prints and makes, where a crate named in FAILS is not proved.
RT = """#!/bin/sh
echo "rt $* in ${PWD##*/}" >>"$CALLS"
case "$1 ${2:-}" in
'version ') echo 'kit-1 logic 1' ;;
'help ') echo '  rt ci NAME..   the same for these crates' ;;
'doc ') echo "$TOP/kit/START.md" ;;
'ci ')
    for crate in crates/*/; do echo "rt: $(basename "$crate") proved"; done
    [ ! -d crates/rfq_venue ] || { mkdir -p crates/rfq_venue/out && echo venue >crates/rfq_venue/out/rfq_venue; } ;;
'ci '*)
    [ "$2" != "${FAILS:-}" ] || { echo "src/lib.rt:1: error: not proved"; exit 1; }
    echo "rt: $2 proved, and that is kept" ;;
esac
"""

# The kit's compiler, which makes a library of the crate that it is called in.
RATTLE = """#!/bin/sh
echo "rattle $1 in ${PWD##*/}" >>"$CALLS"
[ -z "${NO_LIBRARY:-}" ] || { echo 'rattle: no memory for a library'; exit 1; }
mkdir -p out && echo library >"out/lib${PWD##*/}.a"
"""

# The gateway says which sessions it was linked with.
CMAKE = """#!/bin/sh
stands=
[ ! -e "$TOP/crates/fix_sessions_c/out/libfix_sessions_c.a" ] || stands=' with the library'
echo "cmake $*$stands" >>"$CALLS"
[ "$1" != --build ] || {
    printf '#!/bin/sh\\necho gateway%s\\n' "$stands" >"$2/mireseason-gateway" && chmod +x "$2/mireseason-gateway"
}
[ "$1" = --build ] || mkdir -p "$TOP/gateway/out"
"""

AUCTION = """#!/bin/sh
echo "an auction of $VENUE" >>"$CALLS"
"""

COPIED = (
    "examples/prove_venue.py",
    "examples/first-run.sh",
    "tools/proved.py",
    "tests/harness/kit.py",
)


def write(path: Path, text: str, mode: int = 0o755) -> None:
    path.parent.mkdir(parents=True, exist_ok=True)
    path.write_text(text)
    path.chmod(mode)


@dataclass
class SmallRepository:
    top: Path

    def __post_init__(self) -> None:
        write(self.top / "crates.txt", CRATES)
        write(self.top / "HANDLES", "Handles allowed: none.\n")
        for name in (line.split()[0].rstrip(":") for line in CRATES.splitlines()):
            write(self.top / "crates" / name / "src" / "lib.rt", "//! %s\n" % name)
        for name in COPIED:
            (self.top / name).parent.mkdir(parents=True, exist_ok=True)
            shutil.copy2(ROOT / name, self.top / name)
        write(self.top / "VERSION", "1.2.0\n")
        write(self.top / "CHANGELOG.md", "# Changes\n\n## Next\n\n## 1.2.0\n")
        write(self.top / "examples" / "gateway" / "run.sh", AUCTION)
        for name in ("tests/packages.sh", "gateway/packages.sh"):
            write(self.top / name, "#!/bin/sh\n")
        for name, text in (("bin/rt", RT), ("bin/cmake", CMAKE), ("kit/bin/rattle", RATTLE)):
            write(self.top / name, text)

    @property
    def calls(self) -> list[str]:
        """What was called so far, in order."""
        file = self.top / "calls"
        return file.read_text().splitlines() if file.exists() else []

    def run(
        self, *words: str, more: Mapping[str, str] | None = None
    ) -> "subprocess.CompletedProcess[str]":
        """A command of this repository, which finds the stand-ins first."""
        environment = {
            **os.environ,
            "PATH": "%s:/usr/bin:/bin" % (self.top / "bin"),
            "CALLS": str(self.top / "calls"),
            "TOP": str(self.top),
            **(more or {}),
        }
        return subprocess.run(
            words,
            cwd=self.top,
            env=environment,
            stdin=subprocess.DEVNULL,
            stdout=subprocess.PIPE,
            stderr=subprocess.STDOUT,
            text=True,
            timeout=300,
            check=False,
        )
