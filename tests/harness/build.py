"""Builds the programs that tests need, each once for all tests."""

import compileall
import fcntl
import hashlib
import os
import shlex
import shutil
import subprocess
import tempfile
from collections.abc import Callable, Iterator, Sequence
from contextlib import contextmanager
from pathlib import Path

from tests.harness.options import ROOT

HERE = ROOT / "tests" / "gateway"
LIMIT = 7200  # seconds: a build that takes more hangs
PLAYER = "g++ -std=c++14 -DHAVE_SSL=1 -O1 -Wall -Wextra -Werror -o {out} {sources} -lquickfix -lpthread -lssl -lcrypto"
SHIM = "g++ -std=c++20 -O1 -shared -fPIC -Wall -Wextra -Werror -o {out} {sources} -ldl"


# Whose modules are imported anew by each of some thousand programs of Python that tests start.
MODULES = (
    "audit",
    "common",
    "keeper",
    "tests/model",
    "tests/audit",
    "tests/gateway",
    "tests/harness",
)


class NotBuilt(Exception):
    """A program can't be built; the text is the end of what the compiler said."""


@contextmanager
def alone(folder: Path, name: str = "lock") -> Iterator[None]:
    """One process at a time works in this folder, or of those that give the same name."""
    folder.mkdir(parents=True, exist_ok=True)
    with (folder / name).open("w") as lock:
        fcntl.flock(lock, fcntl.LOCK_EX)
        yield


def made_once(folder: Path, make: Callable[[Path], object]) -> Path:
    """A folder that the first who needs it makes, for which all others wait; made as a whole, or not at all."""
    with alone(folder.parent, folder.name + ".lock"):
        if not folder.exists():
            with tempfile.TemporaryDirectory(dir=folder.parent) as name:
                fresh = Path(name) / folder.name
                fresh.mkdir()
                make(fresh)
                fresh.rename(folder)
    return folder


def byte_code() -> None:
    """Compiles the modules that have changed, since no program under test keeps what it compiled: it takes a third of a start."""
    for folder in MODULES:
        compileall.compile_dir(ROOT / folder, quiet=2)


def told(words: list[str], environment: dict[str, str] | None = None) -> None:
    """Runs a command, whose last words are told where it fails."""
    done = subprocess.run(
        words,
        env=environment,
        stdout=subprocess.PIPE,
        stderr=subprocess.STDOUT,
        text=True,
        timeout=LIMIT,
        check=False,
    )
    if done.returncode != 0:
        raise NotBuilt("%s:\n%s" % (shlex.join(words), done.stdout[-4000:]))


def cmake(folder: Path, targets: Sequence[str] = (), settings: Sequence[str] = ()) -> Path:
    """Builds a folder's targets, or all, into its `out`. What was compiled once, in this tree or in a copy, is not again."""
    out = folder / "out"
    cache = {
        "CCACHE_BASEDIR": str(folder.parent),
        "CCACHE_NOHASHDIR": "1",
        "CCACHE_SLOPPINESS": "pch_defines,time_macros",  # of what uses a precompiled header
    }
    environment = {**cache, **os.environ}
    launcher = ["-DCMAKE_CXX_COMPILER_LAUNCHER=ccache"] if shutil.which("ccache") else []
    told(["cmake", "-S", str(folder), "-B", str(out), *launcher, *settings], environment)
    chosen = ["--target", *targets] if targets else []
    jobs = str(len(os.sched_getaffinity(0)))
    told(["cmake", "--build", str(out), *chosen, "-j", jobs], environment)
    return out


def built(part: str, program: str) -> Path:
    """A program of a part of the tree, such as `gateway`, built as it stands there with all of its part."""
    with alone(ROOT / part / "out"):
        return cmake(ROOT / part) / program


def built_gateway() -> Path:
    return built("gateway", "mireseason-gateway")


def compiled(name: str, form: str, sources: list[Path]) -> Path:
    """A program of one command of a compiler; one that stands already of the same sources and headers is taken."""
    headers = sorted(
        header for folder in {source.parent for source in sources} for header in folder.glob("*.h")
    )
    text = form.encode() + b"".join(file.read_bytes() for file in [*sources, *headers])
    folder = ROOT / "tests" / "out"
    out = folder / ("%s-%s" % (name, hashlib.sha256(text).hexdigest()[:16]))
    with alone(folder, name + ".lock"):
        if not out.exists():
            fresh = out.with_suffix(".fresh")
            told(shlex.split(form.format(out=fresh, sources=shlex.join(map(str, sources)))))
            fresh.rename(out)
    return out


def player() -> Path:
    """The stock QuickFIX initiator that a test's firm runs."""
    return compiled("player", PLAYER, [HERE / "player.cpp"])


def shim() -> Path:
    """What stands between the gateway and the disk, and between it and the clock."""
    return compiled("shim.so", SHIM, [HERE / "disk.cpp", HERE / "clock.cpp"])
