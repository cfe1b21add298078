"""Programs of their own beside the gateway: two on one log, and the fuzzer."""

import os
import re
import shutil
import subprocess
from pathlib import Path

import pytest

from tests.harness import postgres
from tests.harness.options import Options

HERE = Path(__file__).resolve().parent
LIMIT = 5400  # seconds


def passed(words: list[str | Path], options: Options, **more: str) -> int:
    """How many passed by the last line `N passed, M failed`, none of which may have failed."""
    environment = {"SEED": str(options.seed), **more}
    command = ["env", *("%s=%s" % item for item in environment.items()), *map(str, words)]
    done = subprocess.run(
        command,
        stdout=subprocess.PIPE,
        stderr=subprocess.STDOUT,
        text=True,
        timeout=LIMIT,
        check=False,
    )
    assert done.returncode == 0, done.stdout[-4000:]
    found = re.search(r"(\d+) passed, 0 failed\s*\Z", done.stdout)
    assert found, done.stdout[-4000:]
    print(done.stdout)
    return int(found[1])


def test_two_gateways_on_one_log(gateway_program: Path, place: Path) -> None:
    """Terms keep one of two writers out, and a server that does not wait for its standby is refused."""
    passes_in_postgres(gateway_program.parent / "terms_test", place)


def test_connections_in_postgres(gateway_program: Path, place: Path) -> None:
    """What happened to a connection is read as it was put there."""
    passes_in_postgres(gateway_program.parent / "connection_log_test", place)


def passes_in_postgres(test: Path, place: Path) -> None:
    """A unit test, where it is built, with a server of its own."""
    programs = postgres.programs()
    if programs is None or not test.exists():
        pytest.skip(
            "PostgreSQL is not installed"
            if programs is None
            else "%s is not built beside the gateway" % test.name
        )
    with postgres.running(programs, place / "server") as server:
        own = {
            **os.environ,
            "TEST_POSTGRES": server.connection("postgres"),
            "TEST_POSTGRES_OWN": "yes",
        }
        done = subprocess.run(
            [test], env=own, capture_output=True, text=True, timeout=LIMIT, check=False
        )
    assert done.returncode == 0, done.stdout + done.stderr


def test_the_fuzzer_finds_nothing(options: Options) -> None:
    """Each input of the corpus, then new ones for a minute, or for an hour in the long form."""
    if shutil.which("clang++") is None:
        pytest.skip("clang is not installed")
    inputs = sum(path.is_file() for path in (HERE / "corpus").rglob("*"))
    assert passed([HERE / "fuzz.sh", "60" if options.is_short else "3600"], options) == inputs + 1
