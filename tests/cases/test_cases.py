"""Runs the text cases of the crates with a program that is compiled without its proofs.

It checks each step, so it would take more minutes over days at their limits than over all else: the gate runs those.
"""

import re
import shutil
import subprocess

import pytest

from tests.harness.options import ROOT

CRATE = ROOT / "crates" / "all_cases"
AT_LIMITS = (
    "blotter-limits",
    "commands-greatest",
    "commands-limits",
    "commands-long_days",
    "dealer-full-days",
    "due-limits",
    "investor-full-days",
    "replay-limits",
)
SECONDS = 900  # of the program, by rt's own limit
LIMIT = 1800  # seconds of its compiler, too
CASE = re.compile(r"(?m)^case ")


def files() -> list[str]:
    names = sorted(path.name for path in (CRATE / "data").glob("*.cases"))
    return [name for name in names if name.removesuffix(".cases") not in AT_LIMITS]


def test_cases_without_a_proof() -> None:
    if shutil.which("rt") is None:
        pytest.skip("there is no rt on the PATH")
    words = [
        "nice",
        "rt",
        "try",
        "--seconds",
        str(SECONDS),
        "--",
        *("data/" + name for name in files()),
    ]
    done = subprocess.run(
        words,
        cwd=CRATE,
        stdout=subprocess.PIPE,
        stderr=subprocess.STDOUT,
        text=True,
        timeout=LIMIT,
        check=False,
    )
    found = re.search(r"(?m)^(\d+) passed, 0 failed$", done.stdout)
    assert found, done.stdout[-3000:]
    written = sum(
        len(CASE.findall((CRATE / "data" / name).read_text(errors="replace"))) for name in files()
    )
    assert int(found[1]) == written > 0


@pytest.mark.parametrize("name", AT_LIMITS)
def test_cases_at_limits(name: str) -> None:
    pytest.skip("days at their limits, which the gate runs")
