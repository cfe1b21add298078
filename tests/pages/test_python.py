"""The repository's Python has types (mypy --strict) and one form (black); pyproject.toml says which files."""

import shutil
import subprocess

import pytest

from tests.harness.options import ROOT

LIMIT = 1200  # seconds


@pytest.mark.parametrize(
    "words", [["mypy"], ["black", "--check", "--quiet", "--diff", "."]], ids=["types", "form"]
)
def test_python(words: list[str]) -> None:
    if shutil.which(words[0]) is None:
        pytest.skip("%s is not installed" % words[0])
    done = subprocess.run(
        words,
        cwd=ROOT,
        stdout=subprocess.PIPE,
        stderr=subprocess.STDOUT,
        text=True,
        timeout=LIMIT,
        check=False,
    )
    assert done.returncode == 0, done.stdout[-4000:]
