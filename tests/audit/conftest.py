"""Shares the kept answers of the venue's program among all tests of the audit."""

import os
from collections.abc import Iterator
from pathlib import Path

import pytest


@pytest.fixture(scope="session", autouse=True)
def remembered(shared: Path) -> Iterator[None]:
    """A folder in which the venue's answers are kept, for all workers, or for many runs where it is given: see remembered.py."""
    folder = Path(os.environ.get("REMEMBERED") or shared / "remembered")
    folder.mkdir(exist_ok=True)
    with pytest.MonkeyPatch.context() as patch:
        patch.setenv("REMEMBERED", str(folder))
        yield
