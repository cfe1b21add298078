"""The packages, built once for all tests of this folder."""

from pathlib import Path

import pytest

from tests.harness.build import made_once
from tests.operating.built_packages import NEWER, VERSION, Packages, built


@pytest.fixture(scope="session")
def packages(gateway_program: Path, venue: tuple[str, ...], shared: Path) -> Packages:
    """Those of this tree."""
    return of_version(VERSION, gateway_program, venue, shared)


@pytest.fixture(scope="session")
def newer(gateway_program: Path, venue: tuple[str, ...], shared: Path) -> Packages:
    """The same programs as packages of another version."""
    return of_version(NEWER, gateway_program, venue, shared)


def of_version(version: str, gateway: Path, venue: tuple[str, ...], shared: Path) -> Packages:
    def make(folder: Path) -> None:
        built(gateway, venue, folder, version)

    return Packages(made_once(shared / ("packages-" + version), make) / "packages", version)
