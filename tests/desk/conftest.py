"""The fixtures of the desk's tests."""

import os
import subprocess
from collections.abc import Callable, Iterator
from dataclasses import dataclass, field
from pathlib import Path

import pytest

from tests.desk.browser import Browser
from tests.desk.desks import (
    DEALER,
    FIRMS,
    INVESTOR,
    OTHER,
    PASSWORD,
    Desk,
    FirmOf,
    bonds_text,
    row_text,
)
from tests.desk.view import View
from tests.gateway.door import Door, today
from tests.gateway.firm import Identity
from tests.harness.build import built


@pytest.fixture(scope="session")
def desk_program() -> Path:
    """The desk that DESK names, or that of desk/out, built as it stands there."""
    if "DESK" in os.environ:
        return Path(os.environ["DESK"])
    return built("desk", "mireseason-desk")


@pytest.fixture(scope="session")
def hashed(desk_program: Path) -> str:
    """The hash of PASSWORD."""
    return hash_of(desk_program, PASSWORD)


def hash_of(desk_program: Path, password: str) -> str:
    run = subprocess.run(
        [desk_program, "--hash"], input=password + "\n", capture_output=True, text=True, check=True
    )
    return run.stdout.strip()


@dataclass
class House:
    """A venue, and the desks of an investor and of two dealers."""

    door: Door
    desks: dict[str, Desk]
    folder: Path
    browsers: list[Browser] = field(default_factory=list)

    @property
    def investor(self) -> Desk:
        return self.desks[INVESTOR.name]

    @property
    def dealer(self) -> Desk:
        return self.desks[DEALER.name]

    @property
    def other(self) -> Desk:
        return self.desks[OTHER.name]

    def open_gateway(self) -> None:
        self.door.start()
        self.door.wait_open()

    def view(self, desk: Desk, login: str = "tess") -> View:
        view = View(desk, login)
        view.wait_on()
        return view

    def browser(self, desk: Desk, login: str = "tess", width: int = 1280) -> Browser:
        """A page of this desk in a browser of its own, logged in and with the venue connected."""
        browser = Browser(self.folder / ("chromium%d" % len(self.browsers)), width)
        self.browsers.append(browser)
        browser.open(desk, login)
        return browser

    def close(self) -> None:
        for browser in self.browsers:
            browser.quit()
        for desk in self.desks.values():
            desk.close()
        self.door.close()


def venue_text() -> str:
    return (
        'version = 3\ndate = "%s"\n' % today()
        + bonds_text()
        + "".join(map(row_text, sorted(FIRMS, key=lambda firm: firm.role)))
    )


@pytest.fixture
def house(
    make_gateway: Callable[..., Door], desk_program: Path, hashed: str, place: Path
) -> Iterator[House]:
    """A gateway with its venue, and three desks that are logged on."""
    identities = {firm.name: Identity(firm.name, firm.trader, firm.password) for firm in FIRMS}
    door = make_gateway([identities["DLR1"], identities["DLR2"]], [identities["INV1"]])
    (door.folder / "venue.toml").write_text(venue_text())
    door.write()
    desks = {firm.name: desk_of(firm, desk_program, place, door, hashed) for firm in FIRMS}
    made = House(door, desks, place)
    try:
        made.open_gateway()
        for desk in desks.values():
            desk.write()
            desk.start()
        yield made
    finally:
        made.close()


def desk_of(firm: FirmOf, program: Path, folder: Path, door: Door, hashed: str) -> Desk:
    return Desk(program, folder, firm, door.port, hashed)
