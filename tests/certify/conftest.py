"""The programs that a certification needs, and what stands for them."""

import os
from pathlib import Path

import pytest
from mireseason_certify import stage
from mireseason_certify.own_venue import Programs

from tests.certify.scripted import Script
from tests.gateway.midnight import wait_for_room
from tests.harness.build import built
from tests.harness.options import Form


@pytest.fixture(scope="session")
def programs(gateway_program: Path, venue: tuple[str, ...]) -> Programs:
    """The gateway and the operator's command beside it, and the venue's program."""
    admin = gateway_program.with_name("mireseason-admin")
    assert admin.exists(), "there is no %s beside the gateway" % admin
    return Programs(gateway_program.resolve(), admin.resolve(), venue)


@pytest.fixture(autouse=True)
def day(request: pytest.FixtureRequest) -> None:
    """A certification is of one day: with a gateway none begins where too little of it is left."""
    if "gateway_program" in request.fixturenames:
        wait_for_room(request.node.name)


@pytest.fixture
def is_long(form: Form) -> bool:
    """Whether each wrong desk is tried with every case."""
    return form is Form.LONG


@pytest.fixture(scope="session")
def desk_program() -> Path:
    """The desk that DESK names, or that of desk/out, built as it stands there."""
    return Path(os.environ["DESK"]) if "DESK" in os.environ else built("desk", "mireseason-desk")


@pytest.fixture
def script(monkeypatch: pytest.MonkeyPatch) -> Script:
    """A line that a test speaks for, on which nothing is waited for."""
    for name in ("PROMPT", "LOOK", "UNTIL_READ", "SETTLED"):
        monkeypatch.setattr(stage, name, 0.01)
    return Script()
