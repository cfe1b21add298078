"""What two gateways on one log keep of it outside of the database: both keep what the one that speaks has signed."""

import re
import shutil
from datetime import datetime, timezone
from pathlib import Path

from parts.site import ALONE

from tests.lab.gateway import GatewayHost
from tests.lab.machine import Machine
from tests.lab.run import found_in, until

ROOT = Path(__file__).resolve().parent.parent.parent
EXAMPLE = ROOT / "examples" / "gateway"
LONG = 120.0


def venue_text() -> str:
    """The example's venue, of today."""
    today = datetime.now(timezone.utc).strftime("%Y%m%d")
    return re.sub(r"(?m)^date = .*$", 'date = "%s"' % today, (EXAMPLE / "venue.toml").read_text())


def kept(gateway: GatewayHost) -> str:
    """The checkpoint that a gateway host has; nothing where it has none."""
    found = list((gateway.own / "checkpoints").glob("*.checkpoint"))
    return found[0].read_text() if found else ""


def test_both_gateways_keep_what_one_signs(machine: Machine) -> None:
    """The one that follows has it before it takes over, and then signs in its own term; the other keeps that. One that comes
    without a checkpoint stands by once it has one: so it can take over."""
    machine.up({ALONE: venue_text()}, (EXAMPLE / "credentials.toml").read_text())
    speaks = found_in("a gateway speaks", LONG, machine.speaking)
    until(
        "the other gateway stands by",
        LONG,
        lambda: any(one.stands_by() for one in machine.gateways if one is not speaks),
    )
    follows = next(one for one in machine.gateways if one is not speaks)
    until(
        "both keep a checkpoint of term 1",
        LONG,
        lambda: all("\nterm 1\n" in kept(one) for one in machine.gateways),
    )
    speaks.service.kill()
    until("the other takes over", LONG, lambda: machine.listens(follows))
    until(
        "it signs in its own term, and the other keeps that",
        LONG,
        lambda: all("\nterm 2\n" in kept(one) for one in machine.gateways),
    )
    comes_without_one(machine, speaks)
    assert kept(speaks), "it stands by, and has no checkpoint"
    follows.service.kill()
    until("it takes over, and waits for no operator", LONG, lambda: machine.listens(speaks))


def comes_without_one(machine: Machine, gateway: GatewayHost) -> None:
    """It is started where its disk was lost, and stands by. What the other has signed before that says nothing to it."""
    gateway.service.stop(LONG)
    shutil.rmtree(gateway.own / "checkpoints")
    before = len(gateway.told())
    machine.supervisor.locked(gateway.service.start)
    until(
        "it stands by without a checkpoint at first",
        LONG,
        lambda: any(" stands by" in line for line in gateway.told()[before:]),
    )
