"""Does damage to the hosts in the middle of a day, one thing at a time, and undoes it."""

import random
import time
from collections.abc import Callable
from dataclasses import dataclass, field

from tests.lab.database import DatabaseHost
from tests.lab.gateway import GatewayHost
from tests.lab.machine import DATABASES, GATEWAYS, Machine
from tests.lab.run import found_in
from tests.replicas.book import PATIENCE, primary

CUT_SECONDS = 20.0
POWER_SECONDS = 5.0
FULL_SECONDS = 10.0
ALONE_SECONDS = 4.0


@dataclass
class Damage:
    what: str
    steps: list[tuple[float, Callable[[], None]]]  # seconds after its begin, and what is done then
    silenced: str = ""  # a gateway that is cut off from the database: it has to end by itself
    began: float = 0.0

    def look(self) -> None:
        """Does what is due."""
        while self.steps and time.monotonic() - self.began >= self.steps[0][0]:
            self.steps.pop(0)[1]()

    @property
    def mended(self) -> bool:
        return not self.steps


@dataclass
class Course:
    """What is done to the hosts of a machine, one thing after the other."""

    machine: Machine
    order: list[Callable[[], Damage]] = field(default_factory=list)  # the next one in front

    def begin(self) -> Damage:
        damage = self.order.pop(0)()
        damage.began = time.monotonic()
        damage.look()
        return damage

    def primary(self) -> DatabaseHost:
        return primary(self.machine)

    def standby(self) -> DatabaseHost:
        return found_in(
            "there is a synchronous standby", PATIENCE, self.machine.cluster.synchronous_standby
        )


class Damages(Course):
    """Draws what is done; each kind as often as the others."""

    def __init__(self, machine: Machine, seed: int, count: int) -> None:
        super().__init__(machine)
        self.draw = random.Random("damage of %d" % seed)
        kinds = [
            self.kill_primary,
            self.kill_gateway,
            self.kill_etcd,
            self.cut_standby,
            self.cut_gateway,
            self.cut_host,
            self.cut_power,
            self.fill_disk,
            self.lose_primary,
        ]
        deck = kinds * (count // len(kinds) + 1)
        self.draw.shuffle(deck)
        self.order = deck[:count]

    def speaking(self) -> GatewayHost:
        return found_in("a gateway speaks", PATIENCE, self.machine.speaking)

    # ------------------------------------------------------------ kinds

    def kill_primary(self) -> Damage:
        self.primary().kill_database()
        return Damage("primary killed", [])

    def kill_gateway(self) -> Damage:
        self.speaking().service.kill()
        return Damage("gateway killed", [])

    def kill_etcd(self) -> Damage:
        found_in("etcd has a leader", PATIENCE, self.machine.cluster.etcd_leader).kill_etcd()
        return Damage("etcd's leader killed", [])

    def cut_standby(self) -> Damage:
        network = self.machine.network
        one, other = self.primary().name, self.standby().name
        network.cut(one, other)
        return Damage(
            "link of primary and standby cut", [(CUT_SECONDS, lambda: network.heal(one, other))]
        )

    def cut_gateway(self) -> Damage:
        one, other = self.speaking().name, self.primary().name
        network = self.machine.network
        network.cut(one, other)
        return Damage(
            "link of gateway and primary cut",
            [(CUT_SECONDS, lambda: network.heal(one, other))],
            one,
        )

    def cut_host(self) -> Damage:
        speaking, network = self.speaking().name, self.machine.network
        name = self.draw.choice([host.name for host in (*DATABASES, *GATEWAYS)])
        network.cut_off(name)
        return Damage(
            "host cut off",
            [(CUT_SECONDS, lambda: network.join(name))],
            name if name == speaking else "",
        )

    def cut_power(self) -> Damage:
        host = self.primary()
        host.cut_power()
        return Damage("power of the primary cut", [(POWER_SECONDS, host.power_up)])

    def fill_disk(self) -> Damage:
        host = self.primary()
        host.disk.fill()
        return Damage("disk of the primary full", [(FULL_SECONDS, host.disk.empty)])

    def lose_primary(self) -> Damage:
        """It is alone for some seconds, but for the gateways, and then without power."""
        host, network = self.primary(), self.machine.network
        others = [each.name for each in DATABASES if each.name != host.name]

        def end() -> None:
            host.cut_power()
            for other in others:
                network.heal(host.name, other)

        for other in others:
            network.cut(host.name, other)
        return Damage(
            "primary alone, then its power cut",
            [(ALONE_SECONDS, end), (ALONE_SECONDS + POWER_SECONDS, host.power_up)],
        )
