"""Hosts as network namespaces, each with one link to a switch, and links that can be cut.

A cut drops every packet and tells nobody, as a cable that is pulled somewhere in between: the two
hosts send to a hardware address that nobody has. If a host is cut off, its port of the switch is down.
"""

import os
import signal
from dataclasses import dataclass

from tests.lab.run import Fault, run, tried, until

NETWORK = "10.77.0.0/24"
NOBODY = "02:4d:52:00:00:ff"
LINK = "eth0"


@dataclass(frozen=True)
class Host:
    name: str
    number: int

    @property
    def address(self) -> str:
        return "10.77.0.%d" % self.number

    @property
    def hardware(self) -> str:
        return "02:4d:52:00:00:%02x" % self.number


class Network:
    """Namespaces PREFIX-NAME, and PREFIX-switch with the bridge between them."""

    def __init__(self, prefix: str, hosts: list[Host]) -> None:
        self.prefix, self.hosts = prefix, {host.name: host for host in hosts}

    def space(self, name: str) -> str:
        return "%s-%s" % (self.prefix, name)

    def words(self, name: str) -> list[str]:
        """In front of a command that runs on this host; it stays the same process."""
        return ["nsenter", "--net=/run/netns/%s" % self.space(name)]

    def up(self) -> None:
        switch = self.space("switch")
        if any(self.processes(name) for name in self.hosts):
            raise Fault(
                "there are namespaces %s-*, with processes in them: another runs here, or "
                "`down` was not done" % self.prefix
            )
        self.down()  # what is left of one that was killed
        run("ip", "netns", "add", switch)
        run("ip", "-n", switch, "link", "add", "switch", "type", "bridge")
        run("ip", "-n", switch, "link", "set", "switch", "up")
        for host in self.hosts.values():
            self._add(host, switch)

    def _add(self, host: Host, switch: str) -> None:
        space = self.space(host.name)
        run("ip", "netns", "add", space)
        run(
            "ip",
            "link",
            "add",
            LINK,
            "netns",
            space,
            "address",
            host.hardware,
            "type",
            "veth",
            "peer",
            "name",
            host.name,
            "netns",
            switch,
        )
        run("ip", "-n", switch, "link", "set", host.name, "master", "switch", "up")
        run("ip", "-n", space, "address", "add", host.address + "/24", "dev", LINK)
        run("ip", "-n", space, "link", "set", "lo", "up")
        run("ip", "-n", space, "link", "set", LINK, "up")

    def cut(self, one: str, other: str) -> None:
        for here, there in ((one, other), (other, one)):
            run(
                "ip",
                "-n",
                self.space(here),
                "neigh",
                "replace",
                self.hosts[there].address,
                "lladdr",
                NOBODY,
                "dev",
                LINK,
                "nud",
                "permanent",
            )

    def heal(self, one: str, other: str) -> None:
        for here, there in ((one, other), (other, one)):
            tried(
                "ip", "-n", self.space(here), "neigh", "del", self.hosts[there].address, "dev", LINK
            )

    def cut_off(self, name: str) -> None:
        """The host reaches nobody."""
        run("ip", "-n", self.space("switch"), "link", "set", name, "down")

    def join(self, name: str) -> None:
        run("ip", "-n", self.space("switch"), "link", "set", name, "up")

    def processes(self, name: str) -> list[int]:
        """All that run on a host."""
        space = self.space(name)
        if not os.path.exists("/run/netns/%s" % space):
            return []
        return [int(word) for word in run("ip", "netns", "pids", space).split()]

    def end_all(self, name: str) -> None:
        """Kills what runs on a host, and waits until it is gone."""

        def none_left() -> bool:
            left = self.processes(name)
            for pid in left:
                try:
                    os.kill(pid, signal.SIGKILL)
                except ProcessLookupError:
                    continue
            return not left

        until("all processes of %s end" % name, 120, none_left)

    def down(self) -> None:
        for name in [*self.hosts, "switch"]:
            tried("ip", "netns", "del", self.space(name))
