"""A whole installation on one machine: three database hosts, two gateway hosts, one for firms."""

import os
import shutil
from collections.abc import Mapping
from dataclasses import dataclass, field
from pathlib import Path

from parts.certificates import make_certificates
from parts.site import ALONE, WORDS, Site

from tests.lab.cluster import Cluster
from tests.lab.database import DatabaseHost
from tests.lab.gateway import PORT, GatewayHost, make_keys
from tests.lab.network import NETWORK, Host, Network
from tests.lab.run import Fault, run, tried, until
from tests.lab.service import Supervisor

DATABASES = [Host("db%d" % number, 10 + number) for number in (1, 2, 3)]
GATEWAYS = [Host("gw%d" % number, 20 + number) for number in (1, 2)]
FIRMS = Host("firms", 31)

# Debian's packages of what is started on database hosts, and of the network between them.
PACKAGES = ("etcd-server", "etcd-client", "postgresql", "patroni", "python3-etcd", "iproute2")


@dataclass
class Machine:
    """prefix is that of its namespaces, images the folder of the database hosts' disks."""

    folder: Path
    images: Path
    gateway: Path  # the program
    site: Site
    prefix: str = "mireseason"
    supervisor: Supervisor = field(default_factory=Supervisor)

    def __post_init__(self) -> None:
        self.network = network_of(self.prefix)
        self.cluster = Cluster(
            [
                DatabaseHost(
                    host, self.network, self.folder, self.supervisor, self.site, self.images
                )
                for host in DATABASES
            ]
        )
        self.gateways = [
            GatewayHost(host, self.network, self.folder, self.supervisor, self.site, self.gateway)
            for host in GATEWAYS
        ]

    def bring_up_databases(self) -> None:
        """Makes the hosts, and starts the database ones."""
        check_packages()
        self.network.up()
        self.folder.mkdir(parents=True, exist_ok=True)
        self.images.mkdir(parents=True, exist_ok=True)
        make_certificates(
            {**self.site.databases, **self.site.gateways}, self.folder / "certificates"
        )
        self.cluster.up()
        self.cluster.wait_ready()

    def up(self, configurations: Mapping[str, str], credentials: str) -> None:
        """Starts all, with the venues' configurations by their names, and waits until a gateway
        speaks.
        """
        self.bring_up_databases()
        names = [gateway.name for gateway in self.gateways]
        keys = make_keys(self.gateway, names, self.folder / "keys")
        for gateway in self.gateways:
            gateway.make(configurations, credentials, keys)
            gateway.start()
        until("a gateway speaks", 420, lambda: self.speaking() is not None)

    def listens(self, gateway: GatewayHost) -> bool:
        """Whether it takes connections: only the one that speaks does."""
        text = run(*self.network.words(gateway.name), "ss", "-Hltn", "sport", "=", str(PORT))
        return bool(text.strip())

    def speaking(self) -> GatewayHost | None:
        return next((gateway for gateway in self.gateways if self.listens(gateway)), None)

    def following(self) -> GatewayHost | None:
        speaking = self.speaking()
        return next((each for each in self.gateways if speaking and each is not speaking), None)

    def down(self) -> None:
        """Ends all that runs in the namespaces, and takes them and the disks away."""
        self.supervisor.end()
        remove(self.prefix, self.folder, self.images)


def site_here(
    command: tuple[str, ...], venues: tuple[str, ...] = (ALONE,), synchronous: str = "on"
) -> Site:
    """An installation on this machine alone, with the words of the venue's program."""
    return Site(
        NETWORK,
        {host.name: host.address for host in DATABASES},
        {host.name: host.address for host in GATEWAYS},
        {word: "%s-secret" % word.lower() for word in WORDS},
        command,
        "plain_tcp_beyond_loopback = true # on this machine alone",
        venues,
        synchronous,
    )


def network_of(prefix: str) -> Network:
    return Network(prefix, [*DATABASES, *GATEWAYS, FIRMS])


def remove(prefix: str, folder: Path, images: Path) -> None:
    """Also what was left by one that could not end: nothing of it has to be there."""
    network = network_of(prefix)
    for host in (*GATEWAYS, FIRMS):
        network.end_all(host.name)
    for host in DATABASES:
        DatabaseHost(host, network, folder, Supervisor(), site_here(()), images).remove()
    network.down()
    for host in (*DATABASES, *GATEWAYS):
        shutil.rmtree(folder / host.name, ignore_errors=True)
    tried("rmdir", str(images))


def check_root() -> None:
    if os.geteuid() != 0:
        raise Fault("namespaces and file systems are made by root alone")


def is_installed(package: str) -> bool:
    try:
        return run("dpkg-query", "-W", "-f=${Status}", package) == "install ok installed"
    except Fault:
        return False


def check_packages() -> None:
    missing = [package for package in PACKAGES if not is_installed(package)]
    if missing:
        raise Fault("these packages are not installed: %s" % " ".join(missing))
