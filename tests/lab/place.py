"""A host of an installation: where its files are, and what keeps its programs running."""

from dataclasses import dataclass
from pathlib import Path

from parts.site import Site

from tests.lab.network import Host, Network
from tests.lab.service import Supervisor


@dataclass
class Place:
    host: Host
    network: Network
    folder: Path  # of the whole installation
    supervisor: Supervisor
    site: Site

    @property
    def name(self) -> str:
        return self.host.name

    @property
    def own(self) -> Path:
        """Its configurations and sockets, which are on no disk that is cut."""
        return self.folder / self.name

    @property
    def logs(self) -> Path:
        """The folder of what the programs of all hosts tell."""
        return self.folder / "log"
