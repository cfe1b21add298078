"""Three database hosts: which one is the primary, and when all are ready."""

from dataclasses import dataclass

from tests.lab.database import DatabaseHost
from tests.lab.run import until


@dataclass
class Cluster:
    databases: list[DatabaseHost]

    def up(self) -> None:
        for database in self.databases:
            database.make()
        for database in self.databases:
            database.start()

    def wait_ready(self, limit: float = 300) -> None:
        until("a primary with two standbys, one of them synchronous", limit, self.is_ready)

    def is_ready(self) -> bool:
        primary = self.primary()
        states = primary.standbys() if primary else {}
        return sorted(states.values()) == ["async", "sync"]

    def primary(self) -> DatabaseHost | None:
        """The primary that has a synchronous standby, or else any that says that it is one."""
        found = [each for each in self.databases if each.is_primary()]
        with_standby = [each for each in found if "sync" in each.standbys().values()]
        return next(iter(with_standby or found), None)

    def synchronous_standby(self) -> DatabaseHost | None:
        primary = self.primary()
        states = primary.standbys() if primary else {}
        return next((each for each in self.databases if states.get(each.name) == "sync"), None)

    def etcd_leader(self) -> DatabaseHost | None:
        return next((each for each in self.databases if each.leads_etcd()), None)
