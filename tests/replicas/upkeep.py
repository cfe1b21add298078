"""Does to database hosts what an operator does, as install/hosts/README.md says it: takes one out and in,
makes the standby the primary for that, and replaces one whose disk is lost.
"""

from collections.abc import Callable

from tests.lab.database import DatabaseHost, as_user
from tests.lab.machine import Machine
from tests.lab.run import Fault, found_in, run, until
from tests.replicas.book import PATIENCE
from tests.replicas.damage import Course, Damage

OUT_SECONDS = 10.0


class Upkeep(Course):
    """Does each of these once, in this order."""

    def __init__(self, machine: Machine) -> None:
        super().__init__(machine)
        self.order = [
            self.take_out_primary,
            self.take_out_standby,
            self.replace_standby,
            self.replace_primary,
        ]

    # ------------------------------------------------------------ what is done

    def take_out_primary(self) -> Damage:
        host, standby = self.primary(), self.standby()
        return Damage(
            "primary switched over and out",
            [
                (0, lambda: self.switch_over(host, standby)),
                (0, host.stop),
                (OUT_SECONDS, host.start_again),
            ],
        )

    def take_out_standby(self) -> Damage:
        host = self.standby()
        return Damage("standby out", [(0, host.stop), (OUT_SECONDS, host.start_again)])

    def replace_standby(self) -> Damage:
        host = self.standby()
        return Damage("standby replaced", self.replacement(host))

    def replace_primary(self) -> Damage:
        host = self.primary()
        return Damage("primary replaced", self.replacement(host))

    def replacement(self, host: DatabaseHost) -> list[tuple[float, Callable[[], None]]]:
        return [
            (0, host.cut_power),
            (0, host.renew_disk),
            (OUT_SECONDS, lambda: self.join_anew(host)),
            (OUT_SECONDS, host.start_again),
        ]

    def switch_over(self, host: DatabaseHost, standby: DatabaseHost) -> None:
        run(
            *self.machine.network.words(host.name),
            *as_user("postgres"),
            "patronictl",
            "-c",
            str(host.own / "patroni.yml"),
            "switchover",
            "mireseason",
            "--leader",
            host.name,
            "--candidate",
            standby.name,
            "--force",
        )
        until("%s is the primary" % standby.name, PATIENCE, standby.is_primary)

    def join_anew(self, host: DatabaseHost) -> None:
        """Takes the member that is lost out of etcd's cluster, and its successor in."""
        leader = found_in("etcd has a leader", PATIENCE, self.machine.cluster.etcd_leader)
        members = [line.split(", ") for line in leader.etcdctl("member", "list").splitlines()]
        lost = next(words[0] for words in members if words[2] == host.name)
        peer = "--peer-urls=https://%s:2380" % host.host.address
        until("etcd lets %s go" % host.name, PATIENCE, lambda: does(leader, "remove", lost))
        until("etcd takes %s" % host.name, PATIENCE, lambda: does(leader, "add", host.name, peer))
        file = host.own / "etcd.yml"
        text = file.read_text().replace('state: "new"', 'state: "existing"')
        file.write_text(text)


def does(leader: DatabaseHost, *words: str) -> bool:
    """Whether etcd does something with its members."""
    try:
        leader.etcdctl("member", *words)
        return True
    except Fault:
        return False
