"""A database host: etcd, Patroni, and the PostgreSQL that Patroni starts."""

import os
import pwd
import signal
from contextlib import suppress
from dataclasses import dataclass
from pathlib import Path

from parts.certificates import put_certificate
from parts.site import Folders

from tests.lab.disk import Disk
from tests.lab.place import Place
from tests.lab.run import Fault, run, until
from tests.lab.service import Service

DISK_MEGABYTES = 900
ENDS_WITHIN = 30  # seconds
DATABASE = "mireseason"
PSQL = "/usr/lib/postgresql/15/bin/psql"  # Debian's `psql` is a script that looks for this one
USERS = {"etcd": "etcd", "postgres": "postgres"}  # folders on the disk, and whose they are


def as_user(user: str) -> list[str]:
    """In front of a command that this user runs; it stays the same process."""
    return ["setpriv", "--reuid", user, "--regid", user, "--init-groups"]


@dataclass
class DatabaseHost(Place):
    images: Path  # the folder of the disks

    def __post_init__(self) -> None:
        self.disk = Disk(
            self.images / (self.name + ".img"), self.folder / self.name / "disk", DISK_MEGABYTES
        )

    def make(self) -> None:
        self.own.mkdir(parents=True, exist_ok=True)
        self.disk.make(USERS)
        owner = pwd.getpwnam("postgres")
        os.chown(self.own, owner.pw_uid, owner.pw_gid)
        for folder, user in ((self.tls, "postgres"), (self.etcd_tls, "etcd")):
            put_certificate(self.folder / "certificates", self.name, folder, user)
        folders = Folders(
            str(self.own), str(self.disk.mount), str(self.own), str(self.tls), str(self.etcd_tls)
        )
        for name, text in self.site.files(self.name, folders).items():
            (self.own / name).write_text(text)
            (self.own / name).chmod(0o755)

    @property
    def tls(self) -> Path:
        return self.own / "tls"

    @property
    def etcd_tls(self) -> Path:
        return self.own / "etcd-tls"

    def etcdctl(self, *words: str, limit: float = 15) -> str:
        """What the command of etcd prints on this host, which asks its own etcd."""
        tls = self.etcd_tls
        return run(
            *self.network.words(self.name),
            "etcdctl",
            "--endpoints",
            "https://%s:2379" % self.host.address,
            "--cacert",
            str(tls / "authority.pem"),
            "--cert",
            str(tls / "host.pem"),
            "--key",
            str(tls / "host.key"),
            *words,
            limit=limit,
        )

    def start(self) -> None:
        self.logs.mkdir(exist_ok=True)
        inside = self.network.words(self.name)
        self.supervisor.add(
            Service(
                self.name + ".etcd",
                inside + as_user("etcd") + ["etcd", "--config-file", str(self.own / "etcd.yml")],
                self.logs / (self.name + ".etcd"),
            )
        )
        self.supervisor.add(
            Service(
                self.name + ".patroni",
                inside + as_user("postgres") + ["/usr/bin/patroni", str(self.own / "patroni.yml")],
                self.logs / (self.name + ".patroni"),
                {
                    "PATRONI_LOG_LEVEL": "INFO",
                    "HOME": str(self.own),
                    "PYTHONDONTWRITEBYTECODE": "1",
                },
            )
        )

    def services(self) -> list[Service]:
        return [self.supervisor.services[self.name + end] for end in (".etcd", ".patroni")]

    # ------------------------------------------------------------ what is known of it

    def postmaster(self) -> int:
        """The process of PostgreSQL, 0 where there is none."""
        file = self.disk.mount / "postgres" / "data" / "postmaster.pid"
        try:
            pid = int(file.read_text().split("\n")[0])
            os.kill(pid, 0)
            return pid
        except (OSError, ValueError):
            return 0

    def asked(self, query: str, limit: float = 15) -> str | None:
        """The answer of this host's PostgreSQL to its superuser, nothing where it gives none."""
        try:
            return run(
                *as_user("postgres"),
                PSQL,
                "--no-psqlrc",
                "-AtX",
                "-h",
                str(self.own),
                "-U",
                "postgres",
                "-v",
                "ON_ERROR_STOP=1",
                "-c",
                query,
                DATABASE,
                limit=limit,
            ).strip()
        except Fault:
            return None

    def is_primary(self) -> bool:
        return self.asked("SELECT NOT pg_is_in_recovery()") == "t"

    def standbys(self) -> dict[str, str]:
        """Of a primary: the standbys that stream, and what each is: sync, async, ..."""
        text = self.asked(
            "SELECT application_name, sync_state FROM pg_stat_replication "
            "WHERE state = 'streaming'"
        )
        rows = [line.split("|") for line in (text or "").splitlines()]
        return {row[0]: row[1] for row in rows}

    def leads_etcd(self) -> bool:
        try:
            text = self.etcdctl(
                "--command-timeout=2s", "endpoint", "status", "-w", "simple", limit=5
            )
        except Fault:
            return False
        return text.split(", ")[4] == "true"

    # ------------------------------------------------------------ what is done to it

    def kill_database(self) -> None:
        """PostgreSQL ends by SIGKILL; Patroni sees it and goes on."""
        pid = self.postmaster()
        if pid:
            os.kill(pid, signal.SIGKILL)

    def kill_etcd(self) -> None:
        self.services()[0].kill()

    def cut_power(self) -> None:
        """All processes are gone, and of the files there is what was synchronised."""
        self.supervisor.locked(self._cut_power)

    def _cut_power(self) -> None:
        services = self.services()
        for service in services:
            service.wanted = False
        self.disk.cut_power()
        self.network.end_all(self.name)
        for service in services:
            service.wait_end()

    def power_up(self) -> None:
        self.disk.attach_again()
        self.start_again()

    def start_again(self) -> None:
        def start() -> None:
            for service in self.services():
                service.start()

        self.supervisor.locked(start)

    def stop(self) -> None:
        """Ends Patroni, which ends PostgreSQL, and then etcd, as an operator does."""
        for service in reversed(self.services()):
            service.stop(60)

    def renew_disk(self) -> None:
        """An empty disk, where the power is cut and the old one is lost."""
        self.disk.remove()
        self.disk.make(USERS)

    def remove(self) -> None:
        self.end_database()
        self.network.end_all(self.name)
        self.disk.remove()

    def end_database(self) -> None:
        """PostgreSQL ends at once, but by itself: its shared memory, which is not in this host's
        namespace nor on its disk, would outlive a SIGKILL.
        """
        pid = self.postmaster()
        if pid not in self.network.processes(self.name):
            return
        with suppress(ProcessLookupError, Fault):  # one that does not end is killed with the others
            os.kill(pid, signal.SIGQUIT)
            until(
                "%s's PostgreSQL ends" % self.name,
                ENDS_WITHIN,
                lambda: pid not in self.network.processes(self.name),
            )
