"""A PostgreSQL server for the tests alone, and a database on it for each test."""

import os
import shutil
import signal
import subprocess
from collections.abc import Iterator
from contextlib import contextmanager
from dataclasses import dataclass
from pathlib import Path

from tests.gateway.wait import LONG, until

USER = "mireseason"


def programs() -> Path | None:
    """The folder of the newest server that is installed."""
    found = [path.parent for path in Path("/usr/lib/postgresql").glob("*/bin/initdb")]
    return max(found, key=lambda path: int(path.parent.name)) if found else None


def as_postgres(words: list[str]) -> list[str]:
    """A server does not run as root; and it ends with who started it, however that ends."""
    if os.geteuid() != 0:
        return words
    return [
        "setpriv",
        "--reuid=postgres",
        "--regid=postgres",
        "--clear-groups",
        "--pdeathsig=QUIT",
        "--",
        *words,
    ]


@dataclass
class Server:
    """Its socket is in its folder, and it has no port that another could have."""

    folder: Path
    count: int = 0  # of the databases that were made

    def connection(self, database: str) -> str:
        """A connection string of libpq."""
        return "host=%s user=%s dbname=%s" % (self.folder, USER, database)

    def fresh(self) -> str:
        """A new empty database; its connection string."""
        self.count += 1
        name = "test_%d" % self.count
        self.run("CREATE DATABASE %s" % name)
        return self.connection(name)

    def run(self, query: str, database: str = "postgres") -> str:
        words = [
            "psql",
            "-X",
            "-q",
            "-A",
            "-t",
            "-v",
            "ON_ERROR_STOP=1",
            "-d",
            self.connection(database),
            "-c",
            query,
        ]
        return subprocess.run(
            words, capture_output=True, text=True, check=True, timeout=LONG
        ).stdout.strip()

    def answers(self) -> bool:
        words = ["psql", "-X", "-d", self.connection("postgres"), "-c", "SELECT 1"]
        return subprocess.run(words, capture_output=True, check=False).returncode == 0


@contextmanager
def running(bin_folder: Path, folder: Path) -> Iterator[Server]:
    """A server in this folder, which nobody else uses; it ends with the block."""
    folder.mkdir(parents=True, exist_ok=True)
    if os.geteuid() == 0:
        shutil.chown(folder, "postgres")
    data = folder / "data"
    words = [str(bin_folder / "initdb"), "-D", str(data), "-A", "trust", "-U", USER, "--no-sync"]
    subprocess.run(as_postgres(words), cwd="/", check=True, capture_output=True, timeout=LONG)
    with serving(bin_folder, folder) as server:
        yield server


@contextmanager
def serving(bin_folder: Path, folder: Path) -> Iterator[Server]:
    """A server of the data that is in this folder already; it ends with the block."""
    words = [
        str(bin_folder / "postgres"),
        "-D",
        str(folder / "data"),
        "-k",
        str(folder),
        "-c",
        "listen_addresses=",
    ]
    with (folder / "log").open("ab") as log:
        process = subprocess.Popen(
            as_postgres(words), cwd="/", stdin=subprocess.DEVNULL, stdout=log, stderr=log
        )
    try:
        server = Server(folder)
        until("PostgreSQL answers", LONG, lambda: server.answers() or process.poll() is not None)
        if process.poll() is not None:
            raise RuntimeError("PostgreSQL ended: %s" % (folder / "log").read_text()[-2000:])
        yield server
    finally:
        process.send_signal(signal.SIGQUIT)  # at once: nobody needs what it holds any more
        process.wait(LONG)
