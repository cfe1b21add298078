"""A PostgreSQL server and its one synchronous standby, both on this machine and in folders of their own."""

import shutil
import signal
import subprocess
from collections.abc import Iterator
from contextlib import contextmanager
from pathlib import Path

from tests.gateway.wait import LONG, until
from tests.harness import postgres


def commit_waits(primary: postgres.Server) -> bool:
    return primary.run("SELECT count(*) FROM pg_stat_replication WHERE sync_state = 'sync'") == "1"


@contextmanager
def standby(bin_folder: Path, folder: Path, primary: postgres.Server) -> Iterator[None]:
    """A standby that has all of a server's, and that each of its commits waits for."""
    folder.mkdir()
    shutil.chown(folder, "postgres")
    data = folder / "data"
    words = ["-h", str(primary.folder), "-U", postgres.USER, "-D", str(data), "-R", "-X", "stream"]
    copy = postgres.as_postgres([str(bin_folder / "pg_basebackup"), *words])
    subprocess.run(copy, cwd="/", check=True, capture_output=True, timeout=LONG)
    words = ["-D", str(data), "-k", str(folder), "-c", "listen_addresses="]
    with (folder / "log").open("wb") as log:
        serve = postgres.as_postgres([str(bin_folder / "postgres"), *words])
        process = subprocess.Popen(serve, cwd="/", stdin=subprocess.DEVNULL, stdout=log, stderr=log)
    try:
        primary.run("ALTER SYSTEM SET synchronous_standby_names = '*'")
        primary.run("SELECT pg_reload_conf()")
        until("a commit waits for the standby", LONG, lambda: commit_waits(primary))
        yield
    finally:
        process.send_signal(signal.SIGQUIT)
        process.wait(LONG)


@contextmanager
def replicated(folder: Path) -> Iterator[postgres.Server]:
    """The server that is written to. Both synchronise what they write."""
    bin_folder = postgres.programs()
    assert bin_folder is not None, "PostgreSQL is not installed"
    folder.chmod(0o755)
    with postgres.running(bin_folder, folder / "primary") as primary:
        with standby(bin_folder, folder / "standby", primary):
            yield primary
