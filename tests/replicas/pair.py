"""A PostgreSQL server and its synchronous standby, both on this machine: either can be ended, and the standby take over."""

import os
import signal
from collections.abc import Iterator
from contextlib import contextmanager
from dataclasses import dataclass
from pathlib import Path

from bench.replicated import replicated

from tests.gateway.door import is_running
from tests.gateway.wait import LONG, until
from tests.harness import postgres


@dataclass(frozen=True)
class Pair:
    primary: postgres.Server
    standby: postgres.Server

    @property
    def connection(self) -> str:
        """Of libpq, to whichever of them takes what is written."""
        return "host=%s,%s user=%s dbname=postgres target_session_attrs=read-write" % (
            self.primary.folder,
            self.standby.folder,
            postgres.USER,
        )


@contextmanager
def pair(folder: Path) -> Iterator[Pair]:
    with replicated(folder) as primary:
        yield Pair(primary, postgres.Server(folder / "standby"))


def end(server: postgres.Server) -> None:
    """Ends a server at once: what it has on its disk is all that is left."""
    process = int((server.folder / "data" / "postmaster.pid").read_text().split()[0])
    os.kill(process, signal.SIGQUIT)
    until("a server ends", LONG, lambda: not is_running(process))


@contextmanager
def promoted(standby: postgres.Server) -> Iterator[None]:
    """A standby that was ended is the primary; it has no standby of its own."""
    programs = postgres.programs()
    assert programs is not None, "PostgreSQL is not installed"
    with postgres.serving(programs, standby.folder) as server:
        assert server.run("SELECT pg_promote()") == "t", "the standby is not promoted"
        yield
