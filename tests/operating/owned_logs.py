"""A database whose logs have an owner, as install/hosts makes it for five hosts."""

import subprocess
from dataclasses import dataclass
from pathlib import Path

from parts.site import KEEPER, WORDS, Folders, Site

from tests.gateway.wait import LONG
from tests.harness import postgres

HOSTS = {"db%d" % number: "10.0.0.%d" % number for number in (1, 2, 3)}
SITE = Site(
    "10.0.0.0/24",
    HOSTS,
    {"gw1": "10.0.0.4"},
    {word: "x" for word in (*WORDS, KEEPER)},
    ("rfq_venue",),
    "",
    keepers={"keep1": "10.0.0.5"},
)
LOGS = """SELECT nspname FROM pg_namespace
    WHERE nspowner = 'log_owner'::regrole AND nspname ~ '_[0-9]{8}$' ORDER BY 1"""
ROLE = """DO $$ BEGIN
    IF NOT EXISTS (SELECT FROM pg_roles WHERE rolname = '%s') THEN CREATE ROLE %s LOGIN; END IF;
END $$"""


def said(connection: str, *statements: str) -> "subprocess.CompletedProcess[str]":
    """What psql says of statements, in one session."""
    words = ["psql", "-X", "-A", "-t", "-q", "-v", "ON_ERROR_STOP=1", "-d", connection]
    for statement in statements:
        words += ["-c", statement]
    return subprocess.run(words, capture_output=True, text=True, check=False, timeout=LONG)


@dataclass(frozen=True)
class OwnedLogs:
    superuser: str  # a connection string
    place: Path

    def make(self) -> None:
        """The roles and what they may; again, as a new version of it goes over the old one."""
        for role in ("gateway", "reader"):
            self.did(ROLE % (role, role))
        file = self.place / "database.sql"
        file.write_text(SITE.files("db1", Folders("/etc", "/var", "/run"))["database.sql"])
        words = ["psql", "-X", "-q", "-v", "ON_ERROR_STOP=1", "-d", self.superuser, "-f", str(file)]
        done = subprocess.run(words, capture_output=True, text=True, check=False, timeout=LONG)
        assert done.returncode == 0, done.stderr

    def of(self, role: str) -> str:
        """The connection string of a role."""
        return self.superuser.replace("user=" + postgres.USER, "user=" + role)

    def did(self, *statements: str) -> str:
        """What the superuser is answered."""
        done = said(self.superuser, *statements)
        assert done.returncode == 0, done.stderr
        return done.stdout.strip()

    def logs(self) -> list[str]:
        return self.did(LOGS).split()
