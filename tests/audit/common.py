"""What the tests of the audit share."""

import os
import shlex
import shutil
import sqlite3
import subprocess
import tempfile
import unittest
from contextlib import closing
from dataclasses import dataclass
from pathlib import Path

HERE = Path(__file__).resolve().parent
ROOT = HERE.parent.parent
AUDIT = ROOT / "audit" / "mireseason-audit"
STORED = HERE / "stored"
DAY = STORED / "day.db"
SQLITE = "file:%s?mode=ro"
REMEMBERED = ("/usr/bin/python3", str(HERE / "remembered.py"))  # in front of a program's words


IS_SHORT = os.environ.get("FORM", "long") == "short"  # how much is drawn


def venue_words() -> list[str]:
    """The words of the venue's program that the tests are run with."""
    program = ROOT / "crates" / "rfq_venue" / "out" / "rfq_venue"
    return shlex.split(os.environ.get("VENUE", shlex.quote(str(program))))


def remembered() -> list[str]:
    """The same program, whose answers are kept by what it reads: see remembered.py."""
    return [*REMEMBERED, *venue_words()]


@dataclass(frozen=True)
class Ran:
    """What a command of the audit did."""

    status: int
    out: str
    err: str

    @property
    def text(self) -> str:
        return self.out + self.err


def audit(
    *words: object, venue: list[str] | None = None, environment: dict[str, str] | None = None
) -> Ran:
    """Runs a command of the audit."""
    listed = [str(word) for word in words]
    listed[1:1] = ["--venue", shlex.join(venue or remembered())]
    done = subprocess.run(
        [str(AUDIT), *listed],
        capture_output=True,
        text=True,
        env={**os.environ, **(environment or {})},
        check=False,
    )
    return Ran(done.returncode, done.stdout, done.stderr)


Folder = tempfile.TemporaryDirectory[str]


def folder() -> Folder:
    return tempfile.TemporaryDirectory(prefix="audit-test-")


def keys(where: Path) -> tuple[Path, Path]:
    """An Ed25519 key, made now: the private and the public one."""
    private, public = where / "private.pem", where / "public.pem"
    openssl("genpkey", "-algorithm", "ed25519", "-out", str(private))
    openssl("pkey", "-in", str(private), "-pubout", "-out", str(public))
    return private, public


def openssl(*words: str) -> None:
    subprocess.run(["openssl", *words], check=True, capture_output=True)


class LogCase(unittest.TestCase):
    """Tests that change a copy of the stored day."""

    def setUp(self) -> None:
        kept = folder()
        self.addCleanup(kept.cleanup)
        self.place = Path(kept.name)
        self.log = self.place / "day.db"
        shutil.copyfile(DAY, self.log)

    def change(self, query: str, *values: object) -> None:
        with closing(sqlite3.connect(self.log, isolation_level=None)) as connection:
            connection.execute(query, values)

    def edited(self, command: str, edit: str) -> list[str]:
        """The program, with what it prints for one command edited by sed."""
        words = shlex.join(remembered())
        script = 'case " $* " in *" %s "*) %s "$@" | sed %s ;; *) exec %s "$@" ;; esac'
        return ["sh", "-c", script % (command, words, shlex.quote(edit), words), "sh"]
