"""Copies days: each into a folder with all that it takes to check the day in five years.

A copy has the log as a file of SQLite, the venue's configuration of its entry 0, the venue's program if that is still the one
of entry 0, what the audit said of it, the seal if the audit found no fault, and SHA256SUMS. The keeper reads it again before it
gives it its name: so a copy is there whole or not at all.
"""

import hashlib
import os
import shutil
import subprocess
import tempfile
from dataclasses import dataclass
from pathlib import Path

from mireseason_audit.faults import Unreadable
from mireseason_audit.signing import private_key, public_pem

from .database import Log
from .day_file import digest_of_file, first_line, on_disk, write_day
from .faults import Fault, one_line
from .given_copies import SUMS, GivenCopy, check_day, check_tables
from .settings import Settings

REPORT = "check.txt"
LONGEST_CHECK = 6 * 3600  # seconds
LONGEST_HEAD = 1 << 16  # bytes of entry 0 in front of its configuration
PIECE = 1 << 20


@dataclass(frozen=True)
class DayCopy:
    """What stands in a copy that was made now."""

    has_program: bool
    verdict: str  # the audit's last line


@dataclass(frozen=True)
class Copies:
    settings: Settings

    def begin(self, log: Log, schema: str, folder: Path) -> None:
        """Writes a day's rows to the place of a copy which is not there yet. The place of all copies is never made: what is
        mounted there may be gone.
        """
        part = new_part(folder)
        file = file_of(part, schema)
        if write_day(log, file) != digest_of_file(file):
            raise Fault("%s is not what %s is: look at the disk" % (file, schema))

    @staticmethod
    def take(given: GivenCopy, venue: str, day: str, folder: Path) -> None:
        """The same of a copy that a gateway made of its log in SQLite."""
        part = new_part(folder)
        given.take(part)
        check_tables(part / given.log)
        head, configuration = parts_of(first_line(part / given.log))
        check_day(head, configuration, venue, day)

    def finish(self, schema: str, venue: str, day: str, folder: Path) -> DayCopy:
        """Has a copy that was begun checked and sealed, and gives it its name."""
        part = part_of(folder)
        file = file_of(part, schema)
        self.put_checkpoints(part, venue, day)
        head, configuration = parts_of(first_line(file))
        (part / "venue.toml").write_bytes(configuration)
        program = self.put_program(part, head)
        status, verdict = self.check(part, file, [*self.venue(program), *of_day(venue, day)])
        if status == 0:
            self.seal(file)
        # Whoever reads a log that a gateway wrote leaves these beside it, with nothing in them.
        for end in ("-wal", "-shm"):
            file.with_name(file.name + end).unlink(missing_ok=True)
        self.close(part, folder)
        return DayCopy(program is not None, verdict)

    def put_checkpoints(self, part: Path, venue: str, day: str) -> None:
        """Puts what gateways have signed beside the log, where it came by another way than that."""
        for path in self.settings.checkpoints_of(venue, day):
            shutil.copyfile(path, part / ("received-" + path.name))

    def put_program(self, part: Path, head: dict[str, str]) -> Path | None:
        """Puts the venue's program beside the log; None where it is another by now."""
        program = self.settings.program
        if not program.is_file() or sum_of(program) != head.get("program"):
            return None
        copy = part / program.name
        shutil.copyfile(program, copy)
        copy.chmod(0o550)
        return copy if sum_of(copy) == head["program"] else None

    def check(self, part: Path, file: Path, words: list[str]) -> tuple[int, str]:
        """The audit's status and its verdict; what it says stands in the folder."""
        done = self.audited("check", file, *words, *self.signed(part))
        lines = (done.stdout + done.stderr).splitlines()
        (part / REPORT).write_text("".join(line + "\n" for line in lines))
        return done.returncode, lines[-1] if lines else "it says nothing"

    def seal(self, file: Path) -> None:
        done = self.audited("seal", file, "--key", str(self.settings.key))
        if done.returncode != 0:
            raise Fault("%s is not sealed: %s" % (file.name, one_line(Fault(done.stderr))))

    @staticmethod
    def is_sealed(schema: str, folder: Path) -> bool:
        """Whether a copy has a seal, which only that of a day has which was as it should be."""
        file = file_of(folder, schema)
        return file.with_name(file.name + ".seal").exists()

    @staticmethod
    def close(part: Path, folder: Path) -> None:
        """Gives a copy its name, once all of it is on disk."""
        files = sorted(path for path in part.iterdir())
        (part / SUMS).write_text("".join("%s  %s\n" % (sum_of(path), path.name) for path in files))
        for path in [*files, part / SUMS]:
            path.chmod(path.stat().st_mode & 0o550 | 0o440)
            on_disk(path)
        on_disk(part)
        part.rename(folder)
        on_disk(folder.parent)

    def check_anew(self, digest: str, schema: str, folder: Path, words: list[str]) -> None:
        """Fault where a copy is not whole, not sealed, not as it should be, or has not the rows of this digest. All of it is
        read anew: one that was lost or changed meanwhile takes no log with it.
        """
        check_sums(folder)
        file = file_of(folder, schema)
        program = folder / self.settings.program.name
        words = [*words, *self.venue(program if program.is_file() else None)]
        with tempfile.TemporaryDirectory(prefix="mireseason-") as name:
            public = Path(name) / "seal.pub"
            public.write_bytes(self.public_half())
            words += ["--key", str(public)]
            done = self.audited("check", file, *words, *self.signed(folder))
        if done.returncode != 0:
            text = (done.stdout + done.stderr).strip().splitlines() or ["it says nothing"]
            raise Fault("the audit of its copy: %s" % text[-1])
        if digest_of_file(file) != digest:
            raise Fault("its copy is another")

    def public_half(self) -> bytes:
        """The public half of the key that seals."""
        try:
            return public_pem(private_key(self.settings.key))
        except Unreadable as fault:
            raise Fault(str(fault)) from None

    def venue(self, program: Path | None) -> list[str]:
        """The program by which the audit goes: the copy's own, or that of this host."""
        return ["--venue", str(program or self.settings.program)]

    def signed(self, folder: Path) -> list[str]:
        """By what the audit sees what gateways have signed: their keys, and what of it stands beside the log."""
        kept = sorted([*folder.glob("*.checkpoint"), *folder.glob("*.checkpoints")])
        words = [word for key in self.settings.gateways for word in ("--gateway-key", str(key))]
        return words + [word for path in kept for word in ("--checkpoint", str(path))]

    def audited(self, command: str, file: Path, *words: str) -> "subprocess.CompletedProcess[str]":
        call = [*self.settings.audit, command, str(file), *words]
        try:
            return subprocess.run(
                call,
                stdin=subprocess.DEVNULL,
                capture_output=True,
                text=True,
                errors="replace",
                timeout=LONGEST_CHECK,
                check=False,
            )
        except (OSError, subprocess.TimeoutExpired) as fault:
            raise Fault("mireseason-audit: %s" % one_line(fault)) from None


def of_day(venue: str, day: str) -> list[str]:
    """The day and the venue that a copy has to be of, for the audit."""
    return ["--date", day, "--venue-name", venue or "-"]


def new_part(folder: Path) -> Path:
    """An empty place for a copy until it is whole."""
    part = part_of(folder)
    shutil.rmtree(part, ignore_errors=True)
    part.mkdir(mode=0o750)
    return part


def part_of(folder: Path) -> Path:
    """Where a copy stands until it is whole."""
    return folder.with_name(folder.name + ".part")


def file_of(folder: Path, schema: str) -> Path:
    """The log in a copy."""
    return folder / (schema + ".db")


def parts_of(line: bytes | None) -> tuple[dict[str, str], bytes]:
    """What entry 0 says before its configuration, a word a line, and that configuration."""
    head, found, configuration = (line or b"").partition(b"%%\n")
    if not found or len(head) > LONGEST_HEAD:
        raise Fault("it has no entry 0")
    lines = [line.partition(" ") for line in head.decode(errors="replace").splitlines()]
    return {name: value for name, _, value in lines}, configuration


def sum_of(path: Path) -> str:
    """The SHA-256 of a file of any length."""
    found = hashlib.sha256()
    with path.open("rb") as file:
        os.posix_fadvise(file.fileno(), 0, 0, os.POSIX_FADV_DONTNEED)
        while piece := file.read(PIECE):
            found.update(piece)
    return found.hexdigest()


def sums_of(folder: Path) -> dict[str, str]:
    """The SHA-256 of each file of a copy, as it was when the copy was closed."""
    lines = (folder / SUMS).read_text().splitlines()
    return {name: digest for digest, _, name in (line.partition("  ") for line in lines)}


def check_sums(folder: Path) -> None:
    """Fault where a file of a copy is missing, new, or not what it was."""
    try:
        sums = sums_of(folder)
        there = {path.name for path in folder.iterdir()} - {SUMS}
        wrong = sorted(there ^ sums.keys()) or [
            name for name in sorted(sums) if sum_of(folder / name) != sums[name]
        ]
    except (OSError, ValueError) as fault:
        raise Fault("its copy can't be read: %s" % one_line(fault)) from None
    if wrong:
        raise Fault("its copy is another: %s" % wrong[0])
