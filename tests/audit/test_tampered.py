"""Logs that were changed by hand: each change is found, with its place."""

import hashlib
import io
import os
import random
import re
import shutil
import subprocess
import unittest
from concurrent.futures import ProcessPoolExecutor
from contextlib import redirect_stdout
from dataclasses import dataclass
from multiprocessing import get_context
from pathlib import Path
from unittest.mock import patch

from mireseason_audit import sqlite_log, streams
from mireseason_audit.faults import Unreadable, Wrong
from mireseason_audit.arguments import source_of
from mireseason_audit.command import Work, checked
from mireseason_audit.main import parser_of
from mireseason_audit.report import report
from mireseason_audit.streams import Growing
from mireseason_audit.venue import Run, Venue

from tests.audit.common import IS_SHORT, REMEMBERED, Folder, audit, folder, keys, venue_words
from tests.audit.tamper import KINDS, SESSION_KINDS, Kind, Tamperer
from tests.audit.tamper_door import DOOR_KINDS
from tests.audit.tamper_told import TOLD_KINDS
from tests.harness.options import SECOND

CHANGES = 40 if IS_SHORT else 500
SEED = int(os.environ.get("SEED", "1"))
AT_ONCE = 4
BLOCKS = ((1024, 1 << 20), (7, 300), (1, 64))  # rows and bytes that are read at one time
MAKING = (
    ("stats",),
    ("export", "--csv"),
    ("trades",),
    ("record", "--rts24"),
    ("stats", "--json"),
    ("export", "--json", "--for", "FJORD"),
    ("trades", "--csv", "--for", "ALPHA"),
)  # the commands that make something of a day
PRINT = 'cat "$1"; cat "$2" >&2; exit "$(cat "$3")"'


@dataclass(frozen=True)
class KeptVenue(Venue):
    """The venue's program, a function of its input: what it answered once is kept, and printed
    again.
    """

    kept: Path = Path()

    def run(self, arguments: list[str], input_: Path | Growing, output: Path | None = None) -> Run:
        text = text_of(input_)
        digest = hashlib.sha256(" ".join(arguments).encode() + b"\0" + text).hexdigest()
        parts = [self.kept / (digest + end) for end in (".out", ".err", ".status")]
        if not parts[2].exists():
            self.answer(arguments, text, parts)
        print_it = Venue(("/bin/sh", "-c", PRINT, "sh"))
        return Run(print_it, [str(path) for path in parts], input_, output)

    def answer(self, arguments: list[str], text: bytes, parts: list[Path]) -> None:
        mine = [path.with_name("%s.%d" % (path.name, os.getpid())) for path in parts]
        with mine[0].open("wb") as out, mine[1].open("wb") as err:
            words = [*self.words, *arguments]
            done = subprocess.run(words, input=text, stdout=out, stderr=err, check=False)
        mine[2].write_text("%d" % done.returncode)
        for one, path in zip(mine, parts):
            os.replace(one, path)

    def version(self) -> str:
        return "the venue of the tests"


def text_of(input_: Path | Growing) -> bytes:
    """All of an input, also of one that still grows."""
    return b"".join(input_.blocks() if isinstance(input_, Growing) else streams.blocks_of(input_))


@dataclass(frozen=True)
class Sealed:
    """A short day of two dealers and an investor, with a message of each kind, and its seal."""

    place: Path
    words: tuple[str, ...]  # of the venue's program
    kinds: tuple[Kind, ...] = (*KINDS, *DOOR_KINDS, *TOLD_KINDS)  # of changes

    @property
    def log(self) -> Path:
        return self.place / "day.db"

    def check(self, log: Path) -> tuple[int, str]:
        """What `check --key` prints, and its status."""
        words = ["check", str(log), "--key", str(self.place / "public.pem"), "--jobs", "2"]
        parsed = parser_of().parse_args([*words, "--seal", str(self.place / "day.db.seal")])
        venue = KeptVenue(self.words, self.place / "kept")
        with folder() as name:
            place = Path(name)
            try:
                work = Work(parsed, source_of(parsed, venue, place), place, venue)
                verdict = checked(work)
            except Wrong as fault:
                return 1, str(fault)
            except Unreadable as fault:
                return 2, str(fault)
            return (0 if verdict.is_good else 1), "\n".join(report(verdict))

    def made(self, log: Path, number: int) -> str:
        """Lets a command make something of a log, one after the other; answers what was wrong
        about that: of a log that was changed nothing is made, and the status says so.
        """
        with folder() as name:
            place, venue = Path(name), KeptVenue(self.words, self.place / "kept")
            command, *more = MAKING[number % len(MAKING)]
            out = [str(place / "out")] if command in ("export", "record") else []
            words = [command, str(log), *out, *more, "--jobs", "2", "--key"]
            words += [str(self.place / "public.pem"), "--seal", str(self.place / "day.db.seal")]
            words += ["--parties", str(self.place / "parties.toml")] if command == "record" else []
            parsed = parser_of().parse_args(words)
            told = io.StringIO()
            try:
                with redirect_stdout(told):
                    status = parsed.act(Work(parsed, source_of(parsed, venue, place), place, venue))
            except Wrong:
                status = 1
            except Unreadable as fault:
                return "%s: %s" % (command, fault)
            made = list((place / "out").glob("*"))
            # The verdict has a line of that name; the figures of a day may not stand behind it.
            text = told.getvalue().replace("reasons and trades", "")
            if status == 1 and not made and not re.search(r"Dealers|trades\b", text):
                return ""
            return "%s: status %d, %s: %s" % (command, status, made, text[:200])

    def tampered(self, number: int) -> str:
        """Changes a copy; answers what was not found of it."""
        path = self.place / ("tampered-%d.db" % number)
        shutil.copyfile(self.log, path)
        log = Tamperer(path, random.Random("%d %d" % (SEED, number)))
        change = log.change(list(self.kinds))
        rows, size = BLOCKS[number % len(BLOCKS)]
        with patch.object(sqlite_log, "ROWS_AT_A_TIME", rows), patch.object(streams, "BLOCK", size):
            status, text = self.check(path)
            made = self.made(path, number)
        path.unlink()
        if made:
            return "change %d, %s: %s" % (number, change.what, made)
        if status == 1 and re.search(change.pattern, text):
            return ""
        return "change %d, %s: status %d, without %r:\n%s" % (
            number,
            change.what,
            status,
            change.pattern,
            text,
        )


class Tampered(unittest.TestCase):
    words: tuple[str, ...] = tuple(venue_words())
    changes = CHANGES
    form = 6  # of the log
    kept: Folder
    sealed: Sealed

    @classmethod
    def setUpClass(cls) -> None:
        cls.kept = folder()
        cls.sealed = cls.sealed_in(Path(cls.kept.name))
        draw_day(cls.sealed.log, cls.words, cls.form)
        private, _ = keys(cls.sealed.place)
        (cls.sealed.place / "kept").mkdir()
        (cls.sealed.place / "parties.toml").touch()
        venue = [*REMEMBERED, *cls.words]
        assert audit("seal", cls.sealed.log, "--key", private, venue=venue).status == 0

    @classmethod
    def sealed_in(cls, place: Path) -> Sealed:
        """The day that is changed, and how."""
        return Sealed(place, cls.words)

    @classmethod
    def tearDownClass(cls) -> None:
        cls.kept.cleanup()

    def test_the_day_as_it_is(self) -> None:
        for rows, size in BLOCKS:
            with patch.object(sqlite_log, "ROWS_AT_A_TIME", rows):
                with patch.object(streams, "BLOCK", size):
                    status, text = self.sealed.check(self.sealed.log)
            self.assertEqual((status, "as it was sealed" in text), (0, True), text)

    def test_changes_that_are_drawn(self) -> None:
        with ProcessPoolExecutor(AT_ONCE, get_context("fork")) as pool:
            missed = [text for text in pool.map(self.sealed.tampered, range(self.changes)) if text]
        some = "\n".join(missed[:5])
        self.assertEqual(missed, [], "%d of %d:\n%s" % (len(missed), self.changes, some))


class KeptOtherwise(Tampered):
    """A day of a log before form 6: what its sessions kept is changed."""

    changes = 9 if IS_SHORT else 100
    form = 5

    @classmethod
    def sealed_in(cls, place: Path) -> Sealed:
        return Sealed(place, cls.words, tuple(SESSION_KINDS))


class ToldOtherwise(Tampered):
    """A day with reasons and names of trades, of the program that has the flag whichever is chosen:
    what its firms were told beside the venue's messages is changed.
    """

    words = SECOND
    changes = 9 if IS_SHORT else 60

    @classmethod
    def sealed_in(cls, place: Path) -> Sealed:
        return Sealed(place, cls.words, tuple(TOLD_KINDS))


def draw_day(path: Path, venue: tuple[str, ...], form: int) -> None:
    words = ["/usr/bin/python3", "-m", "tests.audit.draw_day", str(path), "--requests", "7"]
    words += ["--seed", "4", "--dealers", "2", "--investors", "1", "--form", str(form)]
    words += ["--", *venue]
    subprocess.run(words, check=True)


if __name__ == "__main__":
    unittest.main()
