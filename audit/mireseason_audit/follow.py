"""Shows a day that is still going on, as pages that are made anew every few seconds.

Each build is a folder of its own, whole before anybody sees it: `now` is a link to the last one,
and a rename changes it. What has not changed since the build before is the same file. So a reader
has one consistent day, and never a part of a page. While the day goes on, a build is of an entry;
once the log says that the day has ended, the last build has all of it.
"""

import os
import shutil
import signal
import tempfile
import threading
from collections.abc import Callable
from dataclasses import dataclass, field
from functools import partial
from pathlib import Path
from typing import NamedTuple

from .before import Before
from .faults import Unreadable, Wrong
from .folders import make_folder
from .frame import printable
from .log import Log, Source
from .pages import Pager
from .streams import is_same
from .summary import Summary
from .templates import Templates
from .until import UntilSource
from .verdict import Verdict

KEPT = 3  # builds: a reader may still be at one that is no longer the last
NOW, BUILDS = "now", "builds"


class Stand(NamedTuple):
    """How far a log has come."""

    last: int  # entry
    is_ended: bool = False  # its last checkpoint says that the day has ended


# Of a log, the folder of a build, a folder that is gone afterwards, and the build before.
PagerOf = Callable[[Source, Path, Path, Before | None], Pager]


@dataclass
class Follower:
    """Follows one log into one folder."""

    source: Source
    folder: Path
    every: float  # seconds from one look at the log to the next
    scratch: Path
    pager_of: PagerOf
    over: threading.Event = field(default_factory=threading.Event)
    say: Callable[[str], None] = field(default=partial(print, flush=True))
    number: int = 0  # of the last build
    built: Stand = Stand(-1)  # what it shows
    was_good: bool = True  # as it said

    def run(self) -> None:
        """Until a signal ends it."""
        text = "looks at %s every %g s: the first pages come within three looks, at %s"
        self.say(text % (self.source.name, self.every, self._board))
        make_folder(self.folder)
        (self.folder / BUILDS).mkdir()
        for number in (signal.SIGTERM, signal.SIGINT, signal.SIGHUP):
            signal.signal(number, lambda *_: self.over.set())
        stand = self._look()
        while not self.over.wait(self.every):
            if stand > self.built and not self._try(stand):
                return
            stand = self._look()

    @property
    def _board(self) -> Path:
        return self.folder / "index.html"

    def _try(self, stand: Stand) -> bool:
        """Builds the day; answers whether it was done. A signal may have ended the programs that
        were asked for it.
        """
        try:
            self._build(stand)
        except Unreadable:
            if not self.over.is_set():
                raise
            return False
        return True

    def _look(self) -> Stand:
        """The last entry now. It is built at the next look: until then its answers have come. So
        has, behind the end of the day, what the sessions sent of themselves.
        """
        with self.source.current() as log:
            last = log.last_place()
            is_ended = last == self.built.last and has_ended(log, last)
            return Stand(last, is_ended)

    def _build(self, stand: Stand) -> None:
        """Of the log as it is taken now: by that it says whether the day has ended, too."""
        folder = self.folder / BUILDS / str(self.number + 1)
        before = None
        if self.number:
            before = Before(self.folder / BUILDS / str(self.number), self.built.last)
        with tempfile.TemporaryDirectory(dir=self.scratch) as scratch:
            source = self.source.taken(Path(scratch))
            stand = stand._replace(is_ended=stand.is_ended and is_ended_at(source, stand.last))
            if not stand.is_ended:
                source = UntilSource(source, stand.last)
            pager = self.pager_of(source, folder, Path(scratch), before)
            verdict, summary = pager.check()
            obstacle = pager.obstacle(verdict, summary)
            if obstacle is not None:
                raise Wrong(next(obstacle.lines()))
            pager.write(verdict, summary)
            pager.sign(None)
        if before is not None:
            share(folder, before.folder)
        self.number, self.built = self.number + 1, stand
        self._show(folder)
        self._write_board(verdict, summary, stand)
        self._forget()
        self._tell(verdict)

    def _tell(self, verdict: Verdict) -> None:
        """What whoever started it wants to know: not each build."""
        if self.number == 1:
            self.say("pages up to entry %d: %s" % (self.built.last, self._board))
        if self.was_good and not verdict.is_good:
            self.say("up to entry %d: %s" % (self.built.last, printable(verdict.words)))
        if self.built.is_ended:
            self.say("the day has ended: these pages have all of it; a signal ends this command")
        self.was_good = verdict.is_good

    def _show(self, folder: Path) -> None:
        """Lets `now` lead to a build."""
        new = self.folder / (NOW + ".new")
        new.symlink_to(folder.relative_to(self.folder))
        os.replace(new, self.folder / NOW)

    def _write_board(self, verdict: Verdict, summary: Summary, stand: Stand) -> None:
        """The page that a reader opens: how far the day has come, and where its pages are."""
        text = Templates(verdict.day).page(
            "board.html",
            NOW + "/",
            verdict=verdict,
            summary=summary,
            every=self.every,
            **stand._asdict(),
        )
        new = self.folder / "index.new"
        new.write_text(text, encoding="utf-8")
        os.replace(new, self._board)

    def _forget(self) -> None:
        """Removes the build that nobody is at any more."""
        shutil.rmtree(self.folder / BUILDS / str(self.number - KEPT), ignore_errors=True)


def is_ended_at(source: Source, last: int) -> bool:
    with source.open() as log:
        return has_ended(log, last)


def has_ended(log: Log, last: int) -> bool:
    """Whether a checkpoint of the last entry says that the day has ended."""
    if not log.numbers_checkpoints:
        return False
    return any(one.is_end and one.place == last for one in log.checkpoints())


def share(folder: Path, before: Path) -> None:
    """Makes each file of a build that is the same in the one before that file."""
    for path in sorted(folder.rglob("*")):
        other = before / path.relative_to(folder)
        if not path.is_file() or not other.is_file() or path.samefile(other):
            continue
        if is_same(path, other):
            new = path.with_name(path.name + ".new")
            os.link(other, new)
            os.replace(new, path)
