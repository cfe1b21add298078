"""`receive`: keeps the checkpoints that gateways send, on a host that no gateway can write to.

A sender may be root on a gateway's host, and so have the real keys. So this command keeps a line
only if a gateway has signed it, and if it is of one of the supervisor's venues and of a day near
today's. It can add to a file up to its limit, and changes nothing that came before.
"""

import argparse
import os
import re
import sys
import time
from collections.abc import Callable, Sequence
from dataclasses import dataclass, field
from datetime import date, datetime, timedelta, timezone
from pathlib import Path
from typing import BinaryIO

from cryptography.hazmat.primitives.asymmetric.ed25519 import Ed25519PublicKey

from .checkpoints import today_in_utc
from .faults import Unreadable, Wrong
from .frame import printable
from .outside import LONGEST_ONE, KeptCheckpoint, checkpoint_in
from .received import ReceivedDay
from .records import NO_NAME
from .signatures import read_keys
from .signing import is_signed

DAY = re.compile(r"[0-9]{8}")
OLDEST, NEWEST = timedelta(days=10), timedelta(days=1)  # of a day, before and after today in UTC
MOST_DAYS = 4  # files whose numbers are held at one time
SSH_CONNECTION = "SSH_CONNECTION"  # begins with the address of whoever sends, as sshd sets it
TOLD = "told"  # the file of what was wrong
MOST_TOLD = 64 << 20  # bytes of it
MOST_REFUSED = 1 << 20  # bytes of it, up to which a line that is not kept is told
BETWEEN = 60.0  # seconds between two lines that are not kept and are told


@dataclass
class Teller:
    """Says what was wrong, to standard error and in a file: the sender may throw the first away."""

    folder: Path
    clock: Callable[[], float] = time.monotonic
    refused: int = 0  # lines that were not kept since the last that was told
    all_refused: int = 0
    told_at: float | None = None

    def tell(self, text: str, most: int = MOST_TOLD) -> None:
        moment = datetime.now(timezone.utc).strftime("%Y-%m-%dT%H:%M:%SZ")
        line = "%s %s\n" % (moment, printable(text))
        print(line, end="", file=sys.stderr, flush=True)
        path = self.folder / TOLD
        with path.open("a") as file:
            if file.tell() < most:
                file.write(line)

    def refuse(self, text: str) -> None:
        """A line that is not kept: of many that come at once, the first."""
        self.refused += 1
        self.all_refused += 1
        now = self.clock()
        if self.told_at is None or now - self.told_at >= BETWEEN:
            self._tell_refused(text)
            self.told_at = now

    def end(self) -> None:
        """How many there were behind the last that was told."""
        if self.refused:
            self._tell_refused("no more lines come")

    def _tell_refused(self, text: str) -> None:
        words = "1 line not kept" if self.refused == 1 else "%d lines not kept" % self.refused
        if self.all_refused > self.refused:
            words += ", %d in all" % self.all_refused
        self.tell("%s (%s)" % (text, words), MOST_REFUSED)
        self.refused = 0


@dataclass
class Receiver:
    """Takes line after line."""

    folder: Path
    keys: Sequence[Ed25519PublicKey]
    venues: Sequence[str]  # their names in a checkpoint
    teller: Teller
    today: Callable[[], date] = today_in_utc
    sender: str = ""  # the address of whoever sends, where that is known
    line: int = 0  # of what came
    contradictions: int = 0
    days: dict[str, ReceivedDay] = field(default_factory=dict)  # by the names of their files

    def take(self, line: bytes) -> None:
        """Keeps a line, its line feed included, or says why not."""
        self.line += 1
        try:
            one = checkpoint_in(self._line_words, line)
            self._check(one)
        except Wrong as fault:
            self.teller.refuse(str(fault))
            return
        wrong = self._day_of(one).keep(one, line)
        if wrong:
            self.contradictions += 1
            self.teller.tell("%s, %s" % (name_of(one), wrong))

    @property
    def _line_words(self) -> str:
        """Of the line that came last, by its number in what this sender sends."""
        return "line %d%s" % (self.line, " from " + self.sender if self.sender else "")

    def refuse_long(self) -> None:
        """One that is longer than a checkpoint may be."""
        self.line += 1
        text = "%s is not whole, or longer than %d bytes"
        self.teller.refuse(text % (self._line_words, LONGEST_ONE))

    def _check(self, one: KeptCheckpoint) -> None:
        """Wrong where a line is not to be kept."""
        if not is_signed(one.text, one.signature, self.keys):
            raise Wrong("%s is signed by none of the keys" % one.source)
        if one.values.get("venue") not in self.venues:
            raise Wrong("%s is of the venue %s" % (one.source, one.values.get("venue")))
        if not self._is_near(one.values.get("day", "")):
            raise Wrong("%s is of the day %s" % (one.source, one.values.get("day")))
        for word in ("checkpoint", "entry", "connection"):
            one.number(word)

    def _is_near(self, text: str) -> bool:
        if not DAY.fullmatch(text):
            return False
        try:
            day = datetime.strptime(text, "%Y%m%d").date()
        except ValueError:
            return False
        return self.today() - OLDEST <= day <= self.today() + NEWEST

    def _day_of(self, one: KeptCheckpoint) -> ReceivedDay:
        name = name_of(one)
        if name not in self.days:
            while len(self.days) >= MOST_DAYS:
                del self.days[next(iter(self.days))]
            self.days[name] = ReceivedDay(self.folder / name)
        return self.days[name]


def name_of(one: KeptCheckpoint) -> str:
    """Of the file of a checkpoint's day, as a gateway names its own file of it."""
    venue = one.values["venue"]
    return "%s-%s.checkpoints" % ("day" if venue == NO_NAME else venue, one.values["day"])


def receive(source: BinaryIO, receiver: Receiver) -> None:
    """All lines up to the end; one that is too long is passed over, and so is a last one that is
    not whole.
    """
    is_rest = False  # of a line that is too long
    while line := source.readline(LONGEST_ONE):
        is_whole = line.endswith(b"\n")
        if is_whole and not is_rest:
            receiver.take(line)
        elif not is_rest:
            receiver.refuse_long()
        is_rest = not is_whole
    receiver.teller.end()


def do_receive(words: argparse.Namespace) -> int:
    if not words.folder.is_dir():
        raise Unreadable("%s is no folder: make it first" % words.folder)
    keys = read_keys(words.gateway_key)
    receiver = Receiver(words.folder, keys, words.venue_name or [NO_NAME], Teller(words.folder))
    receiver.sender = os.environ.get(SSH_CONNECTION, "").partition(" ")[0]
    receive(sys.stdin.buffer, receiver)
    return 1 if receiver.teller.all_refused or receiver.contradictions else 0
