"""Runs the venue's program, which the audit asks about every rule."""

import os
import re
import select
import subprocess
import tempfile
import threading
from collections.abc import Iterator
from contextlib import ExitStack, suppress
from dataclasses import dataclass, field
from pathlib import Path
from typing import IO, Self

from .closing import Closing
from .faults import Unreadable
from .parents import bound_to
from .proved import sum_of
from .records import SOH
from .streams import BLOCK, FEED, Growing

LINE_FAULT = re.compile(rb"line ([0-9]+): (.*)\Z")
ANSWER_SECONDS = 300  # the program answers a line by then, and says its version, if it does at all
MOST_TOLD = 1000  # of the lines on standard error, so many are kept


@dataclass(frozen=True)
class LineFault:
    """A line of the input that the program did not take."""

    line: int
    name: str


@dataclass(frozen=True)
class Venue:
    """The words of the program."""

    words: tuple[str, ...]

    def __str__(self) -> str:
        return " ".join(self.words)

    def absent(self, fault: object) -> Unreadable:
        """It can't be run: what to do."""
        text = "the venue's program %s can't be run (%s): build it by `rt run` in crates/rfq_venue,"
        return Unreadable((text + " or name one by --venue or VENUE") % (self, fault))

    def run(
        self, arguments: list[str], input_: Path | Growing, output: Path | None = None
    ) -> "Run":
        """The program over a file: `with venue.run(..) as run`."""
        return Run(self, arguments, input_, output)

    def to_file(self, arguments: list[str], input_: Path | Growing, output: Path) -> "Run":
        """The program writes into a file; answers the run, which has ended."""
        with self.run(arguments, input_, output) as run:
            run.end()
        return run

    def version(self) -> str:
        """What `--version` says; `unknown` where it says nothing."""
        try:
            done = subprocess.run(
                [*self.words, "--version"],
                capture_output=True,
                timeout=ANSWER_SECONDS,
                check=False,
            )
        except (OSError, subprocess.TimeoutExpired) as fault:
            raise self.absent(fault) from None
        lines = done.stdout.decode("utf-8", "replace").splitlines()
        return lines[0] if done.returncode == 0 and lines else "unknown"

    def digest(self) -> str:
        """The SHA-256 of the program's file; empty where it is no file alone."""
        if len(self.words) != 1 or not Path(self.words[0]).is_file():
            return ""
        try:
            return sum_of(Path(self.words[0]))
        except OSError as fault:
            raise self.absent(fault) from None


class Feeder(threading.Thread):
    """Gives a program what it reads, while somebody else reads what it prints.

    Where the program takes no more, its status says why.
    """

    def __init__(self, file: Growing, stream: IO[bytes]) -> None:
        super().__init__(daemon=True)
        self._file, self._stream = file, stream
        self.fault: Exception | None = None

    def run(self) -> None:
        try:
            with suppress(BrokenPipeError), self._stream:
                self._file.pour(self._stream.fileno())
        except Exception as fault:  # it is raised where the run ends
            self.fault = fault


@dataclass
class Run(Closing):
    """One run of the program. A run that ends with another status than 0 is Unreadable."""

    venue: Venue
    arguments: list[str]
    input: Path | Growing
    output: Path | None = None  # where it prints to; None: it is read by `lines` or `blocks`
    faults: list[LineFault] = field(default_factory=list)  # whole once the run has ended

    def __enter__(self) -> Self:
        self._told = tempfile.TemporaryFile()
        try:
            with ExitStack() as files:
                self._process = subprocess.Popen(
                    [*self.venue.words, *self.arguments],
                    stdin=self._stdin(files),
                    stdout=self._stdout(files),
                    stderr=self._told,
                    bufsize=BLOCK,
                    preexec_fn=bound_to(os.getpid()),  # no other thread has been begun yet
                )
        except OSError as fault:
            self._told.close()
            raise self.venue.absent(fault) from None
        self._feeder: Feeder | None = None
        return self

    def _stdin(self, files: ExitStack) -> IO[bytes] | int:
        if isinstance(self.input, Growing):
            return subprocess.PIPE
        return files.enter_context(self.input.open("rb"))

    def _stdout(self, files: ExitStack) -> IO[bytes] | int:
        if self.output is None:
            return subprocess.PIPE
        return files.enter_context(self.output.open("wb"))

    def _feed(self) -> None:
        """Begins to give the program a file that still grows."""
        if isinstance(self.input, Growing) and self._feeder is None:
            assert self._process.stdin is not None
            self._feeder = Feeder(self.input, self._process.stdin)
            self._feeder.start()

    def lines(self) -> Iterator[bytes]:
        """The lines that it prints, without their line feeds."""
        self._feed()
        assert self._process.stdout is not None
        for line in self._process.stdout:
            yield line.removesuffix(FEED)
        self.end()

    def blocks(self) -> Iterator[bytes]:
        """The same in blocks of bytes."""
        self._feed()
        assert self._process.stdout is not None
        while block := self._process.stdout.read(BLOCK):
            yield block
        self.end()

    def end(self) -> None:
        """Waits for its end."""
        self._feed()
        status = self._process.wait()
        if self._feeder is not None:
            self._feeder.join()
            if self._feeder.fault is not None:
                raise self._feeder.fault
        self._told.seek(0)
        last = b""
        for line in self._told:
            last = line.rstrip(b"\n")
            found = LINE_FAULT.match(last)
            if found and len(self.faults) < MOST_TOLD:
                self.faults.append(LineFault(int(found[1]), found[2].decode("utf-8", "replace")))
        if status != 0:
            command = " ".join([*self.venue.words, *self.arguments])
            text = last.decode("utf-8", "replace") or "it says nothing"
            raise Unreadable("`%s` ends with status %d: %s" % (command, status, text))

    def close(self, failed: bool = False) -> None:
        if self._process.poll() is None:
            self._process.kill()
        if self._process.stdin is not None and self._feeder is None:
            self._process.stdin.close()
        if self._process.stdout is not None:
            self._process.stdout.close()
        self._process.wait()
        self._told.close()


@dataclass
class Conversation(Closing):
    """`live --marks`, line by line: each line is answered before the next is given."""

    venue: Venue
    _read: bytes = b""

    def __enter__(self) -> Self:
        words = [*self.venue.words, "live", "--frames", "--marks"]
        try:
            self._process = subprocess.Popen(
                words,
                stdin=subprocess.PIPE,
                stdout=subprocess.PIPE,
                stderr=subprocess.DEVNULL,
                preexec_fn=bound_to(os.getpid()),
            )
        except OSError as fault:
            raise self.venue.absent(fault) from None
        return self

    def begin(self, head: bytes) -> None:
        """The configuration and its divider."""
        self._give(head)

    def say(self, line: bytes) -> list[tuple[str, bytes]]:
        """Gives a line; answers what it brings, each frame with its firm."""
        self._give(line + b"\n")
        messages: list[tuple[str, bytes]] = []
        while True:
            answer = self._line()
            if answer.startswith((b"done ", b"fault ")):
                return messages
            messages.append(message_of(answer))

    def _line(self) -> bytes:
        """The next line that it prints."""
        assert self._process.stdout is not None
        while b"\n" not in self._read:
            ready, _, _ = select.select([self._process.stdout], [], [], ANSWER_SECONDS)
            data = os.read(self._process.stdout.fileno(), 1 << 16) if ready else b""
            if not data:
                what = "ends before it has answered" if ready else "does not answer"
                raise Unreadable("`%s live --frames --marks` %s a line" % (self.venue, what))
            self._read += data
        line, _, self._read = self._read.partition(b"\n")
        return line

    def _give(self, data: bytes) -> None:
        assert self._process.stdin is not None
        try:
            self._process.stdin.write(data)
            self._process.stdin.flush()
        except BrokenPipeError:
            raise Unreadable("`%s live` takes no more lines" % self.venue) from None

    def close(self, failed: bool = False) -> None:
        if failed:
            self._process.kill()
        for stream in (self._process.stdin, self._process.stdout):
            if stream is not None:
                with suppress(BrokenPipeError):  # it has ended, and was told what it can't read
                    stream.close()
        self._process.wait()


def message_of(line: bytes) -> tuple[str, bytes]:
    """The firm and the frame of a line `FIRM FRAME`. No frame of the venue has a bar of its own."""
    firm, _, text = line.partition(b" ")
    return firm.decode("utf-8", "replace"), text.replace(b"|", SOH)
