"""Files that are read in blocks, jobs in processes, and the bar."""

import io
import os
import subprocess
import threading
import unittest
from contextlib import closing
from dataclasses import dataclass
from pathlib import Path
from unittest.mock import patch

from mireseason_audit import streams, venue
from mireseason_audit.faults import Unreadable
from mireseason_audit.parents import bound_to
from mireseason_audit.progress import Progress
from mireseason_audit.venue import Conversation, Run, Venue
from mireseason_audit.work import Job, Plan, plan_of, run_jobs

from tests.audit.common import folder
from tests.gateway.wait import LONG, until


def has_ended(number: int) -> bool:
    """Whether a process is gone, or only waits for whoever takes notice of its end."""
    try:
        return not Path("/proc/%d/cmdline" % number).read_bytes()
    except OSError:
        return True


class Streams(unittest.TestCase):
    """Files that are read in blocks of any size."""

    def test_lines(self) -> None:
        for data in (b"", b"\n", b"a", b"a\n", b"a\n\nbb\nccc", b"a" * 99 + b"\nb\n"):
            with folder() as name:
                path = Path(name) / "file"
                path.write_bytes(data)
                expected = data.removesuffix(b"\n").split(b"\n") if data else []
                self.assertEqual(list(streams.lines_of(path)), expected)
                for size in (1, 3, 64, 1 << 20):
                    with patch.object(streams, "BLOCK", size):
                        blocks = list(streams.lines_in(streams.blocks_of(path)))
                    self.assertEqual([line for block in blocks for line in block], expected)

    def test_a_file_that_grows(self) -> None:
        """All that is written is read, whatever is there when it is opened, and then it ends."""
        parts = [b"%d\n" % number * number for number in range(40)]
        for before in (0, 7, len(parts)):
            with folder() as name, patch.object(streams, "LOOK", 0.001):
                file = streams.Growing(Path(name) / "file")
                if before:
                    file.path.write_bytes(b"".join(parts[:before]))
                blocks = file.blocks()
                read = [next(blocks)] if before else []
                writer = threading.Thread(target=self.write, args=(file, parts[before:]))
                writer.start()
                read += blocks
                writer.join()
                self.assertEqual(b"".join(read), b"".join(parts))

    def write(self, growing: streams.Growing, parts: list[bytes]) -> None:
        with growing.path.open("ab", buffering=0) as file:
            for part in parts:
                file.write(part)
        growing.end()

    def test_pieces_in_front_of_lines(self) -> None:
        """Each begins with such a line, but the first, and together they are all that there is:
        wherever a block ends.
        """
        mark = b"date "
        days: list[list[bytes]] = [
            [],
            [b"x\n"],
            [b"date 1\n"],
            [b"date 1\na\n", b"date 2\n"],
            [b"date 1"],
            [b"a\nxdate \n", b"date 1\n\n dat\ndate\n", b"date 2\nb date \n", b"date 3\nc"],
            [b"date 1\n", b"date 2\n", b"date 3\n"],
            [b"\n", b"date \n", b"date \n\n"],
        ]
        for texts in days:
            data = b"".join(texts)
            for size in range(1, len(data) + 2):
                blocks = [data[at : at + size] for at in range(0, len(data), size)]
                found: list[bytes] = []
                for piece in streams.cut_at(mark, blocks):
                    if piece.startswith(mark) or not found:
                        found.append(b"")
                    found[-1] += piece
                self.assertEqual(found, texts, size)

    def test_the_last_line(self) -> None:
        for data, last in (
            (b"", b""),
            (b"\n", b""),
            (b"a", b"a"),
            (b"a\nbb\n", b"bb"),
            (b"a\nbb", b"bb"),
            (b"a\n\n", b""),
            (b"x" * 9 + b"\nyy\n", b"yy"),
            (b"abcdefgh\n", b"defgh"),
        ):
            with folder() as name, patch.object(streams, "LAST_BYTES", 6):
                path = Path(name) / "file"
                path.write_bytes(data)
                self.assertEqual(streams.last_line_of(path), last, data)

    def test_files_that_are_the_same(self) -> None:
        with folder() as name, patch.object(streams, "BLOCK", 4):
            one, other = Path(name) / "one", Path(name) / "other"
            one.write_bytes(b"0123456789")
            self.assertFalse(streams.is_same(one, other))
            self.assertFalse(self.follows(other, b""))
            for data in (b"", b"012345678", b"0123456789", b"0123x56789", b"0123456789x"):
                other.write_bytes(data)
                self.assertEqual(streams.is_same(one, other), data == b"0123456789")
                self.assertEqual(self.follows(one, data), data == b"0123456789")

    def follows(self, path: Path, data: bytes) -> bool:
        with closing(streams.Followed(path)) as followed:
            for at in range(0, len(data), 3):
                followed.take(data[at : at + 3])
            return followed.is_same()


class Feeding(unittest.TestCase):
    """A program that reads a file while it is written."""

    def setUp(self) -> None:
        place = folder()
        self.addCleanup(place.cleanup)
        self.file = streams.Growing(Path(place.name) / "day")
        self.out = Path(place.name) / "out"
        self.parts = [b"%d\n" % number * 999 for number in range(99)]

    def fed(self, *words: str) -> Run:
        """A run of a program, whose file is written meanwhile."""
        writer = threading.Thread(target=self.write)
        writer.start()
        try:
            return Venue(words).to_file([], self.file, self.out)
        finally:
            writer.join()

    def write(self) -> None:
        with self.file.path.open("ab", buffering=0) as file:
            for part in self.parts:
                file.write(part)
        self.file.end(99 * 999)

    def test_all_is_read(self) -> None:
        self.fed("cat")
        self.assertEqual(self.out.read_bytes(), b"".join(self.parts))
        self.assertEqual(self.file.lines(), 99 * 999)

    def test_a_program_that_takes_no_more(self) -> None:
        """The run ends, and how many lines there are is known all the same."""
        for words, out in (
            (["head", "-n", "3"], b"0\n" * 3),
            (["true"], b""),
            (["sh", "-c", "exec <&-; sleep 0.1"], b""),
        ):
            self.fed(*words)
            self.assertEqual(self.out.read_bytes(), out, words)
            self.assertEqual(self.file.lines(), 99 * 999, words)
            self.file.path.unlink()
            self.file.whole.unlink()

    def test_lines_are_known_once_all_are_there(self) -> None:
        with patch.object(streams, "LOOK", 0.001):
            writer = threading.Thread(target=self.write)
            writer.start()
            self.assertEqual(self.file.lines(), 99 * 999)
            self.assertEqual(self.file.path.read_bytes(), b"".join(self.parts))
            writer.join()

    def test_what_it_prints_in_blocks_and_in_lines(self) -> None:
        self.write()
        for size in (7, 1000, streams.BLOCK):
            with patch.object(venue, "BLOCK", size), Venue(("cat",)).run([], self.file) as run:
                blocks = list(run.blocks())
            self.assertEqual(b"".join(blocks), b"".join(self.parts))
            self.assertLessEqual(max(map(len, blocks)), size)
        with Venue(("cat",)).run([], self.file) as run:
            lines = list(run.lines())
        self.assertEqual(lines, b"".join(self.parts).splitlines())

    def test_a_program_that_is_asked_line_by_line(self) -> None:
        """Whoever has closed it has left nothing of it behind, not even what waits for a look at its status."""
        script = 'echo $$ >"$0"; while read -r line; do echo "ALPHA $line"; echo done 1; done'
        with Conversation(Venue(("sh", "-c", script, str(self.out)))) as asked:
            self.assertEqual(asked.say(b"35=8|"), [("ALPHA", b"35=8\x01")])
        number = int(self.out.read_text())
        self.assertRaises(ProcessLookupError, os.kill, number, 0)

    def test_faults(self) -> None:
        with self.assertRaisesRegex(Unreadable, "status 3"):
            self.fed("sh", "-c", "exit 3")
        self.assertRaises(Unreadable, self.fed, "/nowhere/venue")
        folder_for_a_file = streams.Growing(self.out.parent)
        self.assertRaises(OSError, Venue(("cat",)).to_file, [], folder_for_a_file, self.out)


class Terminal(io.StringIO):
    def isatty(self) -> bool:
        return True


@dataclass(frozen=True)
class Writes:
    """A job that adds its number to what the job before it left; answers what that was."""

    place: Path
    number: int

    def __call__(self) -> str:
        before = (self.place / str(self.number - 1)).read_text() if self.number else ""
        (self.place / str(self.number)).write_text(before + str(self.number))
        return before


@dataclass(frozen=True)
class Speaks:
    """A job that writes into a pipe."""

    pipe: Path

    def __call__(self) -> str:
        self.pipe.write_text("spoken")
        return ""


@dataclass(frozen=True)
class Hears:
    """A job that reads from a pipe, as soon as somebody has it open."""

    pipe: Path

    def __call__(self) -> str:
        return self.pipe.read_text()


@dataclass(frozen=True)
class Squared:
    """A job that answers a square."""

    number: int

    def __call__(self) -> int:
        return self.number * self.number


def fails() -> int:
    raise Unreadable("this")


def ends() -> int:
    os._exit(3)


@dataclass(frozen=True)
class Sleeps:
    """A job that runs a program which says that it is there and then waits."""

    told: Path

    def __call__(self) -> int:
        words = "echo $$ > %s.new; mv %s.new %s; exec sleep 600" % ((self.told,) * 3)
        parent = os.getpid()
        subprocess.run(["sh", "-c", words], check=False, preexec_fn=bound_to(parent))
        return 0


class Bars(unittest.TestCase):
    def test_a_bar_on_a_terminal_and_nothing_elsewhere(self) -> None:
        for stream, shown in ((Terminal(), True), (io.StringIO(), False)):
            progress = Progress(stream)
            progress.begin("entries", 4000)
            for _ in range(4):
                progress.step(1000)
            progress.end()
            drawn = [text for text in stream.getvalue().split("\r") if "[" in text and "%" in text]
            bars = [text.partition("]")[0] for text in drawn]
            self.assertEqual([bar.count("#") for bar in bars], [0, 10, 20, 30, 40] if shown else [])
            self.assertEqual(stream.getvalue().endswith("\r\x1b[K"), shown)

    def test_jobs_in_processes(self) -> None:
        """Results come in the order of the jobs; a fault of a process is raised here."""
        progress = Progress(io.StringIO())
        jobs: list[Job[int]] = [Squared(at) for at in range(9)]
        self.assertEqual(run_jobs(plan_of(jobs), 3, progress), [at * at for at in range(9)])
        self.assertEqual(run_jobs(plan_of([]), 3, progress), [])
        failing: Plan[int] = plan_of([*jobs, fails])
        ending: Plan[int] = plan_of([ends])
        with self.assertRaisesRegex(Unreadable, "^this$") as caught:
            run_jobs(failing, 2, progress)
        self.assertIn("in fails\n", str(caught.exception.__cause__))
        self.assertRaisesRegex(Unreadable, "ended before", run_jobs, ending, 1, progress)

    def test_a_fault_ends_all_that_was_begun(self) -> None:
        """A job that would take ten minutes, and the program that it runs."""
        with folder() as name:
            told = Path(name) / "told"
            plan: Plan[int] = Plan()
            plan.add(Sleeps(told))

            def fault() -> None:
                until("the program runs", LONG, told.exists)
                raise Unreadable("that")

            with self.assertRaisesRegex(Unreadable, "^that$"):
                run_jobs(plan, 2, Progress(io.StringIO()), fault)
            number = int(told.read_text())
            until("it has ended", LONG, lambda: has_ended(number))

    def test_jobs_that_wait_for_others(self) -> None:
        """Each of a chain of jobs reads what the one before it wrote, whatever stands in front."""
        for at_once in (1, 2, 9):
            with folder() as name:
                plan: Plan[str] = Plan()
                written: list[int] = []
                for at in range(5):
                    written.append(plan.add(Writes(Path(name), at), written[-1:]))
                self.assertEqual(
                    run_jobs(plan, at_once, Progress(io.StringIO())),
                    ["", "0", "01", "012", "0123"],
                )

    def test_jobs_that_read_what_others_write(self) -> None:
        """A job that reads what another writes meanwhile stands after it, and runs beside it."""
        with folder() as name:
            pipe = Path(name) / "pipe"
            os.mkfifo(pipe)
            plan: Plan[str] = Plan()
            first = plan.add(Writes(Path(name), 0))
            plan.add(Speaks(pipe), after=[first])
            plan.add(Hears(pipe), after=[first])
            self.assertEqual(plan.ready([0, 1, 2], []), [0])
            self.assertEqual(plan.ready([1, 2], [0]), [1, 2])
            found = run_jobs(plan, 2, Progress(io.StringIO()))
            self.assertEqual(found, ["", "", "spoken"])


if __name__ == "__main__":
    unittest.main()
