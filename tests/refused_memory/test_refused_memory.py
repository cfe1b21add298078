"""Runs the built program once for each of its allocations, and refuses that one; and tests of the crates in the same way."""

import os
import re
import subprocess
from collections.abc import Callable
from dataclasses import dataclass
from pathlib import Path

import pytest

from tests.harness import build
from tests.harness.options import ROOT, SECOND

HERE = Path(__file__).resolve().parent
EXAMPLES = ROOT / "examples"
SHIM = "cc -std=gnu11 -O2 -Wall -Wextra -shared -fPIC -o {out} {sources}"
LIMIT = 600  # seconds of one run


@dataclass(frozen=True)
class Ended:
    """How a run ended."""

    status: int
    out: bytes
    err: bytes


@dataclass(frozen=True)
class Case:
    """Words, their input, and how the run has to end with all its memory; None where the second implementation says."""

    name: str
    words: tuple[str, ...]
    input: bytes
    wanted: Ended | None = None

    def whole(self) -> Ended:
        if self.wanted is not None:
            return self.wanted
        done = subprocess.run(
            [*SECOND, *self.words], input=self.input, capture_output=True, timeout=LIMIT, check=True
        )
        return Ended(0, done.stdout, b"")


def given(path: Path) -> bytes:
    return path.read_bytes()


def printed(path: Path) -> Ended:
    """What is written down."""
    return Ended(0, path.read_bytes(), b"")


def by_the_model(name: str, text: bytes, *commands: str) -> list[Case]:
    return [Case("%s, %s" % (name, command), tuple(command.split()), text) for command in commands]


def model(text: bytes, *words: str) -> bytes:
    return subprocess.run(
        [*SECOND, *words], input=text, capture_output=True, timeout=LIMIT, check=True
    ).stdout


def dealers_lists() -> list[Case]:
    """A dealer's list, of which there is a file of its messages."""
    found = []
    for day in ("first-quote", "replacement", "cancel-all", "busy-morning"):
        text, wanted = given(EXAMPLES / (day + ".due")), printed(EXAMPLES / (day + ".out"))
        found.append(Case(day + ", no words", (), text, wanted))
        if day != "busy-morning":
            found += [
                Case(day + ", alone", ("alone",), text, wanted),
                *by_the_model(day, text, "alone --frames"),
            ]
    return found


def auctions() -> list[Case]:
    """Every command on a whole auction."""
    text = given(EXAMPLES / "auction.venue")
    found = [Case("auction, replay", ("replay",), text, printed(EXAMPLES / "auction.out"))]
    found += by_the_model(
        "auction",
        text,
        "replay --frames",
        "replay DLR1 --frames",
        "replay INV1",
        "due DLR1",
        "due --investor INV1",
        "dues",
        "blotter DLR1",
        "blotter INV1",
    )
    found += by_the_model(
        "auction twice", text + b"%%\n" + text, "compare DLR1", "compare --investor INV1"
    )
    due = model(text, "due", "--investor", "INV1")
    return found + by_the_model("what was due to INV1", due, "alone", "alone --frames")


def lines_of_auctions() -> list[Case]:
    """The same line by line."""
    text = re.sub(rb"(?m)^turn .*\n", b"", given(EXAMPLES / "auction.venue"))
    live = EXAMPLES / "live"
    found = [
        Case(
            "auction, live", ("live",), given(live / "auction.lines"), printed(live / "auction.out")
        )
    ]
    found += by_the_model(
        "auction",
        text,
        "live --frames",
        "live --marks",
        "replay --live",
        "replay INV1 --frames --live",
        "due DLR1 --live",
        "due --investor INV1 --live",
        "dues --live",
        "blotter DLR1 --live",
        "blotter INV1 --live",
    )
    twice = text + b"%%\n" + text
    return found + by_the_model(
        "auction twice", twice, "compare DLR1 --live", "compare --investor INV1 --live"
    )


def days_on_threads() -> list[Case]:
    """A day on which no two firms race. It is woven into 15 steps: its four lines, and what they leave: open, two shows and
    ready; pass, answer and two tells; open, a show and ready."""
    text, out = given(EXAMPLES / "day.venue"), given(EXAMPLES / "day.out")
    frames = model(text, "replay", "--live", "--frames")
    return [
        Case("a day on threads, day", ("day",), text, Ended(0, out, b"")),
        Case("a day on threads, day --frames", ("day", "--frames"), text, Ended(0, frames, b"")),
        Case(
            "a day on threads, day --woven",
            ("day", "--woven"),
            text,
            Ended(0, out + b"woven 15\n", b""),
        ),
    ]


def whole_days() -> list[Case]:
    """A hit, a quote that is cancelled before it is hit, a pass, an expiry, a cancel of all quotes."""
    head, found = given(EXAMPLES / "three-dealers.toml") + b"%%\n", []
    for day in ("awarded", "cancel-in-time", "passed", "expired", "cancel-all"):
        steps = given(ROOT / "tests" / "engines" / "days" / (day + ".steps"))
        found += by_the_model(day, head + steps, "replay")
    return found


def faults() -> list[Case]:
    """Inputs at fault, each in another place."""
    auction = given(EXAMPLES / "auction.venue")
    lines = auction.count(b"\n")
    turn = next(at for at, line in enumerate(auction.split(b"\n"), 1) if line.startswith(b"turn "))
    told = [
        ("config: Missing", b"version = 1\n%%\n", "replay"),
        ("line %d: unknown firm" % (lines + 1), auction + b"turn DLR9 1\n", "due DLR1"),
        ("line %d: form" % turn, auction, "day"),
        ("firm: DLR9", auction, "blotter DLR9"),
        ("parts", auction, "compare DLR1"),
        ("line 1: form", b"", "alone"),
    ]
    return [
        Case(fault, tuple(words.split()), text, Ended(1, b"", fault.encode() + b"\n"))
        for fault, text, words in told
    ]


GROUPS: list[Callable[[], list[Case]]] = [
    dealers_lists,
    auctions,
    lines_of_auctions,
    days_on_threads,
    whole_days,
    faults,
]
HELP = ("--help", "help replay", "due --help", "--version")
IN_TESTS = [
    ("memory_tests", "frames::a_refused_configuration_is_read_again"),
    ("memory_tests", "frames::a_refused_frame_is_written_again"),
    ("memory_tests", "dealers::a_refused_call_leaves_the_desk"),
    ("memory_tests", "dealers::a_refused_drop_leaves_the_desk"),
    ("memory_tests", "investors::a_refused_call_leaves_the_desk"),
    ("memory_tests", "rooms::a_refused_call_leaves_the_room"),
    ("memory_tests", "rooms::a_hundred_posts_are_refused_in_turn"),
    ("memory_tests", "steps::a_refused_step_leaves_its_place"),
    ("memory_tests", "streams::a_refused_piece_is_fed_again"),
    ("memory_tests", "streams::a_refused_piece_with_a_fault_is_fed_again"),
    ("memory_tests", "texts::a_refused_message_is_written_again"),
    ("memory_tests", "texts::a_refused_blotter_is_written_again"),
    ("memory_tests", "texts::refused_steps_are_read_again"),
    ("memory_tests", "words::refused_memory_is_asked_for_again"),
    # The sessions of a day and its clock have no answer but that they ended, which no clause can hold against what they did.
    ("day_tests", "actors::whoever_is_refused_memory_says_so"),
]


@dataclass(frozen=True)
class Refused:
    """Runs a program with one of its calls for memory refused, or with none and the calls counted."""

    shim: Path
    words: list[str]
    folder: Path

    def run(self, text: bytes, **more: str) -> Ended:
        environment = {**os.environ, "LD_PRELOAD": str(self.shim), **more}
        done = subprocess.run(
            self.words, input=text, env=environment, capture_output=True, timeout=LIMIT, check=False
        )
        return Ended(done.returncode, done.stdout, done.stderr)

    def counted(self, text: bytes) -> tuple[Ended, int]:
        file = self.folder / "count"
        return self.run(text, REFUSE_COUNT=str(file)), int(file.read_text())

    def refused(self, text: bytes, call: int) -> Ended:
        return self.run(text, REFUSE_CALL=str(call))


@pytest.fixture(scope="session")
def refuse() -> Path:
    return build.compiled("refuse.so", SHIM, [HERE / "refuse.c"])


@pytest.fixture(scope="session")
def program(venue: tuple[str, ...]) -> str:
    if len(venue) != 1:
        pytest.skip("memory is refused to a built program alone")
    return venue[0]


def is_left(case: Case, ended: Ended, whole: Ended) -> bool:
    """Whether a run that ended with memory may have printed this: nothing, but of `live`, which prints as it goes, whole lines
    from the front."""
    of_live = (
        case.words[:1] == ("live",)
        and ended.out.endswith(b"\n")
        and whole.out.startswith(ended.out)
    )
    return (ended.status, ended.err) == (1, b"memory\n") and (not ended.out or of_live)


def look(case: Case, refused: Refused, whole: Ended) -> None:
    """Refuses each call in turn."""
    ended, calls = refused.counted(case.input)
    assert ended == whole, "with nothing refused"
    left = 0
    for call in range(1, calls + 1):
        ended = refused.refused(case.input, call)
        left += is_left(case, ended, whole)
        assert is_left(case, ended, whole) or ended == whole, "call %d refused: status %d, %r" % (
            call,
            ended.status,
            ended.err,
        )
    assert left > 0, "no run ended with memory, so nothing was refused"


@pytest.mark.parametrize("group", GROUPS, ids=[group.__name__ for group in GROUPS])
def test_a_refused_call(
    program: str, refuse: Path, place: Path, group: Callable[[], list[Case]]
) -> None:
    """Each run ends with status 1, `memory` on standard error and nothing printed, or as it has to end with all its memory."""
    for case in group():
        print(case.name)
        look(case, Refused(refuse, [program, *case.words], place), case.whole())


@pytest.mark.parametrize("words", HELP)
def test_a_refused_call_of_help(program: str, refuse: Path, place: Path, words: str) -> None:
    """What help and version have to be is what the program prints with all its memory."""
    whole = subprocess.run(
        [program, *words.split()], input=b"", capture_output=True, timeout=LIMIT, check=False
    )
    wanted = Ended(whole.returncode, whole.stdout, whole.stderr)
    look(
        Case(words, tuple(words.split()), b""),
        Refused(refuse, [program, *words.split()], place),
        wanted,
    )


@pytest.mark.parametrize(("crate", "name"), IN_TESTS)
def test_a_refused_call_in_a_test(refuse: Path, place: Path, crate: str, name: str) -> None:
    """A test of the crates that looks at what a refused call left, and makes it again: it passes whatever is refused."""
    tests = ROOT / "crates" / crate / "out" / ("%s_tests" % crate)
    if not tests.exists():
        pytest.skip("there are no built tests, which `rt test` in crates/%s builds" % crate)
    refused = Refused(refuse, [str(tests), name], place)
    ended, calls = refused.counted(b"")
    assert ended.status == 0 and calls > 0, ended.err
    for call in range(1, calls + 1):
        assert refused.refused(b"", call).status == 0, "call %d refused: the test fails" % call
