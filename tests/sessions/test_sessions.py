"""Drawn days of a session and a stock QuickFIX initiator, of two sessions, and of drawn events: README.md says what a day is."""

import hashlib
import shutil
import subprocess
from pathlib import Path

import pytest

from tests.harness import build
from tests.harness.options import ROOT, Form
from tests.sessions.second import HEADER, model_sources

HERE = Path(__file__).resolve().parent
LIBRARY = ROOT / "crates" / "fix_sessions_c" / "out" / "libfix_sessions_c.a"
KINDS: dict[str, list[str]] = {
    "plain": [],
    "garbled": ["garbled"],
    "resets": ["resets"],
    "dictionary": ["dictionary", str(ROOT / "fix" / "FIXT11.xml")],
}
BATCHES = {Form.SHORT: 3, Form.LONG: 200}  # of each kind
DAYS = 25  # of a batch: 300 in the short form, 20,000 in the long one
EVENT_DAYS = 100  # of a batch of days without an engine, of each kind: as many
LIMIT = 1200  # seconds a batch: many times what it takes
COMPILE = "g++ %%s -O1 -Wall -Wextra -Werror -I %s -r -o {out} {sources}" % HEADER
# A part of a program, as one object: what has not changed is not compiled again.
MODEL_PART = COMPILE % "-std=c++20 -DSESSION_PREFIX=model_"
DAYS_PART = COMPILE % "-std=c++14 -Wno-deprecated"  # QuickFIX's headers end with C++14
EVENTS_PART = COMPILE % "-std=c++14"  # and that of two sessions
LINK = "g++ -std=c++14 -I %s %s -o {out} {sources} %s"
SHARED = ("clock", "differ", "library_model", "machine", "texts")
TALK = (*SHARED, "venue")
SWITCH = HERE / "library_proved.cpp"  # which libraries a program has


def pytest_generate_tests(metafunc: pytest.Metafunc) -> None:
    """A batch of days is a test of its own."""
    if "batch" in metafunc.fixturenames:
        form = Form(metafunc.config.getoption("form"))
        metafunc.parametrize("batch", range(BATCHES[form]))


def heap() -> Path:
    """The kit's part of the C library: malloc."""
    page = subprocess.run(["rt", "doc"], capture_output=True, text=True, check=True, timeout=60)
    return Path(page.stdout.strip()).parent / "c" / "liblibc_c.a"


def has_proved() -> bool:
    """Whether the proved library is there."""
    return shutil.which("rt") is not None and LIBRARY.exists()


def part(name: str, form: str, sources: list[Path]) -> Path:
    """A part of a program."""
    header = hashlib.sha256((HEADER / "fix_sessions.h").read_bytes()).hexdigest()[:16]
    return build.compiled("sessions-%s-%s" % (name, header), form, sources)


def program(name: str, own: Path, libraries: str) -> Path:
    """A program over the second implementation, and over the proved library where it is built."""
    model = part("model", MODEL_PART, model_sources())
    proved, define = "", ""
    if has_proved():
        name = "%s-%s" % (name, hashlib.sha256(LIBRARY.read_bytes()).hexdigest()[:16])
        proved, define = "%s %s" % (LIBRARY, heap()), "-DHAS_PROVED"
    form = LINK % (HEADER, define, "%s %s" % (proved, libraries))
    return build.compiled("sessions-" + name, form, [SWITCH, own, model])


@pytest.fixture(scope="session")
def days() -> Path:
    """The program that plays days with a stock engine."""
    sources = [file for file in sorted(HERE.glob("*.cpp")) if file != SWITCH]
    return program("days", part("engine", DAYS_PART, sources), "-lquickfix -lpthread")


@pytest.fixture(scope="session")
def events() -> Path:
    """The program that plays days of drawn events."""
    if not has_proved():
        pytest.skip("crates/fix_sessions_c is not built: there is nothing to compare with")
    sources = [HERE / ("%s.cpp" % name) for name in SHARED]
    own = part("drawn", EVENTS_PART, [*sources, *sorted(HERE.glob("events/*.cpp"))])
    return program("events", own, "")


@pytest.fixture(scope="session")
def talk() -> Path:
    """The program that plays days of two sessions that talk."""
    sources = [HERE / ("%s.cpp" % name) for name in TALK]
    own = part("two", EVENTS_PART, [*sources, *sorted(HERE.glob("talk/*.cpp"))])
    return program("talk", own, "")


def play(words: list[str], count: int) -> None:
    """Plays days, each of which has to come right."""
    done = subprocess.run(words, capture_output=True, text=True, check=False, timeout=LIMIT)
    assert done.returncode == 0, done.stdout[-8000:] + done.stderr[-2000:]
    assert done.stdout.splitlines()[-1] == "%d passed, 0 failed" % count, done.stdout[-4000:]


@pytest.mark.parametrize("kind", sorted(KINDS))
def test_each_message_comes_once_and_in_order(days: Path, kind: str, batch: int, seed: int) -> None:
    """Both ways, whatever broke; and then both sides are logged on, settled and quiet."""
    first = seed + batch * DAYS
    play([str(days), str(first), str(first + DAYS - 1), *KINDS[kind]], DAYS)


def test_two_sessions_that_talk(talk: Path, batch: int, seed: int) -> None:
    """Over a line that loses, doubles, spoils, shortens, delays and breaks: each turn keeps the laws, and once the line is
    calm each side has counted all that the other gave, once and in order."""
    first = seed + batch * EVENT_DAYS
    play([str(talk), str(first), str(first + EVENT_DAYS - 1)], EVENT_DAYS)


def test_both_libraries_say_the_same(events: Path, batch: int, seed: int) -> None:
    """Of each event, whatever it is: the next state, the bytes, and what is told."""
    first = seed + batch * EVENT_DAYS
    play([str(events), str(first), str(first + EVENT_DAYS - 1)], EVENT_DAYS)
