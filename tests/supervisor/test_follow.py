"""A day that is followed while it grows, and a day as it stood at an entry."""

import filecmp
import re
import shlex
import signal
import sqlite3
import subprocess
import threading
from collections.abc import Iterator
from contextlib import closing, nullcontext
from dataclasses import dataclass, field
from pathlib import Path
from types import SimpleNamespace

import pytest
from mireseason_audit.faults import Unreadable
from mireseason_audit.follow import Follower, Stand, share
from mireseason_audit.log import Log, Source
from mireseason_audit.pages import Pager
from mireseason_audit.records import Checkpoint

from tests.audit.common import AUDIT, ROOT
from tests.audit.draw_day import BONDS
from tests.audit.pages import read_page
from tests.gateway.wait import LONG, until
from tests.supervisor.conftest import STORED, Audit
from tests.supervisor.exported import read_csv
from tests.supervisor.growing import GrowingLog
from tests.supervisor.test_transparency import ISIN, LARGE

FIRST, STEPS = 90, 4
EXAMPLE = ROOT / "examples" / "day" / "day-20261125.db"
PARTIES = '[venue]\nmic = "XMIR"\n' + "".join(
    '[bond.%s]\nisin = "%s"\ncurrency = "USD"\nclass = "corporate"\ncleared = false\n'
    % (bond, ISIN)
    for bond in BONDS
)


class Following:
    """`page --follow` in a process of its own."""

    def __init__(self, log: Path, folder: Path, venue: tuple[str, ...], *more: str) -> None:
        self.folder = folder
        words = [str(AUDIT), "page", str(log), str(folder), "--follow", "--every", "0.2", *more]
        self.process = subprocess.Popen(
            [*words, "--venue", shlex.join(venue)], stdout=subprocess.PIPE, stderr=subprocess.STDOUT
        )

    def entry(self) -> int:
        """The last entry that the board tells of; -1 before there is a board."""
        try:
            text = (self.folder / "index.html").read_text()
        except FileNotFoundError:
            return -1
        found = re.search(r"as of entry ([0-9]+)", text)
        assert found, text
        return int(found[1])

    def wait_for(self, entry: int) -> None:
        def is_there() -> bool:
            assert self.process.poll() is None, self.process.communicate()[0]
            return self.entry() >= entry

        until("entry %d is shown" % entry, LONG, is_there)

    def end(self) -> None:
        self.process.send_signal(signal.SIGTERM)
        out, _ = self.process.communicate(timeout=LONG)
        first, *more = out.decode().splitlines()
        assert self.process.returncode == 0, out
        assert re.fullmatch(r"looks at day\S*\.db every 0\.2 s: .*index\.html", first), out
        assert more[0].startswith("pages up to entry "), out

    def wait_for_the_end(self) -> None:
        def is_over() -> bool:
            assert self.process.poll() is None, self.process.communicate()[0]
            return "the day has ended" in (self.folder / "index.html").read_text()

        self.wait_for(0)
        until("the day has ended", LONG, is_over)


@pytest.fixture
def growing(short_log: Path, tmp_path: Path) -> GrowingLog:
    log = GrowingLog(short_log, tmp_path / "day.db")
    log.begin()
    return log


@pytest.fixture
def following(growing: GrowingLog, venue: tuple[str, ...], tmp_path: Path) -> Iterator[Following]:
    growing.grow_to(FIRST)
    parties = tmp_path / "parties.toml"
    parties.write_text(PARTIES)
    more = ["--parties", str(parties)]
    following = Following(growing.path, tmp_path / "live", venue, *more)
    yield following
    if following.process.poll() is None:
        following.process.kill()
        following.process.communicate()


def trades_until(log: Path, entry: int) -> dict[str, int]:
    """By the notices to dealers (694=1): when each trade was, and its face value."""
    with closing(sqlite3.connect(log)) as connection:
        query = "SELECT entry.moment, bytes FROM sent JOIN entry USING (place) WHERE place <= ?"
        rows = connection.execute(query, (entry,)).fetchall()
    notices = [(moment, data) for moment, data in rows if b"\x01694=1\x01" in data]
    quantity = re.compile(rb"\x0138=([0-9]+)\x01")
    found = [(moment, quantity.search(data)) for moment, data in notices]
    return {moment: int(match[1]) for moment, match in found if match}


def check_reports(build: Path, log: Path, entry: int) -> int:
    """The reports beside the pages are those of the trades so far, but for what is deferred."""
    rows = read_csv(build / "transparency.csv")
    expected = [
        "2026-11-25T%sZ" % moment
        for moment, quantity in trades_until(log, entry).items()
        if quantity < LARGE["corporate"]
    ]
    assert [row["01_trading_date_and_time"] for row in rows] == expected
    assert all(row["15_publication_date_and_time"] in expected for row in rows)
    return len(rows)


def check_sums(folder: Path) -> None:
    """All files of a folder are of one build, which signs nothing but has the sum of each."""
    words = ["sha256sum", "-c", "--quiet", "SHA256SUMS"]
    done = subprocess.run(words, cwd=folder, capture_output=True, check=False, text=True)
    assert done.returncode == 0, done.stderr
    listed = {line.split("  ", 1)[1] for line in (folder / "SHA256SUMS").read_text().splitlines()}
    there = {str(path.relative_to(folder)) for path in folder.rglob("*") if path.is_file()}
    assert there - listed == {"SHA256SUMS"}


def differing(one: Path, other: Path) -> list[str]:
    """The files in which two folders differ."""
    names = {
        str(path.relative_to(place))
        for place in (one, other)
        for path in place.rglob("*")
        if path.is_file()
    }
    _, different, absent = filecmp.cmpfiles(one, other, sorted(names), shallow=False)
    return different + absent


def test_a_followed_day(
    run: Audit, growing: GrowingLog, following: Following, tmp_path: Path
) -> None:
    """The pages at each step are one day, with the verdict so far; in the end they are those of
    the whole day made at once, byte for byte, and so is each build those of its entry. Beside them
    stand the reports of the trades so far.
    """
    parties = ["--parties", tmp_path / "parties.toml"]
    reports = []
    following.wait_for(growing.grow_to(FIRST))
    last = growing.last()
    inodes: dict[str, int] = {}
    for step in range(1, STEPS + 1):
        following.wait_for(growing.grow_to(FIRST + (last - FIRST) * step // STEPS))
        build = (following.folder / "now").resolve()
        check_sums(build)
        reports.append(check_reports(build, growing.path, following.entry()))
        board = read_page(following.folder / "index.html")
        assert "As it should be so far" in board.all("p", "verdict")[0].text
        pages = {path.name: path.stat().st_ino for path in (build / "requests").iterdir()}
        if step == 2:
            words = ["page", growing.path, tmp_path / "then", *parties]
            assert run(*words, "--until", following.entry()).status == 0
            assert not differing(build, tmp_path / "then")
        same = [name for name, inode in inodes.items() if pages.get(name) == inode]
        assert len(same) >= len(inodes) // 2, "pages that did not change were written again"
        inodes = pages
    growing.finish()
    following.wait_for_the_end()
    following.end()
    assert reports == sorted(reports) and 0 < reports[-1], reports
    assert run("page", growing.path, tmp_path / "once", *parties).status == 0
    assert not differing(following.folder / "now", tmp_path / "once")
    assert len(list((following.folder / "builds").iterdir())) <= 3


def test_a_day_that_has_ended(run: Audit, venue: tuple[str, ...], tmp_path: Path) -> None:
    """What its sessions told behind the last entry is on the pages too, as on those of `page`."""
    following = Following(EXAMPLE, tmp_path / "live", venue)
    following.wait_for_the_end()
    following.end()
    assert run("page", EXAMPLE, tmp_path / "once").status == 0
    assert not differing(following.folder / "now", tmp_path / "once")


def test_what_is_not_as_it_should_be_is_told_while_it_grows(
    growing: GrowingLog, following: Following
) -> None:
    following.wait_for(growing.grow_to(FIRST))
    with growing.open_log() as log:
        log.execute("UPDATE sent SET bytes = x'00' WHERE firm = 'FJORD' AND number = 1")
    following.wait_for(growing.grow_to(2 * FIRST))
    board = read_page(following.folder / "index.html")
    assert "Not as it should be" in board.all("p", "verdict")[0].text
    following.end()


def test_a_day_as_it_stood(run: Audit, tmp_path: Path) -> None:
    """After entry 84 request 9 is open, and nothing of what came later is on any page."""
    assert run("page", STORED, tmp_path / "then", "--until", 84).status == 0
    page = read_page(tmp_path / "then" / "requests" / "0009.html")
    assert page.all("p", "outcome")[0].text == "○ open"
    assert len(list((tmp_path / "then" / "requests").iterdir())) == 10
    anchors = {
        int(one.attributes["id"][1:])
        for path in (tmp_path / "then" / "firms").iterdir()
        for one in read_page(path).all("article")
        if one.attributes["id"].startswith("e")
    }
    assert max(anchors) == 84
    assert run("page", STORED, tmp_path / "time", "--at", "09:46:20").status == 0
    assert len(list((tmp_path / "time" / "requests").iterdir())) == 10


class Looks(threading.Event):
    """The time from one look to the next: the last entry's answers come, and one more entry."""

    def __init__(self, looks: int) -> None:
        super().__init__()
        self.left, self.last, self.answered = looks, 0, 0

    def wait(self, timeout: float | None = None) -> bool:
        self.left -= 1
        self.answered, self.last = self.last, self.last + 1
        return self.left < 0


class NoLog(Source):
    """Nothing of it is read."""

    name = "no log"

    def open(self) -> Log:
        raise NotImplementedError


def no_pager(*_: object) -> Pager:
    raise NotImplementedError


@dataclass
class Builds(Follower):
    """Notes what would be built, and whether its answers are there."""

    over: Looks = field(default_factory=lambda: Looks(STEPS))
    done: list[tuple[int, bool]] = field(default_factory=list)

    def _look(self) -> Stand:
        return Stand(self.over.last)

    def _build(self, stand: Stand) -> None:
        self.done.append((stand.last, stand.last <= self.over.answered))
        self.built = stand


def test_a_page_waits_for_its_answers(tmp_path: Path, monkeypatch: pytest.MonkeyPatch) -> None:
    """An entry may be committed before its answers: a page is built of it one look later."""
    monkeypatch.setattr(signal, "signal", lambda *_: None)
    builds = Builds(NoLog(), tmp_path / "live", 0.2, tmp_path, no_pager)
    builds.run()
    assert builds.done == [(entry, True) for entry in range(STEPS)]


@dataclass(frozen=True)
class Ending(Source):
    """A log up to entry 7, whose last checkpoint is of an entry, and perhaps of the end of the day."""

    last: Checkpoint
    numbers: bool = True
    name = "a log"

    def open(self) -> Log:
        first = self.last._replace(place=3, is_end=False)
        told = {"numbers_checkpoints": self.numbers, "last_place": lambda: 7}
        log = SimpleNamespace(**told, checkpoints=lambda: iter((first, self.last)))
        return nullcontext(log)  # type: ignore[return-value]


# Of the last checkpoint its entry and whether it says that the day has ended, whether the log numbers checkpoints, which entry is
# shown already; and whether the next look finds that the day has ended.
ENDINGS = {
    "it has ended": (7, True, True, 7, True),
    "its last entry is not shown yet": (7, True, True, 6, False),
    "an entry came behind its end": (6, True, True, 7, False),
    "it goes on": (7, False, True, 7, False),
    "a log that says no end": (7, True, False, 7, False),
}


@pytest.mark.parametrize("name", ENDINGS)
def test_when_a_day_has_ended(tmp_path: Path, name: str) -> None:
    """Once its last checkpoint says so, and one look after its last entry was shown."""
    place, is_end, numbers, shown, expected = ENDINGS[name]
    source = Ending(Checkpoint(2, 0, place, b"", 0, b"", b"", is_end), numbers)
    follower = Follower(source, tmp_path, 0.2, tmp_path, no_pager)
    follower.built = Stand(shown)
    assert follower._look() == Stand(7, expected)


def test_what_whoever_started_it_is_told(tmp_path: Path) -> None:
    """The first pages, a fault when it is first seen, and the end; not each build."""
    said: list[str] = []
    follower = Follower(NoLog(), tmp_path, 0.2, tmp_path, no_pager, say=said.append)

    def told(number: int, is_good: bool, is_ended: bool = False) -> list[str]:
        said.clear()
        follower.number, follower.built = number, Stand(4, is_ended)
        follower._tell(SimpleNamespace(is_good=is_good, words="a\nb"))  # type: ignore[arg-type]
        return list(said)

    at_fault = "up to entry 4: a\\nb"
    assert told(1, True) == ["pages up to entry 4: %s" % (tmp_path / "index.html")]
    assert told(2, True) == []
    assert told(3, False) == [at_fault] and told(4, False) == []
    assert told(5, True) == [] and told(6, False) == [at_fault]
    (ended,) = told(7, False, True)
    assert ended.startswith("the day has ended: ")


def test_a_signal_while_pages_are_made(tmp_path: Path) -> None:
    """The programs that were asked have ended by it: that is no fault. Without a signal it is one."""

    class Asks(Follower):
        def _build(self, stand: Stand) -> None:
            raise Unreadable("it says nothing")

    asks = Asks(NoLog(), tmp_path, 0.2, tmp_path, no_pager)
    with pytest.raises(Unreadable):
        asks._try(Stand(1))
    asks.over.set()
    assert not asks._try(Stand(1))


def test_files_that_did_not_change(tmp_path: Path) -> None:
    """They are those of the build before, and whatever else there is stays as it was made."""
    before, now = tmp_path / "1", tmp_path / "2"
    for folder, texts in ((before, ("same", "old")), (now, ("same", "new", "more"))):
        (folder / "inner").mkdir(parents=True)
        for name, text in zip(("a", "inner/b", "c"), texts):
            (folder / name).write_text(text)
    for _ in range(2):
        share(now, before)
        assert [path.name for path in sorted(now.rglob("*"))] == ["a", "c", "inner", "b"]
        shared = [name for name in ("a", "inner/b") if (now / name).samefile(before / name)]
        assert shared == ["a"]
        assert [(now / name).read_text() for name in ("inner/b", "c")] == ["new", "more"]


def test_builds_that_stay(tmp_path: Path) -> None:
    """Three: `now` leads to the last, which it does at each moment."""
    follower = Follower(NoLog(), tmp_path, 0.2, tmp_path, no_pager)
    for number in range(1, 6):
        folder = tmp_path / "builds" / str(number)
        folder.mkdir(parents=True)
        follower.number = number
        follower._show(folder)
        follower._forget()
        assert (tmp_path / "now").samefile(folder)
    assert sorted(path.name for path in (tmp_path / "builds").iterdir()) == ["3", "4", "5"]
    assert sorted(path.name for path in tmp_path.iterdir()) == ["builds", "now"]


@pytest.mark.parametrize(
    "words",
    [
        ["--follow", "--until", "5"],
        ["--follow", "--sign", "key.pem"],
        ["--until", "5", "--key", "k"],
        ["--follow", "--every", "0"],
        ["--until", "5", "--at", "09:00:00"],
    ],
)
def test_words_that_do_not_go_together(run: Audit, tmp_path: Path, words: list[str]) -> None:
    ran = run("page", STORED, tmp_path / "pages", *words)
    assert (ran.status, ran.out, ran.err.count("\n")) == (2, "", 1), ran.text
