"""`receive`: what a supervisor keeps of the checkpoints that gateways send, whoever sends them."""

import os
import resource
import subprocess
from collections.abc import Callable
from dataclasses import dataclass, field
from datetime import date, datetime, timedelta, timezone
from pathlib import Path

import pytest
from mireseason_audit.outside import compared, contradicted, read_outside
from mireseason_audit.receive_command import BETWEEN, Receiver, Teller
from mireseason_audit.received import ReceivedDay
from mireseason_audit.signing import public_key
from mireseason_audit.sqlite_log import SqliteSource

from tests.audit import ledger
from tests.audit.common import AUDIT, ROOT, venue_words
from tests.audit.draw_day import DATE

TODAY = date(2026, 11, 25)
NAME = "day-%s.checkpoints" % DATE
NONE = "0" * 128  # the signature before the first


def signed(
    number: int, before: str = NONE, day: str = DATE, venue: str = "-", more: str = ""
) -> bytes:
    """A checkpoint in a line, as the gateway of the tests signs it."""
    hash_ = "%064x" % number
    lines = ["mireseason log 6", "venue " + venue, "day " + day, "configuration " + hash_]
    lines += ["term 1", "entry %d %s" % (number, hash_), "connection %d %s" % (number, hash_)]
    lines += ["checkpoint %d" % number, "before " + before, "end no" + more]
    text = "".join(line + "\n" for line in lines)
    mark = ledger.KEY.sign(text.encode()).hex()
    return (text + "signature " + mark).replace("\n", "\t").encode() + b"\n"


def signature_of(line: bytes) -> str:
    return line.decode().rpartition("signature ")[2].strip()


def in_a_row(count: int, day: str = DATE, venue: str = "-") -> list[bytes]:
    """Checkpoints, each of which follows on the one before."""
    lines: list[bytes] = []
    before = NONE
    for number in range(1, count + 1):
        lines.append(signed(number, before, day, venue))
        before = signature_of(lines[-1])
    return lines


@dataclass
class Host:
    """A supervisor's host: its folder, and what it was told."""

    folder: Path
    now: float = 0.0
    receiver: Receiver = field(init=False)

    def __post_init__(self) -> None:
        key = self.folder / "gateway.pub"
        key.write_bytes(ledger.public_key())
        teller = Teller(self.folder, lambda: self.now)
        self.receiver = Receiver(self.folder, [public_key(key)], ["-"], teller, lambda: TODAY)

    def takes(self, *lines: bytes) -> None:
        for line in lines:
            self.receiver.take(line)

    @property
    def kept(self) -> bytes:
        file = self.folder / NAME
        return file.read_bytes() if file.exists() else b""

    @property
    def told(self) -> str:
        file = self.folder / "told"
        return file.read_text() if file.exists() else ""


@pytest.fixture
def host(tmp_path: Path) -> Host:
    return Host(tmp_path)


def test_what_came_is_kept(host: Host) -> None:
    """Once, though it comes twice; also where some in between were left out or come late."""
    lines = in_a_row(9)
    host.takes(lines[0], lines[1], lines[5], lines[1], lines[6], lines[3])
    assert host.kept == b"".join([lines[0], lines[1], lines[5], lines[6], lines[3]])
    assert host.told == ""
    assert [one.number("checkpoint") for one in read_outside(host.folder / NAME)] == [1, 2, 6, 7, 4]


REFUSED: list[tuple[str, bytes]] = [
    ("no checkpoint of a gateway", b"hello\n"),
    ("no checkpoint of a gateway", b"\n"),
    ("no checkpoint of a gateway", signed(1)[:-9] + b"\n"),
    ("no checkpoint of a gateway", b"\xff" * 300 + b"\n"),
    ("signed by none of the keys", signed(1).replace(b"checkpoint 1", b"checkpoint 2")),
    ("signed by none of the keys", signed(1).replace(b"end no", b"end yes")),
    ("is of the venue LDN", signed(1, venue="LDN")),
    ("is of the venue ../etc/passwd", signed(1, venue="../etc/passwd")),
    ("is of the day 20261114", signed(1, day="20261114")),
    ("is of the day 20261127", signed(1, day="20261127")),
    ("is of the day 20261131", signed(1, day="20261131")),
    ("is of the day ../../x", signed(1, day="../../x")),
    ("`checkpoint` has no number", signed(1, more="\ncheckpoint x")),
    ("`entry` has no number", signed(1, more="\nentry 12345678901")),
]


@pytest.mark.parametrize("words, line", REFUSED, ids=[str(at) for at in range(len(REFUSED))])
def test_what_is_not_kept(host: Host, words: str, line: bytes) -> None:
    """Nothing is written for it but why: no file of another name, and no line."""
    host.takes(line)
    assert words in host.told, host.told
    assert {path.name for path in host.folder.iterdir()} == {"gateway.pub", "told"}


def test_a_flood_of_other_lines(host: Host) -> None:
    """The first is told, and then one a minute with how many there were."""
    host.takes(*[b"hello\n"] * 500)
    assert host.told.count("\n") == 1
    host.now = BETWEEN
    host.takes(b"hello\n")
    assert host.told.count("\n") == 2 and "(500 lines not kept, 501 in all)" in host.told
    assert "line 1 is no checkpoint" in host.told and "line 501 is no checkpoint" in host.told
    (host.folder / "told").write_text("x" * (1 << 20))
    host.now = 2 * BETWEEN
    host.takes(b"hello\n")
    assert len(host.told) == 1 << 20


def test_a_file_of_what_was_wrong_that_is_full(tmp_path: Path) -> None:
    """Up to 64 MiB of what an operator has to know, and up to 1 MiB of lines that are not kept."""
    told, teller = tmp_path / "told", Teller(tmp_path)
    limits: list[tuple[int, Callable[[str], None]]] = [
        (64 << 20, teller.tell),
        (1 << 20, teller.refuse),
    ]
    for full, tell in limits:
        for size, is_written in ((full - 1, True), (full, False)):
            told.write_bytes(b"")
            os.truncate(told, size)
            teller.told_at = None
            tell("x")
            assert (told.stat().st_size > size) is is_written, (full, size)


def test_a_log_that_was_made_anew(host: Host) -> None:
    """Whoever has the real keys signs another checkpoint of the same number, or one that follows on
    another: both are kept, and it is told at once.
    """
    lines = in_a_row(3)
    other = signed(2, signature_of(lines[0]), more="\nx")
    host.takes(*lines, other, other, signed(4, signature_of(other)))
    assert host.kept.startswith(b"".join(lines) + other) and host.kept.count(b"\n") == 5
    first, second = host.told.splitlines()
    came = datetime.strptime(first.partition(" ")[0], "%Y-%m-%dT%H:%M:%SZ")
    assert abs(came - datetime.now(timezone.utc).replace(tzinfo=None)) < timedelta(minutes=10)
    text = "checkpoint 2 came otherwise before, in line 2: the log was made anew"
    rest = "; what came first is of another log, lines 1 to 3"
    assert first.endswith("%s, line 4: %s%s" % (NAME, text, rest))
    assert "line 5: checkpoint 4 follows on another one than the 3 that came before" in second
    assert second.endswith(rest)
    kept = read_outside(host.folder / NAME)
    (found,) = contradicted(kept)
    assert "checkpoint 2 is another in %s, line 4 than in %s, line 2" % (NAME, NAME) in found.text
    assert not list(contradicted(kept[:3]))
    again = Host(host.folder)
    again.takes(signed(3, signature_of(other)))
    assert host.told.splitlines()[2].endswith(rest)


def test_a_line_that_was_not_written_whole(host: Host) -> None:
    """A receiver that was killed meanwhile leaves a piece, which the next one cuts off."""
    lines = in_a_row(3)
    (host.folder / NAME).write_bytes(lines[0] + lines[1][:100])
    host.takes(lines[1], lines[2])
    assert host.kept == b"".join(lines) and host.told == ""


def test_another_receiver_of_the_same_day(host: Host) -> None:
    """Each gateway has one: what either has kept the other knows."""
    second = Receiver(host.folder, host.receiver.keys, ["-"], Teller(host.folder), lambda: TODAY)
    lines = in_a_row(4)
    for line in lines:
        host.takes(line)
        second.take(line)
    second.take(signed(4, NONE, more="\nx"))
    assert host.kept.count(b"\n") == 5 and "checkpoint 4 came otherwise" in host.told
    host.takes(signed(4, NONE, more="\nx"))
    assert host.kept.count(b"\n") == 5


def test_a_file_has_a_limit(host: Host) -> None:
    """Root on a gateway's host can fill it, and takes nothing out of it by that."""
    lines = in_a_row(4)
    most = sum(map(len, lines[:2])) + 10
    host.receiver.days[NAME] = ReceivedDay(host.folder / NAME, most)
    host.takes(*lines)
    assert host.kept == b"".join(lines[:2])
    assert "checkpoint 3 is not kept: " in host.told


def test_days_beside_one_another(host: Host) -> None:
    """More than are held at one time: each is found again by its file."""
    days = ["202611%02d" % day for day in range(16, 27)]
    lines = {day: [signed(1, day=day), signed(2, day=day)] for day in days}
    for at in (0, 1, 0):
        host.takes(*[lines[day][at] for day in days])
    for day in days:
        assert (host.folder / ("day-%s.checkpoints" % day)).read_bytes().count(b"\n") == 2
    assert len(host.receiver.days) == 4


# ------------------------------------------------------------ the command


def received(
    folder: Path, data: bytes, limit: Callable[[], None] | None = None
) -> "subprocess.CompletedProcess[bytes]":
    key = folder / "gateway.pub"
    key.write_bytes(ledger.public_key())
    words = [str(AUDIT), "receive", str(folder), "--gateway-key", str(key), "--venue-name", "LDN"]
    return subprocess.run(
        words,
        input=data,
        capture_output=True,
        check=False,
        preexec_fn=limit,
        env={**os.environ, "SSH_CONNECTION": "192.0.2.7 50022 198.51.100.1 22"},
    )


def today_text() -> str:
    from mireseason_audit.checkpoints import today_in_utc

    return today_in_utc().strftime("%Y%m%d")


def test_the_command(tmp_path: Path) -> None:
    """Each line is on disk; one that is too long is passed over, and so is a last one without end."""
    day = today_text()
    lines = in_a_row(3, day, "LDN")
    long = signed(9, day=day, venue="LDN", more="x" * 9000)
    ran = received(tmp_path, lines[0] + long + lines[1] + lines[2][:-1])
    assert ran.returncode == 1 and ran.stdout == b""
    assert (tmp_path / ("LDN-%s.checkpoints" % day)).read_bytes() == lines[0] + lines[1]
    first, last = ran.stderr.decode().splitlines()
    assert "line 2 from 192.0.2.7 is not whole, or longer than 4096 bytes (1 line not" in first
    assert last.endswith("no more lines come (1 line not kept, 2 in all)")
    assert ran.stderr.decode() == (tmp_path / "told").read_text()


def test_a_contradiction_is_in_the_status(tmp_path: Path) -> None:
    """All lines are kept, and whoever looks at the status alone knows that one contradicts another."""
    day = today_text()
    lines = in_a_row(2, day, "LDN")
    lines.append(signed(2, signature_of(lines[0]), day, "LDN", more="\nx"))
    assert received(tmp_path, b"".join(lines[:2])).returncode == 0
    ran = received(tmp_path, lines[2])
    assert ran.returncode == 1 and b"checkpoint 2 came otherwise before" in ran.stderr
    assert (tmp_path / ("LDN-%s.checkpoints" % day)).read_bytes() == b"".join(lines)


def test_a_disk_without_room(tmp_path: Path) -> None:
    """It ends, and leaves whole lines."""
    day = today_text()
    lines = in_a_row(8, day, "LDN")
    most = sum(map(len, lines[:5])) + 100

    def limit() -> None:
        resource.setrlimit(resource.RLIMIT_FSIZE, (most, most))

    ran = received(tmp_path, b"".join(lines), limit)
    assert ran.returncode == 2 and ran.stderr.count(b"\n") == 1, ran.stderr
    assert b"can't be written to" in ran.stderr
    assert (tmp_path / ("LDN-%s.checkpoints" % day)).read_bytes() == b"".join(lines[:5])


@pytest.mark.parametrize(
    "words, told",
    [
        (["receive", "/nowhere", "--gateway-key", "x"], "/nowhere is no folder"),
        (["receive", "."], "--gateway-key"),
        (["receive", ".", "--gateway-key", "/nowhere.pub"], "/nowhere.pub can't be read"),
        (["receive", ".", "--gateway-key", "x", "--venue-name", "../x"], "is no name of a venue"),
    ],
)
def test_words_that_are_none(words: list[str], told: str) -> None:
    ran = subprocess.run([str(AUDIT), *words], input=b"", capture_output=True, check=False)
    assert ran.returncode == 2 and told in ran.stderr.decode() and ran.stderr.count(b"\n") == 1


def test_two_at_one_time(tmp_path: Path) -> None:
    """Two processes append to one file, and no line comes into another. The venue is the gateway's only one, so it has no name."""
    day = today_text()
    lines = in_a_row(200, day)
    key = tmp_path / "gateway.pub"
    key.write_bytes(ledger.public_key())
    words = [str(AUDIT), "receive", str(tmp_path), "--gateway-key", str(key)]
    both = [subprocess.Popen(words, stdin=subprocess.PIPE) for _ in range(2)]
    for at, line in enumerate(lines):
        for each in both if at % 3 == 0 else both[at % 2 : at % 2 + 1]:
            assert each.stdin is not None
            each.stdin.write(line)
            each.stdin.flush()
    for each in both:
        assert each.stdin is not None
        each.stdin.close()
        assert each.wait() == 0
    kept = (tmp_path / ("day-%s.checkpoints" % day)).read_bytes().splitlines(keepends=True)
    assert sorted(kept) == sorted(lines)
    assert not (tmp_path / "told").exists()


# ------------------------------------------------------------ a day that root made anew


def draw(path: Path, seed: int) -> list[bytes]:
    """A day by the same keys and the same program; its checkpoints, as the gateway sent them."""
    words = ["/usr/bin/python3", "-m", "tests.audit.draw_day", str(path), "--seed", str(seed)]
    words += ["--requests", "3", "--dealers", "2", "--investors", "1"]
    words += ["--sent", str(path.with_suffix(".sent")), "--", *venue_words()]
    subprocess.run(words, check=True, cwd=ROOT)
    return path.with_suffix(".sent").read_bytes().splitlines(keepends=True)


def test_a_day_that_root_made_anew(host: Host) -> None:
    """All is whole in it, and signed by the real key: what was received shows it."""
    true, made = host.folder / "true.db", host.folder / "made.db"
    host.takes(*draw(true, 1))
    draw(made, 2)
    kept = read_outside(host.folder / NAME)
    for path, is_found in ((true, False), (made, True)):
        with SqliteSource(path).open() as log:
            found = list(compared(log, log.day(), kept))
        assert bool(found) == is_found, (path, found)
    assert os.stat(host.folder / NAME).st_mode & 0o777 == 0o640
