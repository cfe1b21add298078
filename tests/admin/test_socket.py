"""Who may use the operator's socket, and what it accepts from those who may."""

import json
import resource
import shutil
import socket
import subprocess
import time

import pytest

from tests.admin.operator import (
    acts,
    admin,
    answer_to,
    audit,
    connected,
    did,
    firm_row,
    is_root,
    rest_of,
    said_as,
    socket_of,
)
from tests.gateway.stage import Stage
from tests.gateway.wait import LONG, until, within
from tests.harness.budget import Budget, seconds_of

STATUS = b"1 text status\n"
NEEDS_ROOT = pytest.mark.skipif(not is_root(), reason="to call as another user needs root")


@pytest.fixture
def desk(stage: Stage) -> Stage:
    """A stage whose gateway has an operator's socket, for the group daemon where the tests are root's."""
    stage.door.operators = "daemon" if is_root() else ""
    return stage


def test_what_an_operator_sees(desk: Stage) -> None:
    """Status and firms, for people and as JSON; the help; wrong words; and no gateway."""
    desk.open(desk.dealer, desk.investor)
    text = did(desk, "status")
    assert "state " in text and "open" in text and "takes_business" in text, text
    row = firm_row(desk, "DLR1")
    assert (
        row["logged_on"]
        and row["address"].startswith("127.0.0.1:")
        and row["day_bytes_limit"] == 1 << 30
    ), row
    assert firm_row(desk, "DLR2")["logged_on"] == ""
    help_text = did(desk, "--help")
    for command in json.loads(did(desk, "--json", "help"))["rows"]:
        name = command["command"].split(" [")[0]
        assert name in help_text, "--help has no %s" % name
    for words, status, said in (
        (("limt",), 1, "there is no command `limt`; `limit`?: `help` lists them"),
        (("stauts",), 1, "`status`?"),
        (("status", "now"), 1, "usage: status"),
        (("limit", "NOBODY", "day_bytes=100000"), 1, "the venue has no firm NOBODY"),
        (("limit", "DLR1", "day_byte=100000"), 1, "there is no limit `day_byte`"),
        (("limit", "DLR1", "day_bytes=1"), 1, "is a number from 65536 to"),
        (("limit", "DLR1", "day_bytes=-1"), 1, "is a number from 65536 to"),
        (("limit", "DLR1", "day_bytes=99999999999999999999"), 1, "is a number from 65536 to"),
        (("clock", "accept"), 1, "the clock is not in doubt"),
        (("log", "accept-loss"), 1, "say why: --because"),
        (("log", "accept-loss", "--because", "why"), 1, "no log waits to be accepted"),
        (("status", "--because"), 2, "usage: mireseason-admin"),
        ((), 2, "usage: mireseason-admin"),
    ):
        answer = admin(desk, *words)
        assert answer.status == status and said in answer.err, "%s: %d %s" % (
            words,
            answer.status,
            answer.text,
        )
    fault = admin(desk, "--json", "clock", "accept")
    assert json.loads(fault.out)["error"].startswith("the clock is not in doubt"), fault.text
    assert acts(desk) == [], "a call that was not done stands in the log"
    desk.door.stop()
    assert not socket_of(desk).exists(), "a gateway that has ended leaves its socket"
    gone = admin(desk, "status")
    assert gone.status == 3 and "no gateway answers" in gone.err, gone.text


@NEEDS_ROOT
def test_who_may(desk: Stage) -> None:
    """Members of the group may, and the log says who it was. Another user can't connect; and where the socket's mode is spoiled,
    the gateway refuses it all the same."""
    desk.open()
    path = socket_of(desk)
    assert path.stat().st_mode & 0o777 == 0o660
    assert said_as("daemon", "daemon", path, STATUS).startswith("ok\n")
    assert said_as("daemon", "daemon", path, b"1 text limit DLR1 day_bytes=700000\n").startswith(
        "ok\n"
    )
    assert b" daemon(1) limit DLR1 day_bytes=700000" in acts(desk)[-1]
    # One whose first group is another: a user's own group, as a rule.
    assert said_as("nobody", "nogroup", path, STATUS, ("daemon",)).startswith("ok\n")
    assert said_as("nobody", "nogroup", path, STATUS) == "no Permission denied\n"
    path.chmod(0o666)
    for line in (STATUS, b"1 text limit DLR1 day_bytes=800000\n"):
        refused = said_as("nobody", "nogroup", path, line)
        assert refused.startswith("error\nyou may not"), refused
    assert len(acts(desk)) == 1
    assert "operator refused who=nobody(65534)" in desk.door.told.read_text()


def test_lines_that_are_none(desk: Stage) -> None:
    """A megabyte without a line feed, control bytes, a request of another form: an error, and nothing else."""
    desk.open()
    path = socket_of(desk)
    for data, said in (
        (b"x" * 1_000_000, b"the line has more than 1024 bytes"),
        (b"1 text " + b"x" * 2000 + b"\n", b"the line has more than 1024 bytes"),
        (b"\n", b"no request"),
        (b"1\n", b"no request"),
        (b"1 text\n", b"no request"),
        (b"2 text status\n", b"no request"),
        (b"1 html status\n", b"no request"),
        (b"1 text status\x00\n", b"no request"),
        (b"1 text \x1b[2J\n", b"no request"),
        (b"1 text stat%us\n", b"no request"),
        (b"1 text %0\n", b"no request"),
        (b"1 text  status\n", b"no request"),
        (b"1 text sta%0atus\n", b"there is no command `sta?tus`"),
        (b"1 text status \xff\n", b"no request"),
    ):
        answer = answer_to(path, data)
        assert answer.startswith(b"error\n") and said in answer, "%r is answered %r" % (
            data[:40],
            answer,
        )
        assert all(byte == 10 or 32 <= byte < 127 for byte in answer), answer
    # What stands behind the line is nobody's.
    assert answer_to(path, STATUS + b"1 text limit DLR1 day_bytes=70000\n").startswith(b"ok\n")
    assert acts(desk) == []


def test_a_half_line_that_is_left_open(desk: Stage) -> None:
    """It is told so after two seconds and closed; others are answered meanwhile."""
    desk.open()
    with connected(socket_of(desk)) as half:
        half.sendall(STATUS[:-1])
        Budget("an answer beside a half line", most=2).hold(
            lambda: seconds_of(lambda: did(desk, "status"))
        )
        assert rest_of(half) == b"error\nno whole line came within 2 s\n"


def test_connections_without_end(desk: Stage) -> None:
    """A thousand connections of one user that say nothing: four are kept, for two seconds, and the others are told so. Another
    user is answered, and firms trade meanwhile."""
    desk.open(*desk.firms)
    limits = resource.getrlimit(resource.RLIMIT_NOFILE)
    if 0 <= limits[0] < 2048:
        resource.setrlimit(resource.RLIMIT_NOFILE, (2048, limits[1]))
    path = socket_of(desk)
    held: list[socket.socket] = []
    began = time.monotonic()
    try:
        for _ in range(1000):
            held.append(connected(path))
        if is_root():
            assert said_as("daemon", "daemon", path, STATUS).startswith("ok\n")
        desk.auction()
        answers = [rest_of(each) for each in held]
    finally:
        for each in held:
            each.close()
        resource.setrlimit(resource.RLIMIT_NOFILE, limits)
    refused = sum(b"you have 4 connections already" in each for each in answers)
    late = sum(b"no whole line came" in each for each in answers)
    # One that was refused may be told nothing where it was closed with the rest: none is left open.
    assert refused + late == 1000, "%d refused, %d late" % (refused, late)
    assert late <= 4 * (1 + (time.monotonic() - began) / 2), "%d were kept" % late
    assert within(LONG, lambda: admin(desk, "status").status == 0)
    told = desk.door.told.read_text().count("operator refused")
    assert told <= 10 * (1 + (time.monotonic() - began) / 60), (
        "%d lines of the events for one who comes again and again" % told
    )


# Holds four connections that say nothing, and makes each anew that is closed; prints each answer that is another one.
HOLDER = """
import select, socket, sys
path, told, held = sys.argv[1], set(), []
while not select.select([sys.stdin], [], [], 0.01)[0]:
    while len(held) < 4:
        held.append(socket.socket(socket.AF_UNIX))
        held[-1].connect(path)
    for each in select.select(held, [], [], 0)[0]:
        answer = each.recv(65536).decode()
        if not answer:
            held.remove(each)
        elif answer not in told:
            told.add(answer)
            print(answer.splitlines()[-1], flush=True)
"""
USERS = ("root", "daemon", "bin", "sys", "nobody")  # of each of them 4, so 20 in all


@NEEDS_ROOT
def test_connections_of_many_users(desk: Stage) -> None:
    """There are 16 at a time, whoever has them: the next one is told so at once. Once they are closed all is as before."""
    desk.open()
    told = desk.folder / "holders"
    holders = [
        subprocess.Popen(
            ["/usr/bin/python3", "-c", HOLDER, str(socket_of(desk))],
            stdin=subprocess.PIPE,
            stdout=told.open("ab"),
            user=user,
            extra_groups=["daemon"],
            cwd="/",
        )
        for user in USERS
    ]
    try:
        until(
            "one connection is too many",
            LONG,
            lambda: "there are 16 connections already" in told.read_text(),
        )
    finally:
        for holder in holders:
            holder.communicate(timeout=LONG)
    assert [holder.returncode for holder in holders] == [0] * len(USERS)
    assert within(LONG, lambda: admin(desk, "status").status == 0)


def test_a_reason_with_any_bytes(desk: Stage) -> None:
    """Line feeds, control bytes, `#` and quotation marks in a reason: one line in the log, which the venue ignores, and which the
    audit shows with who and when."""
    desk.open(*desk.firms)
    reason = (
        'x"\n# act 00:00:00.000 mallory(9) clock accept\r\x1b[2J\x00'.replace("\x00", "")
        + "\\ \u00e9"
    )
    did(desk, "limit", "DLR1", "day_bytes=70000000", "--because", reason)
    (line,) = acts(desk)
    text = rb'because="x\x22\x0a# act 00:00:00.000 mallory(9) clock accept\x0d\x1b[2J\x5c \xc3\xa9"'
    assert line.endswith(b" limit DLR1 day_bytes=70000000 " + text), line
    assert (
        len([entry for entry in desk.door.ledger().entries if b"\n" in entry.line]) == 1
    )  # place 0
    desk.auction()
    found = audit(desk, "acts")
    moment = line.split(b" ")[2].decode()
    assert (
        found.status == 0
        and "%s root(0): limit DLR1 day_bytes=70000000" % moment
        in found.out.replace(who(line), "root(0)")
    ), found.text
    assert "1 acts of operators" in found.out
    desk.whole()
    assert audit(desk, "check").status == 0, audit(desk, "check").text


def who(line: bytes) -> str:
    return line.split(b" ")[3].decode()


def test_a_reason_that_is_too_long(desk: Stage) -> None:
    """The act's line has 200 bytes at most: one byte more is refused, and nothing stands in the log."""
    desk.open()
    did(desk, "limit", "DLR1", "day_bytes=700000", "--because", "x")
    room = 200 - len(acts(desk)[-1]) + 1
    refused = admin(desk, "limit", "DLR1", "day_bytes=700001", "--because", "x" * (room + 1))
    assert (
        refused.status == 1 and "would have 201 bytes, and may have 200" in refused.err
    ), refused.text
    assert len(acts(desk)) == 1
    did(desk, "limit", "DLR1", "day_bytes=700001", "--because", "x" * room)
    assert len(acts(desk)[-1]) == 200


def test_a_socket_that_is_there(desk: Stage) -> None:
    """One that a killed gateway left is replaced; a file that is none, and another gateway's, are not."""
    desk.open()
    desk.door.kill()
    assert socket_of(desk).exists()
    desk.door.start()
    desk.door.wait_open()
    assert did(desk, "status")
    desk.door.stop()
    socket_of(desk).write_text("mine")
    desk.door.start()
    assert desk.door.wait_end() == 1
    assert "something stands there that is no socket" in desk.door.last_words()
    assert socket_of(desk).read_text() == "mine"
    socket_of(desk).unlink()
    with socket.socket(socket.AF_UNIX) as other:
        other.bind(str(socket_of(desk)))
        other.listen()
        desk.door.start()
        assert desk.door.wait_end() == 1
        assert "another gateway listens there" in desk.door.last_words()
    until("the socket of the other is there", LONG, socket_of(desk).exists)


@NEEDS_ROOT
def test_who_the_mode_keeps_out(stage: Stage) -> None:
    """The program says that its user may not, and not that no gateway is there."""
    stage.door.operators = ""
    stage.open()
    program = stage.door.programs.gateway.parent / "mireseason-admin"
    own = stage.folder / "mireseason-admin"
    shutil.copy(program, own)
    stage.folder.chmod(0o755)
    for path, words in (
        (socket_of(stage), "you may not use"),
        (stage.folder / "none.sock", "no gateway answers at"),
    ):
        done = subprocess.run(
            [str(own), "--socket", str(path), "status"],
            capture_output=True,
            text=True,
            user="nobody",
            group="nogroup",
            extra_groups=[],
            cwd="/",
            timeout=LONG,
            check=False,
        )
        assert done.returncode == 3 and words in done.stderr, done
