"""The relay between desk and gateway: it passes on each byte, and makes the faults that a case asks for."""

import contextlib
import socket
import threading
import time
from collections.abc import Callable, Iterator
from contextlib import closing
from dataclasses import dataclass

import pytest
from mireseason_certify import relay as relays
from mireseason_certify.frames import FrameStream, NoFrame, message_of, written
from mireseason_certify.ports import HOST, Port
from mireseason_certify.relay import By, Relay

from tests.gateway.wait import LONG

LIMIT = LONG
MANY = 20
FIRST = written("0", "DLR1", 1, [(112, "one")])
SECOND = written("0", "DLR1", 2, [(112, "two")])


@dataclass
class Ends:
    """A desk and a gateway, with a relay between them."""

    relay: Relay
    desk: socket.socket
    gateway: socket.socket


@pytest.fixture
def ends() -> Iterator[Ends]:
    with closing(Port()) as port, socket.create_server((HOST, port.number)) as server:
        server.settimeout(LIMIT)
        relay = Relay(0, port.number)
        desk = socket.create_connection((HOST, relay.port), LIMIT)
        gateway, _ = server.accept()
        gateway.settimeout(LIMIT)
        wait_for(relay.has_line)
        yield Ends(relay, desk, gateway)
        for end in (desk, gateway):
            end.close()
        relay.close()


def wait_for(is_so: Callable[[], bool]) -> None:
    until = time.monotonic() + LIMIT
    while not is_so():
        assert time.monotonic() < until
        time.sleep(0.01)


def read(end: socket.socket, count: int) -> bytes:
    data = b""
    while len(data) < count and (more := end.recv(count - len(data))):
        data += more
    return data


def test_each_byte_is_passed_on(ends: Ends) -> None:
    ends.desk.sendall(FIRST[:10])
    ends.desk.sendall(FIRST[10:] + SECOND)
    assert read(ends.gateway, len(FIRST + SECOND)) == FIRST + SECOND
    ends.gateway.sendall(SECOND)
    assert read(ends.desk, len(SECOND)) == SECOND
    seen = ends.relay.since(0)
    assert [(one.by, one.message.get(112)) for one in seen] == [
        (By.DESK, "one"),
        (By.DESK, "two"),
        (By.VENUE, "two"),
    ]


def test_what_is_no_frame_is_passed_on(ends: Ends) -> None:
    ends.desk.sendall(b"GET / HTTP/1.1\r\n\r\n")
    assert read(ends.gateway, 18) == b"GET / HTTP/1.1\r\n\r\n"


def test_a_lost_message(ends: Ends) -> None:
    ends.relay.lose(By.DESK, lambda one: one.number == 1)
    ends.desk.sendall(FIRST + SECOND)
    assert read(ends.gateway, len(SECOND)) == SECOND
    assert ends.relay.has_lost()
    assert [one.is_lost for one in ends.relay.since(0)] == [True, False]


def test_what_is_held_back(ends: Ends) -> None:
    ends.relay.hold()
    ends.gateway.sendall(FIRST)
    ends.desk.sendall(SECOND)  # the other direction goes on
    assert read(ends.gateway, len(SECOND)) == SECOND
    assert ends.relay.wait(By.VENUE, lambda one: True, 0, 0.2) is None
    ends.relay.let_go()
    assert read(ends.desk, len(FIRST)) == FIRST


def test_a_cut_line(ends: Ends) -> None:
    ends.relay.cut()
    assert ends.desk.recv(1) == b"" and ends.gateway.recv(1) == b""
    assert not ends.relay.has_line()


def test_a_line_that_is_there_again_at_once(ends: Ends) -> None:
    """Each cut ends, though the desk waits for nothing before it connects."""
    is_over = threading.Event()

    def connects() -> None:
        while not is_over.is_set():
            with socket.create_connection((HOST, ends.relay.port), LIMIT) as desk:
                desk.recv(1)

    def cuts() -> None:
        for _ in range(MANY):
            wait_for(ends.relay.has_line)
            ends.relay.cut()

    desk, case = (threading.Thread(target=run, daemon=True) for run in (connects, cuts))
    desk.start()
    case.start()
    case.join(LONG)
    assert not case.is_alive()
    is_over.set()
    ends.relay.cut()


def test_a_line_that_ends(ends: Ends) -> None:
    ends.gateway.close()
    assert ends.desk.recv(1) == b""
    wait_for(lambda: not ends.relay.has_line())


def test_what_has_come(ends: Ends) -> None:
    """Of one side, from a place on, the first that fits: what was lost on its way to the desk has not come, what the desk has
    sent has."""
    ends.relay.lose(By.DESK, lambda one: one.number == 1)
    ends.desk.sendall(FIRST + SECOND)
    assert read(ends.gateway, len(SECOND)) == SECOND
    ends.relay.lose(By.VENUE, lambda one: one.number == 1)
    ends.gateway.sendall(FIRST + SECOND)
    assert read(ends.desk, len(SECOND)) == SECOND

    def number(by: By, place: int, least: int = 0) -> int | None:
        found = ends.relay.wait(by, lambda one: one.number >= least, place, 0.0)
        return found.message.number if found else None

    assert (number(By.DESK, 0), number(By.DESK, 1), number(By.DESK, 0, 2)) == (1, 2, 2)
    assert (number(By.VENUE, 0), number(By.VENUE, 3), number(By.VENUE, 4)) == (2, 2, None)
    assert (ends.relay.count(), len(ends.relay.since(1))) == (4, 3)
    ends.relay.lose(By.DESK, lambda one: True)
    ends.relay.forget_losses()
    assert ends.relay.has_lost()


def test_what_was_held_back_is_given_in_its_order(ends: Ends) -> None:
    ends.relay.hold()
    ends.gateway.sendall(FIRST)
    ends.desk.sendall(b"x" * 30)
    assert read(ends.gateway, 30) == b"x" * 30
    ends.gateway.sendall(SECOND)
    ends.relay.let_go()
    assert read(ends.desk, len(FIRST + SECOND)) == FIRST + SECOND


def test_a_line_that_waits(ends: Ends) -> None:
    """It is taken once the pause is over, with what was said meanwhile."""
    ends.relay.pause(True)
    with socket.create_connection((HOST, ends.relay.port), LIMIT) as second:
        second.sendall(FIRST)
        ends.desk.sendall(SECOND)  # the other line goes on
        assert read(ends.gateway, len(SECOND)) == SECOND
        assert not ends.relay.has_line(2) and ends.relay.count() == 1
        ends.relay.pause(False)
        wait_for(lambda: ends.relay.count() == 2)
        assert ends.relay.since(1)[0].line == 2
        assert ends.relay.has_line(2) and ends.relay.has_line(1)


def test_how_long_a_desk_waits_before_it_logs_on(ends: Ends) -> None:
    """From the end of each line to the next one's Logon; the first has no line before it."""
    logon = written("A", "DLR1", 1, [])
    ends.desk.sendall(logon)
    wait_for(lambda: ends.relay.count() == 1)
    assert ends.relay.pauses(0) == []
    began = time.monotonic()
    ends.relay.cut()
    with socket.create_connection((HOST, ends.relay.port), LIMIT) as again:
        again.sendall(FIRST)
        time.sleep(0.1)
        again.sendall(logon)
        wait_for(lambda: ends.relay.count() == 3)
        (pause,) = ends.relay.pauses(0)
        assert 0.1 <= pause <= time.monotonic() - began
        assert ends.relay.pauses(1) == [pause] and ends.relay.pauses(3) == []


def test_a_gateway_that_reads_nothing(monkeypatch: pytest.MonkeyPatch) -> None:
    """The line is ended, so that a case goes on."""
    monkeypatch.setattr(relays, "STALLED", 0.2)
    with closing(Port()) as port, socket.create_server((HOST, port.number)) as server:
        server.setsockopt(socket.SOL_SOCKET, socket.SO_RCVBUF, 4096)
        with closing(Relay(0, port.number)) as relay:
            desk = socket.create_connection((HOST, relay.port), LIMIT)
            venue, _ = server.accept()
            wait_for(relay.has_line)
            with desk, venue:
                with contextlib.suppress(OSError):
                    desk.sendall(b"x" * (8 << 20))  # more than all buffers on its way take
                wait_for(lambda: not relay.has_line())


def test_how_many_lines_a_desk_has(ends: Ends) -> None:
    """Sixteen at one time; the next one is closed."""
    opened = [socket.create_connection((HOST, ends.relay.port), LIMIT) for _ in range(15)]
    wait_for(lambda: ends.relay.has_line(16))
    with socket.create_connection((HOST, ends.relay.port), LIMIT) as last:
        assert last.recv(1) == b""
    for one in opened:
        one.close()


def test_a_line_that_is_refused(ends: Ends) -> None:
    ends.relay.refuse(True)
    with socket.create_connection((HOST, ends.relay.port), LIMIT) as second:
        assert second.recv(1) == b""


@pytest.mark.parametrize(
    "data",
    [b"8=FIX.4.4\x019=5\x01", b"nothing", b"8=FIXT.1.1\x019=999999\x01", b"8=FIXT.1.1\x01910="],
)
def test_bytes_that_begin_no_frame(data: bytes) -> None:
    with pytest.raises(NoFrame):
        FrameStream().take(data + b" " * 40)


def test_a_message_in_parts() -> None:
    """Byte by byte, and two at once; what begins none is told once all before it is taken."""
    stream, found = FrameStream(), []
    for at in range(len(FIRST)):
        found += stream.take(FIRST[at : at + 1])
    assert [one.raw for one in found] == [FIRST]
    assert [one.number for one in stream.take(FIRST + SECOND + FIRST[:20])] == [1, 2]
    assert stream.rest() == FIRST[:20] and stream.rest() == b""
    assert [one.number for one in stream.take(FIRST + b"nothing" * 9)] == [1]
    with pytest.raises(NoFrame):
        stream.take(b"")


def test_how_long_a_message_may_be() -> None:
    """As long as the gateway takes it: 65,536 bytes."""
    body = 1 << 16
    head = len(b"8=FIXT.1.1\x019=65510\x01")
    most = body - head - len(b"10=123\x01")
    assert FrameStream().take(b"8=FIXT.1.1\x019=%d\x01" % most) == []
    with pytest.raises(NoFrame, match="a message of 65537 bytes"):
        FrameStream().take(b"8=FIXT.1.1\x019=%d\x01" % (most + 1))


def test_what_a_message_says() -> None:
    """Fields that are none have no tag; a number is one of nine digits at most."""
    said = message_of(b"8=FIXT.1.1\x0135=0\x0134=123456789\x0143=Y\x01x\x01y=1\x0134=5\x01")
    assert (said.kind, said.number, said.is_again, said.is_of_session) == (
        "0",
        123456789,
        True,
        True,
    )
    assert (said.get(0), said.get(7)) == ("", "") and (0, "1") in said.fields
    other = message_of(b"35=S\x0134=1234567890\x0143=N\x01")
    assert (other.number, other.is_again, other.is_of_session) == (0, False, False)
    assert message_of(b"34=-1\x01").number == 0


def test_a_password_is_not_told() -> None:
    text = message_of(written("A", "DLR1", 1, [(553, "DLR1"), (554, "secret")])).bars
    assert "secret" not in text and "|554=***|" in text
