"""A firm that is played, at a gateway that a test speaks for: its numbers, what it answers, and what it counts."""

from __future__ import annotations

import socket
import threading
from collections.abc import Iterator
from contextlib import closing

import pytest
from mireseason_certify import played as module
from mireseason_certify.frames import FrameStream, Message, message_of, written
from mireseason_certify.played import Identity, NotAnswered, PlayedFirm
from mireseason_certify.ports import HOST

from tests.gateway.wait import LONG

LIMIT = LONG
WHO = Identity("ELGIN", "T07", "word")


class Gateway:
    """The end of a firm's line."""

    def __init__(self) -> None:
        self.server = socket.create_server((HOST, 0))
        self.server.settimeout(LIMIT)
        self.stream, self.next = FrameStream(), 1
        self.waiting: list[Message] = []

    @property
    def port(self) -> int:
        return int(self.server.getsockname()[1])

    def take(self) -> None:
        self.line, _ = self.server.accept()
        self.line.settimeout(LIMIT)

    def hears(self) -> Message:
        """The firm's next message."""
        while not self.waiting:
            data = self.line.recv(1 << 16)
            assert data, "the line has ended"
            self.waiting += self.stream.take(data)
        return self.waiting.pop(0)

    def say(self, kind: str, *fields: tuple[int, str], number: int = 0) -> None:
        raw = written(kind, "VENUE", number or self.next, fields)
        self.next += 0 if number else 1
        self.line.sendall(raw)


@pytest.fixture
def gateway() -> Iterator[Gateway]:
    made = Gateway()
    with closing(made.server):
        yield made


@pytest.fixture
def firm(gateway: Gateway, monkeypatch: pytest.MonkeyPatch) -> Iterator[PlayedFirm]:
    """One that has logged on, and says nothing by itself, however long a test takes."""
    monkeypatch.setattr(module, "HEARTBEAT", 2 * LONG)
    made = PlayedFirm(WHO, gateway.port)
    log_on(made, gateway)
    yield made
    made.log_out()


def log_on(firm: PlayedFirm, gateway: Gateway) -> Message:
    thread = threading.Thread(target=firm.log_on)
    thread.start()
    gateway.take()
    logon = gateway.hears()
    gateway.say("A")
    thread.join(LIMIT)
    assert not thread.is_alive()
    return logon


def test_its_logon(gateway: Gateway) -> None:
    firm = PlayedFirm(WHO, gateway.port)
    logon = log_on(firm, gateway)
    tags = (35, 49, 56, 34, 98, 108, 553, 554, 1137)
    assert [logon.get(tag) for tag in tags] == [
        *("A", "ELGIN", "VENUE", "1", "0", "5", "ELGIN", "word", "9")
    ]
    firm.log_out()
    while (said := gateway.hears()).kind == "0":
        pass  # on a busy machine it says that it is there before
    assert said.kind == "5"
    with pytest.raises(NotAnswered, match="ELGIN is not logged on"):
        firm.send("S", [])


def test_what_it_sends(firm: PlayedFirm, gateway: Gateway) -> None:
    """In its trader's name, with its numbers in their order, also over the next connection."""
    firm.send("S", [(117, "q")])
    said = gateway.hears()
    assert (said.kind, said.number, said.get(50), said.get(117)) == ("S", 2, "T07", "q")
    firm.log_out()
    assert gateway.hears().number == 3
    assert log_on(firm, gateway).number == 4
    firm.begins_day()
    firm.send("S", [])
    assert gateway.hears().number == 1


def test_what_it_is_sent(firm: PlayedFirm, gateway: Gateway) -> None:
    """Each message of the market once, by its 1181, whatever is sent again."""
    for given, number in (("1", 0), ("2", 0), ("2", 2), ("1", 2)):
        gateway.say("AI", (131, given), (1181, given), number=number)
    gateway.say("AI", (131, "last"), (1181, "3"))
    assert firm.wait("the last", lambda one: one.get(131) == "last").get(1181) == "3"
    assert firm.count() == 3
    assert firm.wait("one", lambda one: True).get(1181) == "1"
    assert firm.wait("one", lambda one: True, 1).get(1181) == "2"
    with pytest.raises(NotAnswered, match="ELGIN is not sent a fourth"):
        firm.wait("a fourth", lambda one: one.get(1181) == "4", seconds=0.01)


def test_what_it_answers(firm: PlayedFirm, gateway: Gateway) -> None:
    """A TestRequest by its name; a ResendRequest by a gap that is filled up to its next number."""
    gateway.say("1", (112, "are you there"))
    said = gateway.hears()
    assert (said.kind, said.get(112)) == ("0", "are you there")
    gateway.say("2", (7, "1"), (16, "0"))
    said = gateway.hears()
    fields = (said.kind, said.number, said.get(123), said.get(36), said.is_again)
    assert fields == ("4", 1, "Y", "3", True)
    # 43 and 122 stand in the header, where the venue looks for them.
    tags = [tag for tag, _ in said.fields]
    assert tags.index(43) < tags.index(122) < tags.index(123) < tags.index(36)


def test_a_gap(firm: PlayedFirm, gateway: Gateway) -> None:
    """It asks from the first that it lacks, of a Logon or a TestRequest; what was filled is none."""
    gateway.say("AI", (1181, "2"), number=5)
    gateway.say("1", (112, "x"), number=6)
    asked = gateway.hears()
    assert (asked.kind, asked.get(7), asked.get(16)) == ("2", "2", "0")
    assert gateway.hears().kind == "0"
    gateway.say("4", (123, "Y"), (36, "6"), number=2)
    gateway.say("1", (112, "y"), number=6)
    assert gateway.hears().get(112) == "y", "the gap is filled"
    gateway.say("1", (112, "z"), number=8)
    assert gateway.hears().get(7) == "7"


def test_that_it_is_there(
    firm: PlayedFirm, gateway: Gateway, monkeypatch: pytest.MonkeyPatch
) -> None:
    monkeypatch.setattr(module, "HEARTBEAT", 0.1)
    said = gateway.hears()
    assert (said.kind, said.get(112)) == ("0", "")


def test_a_gateway_that_is_not_there(monkeypatch: pytest.MonkeyPatch) -> None:
    monkeypatch.setattr(module, "LOGON", 0.3)
    with socket.create_server((HOST, 0)) as server:
        port = server.getsockname()[1]
    with pytest.raises(NotAnswered, match="ELGIN can't log on to the venue"):
        PlayedFirm(WHO, port).log_on()


def test_a_logon_that_is_refused(gateway: Gateway, monkeypatch: pytest.MonkeyPatch) -> None:
    """It tries again, until it is let in."""
    firm = PlayedFirm(WHO, gateway.port)
    thread = threading.Thread(target=firm.log_on)
    thread.start()
    gateway.take()
    assert message_of(gateway.hears().raw).kind == "A"
    gateway.line.close()
    gateway.stream = FrameStream()
    gateway.take()
    assert gateway.hears().kind == "A"
    gateway.say("A")
    thread.join(LIMIT)
    assert not thread.is_alive()
    firm.log_out()
