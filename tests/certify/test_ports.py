"""A certification has its ports alone: the venue's, while its gateway is ended and started, the relay's, and the page's."""

import os
import socket
import time
from collections.abc import Iterator
from contextlib import closing
from pathlib import Path

import pytest
from mireseason_certify import own_venue as module
from mireseason_certify import ports
from mireseason_certify.draw import Draw
from mireseason_certify.own_venue import NoVenue, OwnVenue, Programs
from mireseason_certify.page import Page
from mireseason_certify.ports import HOST, Port, given_by_kernel
from mireseason_certify.relay import Relay
from mireseason_certify.telling import Telling

from tests.certify.desk import Desk

MANY = 200


@pytest.fixture
def own_venue(programs: Programs, tmp_path: Path) -> Iterator[OwnVenue]:
    with closing(OwnVenue(programs, tmp_path, Draw(1).cast("TESTDESK", "dealer"))) as made:
        made.write()
        yield made


def is_held(number: int) -> bool:
    """Whether the kernel keeps this port from whoever does not ask for it by its number: none of those it gives, and had."""
    with socket.socket() as other:
        try:
            other.bind((HOST, number))
        except OSError:
            return number not in given_by_kernel()
    return False


def test_a_venue_has_its_port_until_it_is_closed(own_venue: OwnVenue) -> None:
    assert is_held(own_venue.port), "before the gateway's first start"
    own_venue.start()
    assert is_held(own_venue.port)
    for end in (own_venue.kill, own_venue.stop):
        end()
        assert is_held(own_venue.port), "between two starts"
        own_venue.start()
        assert is_held(own_venue.port)
    own_venue.close()
    with socket.socket() as other:
        other.setsockopt(socket.SOL_SOCKET, socket.SO_REUSEADDR, 1)
        other.bind((HOST, own_venue.port))
        other.listen()


@pytest.mark.parametrize("is_first", [True, False])
def test_a_port_at_which_somebody_else_answers(own_venue: OwnVenue, is_first: bool) -> None:
    """The gateway ends at its start, and what it says of that is told, though somebody answers."""
    if not is_first:
        own_venue.start()
        own_venue.kill()
    with socket.create_server((HOST, own_venue.port)):
        with pytest.raises(NoVenue, match="%d: Address already in use" % own_venue.port):
            own_venue.start()


def test_a_gateway_that_does_not_start(own_venue: OwnVenue) -> None:
    """It says what was wrong this time, and nothing of the starts before."""
    own_venue.start()
    own_venue.stop()
    (own_venue.folder / "credentials.toml").unlink()
    with pytest.raises(NoVenue, match="credentials.toml") as told:
        own_venue.start()
    assert " ready " not in str(told.value)


def test_a_gateway_that_takes_too_long(
    own_venue: OwnVenue, monkeypatch: pytest.MonkeyPatch
) -> None:
    """It is ended, so that another one can have its day."""
    with monkeypatch.context() as impatient:
        impatient.setattr(module, "START", 0.0)
        with pytest.raises(NoVenue, match="does not start"):
            own_venue.start()
    own_venue.start()


def test_a_gateway_that_ends_at_once(tmp_path: Path) -> None:
    """What it says is told, the last of it."""
    program = tmp_path / "gateway"
    program.write_text("#!/bin/sh\nprintf 'first%02000d' 7\nexit 3\n")
    program.chmod(0o755)
    programs = Programs(program, program, ["venue"])
    cast = Draw(1).cast("TESTDESK", "dealer")
    with closing(OwnVenue(programs, tmp_path, cast)) as venue:
        began = time.monotonic()
        with pytest.raises(NoVenue, match="^the gateway does not start: 0{999}7$"):
            venue.start()
        assert time.monotonic() - began < module.START / 2, "its end is seen"
        with pytest.raises(NoVenue, match="an operator's halt is refused: first0"):
            venue.order("halt")


def test_its_passwords_are_for_nobody_else(tmp_path: Path) -> None:
    program = tmp_path / "gateway"
    program.write_text("#!/bin/sh\ncat\n")
    program.chmod(0o755)
    cast = Draw(1).cast("TESTDESK", "dealer")
    with closing(OwnVenue(Programs(program, program, ["venue"]), tmp_path, cast)) as venue:
        umask = os.umask(0)
        try:
            venue.write()
        finally:
            os.umask(umask)
    file = tmp_path / "credentials.toml"
    assert file.stat().st_mode & 0o777 == 0o600
    text = '[%s]\nusername = "%s"\npassword = "%s"\n'
    firms = [(one.name, one.name, one.password) for one in (*cast.dealers, *cast.investors)]
    assert file.read_text() == "".join(text % one for one in firms)


def test_ports_that_nobody_has_named() -> None:
    """Relay and page have none of those that the kernel gives, of which another's connection may be given the same next."""
    with closing(Port()) as gateway, closing(Relay(0, gateway.number)) as relay:
        with closing(Page(0, Telling())) as page:
            assert len({gateway.number, relay.port, page.port}) == 3
            assert all(map(is_held, (gateway.number, relay.port, page.port)))


def test_a_port_that_is_named() -> None:
    with closing(Port()) as port, closing(Relay(port.number, 1)) as relay:
        assert relay.port == port.number
        with pytest.raises(OSError):
            Page(port.number, Telling())


def test_a_port_that_somebody_has(monkeypatch: pytest.MonkeyPatch) -> None:
    """Another one is drawn; where there is none, that is said."""
    with closing(Port()) as taken:
        with closing(Port()) as free:
            number = free.number
        monkeypatch.setattr(ports, "to_be_drawn", lambda: [taken.number, number])
        for _ in range(10):
            with closing(Port()) as drawn:
                assert drawn.number == number
        monkeypatch.setattr(ports, "to_be_drawn", lambda: [taken.number])
        with pytest.raises(OSError, match="has no port that is free"):
            Port()


def test_what_each_program_says_of_itself(tmp_path: Path) -> None:
    for name in ("gateway", "venue"):
        (tmp_path / name).write_text(
            "#!/bin/sh\n[ $1 = --version ] && echo '%s 1'; echo more\n" % name
        )
        (tmp_path / name).chmod(0o755)
    programs = Programs(tmp_path / "gateway", tmp_path / "admin", [str(tmp_path / "venue")])
    assert programs.versions() == {"gateway": "gateway 1", "program": "venue 1"}
    (tmp_path / "silent").write_text("#!/bin/sh\n")
    (tmp_path / "silent").chmod(0o755)
    lame = Programs(tmp_path / "none", tmp_path / "none", [str(tmp_path / "silent")])
    assert lame.versions() == {"gateway": "unknown", "program": "unknown"}


def test_many_at_once() -> None:
    held = [Port() for _ in range(MANY)]
    try:
        assert len({one.number for one in held}) == MANY
        assert all(is_held(one.number) for one in held)
    finally:
        for one in held:
            one.close()


@pytest.mark.parametrize(
    "text, expected",
    [
        ("32768\t60999\n", {*range(10_000, 32_768), *range(61_000, 65_536)}),
        ("1024 65000\n", set(range(65_001, 65_536))),
        ("1024 65535\n", set(range(10_000, 65_536))),  # it gives all
        ("", set(range(10_000, 32_768))),
        (None, set(range(10_000, 32_768))),
    ],
)
def test_what_the_kernel_gives(
    text: str | None, expected: set[int], tmp_path: Path, monkeypatch: pytest.MonkeyPatch
) -> None:
    file = tmp_path / "range"
    if text is not None:
        file.write_text(text)
    monkeypatch.setattr(ports, "KERNEL_GIVES", file)
    assert set(ports.to_be_drawn()) == expected
    with closing(Port()) as port:
        assert port.number in expected


def test_a_desk_that_was_never_started() -> None:
    """Closing it hides nothing of what kept it from that."""
    with pytest.raises(NoVenue, match="no venue today"), closing(Desk(1)):
        raise NoVenue("no venue today")
