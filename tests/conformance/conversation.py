"""Plays a definition against a gateway."""

from collections.abc import Callable
from contextlib import ExitStack
from dataclasses import dataclass, field
from datetime import datetime, timedelta, timezone

from tests.conformance.definition import Act, Line, fault_in, filled, message_of
from tests.gateway.firm import Received
from tests.gateway.wire import Wire

SLACK = timedelta(seconds=5)  # by which a clock may be set while a message is on its way


class Departs(AssertionError):
    """The gateway does something else than the definition says."""


def moment_of(value: bytes) -> datetime:
    return datetime.strptime(value.decode(), "%Y%m%d-%H:%M:%S.%f").replace(tzinfo=timezone.utc)


@dataclass
class Conversation:
    """The connections of one definition, and what its names stand for."""

    port: int
    names: dict[str, str]
    limit: float  # seconds: the most that one message or the end of a connection may take
    operate: Callable[[str], None]  # what an operator does
    heard: list[bytes] = field(default_factory=list)
    _began: datetime = field(default_factory=lambda: datetime.now(timezone.utc))
    _wires: dict[int, Wire] = field(default_factory=dict)
    _joined: bytes = b""  # what leaves with the next that is said

    def play(self, lines: list[Line]) -> None:
        """Says and hears what the lines say, one after the other; Departs at the first that does not come true."""
        with ExitStack() as opened:
            for line in lines:
                if line.act is Act.CONNECT:
                    self._wires[line.connection] = opened.enter_context(Wire(self.port))
                    self._wires[line.connection].answers = False
                elif line.act is Act.OPERATOR:
                    self.operate(filled(line.text, self.names))
                else:
                    self._play(line, self._wires[line.connection])

    def _play(self, line: Line, wire: Wire) -> None:
        if line.act is Act.SAY:
            self._say(line, wire)
        elif line.act is Act.HEAR:
            self._hear(line, wire)
        elif line.act is Act.ENDS:
            self._end(line, wire)
        else:
            wire.socket.close()

    def _say(self, line: Line, wire: Wire) -> None:
        self._joined += message_of(filled(line.text, self.names))
        if not line.is_joined:
            wire.raw(self._joined)
            self._joined = b""

    def _hear(self, line: Line, wire: Wire) -> None:
        message = wire.read(self.limit)
        if message is None:
            raise Departs("%s: nothing comes; before: %r" % (line.at, self.heard[-3:]))
        self.heard.append(message.raw)
        fault = fault_in(line.text, self.names, message.raw) or self._fault_in_times(message)
        if fault:
            raise Departs("%s: %s: %r" % (line.at, fault, message.raw))

    def _fault_in_times(self, message: Received) -> str | None:
        """52 is the time at which it left, and 122 one before that."""
        sent, first = moment_of(message.given(52)), message.value(122)
        if not self._began - SLACK <= sent <= datetime.now(timezone.utc) + SLACK:
            return "52 is not now"
        return "122 is after 52" if first and moment_of(first) > sent else None

    def _end(self, line: Line, wire: Wire) -> None:
        if not wire.closed_within(self.limit):
            raise Departs("%s: the connection stands" % line.at)
        if wire.waiting:
            raise Departs("%s: before the connection ends comes %r" % (line.at, wire.waiting))
