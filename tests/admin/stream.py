"""A dealer that quotes without a pause while an operator gives an order."""

import threading
from types import TracebackType

from tests.gateway.market import BOND
from tests.gateway.wait import LONG, until
from tests.gateway.wire import Fields, Wire

# The gateway always has some to take, and the log grows no faster than the venue answers.
PIECE = 10  # quotes that are sent at once
MOST_UNANSWERED = 50


def quote_fields(name: bytes, request: bytes = b"R1") -> Fields:
    return [(50, b"T1"), (117, name), (131, request), (48, BOND), (22, b"4"), (133, b"99.5")]


class Ended(Exception):
    """Why a stream can't go on."""


class Stream:
    """Quotes on the dealer's first request until it is told to end, each in the place of the one before, and reads what is
    answered. Where it has ended by itself, whoever waits for more of it is told why."""

    def __init__(self, wire: Wire) -> None:
        self.wire, self.sent, self.answered = wire, 0, 0
        self.ended = ""  # why, once it has
        self._unanswered: set[bytes] = set()
        self._last_words = b"nothing"  # of the gateway
        self._over = threading.Event()
        self._thread = threading.Thread(target=self._run)

    def __enter__(self) -> "Stream":
        self._thread.start()
        return self

    def __exit__(
        self,
        kind: type[BaseException] | None,
        fault: BaseException | None,
        trace: TracebackType | None,
    ) -> None:
        self._over.set()
        self._thread.join()

    def wait_for_more(self, more: int = 20) -> None:
        """Waits until so many more quotes are answered, which are in the log then; fails at once where it has ended."""
        before = self.answered

        def are_answered() -> bool:
            counts = "%d quotes, of which %d are answered" % (self.sent, self.answered)
            assert not self.ended, "the stream has ended after %s: %s" % (counts, self.ended)
            return self.answered >= before + more

        until("the stream goes on", 2 * LONG, are_answered)

    def _run(self) -> None:
        try:
            while not self._over.is_set():
                self._send()
                self._read_what_came()
                self._wait_for_room()
            self.ended = "it was told to"
        except Exception as fault:
            self.ended = repr(fault)

    def _send(self) -> None:
        names = [b"s%d" % (self.sent + at) for at in range(PIECE)]
        quotes = [self.wire.message(b"S", self.wire.name, quote_fields(name)) for name in names]
        self._unanswered.update(names)
        self.sent += PIECE
        if not self.wire.raw(b"".join(quotes)):
            self._has_ended()

    def _read_what_came(self) -> None:
        while self._read(0.0):
            pass

    def _wait_for_room(self) -> None:
        while len(self._unanswered) >= MOST_UNANSWERED and not self._over.is_set():
            if not self._read(LONG):
                raise Ended("nothing comes for %g s, the last was %r" % (LONG, self._last_words))

    def _read(self, limit: float) -> bool:
        """Takes one message; whether one came within the limit."""
        message = self.wire.read(limit)
        if message is None:
            if self.wire.is_over:
                self._has_ended()
            return False
        self._last_words = message.raw
        name = (
            message.value(117) or message.value(379) or b""
        )  # an answer, or a BusinessMessageReject
        if name in self._unanswered:
            self._unanswered.remove(name)
            self.answered += 1
        return True

    def _has_ended(self) -> None:
        raise Ended(
            "the gateway has ended the connection, its last words are %r" % self._last_words
        )
