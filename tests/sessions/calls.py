"""Calls the second implementation as gateway/src/session/fix_sessions.h has it."""

import ctypes
from dataclasses import dataclass
from pathlib import Path

MOST_OUT = 3 * 4096  # bytes of a turn
FIRM, VENUE, DATE = b"DLR1", b"VENUE", b"20250314"
ORDERS = ("open", "close", "suspend", "resume", "release", "reset")


def numbers(names: str) -> list[tuple[str, type[ctypes.c_uint64]]]:
    return [(name, ctypes.c_uint64) for name in names.split()]


def marks(names: str) -> list[tuple[str, type[ctypes.c_bool]]]:
    return [(name, ctypes.c_bool) for name in names.split()]


class Day(ctypes.Structure):
    _fields_ = [
        *numbers("expected next had first_given last_given last_kept"),
        *marks("is_one_free was_taken is_reset"),
        *numbers("reset_at"),
        *marks("is_locked"),
        *numbers("last_logon"),
        *marks("is_open is_suspended"),
    ]


class Line(ctypes.Structure):
    _fields_ = [
        *numbers("connection heartbeat received sent gap gap_since again again_end fresh split"),
        *numbers("first_test last_test test_since overtook settling_since"),
        *marks("is_settled is_held is_asked is_test_due is_request_due"),
    ]


class Waiting(ctypes.Structure):
    _fields_ = [*numbers("connection since"), *marks("is_alive")]


class SessionState(ctypes.Structure):
    _fields_ = [
        ("day", Day),
        ("phase", ctypes.c_uint32),
        ("line", Line),
        *numbers("connection since"),
        *marks("waits"),
        ("waiting", Waiting),
    ]


class Sent(ctypes.Structure):
    _fields_ = [*numbers("number"), ("len", ctypes.c_size_t), *marks("is_kept")]


class Told(ctypes.Structure):
    _fields_ = [
        *numbers("connection"),
        ("first", Sent),
        ("second", Sent),
        ("kept_len", ctypes.c_size_t),
        *numbers("takes"),
        *marks("drops_rejects"),
        ("ending", ctypes.c_uint32),
        ("notice", ctypes.c_uint32),
    ]


class FoundNext(ctypes.Structure):
    _fields_ = [
        ("skip", ctypes.c_size_t),
        ("kind", ctypes.c_uint32),
        ("len", ctypes.c_size_t),
    ]


class Wanted(ctypes.Structure):
    _fields_ = [("kind", ctypes.c_uint32), *numbers("number")]


@dataclass(frozen=True)
class Turn:
    """What one event did."""

    told: Told
    first: bytes  # what leaves,
    second: bytes  # and what leaves behind it
    kept: bytes  # under the first one's number


@dataclass(frozen=True)
class Denial:
    """Why the gateway does not take a message."""

    reason: int
    name: bytes
    text: bytes


class Session:
    """A session, call by call."""

    def __init__(self, library: Path) -> None:
        self._library = ctypes.CDLL(str(library))
        self.state = SessionState()
        self.moment = 0  # milliseconds of the day
        self.desk = b""
        self._call("new", None)(ctypes.byref(self.state))

    def _call(self, name: str, result: type[ctypes.c_bool] | None) -> "ctypes._NamedFuncPointer":
        call = getattr(self._library, "model_" + name)
        call.restype = result
        return call  # type: ignore[no-any-return]

    def _turn(self, name: str, *arguments: object) -> Turn:
        told = Told()
        out = ctypes.create_string_buffer(MOST_OUT)
        names = [text for name in (FIRM, VENUE, self.desk, DATE) for text in sized(name)]
        is_done = self._call(name, ctypes.c_bool)(
            ctypes.byref(self.state),
            *names,
            ctypes.c_uint32(self.moment),
            *arguments,
            out,
            ctypes.c_size_t(MOST_OUT),
            ctypes.byref(told),
        )
        assert is_done, name
        first, second = told.first.len, told.first.len + told.second.len
        raw = out.raw[: second + told.kept_len]
        return Turn(told, raw[:first], raw[first:second], raw[second:])

    def came(self, connection: int, data: bytes, is_known: bool, denial: Denial | None) -> Turn:
        said = denial or Denial(0, b"", b"")
        return self._turn(
            "came",
            ctypes.c_uint64(connection),
            *sized(data),
            ctypes.c_bool(is_known),
            ctypes.c_bool(denial is not None),
            ctypes.c_uint64(said.reason),
            *sized(said.name),
            *sized(said.text),
        )

    def given(self, frame: bytes) -> Turn:
        return self._turn("given", *sized(frame))

    def hands(self, next_kept: int, frame: bytes, first: int, is_copy: bool) -> Turn:
        return self._turn(
            "hands",
            ctypes.c_uint64(next_kept),
            *sized(frame),
            ctypes.c_uint32(first),
            ctypes.c_bool(is_copy),
        )

    def tick(self) -> Turn:
        return self._turn("tick")

    def ordered(self, order: str, copies: int) -> Turn:
        return self._turn("ordered", ctypes.c_uint32(ORDERS.index(order)), ctypes.c_uint64(copies))

    def log_out(self, text: bytes) -> Turn:
        return self._turn("log_out", *sized(text))

    def gone(self, connection: int) -> None:
        self._call("gone", None)(ctypes.byref(self.state), ctypes.c_uint64(connection))

    def wants(self) -> Wanted:
        wanted = Wanted()
        self._call("wants", None)(ctypes.byref(self.state), ctypes.byref(wanted))
        return wanted

    def next(self, stream: bytes) -> FoundNext:
        found = FoundNext()
        self._call("next", None)(*sized(stream), ctypes.byref(found))
        return found


def sized(text: bytes) -> tuple[bytes, ctypes.c_size_t]:
    return text, ctypes.c_size_t(len(text))
