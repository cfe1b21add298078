"""Drives messages between the wire and the venue by lines: crates/session_cases/src/crossing.rt has the calls and
their answers."""

import ctypes
from pathlib import Path

from tests.sessions.calls import sized
from tests.sessions.case_file import bytes_of
from tests.sessions.desk import framed, printed

MOST_OUT = 8192  # bytes of a frame
SOH = b"\x01"
REFUSED = "refused"  # C++ is not told why


def seen(data: bytes) -> str:
    """Bytes as the cases write them: a bar for SOH, and no other bar."""
    return "|".join(printed(part).replace("|", "\\x7c") for part in data.split(SOH))


def body_of(frame: bytes) -> bytes:
    """What stands between BodyLength and CheckSum."""
    return frame[frame.index(SOH, frame.index(SOH) + 1) + 1 : -len("10=000|")]


class Crossing:
    """The calls of a place `wire`."""

    def __init__(self, library: Path) -> None:
        self._library = ctypes.CDLL(str(library))
        self._tag, self._text, self._reference = 0, b"", 0

    def call(self, line: str) -> list[str]:
        name, _, rest = line.partition(" ")
        if name == "told":
            tag, _, text = rest.partition(" ")
            self._tag, self._text = int(tag), bytes_of(text)
            return []
        if name == "refers":
            self._reference = int(rest)
            return []
        way, _, form = name.partition("_")
        number, _, rest = rest.partition(" ")
        crossed = self._crossed(way, self._message(form, rest), int(number))
        return [self._answer(form, crossed) if crossed is not None else REFUSED]

    @staticmethod
    def _message(form: str, rest: str) -> bytes:
        if form == "bytes":
            return bytes_of(rest)
        if form == "long":
            length, _, rest = rest.partition(" ")
            return framed(bytes_of(rest) + b"5000=%s\x01" % (b"x" * int(length)))
        return framed(bytes_of(rest))

    @staticmethod
    def _answer(form: str, frame: bytes) -> str:
        if form == "long":
            return "%d bytes" % len(body_of(frame))
        return seen(frame if form == "bytes" else body_of(frame))

    def _crossed(self, way: str, message: bytes, number: int) -> bytes | None:
        out, written = ctypes.create_string_buffer(MOST_OUT), ctypes.c_size_t()
        place = (out, ctypes.c_size_t(MOST_OUT), ctypes.byref(written))
        call = getattr(self._library, "model_wire_" + way)
        call.restype = ctypes.c_bool
        told: tuple[object, ...] = ()
        if way == "out":
            told = (
                ctypes.c_uint64(self._reference),
                ctypes.c_uint32(self._tag),
                *sized(self._text),
            )
        is_done = call(*sized(message), ctypes.c_uint32(number), *told, *place)
        return out.raw[: written.value] if is_done else None
