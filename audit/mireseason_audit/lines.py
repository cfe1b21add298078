"""Reads step lines as they stand in a log: whose message came, and its fields."""

from typing import NamedTuple

from .frame import Fields, barred, fields_of
from .records import SOH

NOTES = (b"act", b"clock", b"gateway")  # of lines that the venue ignores (notes.py)


class Came(NamedTuple):
    """A message that came from a firm."""

    firm: str
    time: str  # HH:MM:SS or HH:MM:SS.sss, as the line has it
    fields: Fields
    line: bytes
    frame: bytes | None  # None where the program frames it

    @property
    def text(self) -> str:
        """The bytes, a bar for each SOH; of a `say` line, the line."""
        return barred(self.line if self.frame is None else self.frame)


def came_of(line: bytes) -> Came | None:
    """The message of a line; None where it brings none, or a piece of one."""
    verb, _, rest = line.partition(b" ")
    if verb in (b"hex", b"in"):
        firm, _, rest = rest.partition(b" ")
        time, _, data = rest.partition(b" ")
        frame = frame_of(verb, data)
        if frame is None:
            return None
        return Came(decoded(firm), decoded(time), fields_of(frame), line, frame)
    if verb == b"say" and rest.count(b" ") >= 4:
        firm, trader, time, kind, body = rest.split(b" ", 4)
        fields = Fields([(35, kind), (50, trader), *fields_of(body.replace(b"|", SOH))])
        return Came(decoded(firm), decoded(time), fields, line, None)
    return None


def frame_of(verb: bytes, data: bytes) -> bytes | None:
    """The bytes of a `hex` or an `in` line."""
    if verb == b"in":
        return data.replace(b"|", SOH)
    try:
        return bytes.fromhex(data.decode("ascii"))
    except ValueError:
        return None


def decoded(data: bytes) -> str:
    return data.decode("utf-8", "replace")


def firm_and_time(line: bytes) -> tuple[str | None, str | None]:
    """Whose line it is, None of the clock's or a note, and its TIME; None of what has none."""
    words = line.split(b" ", 4)
    verb = words[0]
    if verb in (b"hex", b"in", b"piece") and len(words) >= 4:
        return decoded(words[1]), decoded(words[2])
    if verb == b"say" and len(words) == 5:
        return decoded(words[1]), decoded(words[3])
    if verb == b"clock" and len(words) == 2:
        return None, decoded(words[1])
    if verb == b"#" and len(words) >= 4 and words[1] in NOTES:
        return None, decoded(words[2])
    return None, None
