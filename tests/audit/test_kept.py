"""What a session keeps: the venue's messages, its own, and what an operator's reset makes of both."""

import unittest
from collections.abc import Callable, Iterator
from dataclasses import dataclass, field
from typing import cast

from mireseason_audit.carrying import check_wire
from mireseason_audit.frame import fields_of, framed
from mireseason_audit.log import Log
from mireseason_audit.not_taken import not_taken_of
from mireseason_audit.records import Outgoing, Sent
from mireseason_audit.wire import carried, parts_of

from tests.audit.samples import ACCEPTED, REJECT, soh

FIRM = "DLR1"
REJECTED = "35=3|45=9|371=58|372=S|373=17|"
NOT_TAKEN = "35=j|45=9|372=S|379=<b>q1</b>|380=4|58=the clock was set|"
ANSWER = "35=0|112=any 1181=1 text|"


def kept(text: str) -> bytes:
    """A frame as a session keeps it."""
    return framed(fields_of(soh(text)))


def venue_frame(number: int, text: str) -> bytes:
    """A message of the venue under this number."""
    fields = fields_of(soh(text))[2:-1]
    return framed((tag, b"%d" % number if tag == 34 else value) for tag, value in fields)


@dataclass
class Kept:
    """A session that is read as a log has it."""

    given: list[Sent] = field(default_factory=list)
    rows: list[Outgoing] = field(default_factory=list)
    has_epochs: bool = True
    session_number_of: int = 4  # of the message that each Reject of the venue answers

    def sent(self, firm: str) -> Iterator[Sent]:
        return iter(self.given)

    def outgoing(self, firm: str) -> Iterator[Outgoing]:
        return iter(self.rows)

    def session_numbers(self, places: list[int]) -> dict[int, int]:
        return {place: self.session_number_of for place in places}

    def give(self, epoch: int, number: int, text: str = ACCEPTED) -> None:
        """The venue gives its next message, which the session keeps under this number."""
        own = len(self.given) + 1
        frame = venue_frame(own, text)
        self.given.append(Sent(FIRM, own, 10 * own, frame))
        parts = parts_of(frame)
        assert parts is not None
        body = b"35=" + parts.kind + carried(parts, self.session_number_of) + b"\x01"
        self.put(epoch, number, framed(fields_of(body)), own)

    def put(self, epoch: int, number: int, data: bytes, sent: int | None = None) -> None:
        kind = fields_of(data).firsts[35].decode()
        self.rows.append(
            Outgoing(FIRM, number, sent, data, epoch, 0, 0, kind, "09:00:%02d.000" % number)
        )

    def copy(self, epoch: int, number: int, original: Outgoing) -> None:
        self.rows.append(original._replace(epoch=epoch, number=number, copy=1))

    def faults(self) -> list[str]:
        return [found.text for found in check_wire(cast(Log, self), FIRM)]


def a_session() -> Kept:
    """Messages of the venue, a Reject of its own among them, and what the session says of itself."""
    log = Kept()
    log.give(0, 2)
    log.put(0, 4, kept(REJECTED))
    log.give(0, 5, REJECT)
    log.put(0, 6, kept(NOT_TAKEN))
    log.put(0, 9, kept(ANSWER))
    log.give(0, 10)
    return log


def a_reset() -> Kept:
    """The same, of which the firm had what has number 2; and two messages more."""
    log = a_session()
    log.copy(1, 2, log.rows[2])
    log.copy(1, 3, log.rows[5])
    log.give(1, 6)
    log.put(1, 7, kept(REJECTED))
    return log


class WhatASessionKeeps(unittest.TestCase):
    def test_all_is_right(self) -> None:
        self.assertEqual(a_session().faults(), [])

    def test_its_own_messages(self) -> None:
        """Each kind in its form; none that carries a message of the venue, and no other."""
        for text in (
            "35=3|45=9|",
            "35=3|45=9|373=17|58=words|",
            "35=3|1181=1|45=9|373=5|",
            "35=j|45=9|372=S|380=4|",
            "35=j|45=9|372=S|58=x|380=4|",
            "35=0|",
            "35=A|98=0|108=30|",
            "35=AI|131=R1|297=0|",
        ):
            log = a_session()
            log.put(0, 11, kept(text))
            self.assertEqual(len(log.faults()), 1, text)
        for text in (
            REJECTED,
            NOT_TAKEN,
            ANSWER,
            "35=3|45=0|373=0|",
            "35=j|45=9|372=R|380=0|58=x|",
        ):
            log = a_session()
            log.put(0, 11, kept(text))
            self.assertEqual(log.faults(), [], text)

    def test_marks(self) -> None:
        """What a row says of itself: each value on both sides of what it may be."""
        for at, more, is_right in (
            (1, {"dropped": 1}, True),
            (3, {"dropped": 1}, True),
            (4, {"dropped": 1}, False),
            (0, {"dropped": 1}, False),
            (0, {"copy": 1}, False),
            (1, {"copy": 2}, False),
            (1, {"kind": "j"}, False),
            (1, {"moment": "09:00:00"}, False),
            (1, {"moment": "24:00:00.000"}, False),
            (0, {"number": 1}, False),
            (1, {"number": 2}, False),
            (1, {"number": 3}, True),
            (0, {"sent": 2}, False),
            (2, {"sent": None}, False),
            (1, {"epoch": -1}, False),
        ):
            log = a_session()
            log.rows[at] = log.rows[at]._replace(**more)  # type: ignore[arg-type]
            self.assertEqual(not log.faults(), is_right, (at, more))

    def test_rows_left_out(self) -> None:
        """One of the venue's is missed; of the session's own no number says that it was there."""
        for at, row in enumerate(a_session().rows):
            log = a_session()
            del log.rows[at]
            self.assertEqual(not log.faults(), row.sent is None, at)

    def test_bytes(self) -> None:
        for at in range(6):
            log = a_session()
            data = log.rows[at].bytes
            log.rows[at] = log.rows[at]._replace(
                bytes=data[:30] + bytes([data[30] ^ 1]) + data[31:]
            )
            self.assertEqual(len(log.faults()), 1, at)

    def test_the_number_of_a_reject(self) -> None:
        """45 is the session's number of the message that is answered."""
        log = a_session()
        log.session_number_of = 5
        self.assertEqual(len(log.faults()), 1)

    def test_what_was_not_taken(self) -> None:
        found = not_taken_of(a_session().rows[3])
        self.assertEqual(found, ("09:00:06.000", "9", "S", "<b>q1</b>", "4", "the clock was set"))


class AReset(unittest.TestCase):
    def test_all_is_right(self) -> None:
        self.assertEqual(a_reset().faults(), [])
        again = a_reset()
        for number, original in enumerate((again.rows[7], again.rows[8]), 2):
            again.copy(2, number, original)
        self.assertEqual(again.faults(), [])
        none = a_session()
        none.give(1, 4)
        self.assertEqual(none.faults(), [])

    def test_copies(self) -> None:
        """Each is what it was in the epoch before, and all up to the last one are copied."""
        cases: dict[str, Callable[[Kept], Outgoing]] = {
            "another message": lambda log: log.rows[7]._replace(bytes=log.rows[0].bytes),
            "another moment": lambda log: log.rows[7]._replace(moment="10:00:00.000"),
            "another number of the venue's": lambda log: log.rows[7]._replace(sent=1),
            "no copy": lambda log: log.rows[7]._replace(copy=0),
        }
        for what, change in cases.items():
            log = a_reset()
            log.rows[7] = change(log)
            self.assertEqual(len(log.faults()), 1, what)
        for at in (6, 7):
            log = a_reset()
            del log.rows[at]
            # The first one that is copied may be any.
            self.assertEqual(not log.faults(), at == 6, at)

    def test_a_copy_behind_what_is_none(self) -> None:
        log = a_reset()
        log.copy(1, 9, log.rows[8])
        self.assertEqual(len(log.faults()), 1)


if __name__ == "__main__":
    unittest.main()
