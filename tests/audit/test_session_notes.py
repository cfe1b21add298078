"""What a session keeps, by its sealed notes alone: docs/RECOVERY.md has the rules, and each number here follows from it by hand."""

from collections.abc import Iterator
from dataclasses import dataclass, field
from hashlib import sha256

import pytest
from mireseason_audit.frame import fields_of, framed
from mireseason_audit.kept_rows import Given, kept_rows, own_rows
from mireseason_audit.records import Outgoing, SealRow
from mireseason_audit.session_notes import (
    LAST,
    Note,
    NotesByFirm,
    SessionNumbers,
    misnoted_session,
    note_of,
)

from tests.audit.samples import soh

FIRM = "DLR1"
NOTHING = bytes(32).hex()  # the running hash of no message
REJECT = r"45=9\x01371=58\x01372=S\x01373=17\x01"  # as a note has it


def line(
    kind: str,
    number: int,
    given: int = 0,
    *,
    epoch: int = 0,
    expected: int = 2,
    had: int = 0,
    hash_: str = NOTHING,
    more: str = "",
) -> bytes:
    """A note of a firm, in the order of its fields."""
    words = [FIRM, epoch, kind, number, expected, had, given, hash_, "09:00:%02d.000" % number]
    return " ".join(map(str, [*words, more] if more else words)).encode()


def note(kind: str, number: int, given: int = 0, **more: object) -> Note:
    found = note_of(line(kind, number, given, **more))  # type: ignore[arg-type]
    assert found is not None
    return found


def logon(number: int, given: int = 0, begins: str = "N", **more: object) -> Note:
    return note("A", number, given, more="63958000000000 " + begins, **more)


# ------------------------------------------------------------ a line


def test_what_a_note_says() -> None:
    text = line("j", 12, 34, epoch=5, expected=6, had=7, hash_="ab" * 32, more=r"45=9\x01\x22\x5c")
    assert note_of(text) == Note(
        5, "j", 12, 6, 7, 34, bytes.fromhex("ab" * 32), "09:00:12.000", b'45=9\x01"\\'
    )
    assert [logon(1, begins=letter).begins_anew for letter in "YN"] == [True, False]
    assert note("3", 4, more="45=9 Y").begins_anew is False
    assert [note(kind, 0, more="77 81").last for kind in "RL"] == [77, 0]
    assert note("R", 0, more="x 81").last == 0


NO_NOTES = {
    "a kind that there is not": (b" M ", b" B "),
    "two kinds": (b" M ", b" MM "),
    "a number below 0": (b" M 0 ", b" M -1 "),
    "a number of eleven digits": (b" M 0 ", b" M 12345678901 "),
    "no number": (b" M 0 ", b" M x "),
    "a hash in capitals": (b"0" * 64, b"AB" * 32),
    "a hash that is short": (b"0" * 64, b"0" * 63),
    "two blanks": (b" M ", b"  M "),
    "no moment": (b" 09:00:00.000", b""),
}


@pytest.mark.parametrize("name", NO_NOTES)
def test_what_is_no_note(name: str) -> None:
    right = line("M", 0)
    old, new = NO_NOTES[name]
    assert note_of(right) is not None and right.count(old) == 1
    assert note_of(right.replace(old, new)) is None


def test_whose_each_note_is() -> None:
    """Those of a firm in the order of the seals; a line that is no note is nobody's."""
    first, second, third = (line("0", number) for number in (2, 3, 4))
    other = first.replace(b"DLR1 ", b"DLR11 ")
    seals = [
        SealRow(1, 0, 0, first + b"\n" + other + b"\n"),
        SealRow(2, 0, 0, b""),
        SealRow(3, 0, 0, second + b"\n" + b"DLR1 what\n" + third + b"\n"),
    ]
    notes = NotesByFirm(seals)
    assert notes.firms() == ["DLR1", "DLR11"]
    assert [one.number for one in notes.of(FIRM)] == [2, 3, 4]
    assert [one.number for one in notes.of("DLR11")] == [2]
    assert list(notes.of("DLR")) == []
    notes.close()


# ------------------------------------------------------------ the numbers


def a_day() -> list[Note]:
    """Three messages of the venue before the reset, and one after it."""
    return [
        logon(1),  # number 1 is free
        note("0", 2),
        note("3", 5, 2, more=REJECT),  # the venue's first two got 3 and 4
        note("L", 0, 2, more="locked"),
        note("M", 0, 3, had=3),  # its third got 6
        logon(7, 3, had=3),
        note("5", 8, 3, had=3),
        note("R", 0, 3, had=3, more="77 81"),
        note("5", 1, 3, epoch=1),  # number 1 is free again
        note("2", 4, 3, epoch=1),  # two copies have 2 and 3
        logon(1, 3, "Y", epoch=1),  # and with 141=Y it is 1 anyway
        note("1", 5, 3, epoch=1),
        note("j", 7, 4, epoch=1, more=REJECT),
    ]


def misnumbered(notes: list[Note]) -> list[str]:
    """Of notes whose hashes are right."""
    found = misnoted_session(FIRM, [], [one._replace(hash=bytes(32)) for one in notes])
    return [one.text for one in found if one.text.startswith("note ")]


def test_numbers_that_are_due() -> None:
    assert misnumbered(a_day()) == []
    assert misnumbered([note("5", 1), logon(2)]) == []


# Of the day above: a note, counted from 1, what it says instead, and which is the first that does not follow.
WRONG_NUMBERS = [
    (1, {"number": 2}, 1),
    (2, {"number": 1}, 2),
    (2, {"number": 3}, 2),
    (3, {"number": 4}, 3),
    (3, {"given": 1}, 3),
    (3, {"given": 3}, 3),
    (4, {"number": 6}, 4),
    (4, {"given": 1}, 4),
    (5, {"number": 7}, 5),
    (5, {"given": 4}, 6),
    (6, {"number": 1}, 6),
    (7, {"number": 1}, 7),
    (8, {"number": 9}, 8),
    (8, {"epoch": 1}, 8),
    (8, {"had": 4}, 10),
    (8, {"had": 6}, 10),
    (9, {"epoch": 0}, 9),
    (9, {"number": 4}, 9),
    (10, {"number": 2}, 10),
    (11, {"number": 5}, 11),
    (11, {"fields": b"63958000000000 N"}, 11),
    (12, {"number": 6}, 12),
    (13, {"epoch": 2}, 13),
    (13, {"given": 2}, 13),
]


@pytest.mark.parametrize("at, more, first", WRONG_NUMBERS)
def test_a_number_that_is_not_due(at: int, more: dict[str, int], first: int) -> None:
    """The first of them is told, and no other."""
    notes = a_day()
    notes[at - 1] = notes[at - 1]._replace(**more)  # type: ignore[arg-type]
    assert misnumbered(notes) == [
        "note %d of its session does not follow on those before it" % first
    ]


@pytest.mark.parametrize("at", range(1, 14))
def test_a_note_that_is_left_out(at: int) -> None:
    """It is missed where a number follows on its own, or an epoch: not a mark or a lock, and not the last before a reset. Number 1 was
    the Logout's; the Logon with 141=Y has it anyway."""
    notes = a_day()
    del notes[at - 1]
    assert bool(misnumbered(notes)) == (at not in (4, 5, 7, 9, 11, 13))


def test_the_last_numbers() -> None:
    """Up to 999,999,990; what the venue gives beyond has none, nor where the firm has used up its own."""
    assert LAST == 999_999_990
    session = SessionNumbers()
    session.next = LAST - 1
    session.give(5)
    assert (session.next, session.given) == (LAST + 1, 5)
    assert [run.length for run in session.runs] == [2]
    for expected, kept in ((LAST, 3), (LAST + 1, 1)):
        session = SessionNumbers()
        session.take(note("M", 0, 1, expected=expected))
        session.give(2)
        assert session.next == 2 + kept - 1
        session.take(note("R", 0, 3, expected=expected, had=LAST, more="7 8"))
        session.give(1)  # an operator has had the numbers begin again
        assert session.next == 3


# ------------------------------------------------------------ the messages


def given(number: int, text: str = "", told: bytes | None = None, came: int | None = None) -> Given:
    """A message of the venue, as `sent` and its entry have it."""
    body = text or "35=AI|131=R%d|117=q|297=0|" % number
    kind, _, rest = body.partition("|")
    head = "%s|49=VENUE|56=%s|34=%d|52=20261125-09:10:%02d.000|" % (kind, FIRM, number, number)
    frame = framed(fields_of(soh(head + rest)))
    return Given(number, frame, told, "09:10:%02d.000" % number, came)


@dataclass
class Session:
    """What was given to a firm, and the notes of its session."""

    notes: list[Note]
    all: list[Given] = field(default_factory=lambda: [given(number) for number in range(1, 6)])

    def rows(self) -> list[Outgoing]:
        def given_from(number: int) -> Iterator[Given]:
            return iter(self.all[number - 1 :])

        return list(kept_rows(FIRM, self.notes, given_from))

    def shape(self) -> list[tuple[int, int | None, int, int, int, str]]:
        return [
            (row.number, row.sent, row.epoch, row.copy, row.dropped, row.kind)
            for row in self.rows()
        ]


def test_what_is_kept() -> None:
    """Of the day above, and a message behind its notes. Above 3, which the firm has answered, stand the second and the third of the
    venue's: they are copied, and no Reject is.
    """
    assert Session(a_day()).shape() == [
        (3, 1, 0, 0, 0, "AI"),
        (4, 2, 0, 0, 0, "AI"),
        (5, None, 0, 0, 0, "3"),
        (6, 3, 0, 0, 0, "AI"),
        (2, 2, 1, 1, 0, "AI"),
        (3, 3, 1, 1, 0, "AI"),
        (6, 4, 1, 0, 0, "AI"),
        (7, None, 1, 0, 0, "j"),
        (8, 5, 1, 0, 0, "AI"),
    ]


def test_what_the_firm_has_is_not_copied() -> None:
    """All that has a number up to HAD; with nothing above it there is no copy."""
    left: dict[int, list[int]] = {0: [1, 2, 3], 2: [1, 2, 3], 3: [2, 3], 5: [3], 6: [], 9: []}
    for had, copied in left.items():
        notes = a_day()[:8]
        notes[-1] = notes[-1]._replace(had=had)
        rows = Session(notes).shape()
        assert [(row[0], row[1]) for row in rows if row[3]] == list(enumerate(copied, 2)), had
        assert rows[-1][:3] == (3 + len(copied), 5, 1)


def test_copies_of_copies() -> None:
    """A second reset copies what has another number by then."""
    notes = [note("M", 0, 3, had=3), note("R", 0, 3, had=3, more="7 8")]  # 3 is left, as 2
    notes += [note("M", 0, 4, epoch=1), note("R", 0, 4, epoch=1, more="9 10")]  # 3 and 4
    assert Session(notes).shape()[3:] == [
        (2, 3, 1, 1, 0, "AI"),
        (3, 4, 1, 0, 0, "AI"),
        (2, 3, 2, 1, 0, "AI"),
        (3, 4, 2, 1, 0, "AI"),
        (4, 5, 2, 0, 0, "AI"),
    ]


def test_rejects_that_are_dropped() -> None:
    """A Logon with 141=Y drops those before it in its epoch: not those behind it, nor of the epoch before."""
    notes = [
        note("3", 2, more=REJECT),
        note("R", 0, more="7 8"),
        note("3", 2, epoch=1, more=REJECT),
        logon(1, 0, "N", epoch=1),
        note("j", 3, epoch=1, more=REJECT),
        logon(1, 0, "Y", epoch=1),
        note("3", 4, epoch=1, more=REJECT),
    ]
    dropped = [(row.epoch, row.number) for row in own_rows(FIRM, notes) if row.dropped]
    assert dropped == [(1, 2), (1, 3)]
    rows = [row for row in Session(notes, []).rows() if row.sent is None]
    assert rows == list(own_rows(FIRM, notes)) and len(rows) == 4


def test_the_bytes_of_what_is_kept() -> None:
    """Its own messages as their notes have them, the venue's with what was told beside them, first sent when their entry was."""
    told = given(1, told=b"1003=20261125-INV1-DLR1-1")
    reject = given(2, "35=3|45=17|371=58|372=S|373=5|", came=6)
    unread = Given(3, b"what", None, None, None)
    notes = [note("3", 2, more=REJECT)]
    rows = Session(notes, [told, reject, unread]).rows()
    own, first, second, third = rows
    assert (own.bytes, own.moment) == (
        framed(fields_of(soh("35=3|45=9|371=58|372=S|373=17|"))),
        "09:00:02.000",
    )
    time = "60=20261125-09:10:%02d.000|"
    text = "35=AI|1181=1|131=R1|117=q|" + time % 1 + "297=0|1003=20261125-INV1-DLR1-1|"
    assert first.bytes == framed(fields_of(soh(text)))
    # 45 is the number that the message had in its session.
    text = "35=3|1181=2|45=6|371=58|372=S|373=5|" + time % 2
    assert second.bytes == framed(fields_of(soh(text)))
    assert (third.bytes, third.kind, third.moment) == (b"what", "", None)
    assert [row.moment for row in rows[1:3]] == ["09:10:01.000", "09:10:02.000"]


def hashed(rows: list[Outgoing]) -> list[bytes]:
    """The running hash of messages, before the first of them and behind each."""
    found = [bytes(32)]
    for row in rows:
        text = b"%s %d\n%s" % (found[-1].hex().encode(), len(row.bytes), row.bytes)
        found.append(sha256(text).digest())
    return found


def test_messages_that_are_those_that_were_sealed() -> None:
    """By each note's hash of the venue's up to GIVEN; a copy is no other message, and a Reject of the session's own none."""
    session = Session(a_day())
    rows = session.rows()
    hashes = hashed([row for row in rows if row.sent is not None and not row.copy])
    notes = [one._replace(hash=hashes[one.given]) for one in session.notes]
    assert list(misnoted_session(FIRM, rows, notes)) == []
    for at, number in ((2, 0), (3, 2), (5, 3), (13, 4)):
        changed = list(notes)
        changed[at - 1] = changed[at - 1]._replace(hash=hashes[5])
        (found,) = misnoted_session(FIRM, rows, changed)
        text = "the messages of its session up to number %d are not those that were sealed"
        assert found.text == text % number
    other = [row._replace(bytes=row.bytes + b"x") if row.sent == 2 else row for row in rows]
    (found,) = misnoted_session(FIRM, other, notes)
    assert "up to number 2 are not" in found.text
    (found,) = misnoted_session(FIRM, [row for row in rows if row.sent != 4], notes)
    assert "up to number 4 are not" in found.text
