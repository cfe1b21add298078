"""What operators did, how the clock was and who speaks: by the lines of entries that the venue ignores, as the page has them."""

import json
import re
from collections.abc import Iterator
from typing import cast

import pytest
from mireseason_audit.faults import Unreadable
from mireseason_audit.findings import Finding
from mireseason_audit.log import Log
from mireseason_audit.noted import ANOTHER_NOTE, firm_of, misnoted
from mireseason_audit.notes import (
    ACTS,
    CLOCK_NOTES,
    Act,
    ClockNote,
    acts,
    clock_notes,
    clock_text,
    is_note,
    speaker_of,
    voided,
    voiding_acts,
)
from mireseason_audit.records import Entry
from mireseason_audit.tables import Form, table_text

AT = "10:14:02.118"
TRADES = ("20261125-FJORD-ALPHA-1", "20261125-FJORD-ALPHA-2")


class Entries:
    """A log of these lines, from entry 1 on; a firm may have sent one."""

    def __init__(self, *lines: str, firm: str | None = None) -> None:
        self.rows = [
            Entry(place, 3, AT, firm, None, line.encode(), b"", b"")
            for place, line in enumerate(lines, 1)
        ]

    def entries(self) -> Iterator[Entry]:
        return iter(self.rows)


def log(*lines: str, firm: str | None = None) -> Log:
    return cast(Log, Entries(*lines, firm=firm))


LINES = (
    '# act %s alice(1004) limit DLR1 day_bytes=2147483648 because="agreed with their desk"' % AT,
    "clock %s" % AT,
    "# act %s bob(0) resume" % AT,
    "# clock %s synchronised 45" % AT,
    '# act %s bob(0) bust %s because="both asked"' % (AT, TRADES[0]),
    '# act %s bob(0) halt because=""' % AT,
)


def test_acts() -> None:
    """Each with its entry, who did it, what, and why, where a reason was given."""
    assert list(acts(log(*LINES))) == [
        Act(1, AT, "alice(1004)", "limit DLR1 day_bytes=2147483648", "agreed with their desk"),
        Act(3, AT, "bob(0)", "resume", ""),
        Act(5, AT, "bob(0)", "bust " + TRADES[0], "both asked"),
        Act(6, AT, "bob(0)", "halt", ""),
    ]


def test_what_a_firm_sends_is_no_act() -> None:
    """Nor a sample of the clock, whatever stands in its line."""
    lines = log(*LINES, firm="DLR1")
    assert list(acts(lines)) == [] and list(clock_notes(lines)) == []
    assert voided(lines) == {}


def test_trades_that_were_voided() -> None:
    """By their names, with the reason; other acts void none."""
    found = log(
        '# act %s bob(0) bust %s because="both asked"' % (AT, TRADES[0]),
        '# act %s bob(0) cancel %s because="no trade"' % (AT, TRADES[1]),
        '# act %s bob(0) busts %s because="no act"' % (AT, TRADES[1]),
    )
    assert voided(found) == {TRADES[0]: "both asked"}
    assert voiding_acts(found)[TRADES[0]].place == 1


def test_samples_of_the_clock() -> None:
    lines = (
        "# clock %s synchronised 45" % AT,
        "# clock %s unsynchronised 16000000" % AT,
        "# clock %s set -1500" % AT,
        "# clock %s wrong 5" % AT,
        "# clock %s synchronised" % AT,
    )
    assert list(clock_notes(log(*lines))) == [
        ClockNote(1, AT, "synchronised", 45),
        ClockNote(2, AT, "unsynchronised", 16_000_000),
        ClockNote(3, AT, "set", -1500),
    ]


def test_the_tables_of_both() -> None:
    """Each value stands below its own name."""
    acted = table_text(ACTS, [Act(4, AT, "bob(0)", "resume INV1", "both asked")], Form.JSON)
    words = {"who": "bob(0)", "act": "resume INV1", "because": "both asked"}
    assert json.loads(acted) == [{"place": 4, "moment": AT, **words}]
    noted = table_text(CLOCK_NOTES, [ClockNote(3, AT, "set", -1500)], Form.JSON)
    assert json.loads(noted) == [{"place": 3, "moment": AT, "state": "set", "microseconds": -1500}]


def test_what_samples_come_to() -> None:
    """The greatest error is that of a clock that is synchronised; a set clock is no sample."""
    good = [ClockNote(1, AT, "synchronised", error) for error in (45, 80, 7)]
    bad = ClockNote(2, AT, "unsynchronised", 16_000_000)
    step = ClockNote(3, AT, "set", 90_000_000)
    none = "clock: the log has no samples of the gateway's clock"
    assert clock_text([]) == clock_text([step]) == none
    assert clock_text([*good, bad]) == (
        "clock: 4 samples, 3 of them of a clock that is synchronised, whose greatest error is 80 us"
    )
    assert clock_text([bad, step, step]) == (
        "clock: 1 samples, 0 of them of a clock that is synchronised; it was set 2 times"
    )


@pytest.mark.parametrize(
    "line, is_one",
    [
        ("# act %s bob(0) halt" % AT, True),
        ("# clock %s set 5" % AT, True),
        ("# gateway %s gw1 v 1" % AT, True),
        ("# other %s bob(0) halt" % AT, False),
        ("# act 10:14:02.119 bob(0) halt", False),
        ("# act %s" % AT, False),
        ("# act %s bob\t" % AT, False),
        ("# act %s %s" % (AT, "x" * 181), True),
        ("# act %s %s" % (AT, "x" * 182), False),
    ],
)
def test_lines_that_a_gateway_writes_at_a_moment(line: str, is_one: bool) -> None:
    """Of up to 200 bytes."""
    assert len("# act %s " % AT) == 19
    assert is_note(line.encode(), AT) == is_one


def test_who_speaks() -> None:
    """From its entry on, in its term; a gateway without a name has none."""
    own, other = Entries(
        "# gateway %s gw1 mireseason-gateway 2.0" % AT, "# gateway %s - 2.0" % AT
    ).rows
    first, second = speaker_of(own), speaker_of(other)
    assert first is not None and second is not None
    assert first == (1, 3, "gw1", "mireseason-gateway 2.0") and second == (2, 3, "", "2.0")
    assert first.words == "gw1 mireseason-gateway 2.0, from entry 1, in term 3"


# ------------------------------------------------------------ what is noted beside messages

WHY, OTHER, LATER = b"why DLR1 3 58=late", b"why DLR1 3 58=early", b"trade DLR1 5 1003=x"
# What the session tells, what the venue notes with its entry; and of the finding its entry, number, and both texts.
Noted = tuple[list[bytes], list[tuple[int, bytes]], Finding | None]


def noted(place: int | None, number: int, given: bytes | None, found: bytes | None) -> Finding:
    words, about = ("the venue notes", "it tells"), ("reasons and trades",)
    return Finding("DLR1", ANOTHER_NOTE, place, number, given, found, *words, named_items=about)


NOTED: dict[str, Noted] = {
    "the same": ([WHY, LATER], [(7, WHY), (9, LATER)], None),
    "another reason": ([OTHER, LATER], [(7, WHY), (9, LATER)], noted(7, 3, WHY, OTHER)),
    "only the venue has it": ([WHY], [(7, WHY), (9, LATER)], noted(9, 5, LATER, None)),
    "only the session has it": ([WHY, LATER], [(7, WHY)], noted(None, 5, None, LATER)),
    "the session lacks the first": ([LATER], [(7, WHY), (9, LATER)], noted(7, 3, WHY, LATER)),
    "the session has one in front": ([WHY, LATER], [(9, LATER)], noted(None, 3, LATER, WHY)),
    "neither has any": ([], [], None),
}


@pytest.mark.parametrize("name", NOTED)
def test_notes_that_a_session_tells_otherwise(name: str) -> None:
    """The first is told: of two messages the one with the lower number, whose entry is known where the venue notes it."""
    told, by_venue, expected = NOTED[name]
    assert list(misnoted("DLR1", told, by_venue)) == ([] if expected is None else [expected])


@pytest.mark.parametrize(
    "note",
    [b"why DLR1 x 58=late", b"why DLR1 3 ", b"whys DLR1 3 x", b"trade DLR1 3", b"why DLR1 3 a b"],
)
def test_a_note_of_no_form(note: bytes) -> None:
    words = "`live --notes` prints a note of no form: %r" % note
    with pytest.raises(Unreadable, match="^%s$" % re.escape(words)):
        list(misnoted("DLR1", [WHY], [(7, note)]))


def test_how_much_of_a_note_is_shown() -> None:
    """The first 64 bytes of what has no form."""
    note = b"why DLR1 x " + 64 * b"y"
    with pytest.raises(Unreadable, match=": %r$" % note[:64]):
        list(misnoted("DLR1", [], [(7, note)]))


def test_whose_a_note_is() -> None:
    assert [firm_of(one) for one in (WHY, b"trade FJORD 5 1003=x")] == ["DLR1", "FJORD"]
