"""Checks what sessions told firms beside messages against what the venue notes (`live --notes`)."""

import itertools
import re
from collections.abc import Iterable, Iterator
from dataclasses import replace

from . import items
from .faults import Unreadable
from .findings import Finding
from .lines import decoded

ANOTHER_NOTE = "its session tells it another reason or trade than the venue notes"
NOTES = (b"why ", b"trade ")
NOTE = re.compile(rb"(?:why|trade) [^ ]+ ([0-9]+) [!-~]+")
LINE_SHOWN = 64  # bytes of a line that is none


def firm_of(note: bytes) -> str:
    """The firm of a note."""
    return decoded(note.split(b" ")[1])


def misnoted(
    firm: str, told: Iterable[bytes], noted: Iterable[tuple[int, bytes]]
) -> Iterator[Finding]:
    """The first note of a firm that its session tells otherwise, or that only one of both has."""
    pairs = itertools.zip_longest(told, noted, fillvalue=None)
    for line, venues in pairs:
        place, given = (None, None) if venues is None else venues
        if line != given:
            number = min(number_of(one) for one in (line, given) if one is not None)
            at = place if given is not None and number == number_of(given) else None
            words = "the venue notes", "it tells"
            finding = Finding(firm, ANOTHER_NOTE, at, number, given, line, *words)
            yield replace(finding, named_items=(items.REASONS,))
            return


def number_of(note: bytes) -> int:
    """The message's number in a note."""
    found = NOTE.fullmatch(note)
    if found is None:
        raise Unreadable("`live --notes` prints a note of no form: %r" % note[:LINE_SHOWN])
    return int(found[1])
