"""Checks that a firm's session carried what the venue gave for the firm, and nothing else of it."""

import os
from collections.abc import Iterable, Iterator, Mapping
from dataclasses import replace
from functools import partial
from pathlib import Path
from typing import IO

from . import items
from .findings import Finding
from .kept import KeptReader
from .log import Log
from .records import Outgoing
from .session_notes import misnoted_session, note_of
from .wire import WireReader


def check_wire(
    log: Log, firm: str, reasons: Mapping[bytes, bytes] | None = None, notes: Path | None = None
) -> Iterator[Finding]:
    """Holds a firm's session against what the venue gave for it; the first fault is told. Where
    there is none, the lines of the notes that it tells are left in a file.
    """

    def session_number(place: int) -> int | None:
        return log.session_numbers([place]).get(place)

    if log.has_epochs:
        kept = partial(log.outgoing, firm)
        reader: WireReader = KeptReader(log.sent(firm), session_number, reasons, kept)
    else:
        reader = WireReader(log.sent(firm), session_number, reasons)
    with (notes or Path(os.devnull)).open("wb") as file:
        finding = first_fault(reader, log.outgoing(firm), file) or reader.rest(firm)
    if finding is not None:
        if notes is not None:
            notes.unlink()
        yield replace(finding, named_items=(items.SESSIONS,))


def check_notes(log: Log, firm: str, lines: Iterable[bytes]) -> Iterator[Finding]:
    """Holds a firm's session against its sealed notes, by their lines."""
    notes = [note for line in lines if (note := note_of(line.rstrip(b"\n"))) is not None]
    for finding in misnoted_session(firm, log.outgoing(firm), notes):
        yield replace(finding, named_items=(items.SESSIONS,))


def first_fault(reader: WireReader, rows: Iterator[Outgoing], file: IO[bytes]) -> Finding | None:
    """Reads a session up to its first fault, and writes the notes that it tells."""
    for row in rows:
        finding = reader.take(row)
        if finding is not None:
            return finding
        if reader.note:
            file.write(reader.note + b"\n")
    return None
