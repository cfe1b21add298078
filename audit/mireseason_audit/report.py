"""Writes a verdict for a terminal, and for a program."""

import json

from .door import DOOR
from .findings import Finding
from .frame import barred, printable
from .looks import Look
from .records import Firm
from .verdict import Verdict


def report(verdict: Verdict) -> list[str]:
    """The verdict as lines: what log it is, what it has, what was looked at, and one verdict."""
    lines = [printable(line) for line in verdict.identity.lines()]
    lines += [entries_line(verdict), *door_lines(verdict), venue_line(verdict)]
    lines += [firm_line(verdict, firm) for firm in verdict.day.firms]
    lines += [printable(look.line) for look in verdict.looks]
    for finding in verdict.causes_first:
        lines += finding.lines()
    lines.append("verdict: " + verdict.words)
    return lines


def report_json(verdict: Verdict) -> str:
    """The same as one object."""
    day, identity = verdict.day, verdict.identity
    said = {
        "verdict": verdict.words,
        "is_good": verdict.is_good,
        "log": verdict.source,
        "date": day.date,
        "venue": day.venue or None,
        "program": {
            "version": day.version,
            "sha256": day.program or None,
            "is_proved": identity.is_proved,
            "words": identity.program_words,
        },
        "checked_by": {"version": verdict.program, "sha256": verdict.digest or None},
        "gateways": [one._asdict() for one in identity.speakers],
        "entries": verdict.chained.entries,
        "last": verdict.chained.last.hex() if verdict.has_chain else None,
        "firms": [firm_object(verdict, firm) for firm in day.firms],
        "looks": [look_object(look) for look in verdict.looks],
        "findings": [finding_object(finding) for finding in verdict.causes_first],
    }
    return json.dumps(said, indent=1)


def look_object(look: Look) -> dict[str, object]:
    return {
        "name": look.name,
        "kind": look.kind,
        "is_done": look.is_done,
        "is_wrong": look.is_wrong,
        "words": look.words,
    }


def firm_object(verdict: Verdict, firm: Firm) -> dict[str, object]:
    return {
        "name": firm.name,
        "kind": firm.kind,
        "messages": verdict.messages.get(firm.name, 0),
        "is_good": not verdict.of(firm.name),
    }


def finding_object(finding: Finding) -> dict[str, object]:
    given = None if finding.given is None else barred(finding.given)
    found = None if finding.found is None else barred(finding.found)
    return {
        "where": finding.where,
        "text": finding.text,
        "entry": finding.place,
        "number": finding.number,
        "given": given,
        "found": found,
        "came_on": finding.came_on or None,
        "items": list(finding.items),
        "differing": finding.differing or None,
    }


def entries_line(verdict: Verdict) -> str:
    count = verdict.chained.entries
    if not verdict.has_chain:
        return "entries   %d, without a chain" % count
    if verdict.of("entries"):
        return "entries   %d, NOT AS THEY SHOULD BE" % count
    return "entries   %d, each follows on the one before: %s" % (count, verdict.chained.last.hex())


def door_lines(verdict: Verdict) -> list[str]:
    """Of a log that says who connected."""
    door = verdict.chained.door
    if door is None:
        return []
    text = "door      %d connections in %d rows, " % (door.connections, door.events)
    if verdict.of(DOOR):
        return [text + "NOT AS THEY SHOULD BE"]
    return [text + "each follows on the one before: " + door.last.hex()]


def venue_line(verdict: Verdict) -> str:
    """The program by which the check goes, which need not be the day's."""
    text = "%s, the program that you check with" % (verdict.program or "unknown")
    if verdict.digest == verdict.day.program:
        text += ": it is the day's own"
    elif verdict.digest:
        text += ", SHA-256 " + verdict.digest
    return "by        " + printable(text)


def firm_line(verdict: Verdict, firm: Firm) -> str:
    count = verdict.messages.get(firm.name, 0)
    text = "%-9s %-8s %6d messages: " % (firm.name, firm.kind, count)
    if verdict.of(firm.name):
        return text + "NOT AS THEY SHOULD BE"
    words = "as replayed"
    if firm.is_dealer:
        words += ", as its list alone gives them"
    if verdict.has_chain:
        words += ", as its session carried them"
    return text + words
