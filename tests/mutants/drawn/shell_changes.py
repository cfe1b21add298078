"""Finds the possible changes of a shell script. Debian has no syntax tree of it, so this changes what stands on a line of its
own.
"""

import re

from tests.mutants.drawn.change import Change, Drawing, Kind, Span

IF = re.compile(rb"^(\s*(?:if|elif|while) )(?!! )", re.M)
NOT = re.compile(rb"^(\s*(?:if|elif|while) )! ", re.M)
AND = re.compile(rb" && | \|\| ")
# A simple command: no word of the language, no function, nothing that goes on on the next line or came from the one before.
COMMAND = re.compile(
    rb"^[ \t]+(?!if |then|else|elif |fi|for |do|done|case |esac|while |until |\}|\)|#|;;)[a-z_./$\"][^\n#(){}|&;\\]*$",
    re.M,
)
BOUND = re.compile(rb" -(lt|le|gt|ge) ")
OTHER_BOUND = {b"lt": "le", b"le": "lt", b"gt": "ge", b"ge": "gt"}


def shell_changes(file: str, text: bytes) -> list[Change]:
    """All changes of a script, in its order."""
    drawing = Drawing(file, text)

    def add(kind: Kind, start: int, end: int, new: str) -> None:
        drawing.add(kind, Span(text.count(b"\n", 0, start) + 1, start, end), new)

    for found in IF.finditer(text):
        add(Kind.NEGATED, found.end(1), found.end(1), "! ")
    for found in NOT.finditer(text):
        add(Kind.NEGATED, found.end(1), found.end(), "")
    for found in AND.finditer(text):
        add(Kind.NEGATED, found.start(), found.end(), " || " if b"&" in found[0] else " && ")
    for found in BOUND.finditer(text):
        add(Kind.BOUND, found.start(1), found.end(1), OTHER_BOUND[found[1]])
    for found in COMMAND.finditer(text):
        start = found.start() + len(found[0]) - len(found[0].lstrip())
        ends_ill = text[: found.start()].rstrip(b" \t").endswith(b"\\\n")
        if not ends_ill:
            add(Kind.CALL_DROPPED, start, found.end(), ":")
    return sorted(drawing, key=lambda change: (change.start, change.kind.name))
