"""Reads TOML as all programs in Python do: a text has at most 1 MiB and is at most 32 deep, and only then is parsed.

For a key of many parts, `a.a.a`, tomllib takes the square of their number, in time and in memory; brackets within brackets take
its stack. `common/toml_bounds.h` has the same limits for the programs in C++.
"""

import re
import tomllib
from typing import Any

LONGEST = 1 << 20  # bytes of a file
DEEPEST = 32  # brackets within brackets, and parts of a dotted key

# What counts, and before it what is left out: texts and comments. A long text ends with up to two quotation marks of its own; one
# of a single line ends with that, and one without an end with the file.
TOKEN = re.compile(
    rb'"""(?:[^"\\]|\\.|"(?!""))*(?:"{3,5}|\\?\Z)'
    rb"|'''(?:[^']|'(?!''))*(?:'{3,5}|\Z)"
    rb'|"(?:[^"\\\n]|\\.)*(?:"|(?=\n)|\\?\Z)'
    rb"|'[^'\n]*(?:'|(?=\n)|\Z)"
    rb"|#[^\n]*"
    rb"|[\[\]{}.=,\n]",
    re.DOTALL,
)


def excess_of(text: bytes) -> str | None:
    """What is wrong with a text that a parser may not be given, which need not be TOML; None where it may be."""
    if len(text) > LONGEST:
        return "it has more than %d bytes" % LONGEST
    brackets = dots = 0
    for token in TOKEN.finditer(text):
        match token[0]:
            case b"[" | b"{":
                brackets, dots = brackets + 1, 0
            case b"]" | b"}":
                brackets, dots = max(brackets - 1, 0), 0
            case b".":
                dots += 1
            case b"=" | b"," | b"\n":
                dots = 0
        if brackets > DEEPEST or dots >= DEEPEST:
            line = text.count(b"\n", 0, token.start()) + 1
            return "line %d: it is more than %d deep" % (line, DEEPEST)
    return None


def table_of(text: bytes) -> dict[str, Any]:
    """ValueError where it is no TOML, or such as no parser may be given."""
    excess = excess_of(text)
    if excess is not None:
        raise ValueError(excess)
    return tomllib.loads(text.decode())
