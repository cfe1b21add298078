"""Finds the bodies of the functions of a file in C++, by its brackets: no compiler has to read it."""

import re
from collections.abc import Iterator
from dataclasses import dataclass

from tests.mutants.drawn.change import Change

# What may have a bracket in it that is none, and the brackets.
TOKEN = re.compile(
    rb"""//[^\n]*|/\*.*?\*/|^[ ]*\#(?:\\\n|[^\n])*|R"([^(\s]*)\(.*?\)\1"|"(?:\\.|[^"\\\n])*"
    |\b\d[\w'.]*|'(?:\\.|[^'\\\n])+'|[{};]""",
    re.DOTALL | re.MULTILINE | re.VERBOSE,
)
ROUND = re.compile(r"\([^()]*\)")  # the innermost round brackets, which become one sign
SCOPE = re.compile(
    r"(template ?<.*> ?)?(inline )?(namespace|class|struct|union|enum)\b|extern \"C\"$"
)
ACCESS = re.compile(r"\b(public|private|protected) *:(?!:)")
OPERATOR = re.compile(r"operator[^\w\0]+")
DEFAULT = re.compile(r"= ?\w+ ?(?=[,>])")  # of what a template takes
NAME = re.compile(r"([\w:~]+) *\0")
NO_CODE = re.compile(r"//.*?\n|/\*.*?\*/|^ *#[^\n]*\n", re.DOTALL | re.MULTILINE)


@dataclass(frozen=True)
class Body:
    """Of one function: bytes `start` to `end` are between its brackets."""

    name: str
    start: int
    end: int
    line: int  # where it begins, from 1
    last: int  # the line of its last bracket

    def has(self, change: Change) -> bool:
        return self.start <= change.start and change.end <= self.end


def bodies(text: bytes) -> list[Body]:
    """In their order; not of functions that a compiler may call, and none within another."""
    return list(found_in(text))


def found_in(text: bytes) -> Iterator[Body]:
    opened: list[str] = []  # what each open bracket begins: a scope, a body, or something else
    head = 0  # where that begins which stands before a bracket
    name, start = "", 0
    for token in TOKEN.finditer(text):
        sign = token.group()
        if sign == b"{":
            kind, called = what_begins(text[head : token.start()].decode(), opened)
            opened.append(kind)
            if kind == "body":
                name, start = called, token.end()
            head = head if kind == "other" else token.end()
        elif sign == b"}" and opened:
            kind = opened.pop()
            if kind == "body" and name:
                line = text.count(b"\n", 0, start) + 1
                yield Body(
                    name, start, token.start(), line, line + text.count(b"\n", start, token.start())
                )
            head = head if kind == "other" else token.end()
        elif sign == b";" and set(opened) <= {"scope"}:
            head = token.end()


def what_begins(head: str, opened: list[str]) -> tuple[str, str]:
    """What a bracket begins that stands behind these words, and the name of a function."""
    # A body stands behind a space, and a list of values behind its name.
    if not set(opened) <= {"scope"} or not head.endswith((" ", "\n")):
        return "other", ""
    words = " ".join(ACCESS.sub("", NO_CODE.sub("", head)).split())
    while ROUND.search(words):
        words = ROUND.sub("\0", words)
    if SCOPE.match(words) and "\0" not in words:
        return "scope", ""
    words = DEFAULT.sub("", OPERATOR.sub("operator", words))
    if "\0" not in words or "=" in words or "(" in words:
        return "other", ""
    called = NAME.search(words)
    is_for_compilers = re.search(r"\b(constexpr|consteval)\b", words) is not None
    return "body", called.group(1) if called and not is_for_compilers else ""
