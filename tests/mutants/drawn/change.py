"""One small change of a file: where it stands, what stands there in the mutant, and which kind of mistake that is."""

from collections.abc import Iterator
from dataclasses import dataclass
from enum import Enum


class Kind(Enum):
    """The mistakes that are made, as somebody would tell them."""

    NEGATED = "a condition is negated"
    CONDITION_DROPPED = "a part of a condition is dropped"
    BOUND = "a bound moves by one"
    STATEMENT_DROPPED = "a statement is dropped"
    CALL_DROPPED = "a call is dropped"
    ARGUMENTS = "two arguments are exchanged"
    OPPOSITE = "a word is taken for its opposite"
    EARLY = "a function returns early"
    IGNORED = "a result is ignored"
    MEMBER = "another member of the same type is taken"
    ENTRY = "an entry of a list is left out"


# Words that are taken for each other in a hurry.
OPPOSITES = {
    "min": "max",
    "max": "min",
    "first": "last",
    "last": "first",
    "front": "back",
    "back": "front",
    "any": "all",
    "all": "any",
    "any_of": "all_of",
    "all_of": "any_of",
    "lower_bound": "upper_bound",
    "upper_bound": "lower_bound",
    "push_back": "push_front",
    "some": "every",
    "every": "some",
    "floor": "ceil",
    "ceil": "floor",
}

# A comparison, and what it is where its bound moves by one.
BOUNDS = {"<": "<=", "<=": "<", ">": ">=", ">=": ">"}


@dataclass(frozen=True)
class Change:
    """Bytes `start` to `end` of a file become `new`."""

    file: str  # from the top of the tree
    line: int  # where it begins, from 1
    start: int
    end: int
    new: str
    kind: Kind

    def applied(self, text: bytes) -> bytes:
        return text[: self.start] + self.new.encode() + text[self.end :]

    def told(self, text: bytes) -> str:
        """In two lines: what stood there, and what stands there now."""
        old = b" ".join(text[self.start : self.end].split()).decode(errors="replace")
        new = " ".join(self.new.split()) or "(nothing)"
        return "%s:%d: %s\n  - %s\n  + %s" % (self.file, self.line, self.kind.value, old, new)


@dataclass(frozen=True)
class Span:
    """Some bytes of a text, and the line where they begin."""

    line: int
    start: int
    end: int

    def of(self, text: bytes) -> str:
        return text[self.start : self.end].decode()


class Drawing:
    """The changes of one file, as a reader of its language finds them."""

    def __init__(self, file: str, text: bytes) -> None:
        self.file = file
        self.text = text
        self.found: list[Change] = []

    def add(self, kind: Kind, span: Span, new: str) -> None:
        """Only what differs from what stands there."""
        if new != span.of(self.text):
            self.found.append(Change(self.file, span.line, span.start, span.end, new, kind))

    def exchange(self, kind: Kind, first: Span, second: Span) -> None:
        """Two parts of the text, the first before the second, change their places."""
        between = self.text[first.end : second.start].decode()
        whole = Span(first.line, first.start, second.end)
        self.add(kind, whole, second.of(self.text) + between + first.of(self.text))

    def leave_out(self, kind: Kind, entries: list[Span]) -> None:
        """Each of several entries, with the comma between it and the next, or the one before."""
        if len(entries) < 2:
            return
        for at, entry in enumerate(entries):
            if at + 1 < len(entries):
                gone = Span(entry.line, entry.start, entries[at + 1].start)
            else:
                gone = Span(entry.line, entries[at - 1].end, entry.end)
            self.add(kind, gone, "")

    def __iter__(self) -> Iterator[Change]:
        return iter(self.found)
