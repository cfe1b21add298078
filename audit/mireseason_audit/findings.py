"""Collects what a check found that is not as it should be."""

from collections.abc import Iterator
from dataclasses import dataclass

from . import items
from .frame import barred, printable


@dataclass(frozen=True)
class Finding:
    """One thing that is not as it should be, and where."""

    where: str  # `entries`, `door`, or a firm's name
    text: str
    place: int | None = None  # of the entry
    number: int | None = None  # the venue's, of the message to the firm
    given: bytes | None = None  # what should stand there
    found: bytes | None = None  # what does
    given_by: str = "the venue gives"
    found_in: str = "the log has"
    came_on: str = ""  # of the entry's message, in words: on which connection it came
    named_items: tuple[str, ...] = ()  # of a report; empty: what `where` says
    differing: str = ""  # which fields differ, in words

    @property
    def items(self) -> tuple[str, ...]:
        """The items of a report that it belongs to: none of them states that all is well."""
        return self.named_items or (items.ITEM_OF.get(self.where, items.MESSAGES),)

    @property
    def rank(self) -> int:
        """Where it stands among others: a cause in front of what follows from it."""
        return min(items.CAUSES_FIRST.index(item) for item in self.items)

    @property
    def place_words(self) -> str:
        words = []
        if self.place is not None:
            words.append("entry %d" % self.place)
        if self.number is not None:
            words.append("number %d" % self.number)
        return ", ".join(words)

    def lines(self) -> Iterator[str]:
        """The finding as lines of a report. Names and times are whatever stands in the log."""
        where = self.place_words
        yield printable("%s: %s%s" % (self.where, where + ": " if where else "", self.text))
        if self.given is not None:
            yield "    %-16s %s" % (self.given_by, barred(self.given))
        if self.found is not None:
            yield "    %-16s %s" % (self.found_in, barred(self.found))
        if self.differing:
            yield printable("    %-16s %s" % ("they differ in", self.differing))
        if self.came_on:
            yield printable("    %-16s %s" % ("its message was", self.came_on))
