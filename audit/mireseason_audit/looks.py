"""Says what a check looks at, in the words of the page, the terminal and JSON."""

from typing import NamedTuple

from . import items

ENTRIES = (
    "numbers without a gap, moments and terms that never fall, each line its firm's, the chain"
)
NO_ENTRIES = "two files have no chain, so nothing shows whether a line was changed"
TABLES = "those of the log's form, without triggers, views, rules or anything else"
NO_TABLES = "two files have none"
DOOR = "who connected, its chain, and that each message came on a connection of its firm"
NO_DOOR = "the log's form does not say who connected"
MESSAGES = "byte for byte what the program gives for the entries, each for its entry"
ALONE = "what each was sent follows from its own list"
SESSIONS = "each message of the venue left once, in order, as the gateway carries it"
REASONS = "58 and 1003 say what the program notes, and stand nowhere else"
SEALS = "the last covers the last entry and row; whether it is right only a gateway can tell"
NO_SEALS = "gateways of this form of the log made none"
NO_NUMBERS = "in this form of the log none says where a day ended, and none is missed"
SAME_DAY = "the date, the venue and the program are those that were asked for"
UNSAID = "without %s it may be the log of another %s"
WHAT_IS_UNSAID = {"--date": "day", "--venue-name": "venue", "--program-sha256": "program"}
NEGATIVE = " NOT "  # in what is said of evidence that does not hold
NO_END = "none says that the day has ended"
SESSIONS_AT_FAULT = "58 and 1003 were not looked at where a session is at fault: %s"
# Instead of the words above, where a finding belongs to the item.
WRONG = {
    items.ENTRIES: "NOT AS THEY SHOULD BE, in their numbers, moments, terms, lines or chain",
    items.TABLES: "NOT those of the log's form alone",
    items.DOOR: "NOT AS IT SHOULD BE, in its rows, its chain or what came on which connection",
    items.MESSAGES: "NOT what the program gives for the entries",
    items.ALONE: "what a dealer was sent DOES NOT FOLLOW from its own list",
    items.SESSIONS: "NOT as the gateway carries what the venue gives",
    items.REASONS: "58 and 1003 DO NOT say what the program notes",
    items.SEALS: "NOT AS THEY SHOULD BE: one is missing, or the last entry or row has none",
    items.CHECKPOINTS: "NOT AS THEY SHOULD BE",
    items.DAY: "NOT the date, the venue or the program that was asked for",
    items.SIGNATURES: "NOT AS THEY SHOULD BE",
    items.CUT: "the log is NOT AS THE CHECKPOINT SAYS that was kept outside",
    items.SUPERVISOR: "the log is NOT AS IT WAS SEALED",
}
NO_SIGNATURES = "without --gateway-key the chain may have been made anew"
NO_CUT = "without --checkpoint the end may have been cut off"
NO_SUPERVISOR = "without --key no seal that a supervisor took was looked at"


class Look(NamedTuple):
    """One thing that may be looked at."""

    name: str
    is_done: bool  # in full, whatever was found
    words: str  # what was held against what; or what was not, and what that leaves open
    is_wrong: bool = False  # something was found that belongs to it
    left: str = ""  # of one that was checked in part: what was not

    @property
    def kind(self) -> str:
        if self.is_wrong:
            return "found wrong"
        if self.is_done:
            return "checked"
        return "in part" if self.left else "not checked"

    @property
    def unchecked(self) -> str:
        """What of it was not checked, for the verdict."""
        return "" if self.is_done else self.left or self.name

    @property
    def line(self) -> str:
        return "%-11s %s: %s" % (self.kind, self.name, self.words)

    def found(self, count: int) -> "Look":
        """The same where so many findings belong to it: it does not say what did not hold."""
        if not count:
            return self
        words = self.words if NEGATIVE in self.words else WRONG[self.name]
        words += ": 1 finding" if count == 1 else ": %d findings" % count
        if not self.is_done:
            words += "; not checked in full: " + (self.left or self.words)
        return self._replace(words=words, is_wrong=True)


def session_words(has_chain: bool) -> str:
    return SESSIONS if has_chain else NO_TABLES


def reason_words(has_chain: bool) -> str:
    return REASONS if has_chain else NO_TABLES


def listed(words: list[str], link: str = "and") -> str:
    """`a`, `a and b`, `a, b and c`."""
    *others, last = words
    return "%s %s %s" % (", ".join(others), link, last) if others else last
