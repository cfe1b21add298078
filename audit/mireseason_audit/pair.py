"""Runs `compare` on the day and a second one, and says in words what it answers."""

import re
from collections import Counter
from dataclasses import dataclass, field
from pathlib import Path

from .faults import Unreadable
from .lines import decoded
from .venue import Venue

LINES = (
    re.compile("row (equal|differs)"),
    re.compile("due (equal|differs at [0-9]+)"),
    re.compile("messages (equal|differ at [0-9]+)"),
)
KINDS = {"1": "won", "3": "expired", "4": "cover", "5": "done away", "6": "passed"}


@dataclass(frozen=True)
class Compared:
    """The three lines of `compare`."""

    lines: tuple[str, ...]

    @property
    def row_equal(self) -> bool:
        return self.lines[0] == "row equal"

    @property
    def due_equal(self) -> bool:
        return self.lines[1] == "due equal"

    @property
    def messages_equal(self) -> bool:
        return self.lines[2] == "messages equal"

    @property
    def holds(self) -> bool:
        """The headline: where row and list are equal, so are the messages."""
        return self.messages_equal or not (self.row_equal and self.due_equal)


def compare(venue: Venue, dealer: str, both: Path) -> Compared:
    """What `compare --live` says of two days."""
    with venue.run(["compare", dealer, "--live"], both) as run:
        lines = tuple(decoded(line) for line in run.lines())
    return compared_by(lines)


def compared_by(lines: tuple[str, ...]) -> Compared:
    """What `compare` printed; Unreadable where it is not what it prints."""
    if len(lines) != len(LINES) or not all(map(re.fullmatch, LINES, lines)):
        raise Unreadable("`compare` prints none of its answers: %s" % ", ".join(lines))
    return Compared(lines)


@dataclass
class DueList:
    """What of a list of what was due is looked at."""

    items: int = 0
    notices: dict[int, tuple[str, str]] = field(default_factory=dict)  # request to kind and moment
    lifted: set[str] = field(default_factory=set)
    others: dict[str, Counter[int]] = field(default_factory=dict)  # hashes of lines, by their kind

    def take(self, line: bytes) -> None:
        self.items += 1
        words = line.split()
        kind = decoded(words[0]) if words else ""
        if kind == "closed" and len(words) == 4:
            self.notices[int(words[1])] = (decoded(words[2]), decoded(words[3]))
        elif kind == "lifted" and len(words) == 2:
            self.lifted.add(decoded(words[1]))
        else:
            kind = "own" if kind == "hex" else kind
            self.others.setdefault(kind, Counter())[hash(line)] += 1


def read_due(path: Path) -> DueList:
    """Reads a list; its first two lines are the date and the dealer's row."""
    found = DueList()
    with path.open("rb") as file:
        for number, line in enumerate(file):
            if number > 1:
                found.take(line)
    return found


@dataclass
class Differences:
    """How two lists of what was due to a dealer differ."""

    items: int = 0  # of the first list
    notices: Counter[tuple[str, str]] = field(default_factory=Counter)  # kinds before and after
    first_notice: dict[tuple[str, str], str] = field(default_factory=dict)
    moved_notices: int = 0  # of one kind, at another moment
    lifted: tuple[int, int] = (0, 0)  # only in the first list, only in the second
    others: Counter[str] = field(default_factory=Counter)  # by kind, items that are not in both

    @property
    def are_declared(self) -> bool:
        """Whether the dealer's own messages are the same."""
        return self.others["own"] == 0

    @property
    def only_cover(self) -> bool:
        """Whether nothing differs but cover against done away."""
        kinds = {frozenset(pair) for pair in self.notices}
        rest = self.moved_notices + sum(self.lifted) + sum(self.others.values())
        return kinds <= {frozenset(("cover", "done away"))} and rest == 0


def differences(first: Path, second: Path) -> Differences:
    """Holds two lists against one another."""
    before, after = read_due(first), read_due(second)
    found = Differences(items=before.items)
    for request in sorted(before.notices.keys() | after.notices.keys()):
        kind, moment = before.notices.get(request, ("", ""))
        other, then = after.notices.get(request, ("", ""))
        if kind != other:
            pair = (KINDS.get(kind, "no notice"), KINDS.get(other, "no notice"))
            found.notices[pair] += 1
            found.first_notice.setdefault(pair, "R%d" % request)
        elif moment != then:
            found.moved_notices += 1
    found.lifted = (len(before.lifted - after.lifted), len(after.lifted - before.lifted))
    for kind in before.others.keys() | after.others.keys():
        one, two = before.others.get(kind, Counter()), after.others.get(kind, Counter())
        found.others[kind] = sum(((one - two) + (two - one)).values())
    return found


COVER = (
    "That is declared: a notice says whether the dealer's quote was the best of the others, and of"
    " all other dealers' prices this alone reaches it."
)
END = "That is declared: a dealer is told how each request that it was shown ended."
LIFTED = "That is declared: an investor's hit of its own quote is the dealer's to know."
SHOWN = (
    "That is declared: the requests shown to it are in its list. Requests that end otherwise use up"
    " an investor's limits otherwise."
)
DROP = "That is declared: the drops of its own quotes are in its list."
OWN = "THAT MUST NOT BE: the second day has the dealer's own messages as they were."


def difference_words(found: Differences) -> list[str]:
    """What differs, and why that is declared."""
    words = []
    for pair, count in sorted(found.notices.items()):
        which = "%d request%s, the first is %s" % (
            count,
            "" if count == 1 else "s",
            found.first_notice[pair],
        )
        text = "it is told `%s` where it was told `%s` (%s)." % (pair[1], pair[0], which)
        is_cover = set(pair) == {"cover", "done away"}
        words.append("%s %s" % (text, COVER if is_cover else END))
    if found.moved_notices:
        words.append("Notices at another moment: %d. %s" % (found.moved_notices, END))
    if any(found.lifted):
        text = "Quotes of its own that are lifted no longer: %d, and others that are: %d. %s"
        words.append(text % (*found.lifted, LIFTED))
    reasons = {"shown": ("requests shown", SHOWN), "drop": ("drops", DROP)}
    for kind, count in sorted(found.others.items()):
        if count:
            name, reason = reasons.get(kind, ("own messages", OWN))
            words.append("%s in one list alone: %d. %s" % (name.capitalize(), count, reason))
    return words
