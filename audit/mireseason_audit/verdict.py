"""The verdict of a check: what it found, and what it looked at."""

from collections import Counter
from dataclasses import dataclass, field

from . import items, looks
from .chain import Chained
from .checkpoints import Numbered
from .findings import Finding
from .identity import Identity
from .looks import Look
from .records import Day


@dataclass
class Verdict:
    """What a check found."""

    source: str
    day: Day
    identity: Identity
    has_chain: bool
    has_seals: bool = False
    last_place: int = -1  # of the entries, when the check began
    last_numbers: dict[str, object] = field(default_factory=dict)  # of what firms were sent, then
    program: str = ""  # what the venue's program, by which the check goes, says of itself
    digest: str = ""  # the SHA-256 of that; empty where it is no file alone
    messages: dict[str, int] = field(default_factory=dict)  # of each firm, how many it was sent
    addressed: set[str] = field(default_factory=set)  # firms to which any message went
    targets: dict[str, int] = field(default_factory=dict)  # what the session of each expects next
    epochs: dict[str, int] = field(default_factory=dict)  # how often each session was reset
    beyond: tuple[str, ...] = ()  # what stands beside the tables of the log's form
    chained: Chained = field(default_factory=Chained)
    findings: list[Finding] = field(default_factory=list)
    seal: str = ""  # what was found of the seal, where there is one
    numbered: Numbered | None = None  # the numbers of its checkpoints, since form 6
    signed: str = ""  # and of the gateways' signatures, where a key of theirs is given
    uncut: str = ""  # and of checkpoints that were kept outside, where one is given
    reach: int = -1  # the last entry that they cover

    @property
    def is_good(self) -> bool:
        return not self.findings

    def of(self, where: str) -> list[Finding]:
        return [finding for finding in self.findings if finding.where == where]

    @property
    def first(self) -> Finding | None:
        """The finding with the lowest place; of those without one, the first."""
        placed = [finding for finding in self.findings if finding.place is not None]
        listed = placed or self.findings
        return min(listed, key=lambda finding: finding.place or 0) if listed else None

    @property
    def causes_first(self) -> list[Finding]:
        """The findings, those in front from which others follow."""
        return sorted(self.findings, key=lambda finding: finding.rank)

    @property
    def looks(self) -> list[Look]:
        """What was looked at and what was not, in one order; of each what was found."""
        counts = Counter(item for finding in self.findings for item in finding.items)
        return [look.found(counts[look.name]) for look in self._all_looks]

    @property
    def _all_looks(self) -> list[Look]:
        has_door = self.chained.door is not None
        return [
            Look(
                items.ENTRIES, self.has_chain, looks.ENTRIES if self.has_chain else looks.NO_ENTRIES
            ),
            Look(items.TABLES, self.has_chain, looks.TABLES if self.has_chain else looks.NO_TABLES),
            Look(items.DOOR, has_door, looks.DOOR if has_door else looks.NO_DOOR),
            Look(items.MESSAGES, True, looks.MESSAGES),
            Look(items.ALONE, True, looks.ALONE),
            Look(items.SESSIONS, self.has_chain, looks.session_words(self.has_chain)),
            self._reasons,
            Look(items.SEALS, self.has_seals, looks.SEALS if self.has_seals else looks.NO_SEALS),
            self._checkpoints,
            *self._evidence,
        ]

    @property
    def _reasons(self) -> Look:
        """Of a session at fault, nothing says what it tells beside the venue's messages."""
        found = {one.where for one in self.findings if items.SESSIONS in one.items}
        if found and self.has_chain:
            text = looks.SESSIONS_AT_FAULT % looks.listed(sorted(found))
            return Look(items.REASONS, False, text)
        return Look(items.REASONS, self.has_chain, looks.reason_words(self.has_chain))

    @property
    def _checkpoints(self) -> Look:
        numbered = self.numbered
        if numbered is None:
            return Look(items.CHECKPOINTS, False, looks.NO_NUMBERS)
        left = "" if numbered.is_ended else looks.NO_END
        is_wrong = bool(numbered.findings)
        return Look(items.CHECKPOINTS, numbered.is_ended, numbered.words, is_wrong, left)

    @property
    def _evidence(self) -> list[Look]:
        """Of that, what is held against something that stands outside of the log."""
        identity, unsaid = self.identity, self.identity.asked.unsaid
        return [
            Look(items.DAY, not unsaid, unsaid_words(unsaid) if unsaid else looks.SAME_DAY),
            Look(items.PROVED, identity.is_proved, identity.program_words),
            Look(items.SIGNATURES, bool(self.signed), self.signed or looks.NO_SIGNATURES),
            self._cut_off,
            self._supervisors_seal,
        ]

    @property
    def _supervisors_seal(self) -> Look:
        """Its last entry may be the log's, in a chain that does not hold."""
        is_wrong = bool(self.seal) and any(items.ENTRIES in one.items for one in self.findings)
        words = self.seal or looks.NO_SUPERVISOR
        return Look(items.SUPERVISOR, bool(self.seal), words, is_wrong)

    @property
    def _cut_off(self) -> Look:
        """Evidence that ends before the log says nothing of what is behind it."""
        if self.reach < 0 or self.reach >= self.last_place:
            return Look(items.CUT, bool(self.uncut), self.uncut or looks.NO_CUT)
        left = "cut-off end after entry %d" % self.reach
        return Look(items.CUT, False, self.uncut, left=left)

    @property
    def words(self) -> str:
        """The verdict in one sentence."""
        if self.is_good:
            return self._good_words
        first, count = self.first, len(self.findings)
        where = first.place_words if first else ""
        what = "1 thing is not as it should be"
        words = what if count == 1 else "%d things are not as they should be" % count
        words += ", the first at %s" % where if where else ""
        return words + "; found wrong: " + ", ".join(one.name for one in self.looks if one.is_wrong)

    @property
    def _good_words(self) -> str:
        text = "each firm was sent what the rules give, byte for byte"
        left = [look.unchecked for look in self.looks if look.unchecked]
        if not left:
            text += ", and the record is whole"
        elif self.has_chain:
            text += ", and the record is consistent"
        text += self._reach_words
        return "%s; not checked: %s" % (text, ", ".join(left)) if left else text

    @property
    def _reach_words(self) -> str:
        """How far the checkpoints reach that were kept outside, if there are some."""
        if not self.uncut:
            return ""
        text = "; checkpoints from outside reach up to entry %d of %d"
        words = text % (self.reach, self.last_place)
        return words if self.signed else words + ", and their signatures were not checked"


def unsaid_words(unsaid: list[str]) -> str:
    """What the log may be, without options that would have said it."""
    what = [looks.WHAT_IS_UNSAID[option] for option in unsaid]
    return looks.UNSAID % (looks.listed(unsaid, "or"), looks.listed(what, "or"))
