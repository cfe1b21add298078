"""Reads the session notes of a log, and works out a firm's numbers from them as docs/RECOVERY.md says."""

from collections.abc import Iterable
from dataclasses import dataclass, field

FIRST = 2  # 1 is left for the answer to the day's first Logon


@dataclass
class Noted:
    """Where a firm's session stands by its notes."""

    epoch: int = 0
    expected: int = 1
    next: int = FIRST
    is_one_free: bool = True
    given: int = 0  # messages of the venue
    numbers: dict[int, int] = field(default_factory=dict)  # by the venue's number, the session's
    rejects: dict[int, bool] = field(default_factory=dict)  # by number, whether it is still kept
    since: int = 0  # the last place before the last reset

    def give_up_to(self, given: int) -> None:
        """The venue's messages up to this one get the next numbers."""
        for number in range(self.given + 1, given + 1):
            self.numbers[number] = self.next
            self.next += 1
        self.given = max(self.given, given)

    def take(self, line: str) -> None:
        """The next of its notes."""
        _, _, kind, number, expected, had, given, _, _, *more = line.split(" ", 9)
        self.give_up_to(int(given))
        if kind == "R":
            self._reset(int(had), int(more[0].split(" ")[0]))
            return
        self.expected = int(expected)
        self.is_one_free = self.is_one_free and kind not in "A5"
        if int(number) == self.next:
            self.next += 1
        if kind in "3j":
            self.rejects[int(number)] = True
        if kind == "A" and more[0].endswith("Y"):
            self.rejects = dict.fromkeys(self.rejects, False)

    def _reset(self, had: int, since: int) -> None:
        copies = [given for given, number in sorted(self.numbers.items()) if number > had]
        self.numbers = {given: FIRST + at for at, given in enumerate(copies)}
        self.next = FIRST + len(copies)
        self.epoch, self.expected, self.is_one_free = self.epoch + 1, 1, True
        self.rejects, self.since = {}, since


def noted(notes: Iterable[bytes]) -> dict[str, Noted]:
    """Each firm's session by the notes of all seals, in their order."""
    found: dict[str, Noted] = {}
    for line in b"".join(notes).decode().splitlines():
        found.setdefault(line.split(" ")[0], Noted()).take(line)
    return found
