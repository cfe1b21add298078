"""Says how long firms had no answer after each fault.

The figures of docs/SCALING.md are of three whole runs beside each other on four processors, at a load of 14 to 17: in nine days
160,649 messages of firms, 332,472 to firms, and 400 terms. Of the faults 28 were a full disk, 33 the leader of etcd, 30 a
gateway, 32 a host cut off, 31 a link to the primary, 26 a link of primary and standby, 29 power, 31 a primary alone before its
power, 30 a primary killed.
"""

import statistics
from dataclasses import dataclass, field


@dataclass
class Figures:
    """Moments are seconds of the machine's monotonic clock."""

    faults: list[tuple[str, float, float]] = field(default_factory=list)  # what, from, until

    def add(self, what: str, began: float, ended: float) -> None:
        self.faults.append((what, began, ended))

    def gaps(self, answers: list[float]) -> list[tuple[str, float]]:
        """Of each fault the longest time between two answers."""
        moments, found = sorted(answers), []
        for what, began, ended in self.faults:
            within = [began] + [each for each in moments if began <= each <= ended] + [ended]
            found.append((what, max(later - earlier for earlier, later in zip(within, within[1:]))))
        return found

    def lines(self, answers: list[float]) -> list[str]:
        gaps = self.gaps(answers)
        kinds = sorted({what for what, _ in gaps})
        of_kind = {kind: sorted(gap for what, gap in gaps if what == kind) for kind in kinds}
        of_kind["all"] = sorted(gap for _, gap in gaps)
        return [
            "%-34s %3d  median %5.1f s  worst %5.1f s"
            % (kind, len(found), statistics.median(found), found[-1])
            for kind, found in of_kind.items()
            if found
        ]
