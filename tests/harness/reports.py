"""Counts what pytest and ctest report: a skipped test is neither passed nor failed, and is named with its reason.

usage: reports.py FILE ..    reports in the form of JUnit

It prints `PASSED FAILED`, a line `skipped TIMES: WHY` for each reason, a line `failed NAME` for each test that failed,
and a line `unsteady NAME` for each that failed among others and passed alone (`twice.py`): that one is neither passed
nor failed.
"""

import sys
import xml.etree.ElementTree as xml
from collections import Counter
from dataclasses import dataclass, field
from pathlib import Path

FAULTS = ("failure", "error")
UNSTEADY = "unsteady"  # what stands in a fault's place


@dataclass
class Count:
    """What the reports say, all together."""

    passed: int = 0
    failed: list[str] = field(default_factory=list)
    unsteady: list[str] = field(default_factory=list)
    skipped: Counter[str] = field(default_factory=Counter)

    def add(self, case: xml.Element) -> None:
        name = "%s::%s" % (case.get("classname", ""), without_group(case.get("name", "")))
        skipped = case.find("skipped")
        if is_failed(case):
            self.failed.append(name)
        elif case.find(UNSTEADY) is not None:
            self.unsteady.append(name)
        elif skipped is not None or case.get("status") in ("notrun", "disabled"):
            self.skipped[reason(skipped)] += 1
        else:
            self.passed += 1

    def lines(self) -> list[str]:
        found = ["%d %d" % (self.passed, len(self.failed))]
        found += ["skipped %d: %s" % (times, why) for why, times in sorted(self.skipped.items())]
        found += ["failed %s" % name for name in self.failed]
        return found + ["unsteady %s" % name for name in self.unsteady]


def without_group(name: str) -> str:
    """A test's name without the group `@GROUP` that several workers put behind it (`side_by_side.py`)."""
    at = name.rfind("@")
    return name[:at] if at > name.rfind("]") else name


def is_failed(case: xml.Element) -> bool:
    """Whether a test failed, by pytest's elements or by ctest's status."""
    return any(case.find(fault) is not None for fault in FAULTS) or case.get("status") == "fail"


def reason(skipped: xml.Element | None) -> str:
    """Why a test was skipped, in one line."""
    text = "" if skipped is None else skipped.get("message") or skipped.text or ""
    return " ".join(text.split()) or "without a reason"


def counted(files: list[Path]) -> Count:
    count = Count()
    for file in files:
        for case in xml.parse(file).getroot().iter("testcase"):
            count.add(case)
    return count


if __name__ == "__main__":
    print("\n".join(counted([Path(word) for word in sys.argv[1:]]).lines()))
