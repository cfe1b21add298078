"""What `--notes` prints: each name of a reason, and the names of trades, by cases and on drawn days.

The cases of `notes.cases` are of any program that has the flag; the gate has them too, as `commands-notes.cases`.
"""

from __future__ import annotations

import collections
from collections.abc import Iterator
from dataclasses import dataclass, field
from pathlib import Path

import pytest

from .compare import head, joined, model_answer
from .days import Day, Draw
from .dealer import CANCEL_REASONS, DECLINE_REASONS, QUOTE_REASONS
from .investor import REQUEST_REASONS

CASES = Path(__file__).with_name("notes.cases")
NAMES = {*QUOTE_REASONS, *CANCEL_REASONS, *DECLINE_REASONS, *REQUEST_REASONS}
DAYS = 40


@dataclass
class Case:
    """An input, and the lines that --notes adds to what is printed for it."""

    title: str
    live: bool
    lines: list[str]
    notes: list[str] = field(default_factory=list)

    @property
    def data(self) -> bytes:
        return (
            "".join(line + "\n" for line in self.lines)
            .encode()
            .replace(b"8=FIXT.1.1|\n", b"8=FIXT.1.1\x01\n")
        )


def cases() -> Iterator[Case]:
    begun: list[str] = []
    live, case = False, None
    for line in CASES.read_text(encoding="utf-8").splitlines():
        if line.startswith("begin "):
            begun, live, case = [], line.endswith(" live"), None
        elif line.startswith("case "):
            case = Case(line.removeprefix("case "), live, list(begun))
            yield case
        elif line.startswith("> ") and case is not None:
            case.notes.append(line.removeprefix("> "))
        elif line and not line.startswith("#"):
            (begun if case is None else case.lines).append(line)


ALL_CASES = list(cases())


def title_of(case: Case) -> str:
    return case.title


def is_note(line: bytes) -> bool:
    return line.startswith((b"why ", b"trade "))


def printed(words: list[str], data: bytes) -> list[bytes]:
    status, out, told = model_answer(words, data)
    assert (status, told) == (0, b"")
    return out.splitlines()


@pytest.mark.parametrize("frames", [[], ["--frames"]], ids=["fields", "frames"])
@pytest.mark.parametrize("case", ALL_CASES, ids=title_of)
def test_a_case(case: Case, frames: list[str]) -> None:
    words = ["live" if case.live else "alone", *frames]
    noted = printed([*words, "--notes"], case.data)
    assert [line.decode() for line in noted if is_note(line)] == case.notes
    assert [line for line in noted if not is_note(line)] == printed(words, case.data)


@pytest.mark.parametrize("case", [case for case in ALL_CASES if case.live], ids=title_of)
def test_a_case_after_its_day(case: Case) -> None:
    """`replay --live --notes` prints the same lines, firm by firm."""
    noted = printed(["replay", "--live", "--notes"], case.data)
    assert noted == printed(["replay", "--notes"], case.data)
    assert sorted(line.decode() for line in noted if is_note(line)) == sorted(case.notes)


def test_each_name_has_a_case() -> None:
    noted = {
        line.split(" ")[3] for case in ALL_CASES for line in case.notes if line.startswith("why ")
    }
    assert noted == NAMES


def test_each_note_stands_behind_its_message(seed: int) -> None:
    """On drawn days: the firm and the number of a note are those of the line before it."""
    noted = 0
    for number in range(seed, seed + DAYS):
        day = Day(Draw(number))
        data = joined(
            head(day), b"\n".join(line for line in day.lines if not line.startswith(b"turn "))
        )
        lines = model_answer(["live", "--notes"], data)[1].splitlines()
        for before, line in zip(lines, lines[1:], strict=False):
            if is_note(line):
                assert line.split(b" ")[1:3] == before.split(b" ")[:2]
                noted += 1
    assert noted > 0


def test_both_sides_name_a_trade_alike(seed: int) -> None:
    """On drawn days: the dealer's names of its trades with an investor are the investor's, from the first one on."""
    trades = 0
    for number in range(seed, seed + DAYS):
        day = Day(Draw(number))
        data = joined(
            head(day), b"\n".join(line for line in day.lines if not line.startswith(b"turn "))
        )
        named = collections.defaultdict(list)
        for line in model_answer(["live", "--notes"], data)[1].splitlines():
            if line.startswith(b"trade "):
                _, firm, _, name = line.split(b" ")
                named[firm].append(name)
        everyone = {name for names in named.values() for name in names}
        for firm, names in named.items():
            assert len(set(names)) == len(names)
            assert all(firm in name.split(b"-")[1:3] for name in names)
        assert all(sum(name in names for names in named.values()) == 2 for name in everyone)
        trades += len(everyone)
    assert trades > 0


@pytest.mark.parametrize("words", [["due", "DLR1", "--notes"], ["live", "--notes", "--notes"]])
def test_wrong_arguments(words: list[str]) -> None:
    assert model_answer(words, b"")[:2] == (2, b"")
