"""Where a new duty needs a line (tools/duty_lines.py), and that the page for developers names it."""

import re
from pathlib import Path

import duty_lines
import pytest
from duty_lines import Kind

from tests.harness.options import ROOT

PAGE = "docs/TOUR.md"
SECTION = "## What a new duty touches"
TWO = Kind("two duties", "duty", "Duty", "Open Ready")
WHOLE = {"request_room"}  # each of its files goes through events: the page names the crate

# Whether a new duty of the kind needs a line in a file with this text.
NEEDED = {
    "a line for each duty": (
        "specs/Each.antt",
        "is_open : Duty → Bool\nis_open (duty.Open room) = true\nis_open (duty.Ready room) = false\n",
        True,
    ),
    "a line for all others": (
        "specs/Others.antt",
        "is_open : Duty → Bool\nis_open (duty.Open room) = true\nis_open other = false\n",
        False,
    ),
    "the lines of two functions": (
        "proofs/Two.antt",
        "one (duty.Open room) = tt\none other = tt\ntwo (duty.Ready room) = tt\ntwo other = tt\n",
        False,
    ),
    "the second argument alone": (
        "proofs/Second.antt",
        "  may by (duty.Open room)\n      is = tt\n  may by (duty.Ready room) is = tt\n",
        True,
    ),
    "two arguments": (
        "proofs/Arguments.antt",
        "left (duty.Open a) (duty.Ready b) = tt\nleft more d = tt\n",
        False,
    ),
    "a comment, and a term": (
        "proofs/Terms.antt",
        "-- one (duty.Open room) = tt\none (duty.Ready room) = left (duty.Open room)\n",
        False,
    ),
    "code": ("src/each.rt", "Duty::Open { .. } => {} Duty::Ready { .. } => {}\n", True),
    "code that names one": ("src/one.rt", "Duty::Open { .. } => {} // Duty::Ready\n", False),
}


@pytest.mark.parametrize("case", NEEDED)
def test_a_file_is_named_that_leaves_no_line_for_others(tmp_path: Path, case: str) -> None:
    name, text, needed = NEEDED[case]
    file = tmp_path / "crates" / "market" / name
    file.parent.mkdir(parents=True)
    file.write_text(text, encoding="utf-8")
    assert duty_lines.files_for(TWO, tmp_path) == ([f"market/{name}"] if needed else [])


@pytest.mark.parametrize("kind", duty_lines.KINDS, ids=[kind.name for kind in duty_lines.KINDS])
def test_the_page_names_each_file(kind: Kind) -> None:
    page = (ROOT / PAGE).read_text(encoding="utf-8").partition(SECTION)[2].partition("\n## ")[0]
    named = set(re.findall(r"`(\w+(?:\.rt)?)`", page))
    files = [file for file in duty_lines.files_for(kind) if not named & names_of(file)]
    assert not files, f"{PAGE} does not say that {kind.name} needs a line there"


def names_of(file: str) -> set[str]:
    """What the page may name of a file: it, without the ending of a proof, or its crate as a whole."""
    path = Path(file)
    own = path.stem if path.suffix == ".antt" else path.name
    return {own} | ({path.parts[0]} & WHOLE)
