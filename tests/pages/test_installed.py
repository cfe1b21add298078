"""A page that firms and operators read is installed with every page of docs/ that it leads to."""

import re
from pathlib import Path

import pytest

ROOT = Path(__file__).resolve().parents[2]
LINK = re.compile(r"\]\(([A-Z]+)\.md[)#]")
TAKEN = re.compile(r"for page in ([A-Z ]+); do")


def installed() -> set[str]:
    """The pages of docs/ that build.sh takes and that a package installs."""
    taken = TAKEN.search((ROOT / "debian" / "build.sh").read_text(encoding="utf-8"))
    assert taken is not None
    listed = {
        Path(line).stem
        for file in (ROOT / "debian").glob("*.docs")
        for line in file.read_text(encoding="utf-8").split()
    }
    return set(taken[1].split()) & listed


@pytest.mark.parametrize("page", ["CONNECTING", "OPERATING", "TRADING"])
def test_what_a_page_leads_to_is_installed(page: str) -> None:
    found = set(LINK.findall((ROOT / "docs" / (page + ".md")).read_text(encoding="utf-8")))
    assert found and found <= installed()
