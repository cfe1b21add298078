"""Each page: its commands print what it shows, its names and links exist, and the scripts that print pages can print them."""

import shlex

import pytest
from page_checks.clauses import check_clauses
from page_checks.commands import check_commands
from page_checks.links import check_links
from page_checks.names import check_names
from page_checks.page import Checked, Page, pages_of, tracked
from page_checks.vocabulary import Vocabulary, vocabulary_of
from page_checks.written import check_written

from tests.harness.options import ROOT


@pytest.fixture(scope="module")
def files() -> list[str]:
    return tracked(ROOT)


@pytest.fixture(scope="module")
def pages(files: list[str]) -> list[Page]:
    return pages_of(ROOT, files)


@pytest.fixture(scope="module")
def words(files: list[str]) -> Vocabulary:
    return vocabulary_of(ROOT, files)


def holds(checked: Checked) -> None:
    """Something was looked at, and nothing was found."""
    print("%d passed" % checked.passed)
    assert not checked.findings, "\n".join(str(each) for each in checked.findings)
    assert checked.passed > 0


def program(venue: tuple[str, ...]) -> str:
    return venue[0] if len(venue) == 1 else shlex.join(venue)


def test_commands(pages: list[Page], words: Vocabulary, venue: tuple[str, ...]) -> None:
    checked, _ = check_commands(pages, ROOT, words, program(venue))
    holds(checked)


def test_names(pages: list[Page], words: Vocabulary) -> None:
    holds(check_names(pages, words))


def test_links(pages: list[Page], words: Vocabulary) -> None:
    holds(check_links(pages, words))


def test_what_scripts_write(pages: list[Page]) -> None:
    holds(check_written(ROOT, pages))


def test_clauses() -> None:
    holds(check_clauses(ROOT))
