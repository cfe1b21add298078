"""The test that each wrong body names rejects it: six drawn by the seed in the short form, all in the long one."""

import random
from collections.abc import Callable, Iterator
from contextlib import ExitStack
from functools import cache
from pathlib import Path

import pytest

from tests.gateway.midnight import wait_for_room
from tests.harness.options import OPTIONS, ROOT
from tests.mutants.mutant import Mutant, all_mutants
from tests.mutants.nursery import Nursery, nursery

DRAWN = 6


def pytest_generate_tests(metafunc: pytest.Metafunc) -> None:
    if "mutant" not in metafunc.fixturenames:
        return
    chosen, mutants = metafunc.config.stash[OPTIONS], all_mutants()
    if chosen.is_short:
        mutants = random.Random(chosen.seed).sample(mutants, min(DRAWN, len(mutants)))
    marked = [
        pytest.param(each, id=each.name, marks=pytest.mark.xdist_group(copy_of(each)))
        for each in mutants
    ]
    metafunc.parametrize("mutant", marked)


def copy_of(mutant: Mutant) -> str:
    """Mutants of one program are tried in the same copy of the tree, one after the other."""
    return mutant.part or "scripts"


@pytest.fixture(scope="session")
def trees(venue: tuple[str, ...], gateway_program: Path) -> Iterator[Callable[[str], Nursery]]:
    """The copy of each part, once it is asked for."""
    with ExitStack() as opened:
        yield cache(lambda part: opened.enter_context(nursery(part, venue, gateway_program)))


def test_a_mutant_is_rejected(mutant: Mutant, trees: Callable[[str], Nursery]) -> None:
    """A test that fails, and not one that can't be run: its fixtures stand."""
    tree = trees(copy_of(mutant))
    wait_for_room(mutant.name)
    with tree.planted(mutant):
        count, told = tree.tried(mutant)
    assert count.failed, "%s (%s) passes %s:\n%s" % (mutant.name, mutant.what, mutant.test, told)
    assert "ERROR at setup" not in told, told


@pytest.mark.parametrize("each", all_mutants(), ids=[each.name for each in all_mutants()])
def test_a_mutant_fits(each: Mutant) -> None:
    """The text that it changes stands once in its file, and the test that it names is there."""
    assert each.planted_in((ROOT / each.file).read_text()) != ""
    words = '"%s"' if each.unit else "def %s("
    assert words % each.case in (ROOT / each.test.partition("::")[0]).read_text()
