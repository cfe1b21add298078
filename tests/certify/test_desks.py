"""A right desk passes every case of its role, and each wrong one fails the case that was written for it."""

import re
from collections.abc import Callable
from contextlib import closing
from pathlib import Path

import pytest
from mireseason_certify.draw import Draw
from mireseason_certify.own_venue import Programs
from mireseason_certify.page import Page
from mireseason_certify.ports import Port
from mireseason_certify.run import FAILED, PASSED, UNREACHABLE, Outcome, Trial, cases_of
from mireseason_certify.telling import Telling

from tests.certify.desk import Desk
from tests.certify.own_desk import OwnDesk
from tests.certify.wrong_desks import DEALERS, INVESTORS
from tests.gateway.wait import at_this_load
from tests.harness.options import ROOT

README = ROOT / "certify" / "README.md"
PATIENCE = 4.0  # seconds on a machine that is free
PATIENCE_OF_OWN = 12.0  # of a desk whose engine tries again each two seconds
WRONG = [("dealer", *item) for item in DEALERS.items()]
WRONG += [("investor", *item) for item in INVESTORS.items()]

Certified = Callable[[type[Desk], str, list[str]], dict[str, Outcome]]


@pytest.fixture
def certified(
    programs: Programs, tmp_path: Path, seed: int
) -> Callable[[type[Desk], str, list[str]], dict[str, Outcome]]:
    """What comes of the cases for a desk."""

    def run(kind: type[Desk], role: str, only: list[str]) -> dict[str, Outcome]:
        telling = Telling(quiet=True)
        with (
            closing(Port()) as port,  # the desk tries it longer than the relay stands
            closing(Page(0, telling)) as page,
            closing(kind(page.port)) as desk,
        ):
            patience = at_this_load(PATIENCE)
            words = ("TESTDESK", role, Draw(seed), telling, port.number, patience, only)
            trial = Trial(programs, tmp_path, *words)
            return {one.name: one for one in trial.run(desk.start)}

    return run


class NotingDesk(Desk):
    """Keeps which keys came with which task."""

    seen: dict[str, set[str]] = {}

    def does_task(self, number: int, act: dict[str, str]) -> None:
        self.seen.setdefault(act["do"], set()).update(set(act) - {"do", "text"})
        super().does_task(number, act)


def keys_of_the_page() -> dict[str, set[str]]:
    """What certify/README.md says of each `do`."""
    rows = re.findall(r"(?m)^\| ((?:`[a-z0-9 ]+`(?:, )?)+) \| ([^|]*)\|", README.read_text())
    word = re.compile("`([a-z0-9 ]+)`")
    return {do: set(word.findall(keys)) for names, keys in rows for do in word.findall(names)}


@pytest.mark.parametrize("role", ["dealer", "investor"])
def test_a_right_desk_passes(certified: Certified, role: str) -> None:
    """And is told nothing but what the page says."""
    NotingDesk.seen = {}
    outcomes = certified(NotingDesk, role, [])
    page = keys_of_the_page()
    assert {do: keys for do, keys in page.items() if do in NotingDesk.seen} == NotingDesk.seen
    assert {name: one.why for name, one in outcomes.items() if one.outcome != PASSED} == {}
    assert len(outcomes) == len(cases_of(role)) >= 30


@pytest.mark.parametrize("role, kind, case", WRONG, ids=[one[1].__name__ for one in WRONG])
def test_a_wrong_desk_fails_its_case(
    certified: Certified, role: str, kind: type[Desk], case: str, is_long: bool
) -> None:
    only = [one.name for one in cases_of(role) if one.name.startswith(case)]
    outcomes = certified(kind, role, [] if is_long else only)
    failed = {name for name, one in outcomes.items() if one.outcome == FAILED}
    rest = {one.outcome for name, one in outcomes.items() if name not in failed}
    assert len(failed) == 1 and failed <= set(only), {n: o.why for n, o in outcomes.items()}
    assert rest <= {PASSED, UNREACHABLE}


def test_each_mistake_is_made() -> None:
    assert len(WRONG) >= 30


@pytest.mark.parametrize("role", ["dealer", "investor"])
def test_the_desk_of_this_repository_passes(
    programs: Programs, desk_program: Path, tmp_path: Path, seed: int, role: str
) -> None:
    telling = Telling(quiet=True)
    folders = [tmp_path / name for name in ("venue", "desk")]
    for folder in folders:
        folder.mkdir()
    with closing(Port()) as port, closing(Page(0, telling)) as page:
        desk = OwnDesk(desk_program, folders[1], role, page.port)
        patience = at_this_load(PATIENCE_OF_OWN)
        words = ("OWNDESK", role, Draw(seed), telling, port.number, patience)
        try:
            outcomes = Trial(programs, folders[0], *words).run(desk.start)
        finally:
            fault = desk.close()
    assert {one.name: one.why for one in outcomes if one.outcome != PASSED} == {}, fault
    assert fault == ""
