"""Which cases are played, in which order, and what a run makes of each: with cases that a test writes, and no venue."""

from __future__ import annotations

import os
import subprocess
import sys
import time
from collections.abc import Callable
from pathlib import Path
from types import SimpleNamespace
from typing import Any, cast

import pytest
from mireseason_certify import clock as clocks
from mireseason_certify import main as mains
from mireseason_certify import run as runs
from mireseason_certify import stage as stages
from mireseason_certify.case import Case, Cases
from mireseason_certify.draw import Draw
from mireseason_certify.own_venue import NoVenue
from mireseason_certify.played import NotAnswered
from mireseason_certify.relay import By
from mireseason_certify.run import (
    FAILED,
    PASSED,
    UNREACHABLE,
    Trial,
    cases_of,
    chosen,
    not_tried,
    text_of,
)
from mireseason_certify.stage import Failed, Unreachable
from mireseason_certify.telling import MOST_ANSWER, Line, Telling, read_terminal

from tests.certify.scripted import Script
from tests.gateway.wait import LONG
from tests.harness.options import ROOT

ROLES = ("dealer", "investor")


# ---------------------------------------------------------------- which cases


@pytest.mark.parametrize("role", ROLES)
@pytest.mark.parametrize("seed", range(5))
def test_the_order_of_cases(role: str, seed: int) -> None:
    """The Logon, the market, the session, each behind what it needs, and at last what leaves no session."""
    found = chosen(role, Draw(seed), [], has_clock=True)
    names = [one.name for one in found]
    assert len(names) == len(set(names)) == len(cases_of(role, has_clock=True))
    assert names[0] == "logon" and names[-3:] == ["lost-store", "day-end", "next-day"]
    kinds = [one.is_of_session for one in found[1:-3]]
    assert kinds == sorted(kinds), "the market comes before the session"
    for at, one in enumerate(found[:-3]):
        assert set(one.needs) <= set(names[:at]), one.name


def test_other_seeds_have_another_order() -> None:
    assert len({tuple(one.name for one in chosen("dealer", Draw(n), [])) for n in range(5)}) > 1


@pytest.mark.parametrize("role, desk", [("dealer", "CALDER"), ("investor", "MERLIN")])
def test_no_two_firms_have_one_name(role: str, desk: str) -> None:
    """Whatever is drawn, and though the desk's own name is one of those that are played."""
    for seed in range(30):
        cast_ = Draw(seed).cast(desk, role)
        names = [one.name for one in (*cast_.dealers, *cast_.investors)]
        assert len(set(names)) == len(names) == 6 and desk in names
        assert cast_.desk.name == desk and desk in [one.name for one in getattr(cast_, role + "s")]


def test_no_two_messages_have_one_name() -> None:
    """Of so many by chance, of a million, some would."""
    draw = Draw(1)
    names = [draw.name("ask") for _ in range(5000)]
    assert len(set(names)) == len(names)


def test_cases_that_are_named() -> None:
    """With all that they need, and the Logon."""
    names = {one.name for one in chosen("dealer", Draw(1), ["won"])}
    assert names == {"logon", "quote-offer", "quote-bid", "won"}
    assert {one.name for one in chosen("dealer", Draw(1), ["logon"])} == {"logon"}
    with pytest.raises(NoVenue, match="a dealer has no case wins: --list prints them"):
        chosen("dealer", Draw(1), ["won", "wins", "loses"])


def test_what_is_not_tried() -> None:
    """Without a clock that can be moved no next day."""
    names = {one.name for one in cases_of("dealer")}
    assert "next-day" not in names and set(not_tried(has_clock=False)) == {
        "next day",
        "tls",
        "crash",
        "validity",
    }
    assert set(not_tried(has_clock=True)) == {"tls", "crash", "validity"}


# ---------------------------------------------------------------- what comes of a case


class Run:
    """A trial of cases that are written here."""

    def __init__(self, role: str = "dealer") -> None:
        self.script = Script(role)
        self.trial = Trial(
            cast(Any, None), Path(), "TESTDESK", role, Draw(1), self.script.developer, 0, 0.01
        )
        self.cases = Cases(is_of_session=True)
        self.script.developer.lines = [Line(str(at), "") for at in range(20)]

    def case(
        self, name: str, play: Callable[[], object], *needs: str, of_market: bool = False
    ) -> None:
        def plays(_: stages.Stage) -> None:
            play()

        made = Case(name, name.upper(), plays, needs, not of_market)
        outcome = self.trial._tried(self.script.stage, made)
        self.trial.outcomes[name] = outcome

    def outcome(self, name: str) -> tuple[str, str]:
        found = self.trial.outcomes[name]
        return found.outcome, found.why


@pytest.fixture
def run(monkeypatch: pytest.MonkeyPatch) -> Run:
    for name in ("PROMPT", "LOOK", "UNTIL_READ", "SETTLED"):
        monkeypatch.setattr(stages, name, 0.01)
    return Run()


def raises(fault: Exception) -> Callable[[], object]:
    def play() -> object:
        raise fault

    return play


def test_what_comes_of_a_case(run: Run) -> None:
    """With its messages and its seconds; the page's line says the same."""
    stage = run.script.stage

    def passes() -> None:
        run.script.line.desk("A", {554: "secret"})
        stage.note = "a note"

    run.case("logon", passes)
    run.case("failed", raises(Failed("it was wrong")), of_market=True)
    run.case("no", raises(Unreachable("it is not there")))
    run.case("lost", raises(NotAnswered("ELGIN is not sent it")))
    assert run.outcome("logon") == (PASSED, "a note")
    assert run.outcome("failed") == (FAILED, "it was wrong")
    assert run.outcome("no") == (UNREACHABLE, "it is not there")
    played = "a firm that is played is in another state: ELGIN is not sent it"
    assert run.outcome("lost") == (UNREACHABLE, played)
    first = run.trial.outcomes["logon"]
    assert (first.name, first.title) == ("logon", "LOGON") and 0.0 <= first.seconds < 60.0
    (said,) = first.messages
    assert said.startswith("desk 8=FIXT.1.1|") and "|554=***|" in said
    assert [(line.outcome, line.why) for line in run.script.developer.lines[:2]] == [
        (PASSED, "a note"),
        (FAILED, "it was wrong"),
    ]
    assert run.trial.outcomes["no"].messages == []
    assert run.trial.broken_by == "", "a case of the market leaves the session as it was"


def test_a_message_that_a_case_lost(run: Run) -> None:
    line = run.script.line
    line.lose(By.VENUE, lambda _: True)
    line.venue("8")
    line.venue("9")
    lost, given = line.seen
    assert text_of(lost).startswith("venue ") and text_of(lost).endswith(" (lost by the case)")
    assert not text_of(given).endswith(" (lost by the case)")


def test_what_needs_another_case(run: Run) -> None:
    run.case("logon", lambda: None)
    run.case("one", raises(Failed("x")), of_market=True)
    run.case("two", lambda: None, "logon", "one")
    assert run.outcome("two") == (UNREACHABLE, "it needs one, which has not passed")
    run.case("both", lambda: None, "one", "two")
    assert run.outcome("both") == (UNREACHABLE, "it needs one, which has not passed")
    run.case("three", lambda: None, "two")
    assert run.outcome("three") == (UNREACHABLE, "it needs two, which has not passed")


def test_without_a_logon_nothing_is_tried(run: Run) -> None:
    run.case("logon", raises(Failed("x")))
    run.case("one", lambda: None)
    assert run.outcome("one") == (UNREACHABLE, "the desk has not logged on as it has to")
    assert run.trial.broken_by == ""


@pytest.mark.parametrize("is_sound", [True, False])
def test_a_session_that_is_in_order_all_the_same(
    run: Run, is_sound: bool, monkeypatch: pytest.MonkeyPatch
) -> None:
    """Behind a case of the session that has failed an act shows whether others can be tried."""
    monkeypatch.setattr(runs, "is_in_order", lambda *_: is_sound)
    run.case("logon", lambda: None)
    run.case("one", raises(Failed("x")))
    run.case("two", lambda: None)
    words = (UNREACHABLE, "the desk's session is not in order after one")
    assert run.outcome("two") == ((PASSED, "") if is_sound else words)


def test_a_session_that_does_not_come_back(run: Run) -> None:
    """Behind a case that has failed the desk has no line, and does not log on."""
    run.case("logon", lambda: None)
    run.script.line.is_up = False
    run.case("next-day", raises(Failed("x")))
    assert run.outcome("next-day") == (FAILED, "x") and run.trial.broken_by == "next-day"


def test_a_desk_that_is_not_logged_on(run: Run) -> None:
    """It is asked to log on before a case, but for the next day's, which begins without one."""
    run.case("logon", lambda: None)
    run.script.line.is_up = False
    run.case("next-day", lambda: None)
    assert run.outcome("next-day") == (PASSED, "")
    run.case("one", lambda: None, of_market=True)
    outcome, why = run.outcome("one")
    assert outcome == UNREACHABLE and why.startswith("the desk is not logged on: the desk has not")

    def logs_on(_: object) -> None:
        run.script.logon(5)
        run.script.is_let_in()

    run.script.developer.acts["log on"] = logs_on
    run.case("two", lambda: None, of_market=True)
    assert run.outcome("two") == (PASSED, "")


# ---------------------------------------------------------------- the command


@pytest.fixture
def words(monkeypatch: pytest.MonkeyPatch) -> Callable[..., int]:
    def call(*given: str) -> int:
        monkeypatch.setattr(sys, "argv", ["mireseason-certify", *given])
        return mains.main()

    monkeypatch.setattr(mains, "end_by_signals", lambda: None)
    return call


def test_the_command_as_a_module() -> None:
    """It ends with the command's own status."""
    asked = [sys.executable, "-m", "mireseason_certify"]
    done = subprocess.run(asked, capture_output=True, text=True, cwd=ROOT / "certify", timeout=LONG)
    assert done.returncode == 2 and "name the firm" in done.stderr


def test_the_words_of_the_command(
    words: Callable[..., int], capsys: pytest.CaptureFixture[str], monkeypatch: pytest.MonkeyPatch
) -> None:
    assert words() == 2
    assert "name the firm (SenderCompID, 49)" in capsys.readouterr().err
    assert words("--list", "--role", "investor") == 0
    out = capsys.readouterr().out
    assert "hit-only " in out and "next-day " in out and "quote-offer" not in out
    asked: list[object] = []

    def verified(*given: object) -> int:
        asked.append(given)
        return 7

    monkeypatch.setattr(mains, "verified", verified)
    assert words("--verify", "a.json", "--public-key", "b.pub") == 7
    assert asked == [(Path("a.json"), Path("b.pub"))]
    for fault in (NoVenue("no gateway"), NotAnswered("no answer"), OSError("no port")):

        def fails(*_: object, why: Exception = fault) -> int:
            raise why

        monkeypatch.setattr(mains, "certify", fails)
        assert words("DLR1") == 2
        assert capsys.readouterr().err == "mireseason-certify: %s\n" % fault


@pytest.mark.parametrize("outcome, status", [(PASSED, 0), (FAILED, 1), (UNREACHABLE, 1)])
def test_what_the_command_ends_with(
    words: Callable[..., int],
    outcome: str,
    status: int,
    tmp_path: Path,
    capsys: pytest.CaptureFixture[str],
    monkeypatch: pytest.MonkeyPatch,
) -> None:
    """0 where all have passed. The report is written anyway."""
    made = [runs.Outcome("a", "A", PASSED), runs.Outcome("b", "B", outcome)]
    given: list[Any] = []

    def trial(*words: object) -> SimpleNamespace:
        given.append(words)
        return SimpleNamespace(run=lambda: made)

    monkeypatch.setattr(mains, "Trial", trial)
    monkeypatch.setattr(mains, "read_terminal", lambda _: None)
    monkeypatch.setattr(mains, "versions_of", lambda _: {"formats": "f"})
    assert (
        words("DLR1", "--out", str(tmp_path), "--seed", "9", "--only", "a", "--days", "3") == status
    )
    counts = {PASSED: (2, 0, 0), FAILED: (1, 1, 0), UNREACHABLE: (1, 0, 1)}[outcome]
    out = capsys.readouterr().out
    assert "%d passed, %d failed, %d could not be tried" % counts in out
    assert "the page of this run: http://127.0.0.1:" in out
    assert (tmp_path / "certified-DLR1.json").exists()
    _, _, firm, role, draw, _, port, patience, only, clock = given[0]
    assert (firm, role, draw.seed, port, patience, only, clock) == (
        "DLR1",
        "dealer",
        9,
        0,
        120.0,
        ["a"],
        None,
    )


# ---------------------------------------------------------------- what is told, and the clock


def test_answers() -> None:
    """Of the task that waits for one, by its number; a program that cuts none off is cut off."""
    telling = Telling(quiet=True)
    assert not telling.enter(0, "1")
    telling.say("won", "Enter it.", {"do": "position"}, asks=True)
    assert not telling.enter(2, "1") and telling.answer(0) is None
    assert telling.enter(1, "  500 ") and telling.answer(0) == "500" and not telling.has_refused()
    assert telling.enter(1, "x" * 100) and telling.answer(0) == "x" * MOST_ANSWER
    telling.say("late", "Quote it.", {"do": "quote"}, may_refuse=True)
    assert telling.answer(0) is None, "an answer is of one task"
    assert not telling.enter(2, "no") and telling.enter(2, "refused") and telling.has_refused()
    telling.say("late", "Quote it.", {"do": "quote"})
    assert not telling.has_refused() and not telling.enter(3, "refused")
    telling.done()
    assert not telling.enter(3, "1") and telling.now()["task"] is None
    assert telling.answer(60.0, lambda: True) is None


def test_what_stands_on_the_terminal(capsys: pytest.CaptureFixture[str]) -> None:
    telling = Telling()
    telling.say("won", "Enter it.", {"do": "position"}, asks=True)
    assert capsys.readouterr().out == "  -> Enter it.\n"
    Telling(quiet=True).say("won", "Enter it.", {})
    assert capsys.readouterr().out == ""


def test_answers_of_the_terminal(monkeypatch: pytest.MonkeyPatch) -> None:
    telling = Telling(quiet=True)
    monkeypatch.setattr(sys, "stdin", ["before any task\n"])
    read_terminal(telling)
    telling.say("won", "Enter it.", {"do": "position"}, asks=True)
    monkeypatch.setattr(sys, "stdin", ["500\n"])
    read_terminal(telling)
    assert telling.answer(0) == "500"


def test_a_clock_that_is_moved(tmp_path: Path, monkeypatch: pytest.MonkeyPatch) -> None:
    """To the next day in UTC, each time from where it stands; its file goes with it."""
    file = tmp_path / "passed"
    file.write_bytes(bytes(8))
    monkeypatch.setenv("LD_PRELOAD", "clock.so")
    monkeypatch.setenv("CLOCK_PASSED", str(file))
    monkeypatch.setattr(time, "time", lambda: 86_400.0 * 5 + 86_390.5)
    with clocks.moved_by(Path("clock.so")) as clock:
        assert clock is not None
        assert clock.words() == {"LD_PRELOAD": "clock.so", "CLOCK_PASSED": str(file)}
        clock.to_next_day()
        assert int.from_bytes(file.read_bytes(), "little") == 10
        monkeypatch.setattr(time, "time", lambda: 86_400.0 * 6)
        clock.to_next_day()
        assert int.from_bytes(file.read_bytes(), "little") == 10 + 86_401
    assert not file.exists()
    with clocks.moved_by(None) as none:
        assert none is None


def test_a_clock_with_which_it_starts_anew(tmp_path: Path, monkeypatch: pytest.MonkeyPatch) -> None:
    """The same words again, with the library before all others, and no second that has passed."""
    started: list[Any] = []
    library = tmp_path / "clock.so"
    library.write_text("")
    environment: dict[str, str] = {}
    monkeypatch.setattr(os, "environ", environment)
    monkeypatch.setattr(os, "execv", lambda *words: started.append(words))
    with clocks.moved_by(library):
        assert started == [(sys.executable, sys.orig_argv)]
        assert environment["LD_PRELOAD"] == str(library)
        assert Path(environment["CLOCK_PASSED"]).read_bytes() == bytes(8)
    environment.clear()
    with pytest.raises(OSError), clocks.moved_by(tmp_path / "none.so"):
        pass
