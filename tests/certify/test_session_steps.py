"""What a case of the session does to the desk's line and to the venue, step by step, and what it asks of the developer."""

from __future__ import annotations

from collections.abc import Callable
from typing import cast

import pytest
from mireseason_certify.frames import Message
from mireseason_certify.relay import By, Fits, Relay
from mireseason_certify.session_cases import SessionCases, Trade
from mireseason_certify.stage import Stage, is_kind

from tests.certify.scripted import Line, Script, fails
from tests.certify.test_market import BOND

STEPS: list[str] = []


class Act:
    """Of the desk: what it does, and what is looked at, in its order."""

    def __init__(self, stage: Stage) -> None:
        self.stage = stage

    def prepare(self, _: Stage) -> None:
        STEPS.append("prepare")

    def tell(self, stage: Stage) -> None:
        stage.task("Act.", "act")

    def fits(self, message: Message) -> bool:
        return message.kind == "S"

    def is_taken(self, _: Stage) -> None:
        STEPS.append("is taken")

    @staticmethod
    def trades(_: Stage) -> Trade:
        STEPS.append("trades")
        return Trade(BOND, 500, is_kind("AJ"))

    @staticmethod
    def trades_away(_: Stage) -> Trade:
        STEPS.append("trades away")
        return Trade(BOND, 500, is_kind("AJ"))


CASES = SessionCases(Act, ("acts",), "trade", has_clock=True)


class NotedLine(Line):
    """Its faults are steps, too."""

    def lose(self, by: By, fits: Fits) -> None:
        STEPS.append("lose of the %s" % by.value)
        super().lose(by, fits)

    def __getattr__(self, name: str) -> Callable[..., None]:
        return lambda *words: STEPS.append(" ".join([name, *map(str, words)]))


class Played(Script):
    """A desk that does what it is told, and logs on with its next number."""

    def __init__(self) -> None:
        super().__init__()
        STEPS.clear()
        self.line = NotedLine()
        self.stage.relay = cast(Relay, self.line)
        self.number = 4
        self.logon(self.number)
        self.stage.begins("this one", is_first=False)
        acts: dict[str, Callable[[dict[str, str]], object]] = {"log on": self.logs_on}
        acts |= {"act": self.acts, "log out": self.logs_out}
        acts["begin numbers at 1"] = lambda _: self.logs_on({}, 1)
        self.developer.acts.update(acts)

    def logs_on(self, _: object, number: int = 0) -> None:
        self.line.is_up = True
        self.number = number or self.number + 1
        self.logon(self.number)
        self.is_let_in()
        STEPS.append("log on")

    def acts(self, _: object) -> None:
        STEPS.append("act")
        lost = [fits for by, fits in self.line.losses if by is By.DESK]
        self.line.desk("S", {117: "q"}, 9)
        if lost:
            self.line.venue("2")
            self.line.say(By.DESK, "S", {117: "q"}, 9, again=True)

    def logs_out(self, _: object) -> None:
        self.line.desk("5")
        self.line.venue("5")
        self.line.is_up = False

    def order(self, *words: str) -> str:
        STEPS.append(" ".join(words) or "the venue")
        if words and words[0] == "suspend":
            self.line.is_up = False
        if words and words[0] == "end-day":
            self.line.venue("5")
            self.line.is_up = False
        return ""


@pytest.fixture
def played(script: Script) -> Played:
    del script  # whose seconds it has
    return Played()


ACT = ["prepare", "act", "is taken"]
AGAIN = ["prepare", "lose of the desk", "act"]
CASES_AND_STEPS = {
    "lost_line": ["cut", "log on", *ACT],
    "gap_of_the_desk": [*AGAIN, "is taken"],
    "lost_with_its_line": [*AGAIN, "cut", "log on", "is taken"],
    "away": ["refuse True", "cut", "prepare", "refuse False", "log on", "act", "is taken"],
    "restart": ["prepare", "the venue", "the venue", "log on", "act", "is taken"],
    "suspended": [
        "suspend TESTDESK --because a conformance case",
        "resume TESTDESK",
        "log on",
        *ACT,
    ],
    "logout": ["log on", *ACT],
    "day_end": ["end-day --now --because a conformance case"],
}


@pytest.mark.parametrize("name", CASES_AND_STEPS)
def test_the_steps_of_a_case(played: Played, name: str) -> None:
    getattr(CASES, name)(played.stage)
    assert STEPS == CASES_AND_STEPS[name]


@pytest.mark.parametrize("name", ["lost_line", "lost_with_its_line", "restart", "logout"])
def test_numbers_go_on(played: Played, name: str) -> None:
    played.developer.acts["log on"] = lambda _: played.logs_on({}, 1)
    with fails("the desk has begun its numbers anew"):
        getattr(CASES, name)(played.stage)


def test_a_trade_that_was_made_while_it_was_away(played: Played) -> None:
    played.developer.enters = ["500"]
    with fails("the venue was to send that it has traded"):
        CASES.trade_while_away(played.stage)

    def logs_on(needs: object) -> None:
        played.logs_on(needs)
        played.line.venue("AJ")

    played.developer.acts["log on"] = logs_on
    STEPS.clear()
    CASES.trade_while_away(played.stage)
    assert STEPS == ["trades away", "refuse False", "log on"] and played.developer.enters == []


def test_a_store_that_is_lost(played: Played) -> None:
    """The venue refuses number 1 until the operator has reset the session, and then tells the trade as a copy."""

    def loses(_: object) -> None:
        played.logon(1)
        played.line.is_up = False

    def begins(_: object) -> None:
        played.logs_on({}, 1)
        played.line.venue("AJ", {97: copy})

    played.developer.acts |= {"lose the store": loses, "begin numbers at 1": begins}
    copy, played.developer.enters = "N", ["500"]
    with fails("the venue was to send the trade again, as a copy"):
        CASES.lost_store(played.stage)
    copy = "Y"
    STEPS.clear()
    CASES.lost_store(played.stage)
    assert played.developer.enters == [], "the position is asked for"
    assert STEPS == [
        "trades",
        "reset-session TESTDESK --because a conformance case",
        "log on",
        *ACT,
    ]


def test_a_suspension_that_ends_whatever_comes(played: Played) -> None:
    def stays(_: object) -> None:
        played.line.desk("S", {117: "late"})

    played.developer.acts["nothing"] = stays
    with fails("the desk has sent a message of the market"):
        CASES.suspended(played.stage)
    assert STEPS[-1] == "resume TESTDESK"


@pytest.mark.parametrize("date, is_right", [("20261128", True), ("20261127", False)])
def test_the_next_day(
    played: Played, date: str, is_right: bool, monkeypatch: pytest.MonkeyPatch
) -> None:
    """A Logon of that day, with number 1."""
    monkeypatch.setattr(played.stage, "opens_next_day", lambda: "20261128")

    def logs_on(_: object) -> None:
        said = played.logon(1)
        moved = tuple(
            (tag, date + "-00:00:01.000" if tag == 52 else value) for tag, value in said.fields
        )
        seen = played.line.seen.pop()
        played.line.seen.append(type(seen)(seen.by, Message(said.raw, moved), 0.0, 1))
        played.is_let_in()

    played.developer.acts["log on"] = logs_on
    if is_right:
        CASES.next_day(played.stage)
        assert STEPS == ACT and played.developer.now()["task"] is not None
        return
    with fails("the desk has not sent a Logon .35=A. of the next day"):
        CASES.next_day(played.stage)
