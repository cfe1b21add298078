"""What a case of the session takes for right and for wrong, message by message, on a line whose both ends a test speaks for.

`test_desks.py` has desks that are wrong in one thing, with a gateway.
"""

from __future__ import annotations

import pytest
from mireseason_certify import session_cases
from mireseason_certify.dealer_session import QuoteAct
from mireseason_certify.frames import Message, message_of
from mireseason_certify.relay import By, Fits, Seen
from mireseason_certify.session_cases import SessionCases

from tests.certify.scripted import Script, fails, message

CASES = SessionCases(QuoteAct, ("quote-offer",), "won")


def test_a_logon_as_it_was_printed(script: Script) -> None:
    script.logon()
    script.is_let_in()
    CASES.logon(script.stage)
    assert script.developer.tasks == ["Start your desk: log on."]


LOGONS = {
    "_49": ("OTHER", r"SenderCompID \(49\) of the Logon is not the one that was printed"),
    "_56": ("MARKET", r"TargetCompID \(56\)"),
    "_553": ("OTHER", r"Username \(553\)"),
    "_554": ("x", r"Password \(554\)"),
    "_108": ("0", r"HeartBtInt \(108\) of the Logon is none of 1 to 300"),
    "_1137": ("8", r"DefaultApplVerID \(1137\) of the Logon is not 9"),
    "_98": ("1", r"EncryptMethod \(98\) of the Logon is not 0"),
}


@pytest.mark.parametrize("field", LOGONS)
def test_a_logon_that_is_another(script: Script, field: str) -> None:
    value, words = LOGONS[field]
    script.logon(1, **dict([(field, value)]))
    with fails(words):
        CASES.logon(script.stage)


@pytest.mark.parametrize(
    "interval, is_right",
    [
        *(("1", 1), ("300", 1), ("030", 1), ("301", 0), ("x", 0), ("", 0)),
        *(("\u00b2", 0), ("\u0663\u0660", 0), ("0000000030", 0), ("9" * 5000, 0)),
    ],
)
def test_how_often_it_says_that_it_is_there(script: Script, interval: str, is_right: bool) -> None:
    """A number as the venue reads it: of 1 to 9 digits of ASCII."""
    logon = script.logon(_108=interval)
    if is_right:
        session_cases.is_as_printed(script.stage, logon)
        return
    with fails("none of 1 to 300"):
        session_cases.is_as_printed(script.stage, logon)


@pytest.mark.parametrize("number", ["\u00b2", "x", "", "-1", "0000000001"])
def test_a_number_that_is_none(number: str) -> None:
    assert message_of(b"35=0\x0134=%s\x01" % number.encode()).number == 0


def test_a_first_logon_has_number_1(script: Script) -> None:
    script.logon(2)
    with fails(r"the day's first Logon has number 2 \(34\), not 1"):
        CASES.logon(script.stage)


def test_a_logon_that_nobody_answers(script: Script) -> None:
    """The venue has to let it in, and the desk to answer by the TestRequest's own name."""
    script.logon()
    with fails("the venue was to send that the Logon is accepted"):
        CASES.logon(script.stage)
    script.line.venue("A")
    with fails("the venue was to send a TestRequest"):
        CASES.logon(script.stage)
    script.line.venue("1", {112: "t"})
    for kind, name in (("0", "other"), ("1", "t"), ("0", "")):
        script.line.desk(kind, {112: name} if name else {})
        with fails("the desk has not sent a Heartbeat with the TestRequest's 112"):
            CASES.logon(script.stage)
    script.line.desk("0", {112: "t"})
    CASES.logon(script.stage)


def beats(script: Script, *moments: float) -> None:
    """Heartbeats of a desk that writes no milliseconds, once it may send them."""

    def sends(_: object) -> None:
        for moment in moments:
            said = message("0", {52: "20261127-12:00:00"})
            plain = Message(said.raw, tuple(one for one in said.fields if one[0] != 52))
            script.line.seen.append(Seen(By.DESK, plain, moment, 1))

    script.developer.acts["nothing"] = sends


def test_heartbeats(script: Script) -> None:
    """Two come, at least half of the interval apart; what answers a TestRequest is none."""
    script.logon()
    beats(script, 0.0)
    with fails("has not sent a second Heartbeat"):
        CASES.heartbeat(script.stage)
    assert script.developer.tasks[0].startswith("Leave your desk alone for up to 28 s")


@pytest.mark.parametrize("apart, is_right", [(5.0, True), (4.9, False), (11.0, True)])
def test_how_far_heartbeats_are_apart(script: Script, apart: float, is_right: bool) -> None:
    first, second = (Seen(By.DESK, message("0", {}), moment, 1) for moment in (0.0, apart))
    plain = [Seen(By.DESK, Message(b"", ((35, "0"),)), one.moment, 1) for one in (first, second)]
    assert session_cases.seconds_between(plain[0], plain[1]) == apart
    script.logon()
    stage, given = script.stage, iter(plain)
    stage.desk_sent = lambda *_: next(given)  # type: ignore[assignment]
    if is_right:
        CASES.heartbeat(stage)
        return
    with fails("Heartbeats come 4.9 s apart; the Logon's HeartBtInt .108. is 10"):
        CASES.heartbeat(stage)


def test_seconds_by_the_desks_own_clock() -> None:
    def at(text: str, moment: float) -> Seen:
        return Seen(By.DESK, Message(b"", ((35, "0"), (52, text))), moment, 1)

    first = at("20261127-12:00:00.250", 0.0)
    assert session_cases.seconds_between(first, at("20261127-12:00:10.750", 3.0)) == 10.5
    assert session_cases.seconds_between(first, at("20261127-12:00:10", 3.0)) == 3.0


@pytest.mark.parametrize("number, more", [(1, {}), (5, {"_141": "Y"})])
def test_numbers_that_begin_anew(script: Script, number: int, more: dict[str, str]) -> None:
    script.logon(1)
    script.logon(5)
    session_cases.keeps_its_numbers(script.stage)
    script.logon(number, **more)
    with fails("the desk has begun its numbers anew"):
        session_cases.keeps_its_numbers(script.stage)


@pytest.mark.parametrize(
    "pauses, is_right",
    [([0.1, 0.1], True), ([0.1, 0.1, 0.3], False), ([0.1, 0.2, 0.3], True), ([], True)],
)
def test_a_desk_that_tries_without_end(script: Script, pauses: list[float], is_right: bool) -> None:
    """Of three and more its usual pause counts."""
    script.line.logons = pauses
    if is_right:
        session_cases.waits_between_logons(script.stage, 0)
        return
    with fails("the desk has tried to log on 3 times, mostly 0.10 s after it was refused"):
        session_cases.waits_between_logons(script.stage, 0)


class Act:
    """Of the desk: a quote, which the venue takes."""

    def __init__(self) -> None:
        self.is_checked = 0

    def fits(self, one: Message) -> bool:
        return one.kind == "S"

    def is_taken(self, _: object) -> None:
        self.is_checked += 1


def again(script: Script, kind: str, fields: dict[int, str], number: int = 7) -> int:
    """What the case says of a message that is sent again, of one that was lost; whether the venue's answer is looked at."""
    act = Act()
    script.line.say(By.DESK, kind, fields, number, again=True)
    session_cases.again(script.stage, act, message("S", {117: "q", 132: "99"}, 7))  # type: ignore[arg-type]
    return act.is_checked


def test_a_message_that_is_sent_again(script: Script) -> None:
    assert again(script, "S", {117: "q", 132: "99"}) == 1


def test_a_gap_that_is_filled(script: Script) -> None:
    assert again(script, "4", {36: "8"}) == 0


@pytest.mark.parametrize(
    "kind, fields, number, words",
    [
        ("S", {117: "q", 132: "98"}, 7, "number 7 comes again with other content"),
        ("S", {117: "q"}, 7, "number 7 comes again with other content"),
        ("S", {117: "q", 132: "99"}, 8, "the desk has not sent number 7 again, with 43=Y"),
        ("AJ", {117: "q", 132: "99"}, 7, "the desk has not sent number 7 again"),
    ],
)
def test_a_message_that_is_another(
    script: Script, kind: str, fields: dict[int, str], number: int, words: str
) -> None:
    with fails(words):
        again(script, kind, fields, number)


def test_the_same_under_another_number(script: Script) -> None:
    script.line.desk("S", {117: "q", 132: "99"}, 9)
    with fails("has sent the same under another number, though 7 was sent again"):
        again(script, "S", {117: "q", 132: "99"})


def test_what_is_not_sent_again(script: Script) -> None:
    """Without 43=Y it is a message of its own."""
    script.line.desk("S", {117: "q", 132: "99"}, 7)
    with fails("has not sent number 7 again"):
        session_cases.again(script.stage, Act(), message("S", {117: "q", 132: "99"}, 7))  # type: ignore[arg-type]


def test_a_wrong_password(script: Script) -> None:
    """First the wrong one, then one's own."""
    script.logon(_554="wrong")
    with fails("has not sent a Logon with the wrong password"):
        CASES.password(script.stage)
    script.logon(_554="not-the-password")
    script.line.seen.pop(0)
    with fails("has not sent a Logon with the right password"):
        CASES.password(script.stage)
    assert script.developer.tasks[-1].count("`not-the-password`") == 1


def test_how_long_an_answer_is_waited_for(script: Script) -> None:
    """Twice what a developer has for a task, and fifteen seconds at most."""
    script.logon()
    script.is_let_in()
    asked: list[float | None] = []
    sends = script.stage.desk_sends

    def noted(what: str, fits: Fits, seconds: float | None = None) -> Message:
        asked.append(seconds)
        return sends(what, fits, seconds)

    script.stage.desk_sends = noted  # type: ignore[assignment]
    for patience, limit in ((1.0, 2.0), (120.0, 15.0)):
        script.stage.patience = patience
        session_cases.is_let_in(script.stage)
        assert asked.pop() == limit


@pytest.mark.parametrize(
    "begin, is_right",
    [
        *(("7", True), ("5", True), ("0", True), ("8", False)),
        *(("x", False), ("", False), ("\u00b2", False), ("-1", False)),
    ],
)
def test_a_gap_that_the_desk_has_to_see(script: Script, begin: str, is_right: bool) -> None:
    """It asks from the lost message on, or from one before it."""
    acts = iter(range(2))

    class Prepared(QuoteAct):
        def prepare(self, _: object) -> None:
            number = 7 + next(acts)
            script.line.say(By.VENUE, "R", {48: "XS"}, number)
            if number == 8:
                script.line.desk("2", {7: begin, 16: "0"})
                script.line.say(By.VENUE, "R", {48: "XS"}, 7, again=True)

        def tell(self, _: object) -> None:
            script.line.desk("S", {117: "q"})

        def fits(self, one: Message) -> bool:
            return one.kind == "S"

        def is_taken(self, _: object) -> None:
            """It is."""

    case = SessionCases(Prepared, (), "").gap_to_the_desk
    if is_right:
        case(script.stage)
        return
    with fails("it does not ask for 7: 8=FIXT"):
        case(script.stage)
