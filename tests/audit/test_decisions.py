"""Decisions of the audit that a whole day seldom reaches: each by itself, against what the pages and the commands' help say."""

import argparse
import re
import subprocess
from collections import Counter
from decimal import Decimal
from pathlib import Path

import pytest
from mireseason_audit.certificates import Second, chosen, movers, second_for
from mireseason_audit.check import dealt, epoch_findings, once_each, target_findings
from mireseason_audit.checkpoints import Numbered
from mireseason_audit.command import check_whole
from mireseason_audit.differing import differing
from mireseason_audit.door import Door
from mireseason_audit.facts import QuoteFact, RequestFact
from mireseason_audit.faults import Unreadable
from mireseason_audit.findings import Finding
from mireseason_audit.frame import fields_of
from mireseason_audit.identity import Asked, Identity
from mireseason_audit.looks import Look, listed
from mireseason_audit.order_events import (
    NEW,
    Order,
    OrderEvent,
    in_order,
    side_said,
)
from mireseason_audit.pair import (
    COVER,
    DROP,
    END,
    LIFTED,
    OWN,
    SHOWN,
    Differences,
    difference_words,
)
from mireseason_audit.parties import Parties
from mireseason_audit.request_lists import lists_of
from mireseason_audit.records import Checkpoint
from mireseason_audit.requests import Request
from mireseason_audit.sqlite_log import SqliteSource
from mireseason_audit.statistics import Spread
from mireseason_audit.verdict import Verdict
from mireseason_audit.version import commit_of, first_line, version_text

from tests.audit.common import DAY, ROOT

# ------------------------------------------------------------ quotes and figures


def request() -> RequestFact:
    return RequestFact(
        1, 1, "09:00:00.000", "INV1", "", "r1", "BOND", True, 100, "09:05:00.000", ["DLR1"]
    )


def quote(until: str = "", end: str = "standing", **more: object) -> QuoteFact:
    made = QuoteFact(
        request(), 2, "09:01:00.000", "DLR1", "", "q1", "Q1", 3, Decimal("99.5"), until, end
    )
    for name, value in more.items():
        setattr(made, name, value)
    return made


def test_until_when_a_quote_can_be_hit() -> None:
    """Up to its 62, and at that moment no more; without 62 for as long as it stands."""
    timed = quote(until="09:02:00.000")
    assert not timed.has_lapsed("09:01:59.999")
    assert timed.has_lapsed("09:02:00.000") and timed.has_lapsed("09:02:00.001")
    assert not quote().has_lapsed("23:59:59.999")


# What became of a quote, when a hit on its request came last (an entry), and whether its withdrawal is a fade.
FADES = {
    "withdrawn before a hit": ("withdrawn", 5, False, 6, True),
    "withdrawn by the entry of the hit": ("withdrawn", 6, False, 6, False),
    "withdrawn after the last hit": ("withdrawn", 7, False, 6, False),
    "withdrawn, and never hit": ("withdrawn", 5, False, None, False),
    "withdrawn when it had lapsed": ("withdrawn", 5, True, 6, False),
    "replaced before a hit": ("replaced", 5, False, 6, False),
    "standing": ("standing", None, False, 6, False),
}


@pytest.mark.parametrize("name", FADES)
def test_which_withdrawal_is_a_fade(name: str) -> None:
    end, end_entry, lapsed, last_hit, expected = FADES[name]
    made = quote(end=end, end_entry=end_entry, lapsed=lapsed)
    made.request.last_hit_entry = last_hit
    assert made.is_fade == expected


def test_how_long_a_quote_could_be_hit() -> None:
    """From its acceptance to its end or its 62, whichever came first; nothing of one that stands."""
    assert quote().life_ms is None
    assert quote(until="09:01:30.000").life_ms is None
    assert quote(end_moment="09:01:00.250").life_ms == 250
    ended = {"until": "09:01:30.000", "end_moment": "09:02:00.000"}
    assert quote(**ended).life_ms == 60_000
    assert quote(**ended, lapsed=True).life_ms == 30_000
    ended["end_moment"] = "09:01:10.000"
    assert quote(**ended, lapsed=True).life_ms == 10_000


def test_ranks_of_values() -> None:
    """The least value that has such a share of all at or below it; and the greatest."""
    spread = Spread[int]()
    assert (spread.count, spread.at(50), spread.greatest) == (0, None, None)
    for value in (40, 10, 30, 20):
        spread.put(value)
    assert (spread.count, spread.greatest) == (4, 40)
    assert [spread.at(share) for share in (1, 25, 26, 50, 75, 90, 100)] == [
        10,
        10,
        20,
        20,
        30,
        40,
        40,
    ]


# ------------------------------------------------------------ which requests a certificate is on


def asked(key: int, dealers: str, winner: str = "", cover: str = "") -> Request:
    """A request to dealers of one letter each."""
    moment = "09:00:00.000"
    made = Request(key, key, moment, "INV1", "", "r", "B", "1", "1", moment, list(dealers))
    made.winner, made.cover = winner, cover
    return made


def keys_of(found: list[Request]) -> list[int]:
    return [one.key for one in found]


def test_requests_that_have_asked_all_dealers() -> None:
    """As few as do; of equal ones that with a cover, then that with a trade, then the first."""
    plain, traded, covered = asked(1, "ab"), asked(2, "ab", "a"), asked(3, "ab", "a", "b")
    both = list("ab")
    assert keys_of(chosen([plain, traded, covered], both, None)) == [3]
    assert keys_of(chosen([plain, traded], both, None)) == [2]
    assert keys_of(chosen([asked(1, "ab"), asked(2, "ab")], both, None)) == [1]
    assert keys_of(chosen([covered, asked(4, "abc")], list("abc"), None)) == [4]
    assert keys_of(chosen([asked(5, "a"), asked(6, "b"), asked(7, "a")], both, None)) == [5, 6]
    assert keys_of(chosen([asked(5, "a")], both, None)) == [5]
    assert chosen([], both, None) == []
    assert keys_of(chosen([plain, traded, covered], both, 1)) == [1]


def test_whose_prices_are_moved() -> None:
    """The winner's and the cover's, else those of the first two that were asked."""
    assert movers(asked(1, "abc", "c", "b")) == ["c", "b"]
    assert movers(asked(1, "abc", "c")) == ["c", "a"]
    assert movers(asked(1, "abc")) == ["a", "b"]
    assert movers(asked(1, "a", "a")) == ["a"]


def test_which_second_day_shows_a_dealer_something() -> None:
    """One in which another's prices were moved, best on a request that it was asked."""
    here = Path("day")
    one = Second(asked(1, "ab"), "a", (), here, here)
    other = Second(asked(2, "c"), "c", (), here, here)
    assert second_for([other, one], "b") is one
    assert second_for([one, other], "a") is other
    assert second_for([one], "a") is None and second_for([one], "d") is one


def test_the_lists_of_requests() -> None:
    """A firm's has what it asked or was asked; a bond's, an end's and an hour's what is of that, and those that have none are left out."""
    with SqliteSource(DAY).open() as log:
        day = log.day()
    dealer = day.dealers[0].name
    first, second = asked(1, ""), asked(2, "")
    first.investor = next(firm.name for firm in day.firms if not firm.is_dealer)
    second.dealers, second.moment = [dealer], "10:30:00.000"
    found = {
        (one.kind, one.key): keys_of(list(one.requests)) for one in lists_of(day, [first, second])
    }
    of_firms = {firm.name: found["firm", firm.name] for firm in day.firms}
    assert {name: own for name, own in of_firms.items() if own} == {
        first.investor: [1],
        dealer: [2],
    }
    assert not any(own for (kind, _), own in found.items() if kind == "bond")
    others = {key: own for key, own in found.items() if key[0] in ("end", "hour")}
    assert others == {("end", "open"): [1, 2], ("hour", "09"): [1], ("hour", "10"): [2]}


# ------------------------------------------------------------ events of orders


def event(entry: int | None, moment: str, kind: str, what: str = NEW) -> OrderEvent:
    return OrderEvent(entry, moment, Order("DLR1", "", kind, kind, moment), what)


def test_the_order_of_events() -> None:
    """By moment, then entry, and of one entry the request before its quotes; what no entry tells stands before all of its moment."""
    late, early = "09:00:01.000", "09:00:00.000"
    events = [
        event(4, late, "quote"),
        event(4, late, "request"),
        event(2, late, "hit"),
        event(None, late, "message"),
        event(7, early, "cancel"),
    ]
    found = in_order(events)
    assert [one.order.kind for one in found] == ["cancel", "message", "hit", "request", "quote"]
    assert [one.sequence for one in found] == [1, 2, 3, 4, 5]


def test_which_side_a_message_says() -> None:
    """By 54 of a request, and by the price that a quote has: of both or of neither it says none."""
    for text, kind, expected in (
        ("54=1", "request", True),
        ("54=2", "request", False),
        ("54=3", "request", None),
        ("132=99", "quote", True),
        ("133=99", "quote", False),
        ("132=99|133=100", "quote", None),
        ("54=1", "quote", None),
    ):
        assert side_said(fields_of(text.replace("|", "\x01").encode()), kind) is expected, text


# ------------------------------------------------------------ parties


def test_what_is_not_said_of_a_bond_or_a_trader() -> None:
    """It is missing by the key that the file would have; a trader whom the day does not have is none."""
    none = Parties({}, traders={"INV1": frozenset({"T1"})})
    assert none.is_cleared("B1") == "" and none.said("client", "INV1", "T1", "o1") == ""
    assert none.trader("INV1", "T2") == none.trader("INV2", "T1") == ""
    assert list(none.missing) == ["bond.B1.cleared", "firm.INV1.client"]
    assert none.trader("INV1", "T1") == ""
    assert list(none.missing)[2:] == ["firm.INV1.traders.T1"]


def test_what_is_said_of_a_bond_and_an_order() -> None:
    """Of an order before its trader, and of that before its firm."""
    bonds = {"B1": {"cleared": True}, "B2": {"cleared": False}, "B3": {"cleared": "yes"}}
    firm = {
        "client": "of the firm",
        "trader": {"T1": {"client": "of the trader"}},
        "order": {"o1": {"client": "of the order"}},
    }
    said = Parties({"bond": bonds, "firm": {"INV1": firm}})
    assert [said.is_cleared(bond) for bond in ("B1", "B2")] == ["true", "false"]
    with pytest.raises(Unreadable, match="bond.B3.cleared is 'yes': it has to be true or false"):
        said.is_cleared("B3")
    for trader, order, expected in (
        ("T1", "o1", "of the order"),
        ("T1", "o2", "of the trader"),
        ("T2", "o2", "of the firm"),
    ):
        assert said.said("client", "INV1", trader, order) == expected
    assert not said.missing


# ------------------------------------------------------------ words of a command


@pytest.mark.parametrize("option", ["gateway_key", "checkpoint", "key"])
@pytest.mark.parametrize("part", ["until", "at"])
def test_a_part_of_a_log_has_no_signatures(option: str, part: str) -> None:
    """They are of the whole log: each option is refused beside --until and --at, and taken without."""
    words = argparse.Namespace(gateway_key=[], checkpoint=[], key=None, until=None, at=None)
    setattr(words, option, [Path("x")] if option != "key" else Path("x"))
    check_whole(words)
    setattr(words, part, 1)
    with pytest.raises(Unreadable, match="leave out --%s, or --until" % option.replace("_", "-")):
        check_whole(words)
    setattr(words, option, None)
    check_whole(words)


def test_lists_in_words() -> None:
    words = ["a", "b", "c"]
    assert [listed(words[:count]) for count in (1, 2, 3)] == ["a", "a and b", "a, b and c"]
    assert listed(words, "or") == "a, b or c"


def test_firms_in_groups() -> None:
    """As many as there are processors, at the most; the first firms each in another one."""
    assert dealt(["a", "b", "c"], 2) == [("a", "c"), ("b",)]
    assert dealt(["a", "b"], 4) == [("a",), ("b",)]


# ------------------------------------------------------------ findings


def test_resets_that_no_operator_ordered() -> None:
    """A session says how often it was reset, and each time is an act in the log: more than that is told, and less is still to come."""
    found = epoch_findings(
        {"INV1": 3, "DLR1": 1, "DLR2": 2, "DLR3": 0}, {"DLR1": 1, "DLR2": 1, "DLR3": 4}
    )
    assert [(one.where, one.text) for one in found] == [
        ("DLR2", "its session says 2 resets, and the log has 1"),
        ("INV1", "its session says 3 resets, and the log has 0"),
    ]
    (one,) = epoch_findings({"DLR1": 1}, {})
    assert one.text == "its session says 1 reset, and the log has 0"
    assert one.items == ("sessions",)


def test_what_a_session_expects() -> None:
    """A number behind the last that came; where it is not, the entry of that is named."""
    numbers = {"INV1": (7, 40), "DLR2": (3, 9), "DLR1": (5, 12)}
    found = target_findings({"DLR1": 6, "DLR2": 3, "DLR3": 1}, numbers)
    assert [(one.where, one.place, one.text) for one in found] == [
        ("DLR2", 9, "its session expects number 3, and number 3 came"),
        ("INV1", 40, "its session expects number none, and number 7 came"),
    ]


def test_one_thing_that_several_jobs_find() -> None:
    """It is told once, with its place where one of them knows it, and belongs to what each of them says."""
    at, messages = "DLR1", {"given": b"a", "found": b"b"}
    first = Finding(at, "x", None, 3, **messages, named_items=("messages",))  # type: ignore[arg-type]
    placed = Finding(at, "y", 9, 3, **messages, named_items=("sessions",))  # type: ignore[arg-type]
    later = Finding(at, "z", 8, 3, **messages, named_items=("messages",))  # type: ignore[arg-type]
    (told,) = once_each([first, placed, later])
    assert (told.text, told.place, told.items) == ("y", 9, ("messages", "sessions"))
    others = [
        Finding("DLR2", "x", None, 3, b"a", b"b"),
        Finding(at, "x", None, 4, b"a", b"b"),
        Finding(at, "x", None, 3, b"c", b"b"),
        Finding(at, "x", None, 3, b"a"),
        Finding("entries", "x", 4),
        Finding("entries", "x", 5),
        Finding("entries", "y", 5),
    ]
    assert [one.text for one in once_each([first, *others, *others])] == [
        "x",
        *(one.text for one in others),
    ]


def test_the_first_finding() -> None:
    """That of the lowest place; those without a place count where no other has one."""
    with SqliteSource(DAY).open() as log:
        day = log.day()
    verdict = Verdict("day.db", day, Identity(day, {}), True)
    assert verdict.first is None
    nowhere, other = Finding("tables", "a"), Finding("tables", "b")
    late, early = Finding("entries", "c", 9), Finding("entries", "d", 0)
    for findings, first in (
        ([nowhere, late, early], early),
        ([nowhere, late], late),
        ([nowhere, other], nowhere),
    ):
        verdict.findings = findings
        assert verdict.first is first
    verdict.findings = [nowhere, late]
    words = "2 things are not as they should be, the first at entry 9; found wrong: entries, tables"
    assert verdict.words == words
    verdict.findings = [nowhere]
    assert verdict.words == "1 thing is not as it should be; found wrong: tables"


def test_what_is_no_field() -> None:
    """Has the tag 0, and is kept whole: without a tag, without an equals sign, with another tag than FIX has."""
    data = b"35=S\x01=1\x0158\x01x=1\x01-1=2\x0158=a=b\x01"
    assert list(fields_of(data)) == [
        (35, b"S"),
        (0, b"=1"),
        (0, b"58"),
        (0, b"x=1"),
        (0, b"-1=2"),
        (58, b"a=b"),
    ]


# ------------------------------------------------------------ what was looked at

WRONG_ENTRY, WRONG_DOOR = Finding("entries", "x", 3), Finding("door", "x")


def verdict_of(**more: object) -> Verdict:
    with SqliteSource(DAY).open() as log:
        day = log.day()
    made = Verdict("day.db", day, Identity(day, {}), True, True, last_place=9)
    for name, value in more.items():
        setattr(made, name, value)
    return made


def look(verdict: Verdict, name: str) -> Look:
    (found,) = [one for one in verdict.looks if one.name == name]
    return found


# What a verdict has, the item, and its kind, words and what it leaves open in the verdict's sentence.
LookCase = tuple[dict[str, object], str, tuple[str, str, str]]


def reaching(entry: int, kind: str, unchecked: str) -> LookCase:
    """Of a checkpoint from outside that signs up to this entry."""
    words = "up to entry %d" % entry
    return {"reach": entry, "uncut": words}, "cut-off end", (kind, words, unchecked)


LOOKS: dict[str, LookCase] = {
    "no checkpoint from outside": (
        {},
        "cut-off end",
        ("not checked", "without --checkpoint the end may have been cut off", "cut-off end"),
    ),
    "one that reaches the end": reaching(9, "checked", ""),
    "one that reaches to the entry before": reaching(8, "in part", "cut-off end after entry 8"),
    "one of entry 0": reaching(0, "in part", "cut-off end after entry 0"),
    "no seal": (
        {"findings": [WRONG_ENTRY]},
        "supervisor's seal",
        (
            "not checked",
            "without --key no seal that a supervisor took was looked at",
            "supervisor's seal",
        ),
    ),
    "a seal": (
        {"seal": "it agrees", "findings": [WRONG_DOOR]},
        "supervisor's seal",
        ("checked", "it agrees", ""),
    ),
    "a seal of a chain that does not hold": (
        {"seal": "it agrees", "findings": [WRONG_DOOR, WRONG_ENTRY]},
        "supervisor's seal",
        ("found wrong", "it agrees", ""),
    ),
    "no signatures": (
        {},
        "signatures",
        ("not checked", "without --gateway-key the chain may have been made anew", "signatures"),
    ),
    "signatures": ({"signed": "3 agree"}, "signatures", ("checked", "3 agree", "")),
    "reasons": (
        {},
        "reasons and trades",
        ("checked", "58 and 1003 say what the program notes, and stand nowhere else", ""),
    ),
    "reasons of two files": (
        {"has_chain": False},
        "reasons and trades",
        ("not checked", "two files have none", "reasons and trades"),
    ),
    "reasons of a session at fault": (
        {
            "findings": [
                Finding(at, "x", named_items=("sessions",)) for at in ("INV1", "DLR1", "INV1")
            ]
        },
        "reasons and trades",
        (
            "not checked",
            "58 and 1003 were not looked at where a session is at fault: DLR1 and INV1",
            "reasons and trades",
        ),
    ),
    "seals": (
        {},
        "seals",
        (
            "checked",
            "the last covers the last entry and row; whether it is right only a gateway can tell",
            "",
        ),
    ),
    "no seals": (
        {"has_seals": False},
        "seals",
        ("not checked", "gateways of this form of the log made none", "seals"),
    ),
    "no numbers of checkpoints": (
        {},
        "checkpoints",
        (
            "not checked",
            "in this form of the log none says where a day ended, and none is missed",
            "checkpoints",
        ),
    ),
}


@pytest.mark.parametrize("name", LOOKS)
def test_what_is_said_of_an_item(name: str) -> None:
    more, item, (kind, words, unchecked) = LOOKS[name]
    found = look(verdict_of(**more), item)
    assert (found.kind, found.words, found.unchecked) == (kind, words, unchecked)


# Of an item whether it was looked at in full, its words and what was left, with so many findings; and its words then.
FOUND = {
    "none": (Look("entries", True, "all"), 0, "checked     entries: all"),
    "one": (
        Look("door", True, "all"),
        1,
        "found wrong door: NOT AS IT SHOULD BE, in its rows, its chain or what came on which connection: 1 finding",
    ),
    "two, of what says so itself": (
        Look("supervisor's seal", True, "it does NOT agree"),
        2,
        "found wrong supervisor's seal: it does NOT agree: 2 findings",
    ),
    "of what was left in part": (
        Look("checkpoints", False, "5 of them", left="the end"),
        1,
        "found wrong checkpoints: NOT AS THEY SHOULD BE: 1 finding; not checked in full: the end",
    ),
    "of what was not checked": (
        Look("tables", False, "two files have none"),
        1,
        "found wrong tables: NOT those of the log's form alone: 1 finding; not checked in full: two files have none",
    ),
}


@pytest.mark.parametrize("name", FOUND)
def test_what_is_said_of_an_item_with_findings(name: str) -> None:
    made, count, line = FOUND[name]
    assert made.found(count).line == line and made.found(count).is_wrong == (count > 0)


def test_the_sentence_of_a_good_day() -> None:
    """Whole where all was looked at, consistent where something was not; of two files it says neither."""
    text, whole = "each firm was sent what the rules give, byte for byte", verdict_of()
    left = "not checked: door, checkpoints, day asked for, proved program, signatures, cut-off end"
    consistent = text + ", and the record is consistent"
    assert whole.words == "%s; %s, supervisor's seal" % (consistent, left)
    two_files = verdict_of(has_chain=False, has_seals=False).words
    assert two_files.startswith(text + "; not checked: entries, tables, door, sessions, ")
    outside = verdict_of(uncut="x", reach=4)
    words = consistent + "; checkpoints from outside reach up to entry 4 of 9"
    assert outside.words.startswith(words + ", and their signatures were not checked; not checked")
    outside.signed = "x"
    assert outside.words.startswith(words + "; not checked: ")
    whole.chained.door = Door()
    whole.numbered = Numbered(1, Checkpoint(1, 0, 9, b"", 0, b"", b"", True))
    asked = Asked("20261125", "-", "0" * 64)
    whole.identity = Identity(whole.day, {whole.day.program: "x"}, asked=asked)
    whole.signed, whole.uncut, whole.reach, whole.seal = "x", "x", 9, "x"
    reached = "; checkpoints from outside reach up to entry 9 of 9"
    assert whole.words == text + ", and the record is whole" + reached


# ------------------------------------------------------------ what differs


def fields(*pairs: tuple[int, str]) -> bytes:
    return b"".join(b"%d=%b\x01" % (tag, text.encode()) for tag, text in pairs)


def test_fields_of_which_two_messages_differ() -> None:
    """Up to six are named, and how many more there are; the frame's own fields follow from the others."""
    for count in (1, 5, 6, 7, 9):
        pairs = [(tag, "a") for tag in range(50, 50 + count)]
        named = ["%d: a given, b found" % tag for tag, _ in pairs[:6]]
        named += ["and %d fields more" % (count - 6)] if count > 6 else []
        other = fields((8, "x"), (9, "1"), *((tag, "b") for tag, _ in pairs), (10, "1"))
        one = fields((8, "y"), (9, "2"), *pairs, (10, "2"))
        assert differing(one, other) == "; ".join(named)


def test_values_that_differ() -> None:
    """Up to 40 characters of each, several of one tag together, and a word where there is none."""
    short, long = "x" * 40, "x" * 41
    for value, text in ((short, short), (long, short + "..")):
        assert differing(fields((58, value)), fields((58, "y"))) == "58: %s given, y found" % text
    one = fields((448, "A"), (448, "B")) + b"none\x01"
    assert differing(one, fields((448, "B"), (448, "A"))) == (
        "448: A, B given, B, A found; no field: none given, nothing found"
    )
    assert differing(fields((1, "a")), fields((1, "b")), frozenset({1})) == ""
    assert differing(fields((1, "a")), fields((1, "b")), words="%s, %s") == "1: a, b"


def test_how_two_lists_of_a_dealer_differ_in_words() -> None:
    """Each difference once, with why it is declared, or that it must not be."""
    found = Differences(
        notices=Counter({("cover", "done away"): 2, ("won", "expired"): 1}),
        first_notice={("cover", "done away"): "R3", ("won", "expired"): "R7"},
        moved_notices=4,
        lifted=(5, 6),
        others=Counter({"own": 1, "shown": 2, "drop": 3, "other": 0}),
    )
    assert difference_words(found) == [
        "it is told `done away` where it was told `cover` (2 requests, the first is R3). " + COVER,
        "it is told `expired` where it was told `won` (1 request, the first is R7). " + END,
        "Notices at another moment: 4. " + END,
        "Quotes of its own that are lifted no longer: 5, and others that are: 6. " + LIFTED,
        "Drops in one list alone: 3. " + DROP,
        "Own messages in one list alone: 1. " + OWN,
        "Requests shown in one list alone: 2. " + SHOWN,
    ]
    assert difference_words(Differences(lifted=(0, 1)))[0].startswith(
        "Quotes of its own that are lifted no longer: 0,"
    )
    assert difference_words(Differences()) == []


# ------------------------------------------------------------ versions


def test_which_version_this_is(tmp_path: Path) -> None:
    """Of a package by its file, and else of the repository: with a mark where files differ from the commit."""
    version = (ROOT / "VERSION").read_text().split("\n")[0]
    assert re.fullmatch("x %s \\([0-9a-f]{12}\\+?\\)" % re.escape(version), version_text("x"))
    assert commit_of(tmp_path) == first_line(tmp_path / "none") == "unknown"
    git = ["git", "-C", str(tmp_path), "-c", "user.name=x", "-c", "user.email=x@example.com"]
    (tmp_path / "file").write_text("1")
    for words in (["init", "-q"], ["add", "file"], ["commit", "-q", "-m", "x"]):
        subprocess.run([*git, *words], check=True)
    commit = commit_of(tmp_path)
    assert re.fullmatch("[0-9a-f]{12}", commit)
    subprocess.run([*git, "tag", "-a", "-m", "x", "v1"], check=True)
    assert commit_of(tmp_path) == commit, "a release has the name of its tag"
    (tmp_path / "file").write_text("2")
    assert commit_of(tmp_path) == commit + "+"
    (tmp_path / "COMMIT").write_text("0123456789ab\nmore\n")
    assert commit_of(tmp_path) == first_line(tmp_path / "COMMIT") == "0123456789ab"
