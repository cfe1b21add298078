"""What the page of a day lists as unusual, and what each line leads to."""

import pytest
from mireseason_audit.book import Fault
from mireseason_audit.day_tables import SessionRow
from mireseason_audit.notes import Act, ClockNote
from mireseason_audit.not_taken import NotTaken
from mireseason_audit.records import ConnectionEvent, Firm
from mireseason_audit.requests import Request
from mireseason_audit.unusual import MOST_SHOWN, Seen, unusual


def request(key: int, end: str, deadline: str, end_moment: str, trade: str = "") -> Request:
    made = Request(key, 1, "09:00:00.000", "INV1", "T1", "a", "B", "1", "1", deadline, ["DLR1"])
    made.end, made.end_moment, made.trade = end, end_moment, trade
    return made


def event(place: int, kind: str, address: str, why: str, left_out: int = 0) -> ConnectionEvent:
    moment = "09:00:00.000000"
    return ConnectionEvent(
        place, 0, moment, kind, 0, None, None, address, None, why, left_out, b"", b""
    )


def lines(seen: Seen, requests: list[Request]) -> dict[str, list[tuple[str, str]]]:
    kinds = unusual(seen, requests)
    return {kind.title: [(item.words, item.link) for item in kind.items] for kind in kinds}


def test_a_day_with_nothing_unusual() -> None:
    in_time = request(0, "expired", "09:05:00", "09:05:01.000")
    seen = Seen(clock=[ClockNote(1, "09:00:00.000", "synchronised", 40)])
    seen.strangers.take([event(1, "logon", "192.0.2.1:1", ""), event(2, "end", "192.0.2.1:1", "x")])
    assert unusual(seen, [in_time]) == []


def test_each_kind() -> None:
    requests = [
        request(0, "expired", "09:05:00", "09:05:01.001"),
        request(1, "open", "09:05:00", ""),
        request(2, "awarded", "09:05:00", "09:04:00.000", "20261125-INV1-DLR1-1"),
    ]
    seen = Seen(
        acts=[
            Act(3, "09:01:00.000", "op(7)", "bust 20261125-INV1-DLR1-1", "agreed"),
            Act(4, "09:02:00.000", "op(7)", "halt", ""),
        ],
        clock=[
            ClockNote(5, "09:03:00.000", "set", -1500),
            ClockNote(6, "09:04:00.000", "unsynchronised", 9),
        ],
    )
    seen.take_hit(Fault(1007, "09:00:02.000", "INV1", "hits Q1", "refused: x", "", 2))
    seen.strangers.take(
        [
            event(1, "stranger", "198.51.100.8:41001", "no Logon"),
            event(501, "refused", "198.51.100.7:1", "wrong password", 44),
            event(502, "stranger", "198.51.100.8:41002", "no Logon"),
            event(503, "left out", "", "no Logon", 490),
        ]
    )
    assert lines(seen, requests) == {
        "Hits that were refused": [
            ("09:00:02.000 INV1 hits Q1: refused: x", "firms/INV1-2.html#e1007")
        ],
        "Requests that expired more than a second after their deadline": [
            ("request 1, 1001 ms after 09:05:00", "requests/0001.html")
        ],
        "Requests without an end": [("request 2 of INV1", "requests/0002.html")],
        "What was wrong with the gateway's clock": [
            ("entry 5, 09:03:00.000: set by -1500 us", ""),
            ("entry 6, 09:04:00.000: not synchronised", ""),
        ],
        "Acts of operators: bust": [
            (
                'entry 3, 09:01:00.000: op(7): bust 20261125-INV1-DLR1-1, because "agreed"',
                "requests/0003.html",
            )
        ],
        "Acts of operators: halt": [("entry 4, 09:02:00.000: op(7): halt", "")],
        "Connections that were not let in": [
            ("490 from addresses that were left out: no Logon", "door-2.html#r503"),
            ("45 from 198.51.100.7: wrong password", "door-2.html#r501"),
            ("2 from 198.51.100.8: no Logon", "door-1.html#r1"),
        ],
    }


def test_connections_are_counted_and_not_lines() -> None:
    seen = Seen()
    seen.strangers.take([event(1, "refused", "198.51.100.7:1", "wrong password", 44)])
    (kind,) = unusual(seen, [])
    assert (kind.count, len(kind.items)) == (45, 1)


def test_so_many_are_shown() -> None:
    """All are counted."""
    opened = [request(key, "open", "09:05:00", "") for key in range(MOST_SHOWN + 5)]
    (kind,) = unusual(Seen(), opened)
    assert (kind.count, len(kind.items)) == (MOST_SHOWN + 5, MOST_SHOWN)


@pytest.mark.parametrize(
    "what, firms",
    [
        ("halt", "DLR1 INV1 INV2"),
        ("halt --bond BONDA0000001", "DLR1 INV1 INV2"),
        ("resume", "DLR1 INV1 INV2"),
        ("resume --bond INV2", "DLR1 INV1 INV2"),
        ("clock accept", "DLR1 INV1 INV2"),
        ("end-day --now", "DLR1 INV1 INV2"),
        ("resume INV1", "INV1"),
        ("admit DLR1 20270528 " + 64 * "a", "DLR1"),
        ("suspend DLR1", "DLR1"),
        ("cancel DLR1 --trader INV1", "DLR1"),
        ("limit INV2 day_bytes=7", "INV2"),
        ("reset-session INV2", "INV2"),
        ("release INV2", "INV2"),
        ("bust 20261125-INV1-DLR1-1", "DLR1 INV1"),
    ],
)
def test_whom_an_act_concerns(what: str, firms: str) -> None:
    """The firms that it names, or all."""
    act = Act(3, "09:01:00.000", "op(7)", what, "")
    assert [firm for firm in ("DLR1", "INV1", "INV2") if act.concerns(firm)] == firms.split()


def logon(place: int, firm: str, address: str, certificate: str | None) -> ConnectionEvent:
    made = event(place, "logon", address, "")
    return made._replace(firm=firm, number=place, certificate=certificate)


def test_who_logged_on_from_where() -> None:
    """Two firms from one address, and a firm that once showed no certificate."""
    seen = Seen()
    for row in (
        logon(1, "DLR1", "192.0.2.5:1", "aa"),
        logon(2, "INV1", "192.0.2.6:1", None),
        logon(3, "DLR1", "192.0.2.5:2", None),
        logon(504, "INV1", "192.0.2.5:3", None),
    ):
        seen.logons.take(row)
    assert lines(seen, []) == {
        "Addresses from which several firms logged on": [
            ("192.0.2.5: DLR1, INV1", "door-2.html#r504"),
        ],
        "Firms that logged on with a certificate, and also without one": [
            ("DLR1: row 3 has none", "door-1.html#r3"),
        ],
    }


def test_what_is_no_logon_of_a_firm() -> None:
    """A row without a firm, and one of another kind, say nothing of who shares an address."""
    seen = Seen()
    for row in (
        logon(1, "DLR1", "192.0.2.5:1", "aa"),
        event(2, "logon", "192.0.2.5:2", ""),
        logon(3, "INV1", "192.0.2.5:3", None)._replace(event="end"),
    ):
        seen.logons.take(row)
    assert lines(seen, []) == {}


def test_the_clock_that_was_set() -> None:
    """By what firms were told, also where no entry notes it."""
    words = "the clock of the venue was set: until the operator says that it is right"
    session = SessionRow(Firm("INV1", False))
    session.first_not_taken = [
        NotTaken("09:01:00.000", "7", "R", "a", "4", words),
        NotTaken("09:02:00.000", "8", "R", "b", "8", "too many"),
    ]
    session.told_of_clock = 1
    (kind,) = unusual(Seen(), [], [session])
    assert (kind.count, len(kind.items)) == (1, 1)
    assert kind.items[0] == ("09:01:00.000: INV1 was told so", "firms/INV1.html#not-taken")
