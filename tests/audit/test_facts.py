"""The facts of a day, of exchanges that are made up: what becomes of a request, a quote and a hit, and of which request each is."""

from decimal import Decimal

import pytest
from mireseason_audit.collector import Collector
from mireseason_audit.exchanges import Exchange, Told
from mireseason_audit.facts import (
    Answer,
    AskedFact,
    QuoteFact,
    RequestFact,
    ResponseFact,
    Side,
    TradeFact,
)
from mireseason_audit.frame import fields_of, framed, text_of
from mireseason_audit.lines import came_of
from mireseason_audit.records import Entry, Firm
from mireseason_audit.refusals import Refusal, refusal_of

FIRMS = {
    name: Firm(name, name.startswith("DLR")) for name in ("DLR1", "DLR2", "DLR3", "INV1", "INV2")
}
HEAD = "|48=BONDA0000001|54=%s|38=5000000|126=20261125-09:05:00.000"
PARTIES = "".join("|448=%s|447=D|452=35" % name for name in ("DLR1", "DLR2", "DLR3"))


class Made:
    """A day as it goes on, one exchange after the other."""

    def __init__(self) -> None:
        self.collector = Collector("20261125", {})
        self.place = 0
        self.numbers = dict.fromkeys(FIRMS, 0)
        self.last: Exchange

    @property
    def moment(self) -> str:
        return "09:00:%02d.000" % self.place

    def takes(self, *told: str, came: str = "") -> ResponseFact | None:
        """The next entry: what a firm says, and what firms are told for it, each as `FIRM MsgType|TAG=VALUE..`."""
        self.place += 1
        line = b"clock %b" % self.moment.encode()
        firm, _, text = came.partition(" ")
        if came:
            data = framed(fields_of(soh("35=" + text)))
            line = b"hex %b %b %b" % (firm.encode(), self.moment.encode(), data.hex().encode())
        entry = Entry(self.place, 0, self.moment, firm or None, None, line, b"", b"")
        self.last = Exchange(entry, came_of(line), tuple(map(self.told, told)))
        return self.collector.take(self.last)

    def told(self, text: str) -> Told:
        name, _, body = text.partition(" ")
        self.numbers[name] += 1
        fields = fields_of(soh("35=" + body))
        return Told(FIRMS[name], self.numbers[name], text_of(fields, 35), fields, b"")

    # ------------------------------------------------------------ what happens on a day

    def asks(
        self, name: str = "r1", investor: str = "INV1", side: str = "1", at: str = "R1"
    ) -> None:
        self.takes(
            "%s AI|131=%s|297=0" % (investor, name),
            *("%s R|131=%s" % (dealer, at) for dealer in ("DLR1", "DLR2", "DLR3")),
            came="%s R|50=T1|131=%s%s%s" % (investor, name, HEAD % side, PARTIES),
        )

    def quotes(
        self,
        dealer: str,
        name: str,
        shown: str,
        price: str,
        until: str = "",
        of: str = "r1",
        at: str = "R1",
        investor: str = "INV1",
    ) -> None:
        valid = "|62=20261125-" + until if until else ""
        self.takes(
            "%s AI|131=%s|117=%s|297=0" % (dealer, at, name),
            "%s S|131=%s|117=%s" % (investor, of, shown),
            came="%s S|50=D-%s|117=%s|131=%s|133=%s%s" % (dealer, dealer, name, at, price, valid),
        )

    def hits(
        self, shown: str, won: str, *others: str, of: str = "r1", at: str = "R1"
    ) -> ResponseFact | None:
        """A hit that is awarded; of others `DLR2 4` is told that it is the cover."""
        dealer, quote = won.split()
        told = [one.split() for one in others]
        return self.takes(
            "INV1 AI|693=h1|131=%s|117=%s|297=0" % (of, shown),
            "%s AJ|693=N1|131=%s|117=%s|694=1" % (dealer, at, quote),
            *("%s AJ|693=N1|131=%s|694=%s" % (name, at, how) for name, how in told),
            came="INV1 AJ|50=T2|693=h1|117=%s|694=1" % shown,
        )

    # ------------------------------------------------------------ what is known of it

    @property
    def request(self) -> RequestFact:
        return self.collector.facts.requests[0]

    @property
    def asked(self) -> dict[str, AskedFact]:
        return {one.dealer: one for one in self.collector.facts.asked}

    def quote(self, name: str) -> QuoteFact:
        (found,) = [one for one in self.collector.facts.quotes if one.name == name]
        return found

    @property
    def trade(self) -> TradeFact:
        return self.collector.facts.trades[-1]

    def ends(self) -> dict[str, tuple[str, int | None]]:
        return {one.name: (one.end, one.end_entry) for one in self.collector.facts.quotes}


def soh(text: str) -> bytes:
    return text.replace("|", "\x01").encode()


@pytest.fixture
def made() -> Made:
    found = Made()
    found.asks()
    return found


def test_a_request(made: Made) -> None:
    """As its investor's message has it; and who was shown it, under which name."""
    dealers = ["DLR1", "DLR2", "DLR3"]
    assert made.request == RequestFact(
        1,
        1,
        "09:00:01.000",
        "INV1",
        "T1",
        "r1",
        "BONDA0000001",
        True,
        5_000_000,
        "09:05:00.000",
        dealers,
    )
    assert [(one.dealer, one.name, one.answer) for one in made.asked.values()] == [
        (dealer, "R1", Answer.SILENT) for dealer in dealers
    ]
    made.asks("r2", "INV2", "2", "R2")
    second = made.collector.facts.requests[1]
    assert (second.number, second.investor, second.buys) == (2, "INV2", False)
    assert {one.request.number for one in made.collector.facts.asked[3:]} == {2}


@pytest.mark.parametrize("answer", ["AG|131=r2|658=1", "AI|131=r2|297=9", "3|45=1|373=1"])
def test_a_request_that_is_refused(made: Made, answer: str) -> None:
    """It is none, and takes no number."""
    made.takes("INV1 " + answer, came="INV1 R|131=r2" + HEAD % "1" + PARTIES)
    made.takes(came="INV1 R|131=r2" + HEAD % "1" + PARTIES)
    assert len(made.collector.facts.requests) == 1


def test_a_quote(made: Made) -> None:
    """As its dealer's message has it, and as the investor is shown it."""
    made.quotes("DLR1", "a1", "Q1", "99.5", "09:02:00.000")
    made.quotes("DLR1", "a2", "Q2", "99.4")
    assert made.quote("a1") == QuoteFact(
        made.request,
        2,
        "09:00:02.000",
        "DLR1",
        "D-DLR1",
        "a1",
        "Q1",
        2,
        Decimal("99.5"),
        "09:02:00.000",
        "replaced",
        3,
        "09:00:03.000",
    )
    assert (made.quote("a2").shown_number, made.quote("a2").until) == (3, "")
    one = made.asked["DLR1"]
    assert (made.request.quotes, one.quotes, one.quote_entry, one.quote_moment) == (
        2,
        2,
        2,
        "09:00:02.000",
    )
    assert (one.answer, one.response_ms, made.asked["DLR2"].response_ms) == (
        Answer.QUOTED,
        1000,
        None,
    )
    made.takes("DLR2 AI|131=R1|117=b1|297=5|300=8", came="DLR2 S|117=b1|131=R1|133=1")
    assert len(made.collector.facts.quotes) == 2 and made.asked["DLR2"].answer is Answer.SILENT


def test_a_decline(made: Made) -> None:
    made.takes("DLR2 AI|131=R1|297=11", came="DLR2 AG|131=R1")
    one = made.asked["DLR2"]
    assert (one.answer, one.decline_entry, one.decline_moment) == (
        Answer.DECLINED,
        2,
        "09:00:02.000",
    )
    made.quotes("DLR2", "b1", "Q1", "99")
    assert one.answer is Answer.QUOTED and made.asked["DLR1"].answer is Answer.SILENT


def test_a_withdrawal(made: Made) -> None:
    """It ends the quote of its name, once; one of another name, or of another dealer, ends nothing."""
    made.quotes("DLR1", "a1", "Q1", "99.5", "09:00:05.000")
    made.quotes("DLR2", "b1", "Q2", "99.4", "09:00:04.500")
    made.takes("DLR1 AI|131=R1|117=a0|297=17", came="DLR1 Z|117=a0|298=1")
    made.takes("DLR3 AI|131=R1|117=a1|297=17", came="DLR3 Z|117=a1|298=1")
    assert made.ends() == {"a1": ("standing", None), "b1": ("standing", None)}
    made.takes(
        "DLR1 AI|131=R1|117=a1|297=17",
        "DLR2 AI|131=R1|117=b1|297=17",
        came="DLR1 Z|117=a1|298=4",
    )
    assert made.ends() == {"a1": ("withdrawn", 6), "b1": ("withdrawn", 6)}
    assert (made.quote("a1").lapsed, made.quote("b1").lapsed) == (True, True)
    assert (made.quote("a1").life_ms, made.quote("b1").life_ms) == (3000, 1500)
    made.takes("DLR1 AI|131=R1|117=a1|297=17", came="DLR1 Z|117=a1|298=1")
    assert made.ends()["a1"] == ("withdrawn", 6)


def test_an_award(made: Made) -> None:
    """A trade, as both firms are told of it, with the quotes that it stood against."""
    made.quotes("DLR1", "a1", "Q1", "99.5")
    made.quotes("DLR2", "b1", "Q2", "99.75")
    made.quotes("DLR3", "c1", "Q3", "99.25", "09:00:05.000")
    response = made.hits("Q1", "DLR1 a1", "DLR2 4", "DLR3 5")
    assert (made.request.end, made.request.end_entry, made.request.end_moment) == (
        "awarded",
        5,
        "09:00:05.000",
    )
    assert made.request.last_hit_entry == 5
    one, cover = made.quote("a1"), made.quote("b1")
    assert made.trade == TradeFact(
        "20261125-INV1-DLR1-1",
        5,
        "09:00:05.000",
        made.request,
        one,
        Side("INV1", "T2", "r1", "Q1", "h1", 5),
        Side("DLR1", "D-DLR1", "R1", "a1", "N1", 3),
        one,
        cover,
        cover,
    )
    assert (made.trade.from_best, made.trade.from_cover) == (Decimal(0), Decimal("0.25"))
    assert made.ends() == {"a1": ("won", 5), "b1": ("cover", 5), "c1": ("done away", 5)}
    assert [one.lapsed for one in made.collector.facts.quotes] == [False, False, True]
    notices = {
        name: (one.notice, one.notice_name, one.notice_entry) for name, one in made.asked.items()
    }
    assert notices == {
        "DLR1": ("won", "N1", 5),
        "DLR2": ("cover", "N1", 5),
        "DLR3": ("done away", "N1", 5),
    }
    assert response is not None and (response.kind, response.answer) == ("hit", "awarded")
    made.takes("INV1 AI|131=r1|297=7")
    assert made.request.end == "awarded", "a request ends once"


def test_names_of_trades(made: Made) -> None:
    """They count the trades of the two firms alone."""
    names = []
    for number, (dealer, quote) in enumerate((("DLR1", "a"), ("DLR2", "b"), ("DLR1", "c")), 1):
        at, of = "R%d" % number, "r%d" % number
        if number > 1:
            made.asks(of, at=at)
        made.quotes(dealer, quote, "Q%d" % number, "99", of=of, at=at)
        made.hits("Q%d" % number, "%s %s" % (dealer, quote), of=of, at=at)
        names.append(made.trade.name)
    assert names == ["20261125-INV1-DLR1-1", "20261125-INV1-DLR2-1", "20261125-INV1-DLR1-2"]


# Prices of DLR1, whose quote is hit, and of DLR2 and DLR3, which stand; whether the investor buys; the best, and what is second.
BEST = {
    "the best is hit": ("99", "100", "101", True, "DLR1", "DLR2"),
    "the worst is hit": ("101", "100", "99", True, "DLR3", "DLR3"),
    "of equal ones that which was hit": ("99", "99", "100", True, "DLR1", "DLR2"),
    "of equal others the first": ("100", "99", "99", True, "DLR2", "DLR2"),
    "the best of a seller": ("101", "100", "99", False, "DLR1", "DLR2"),
    "the worst of a seller": ("99", "100", "101", False, "DLR3", "DLR3"),
}


@pytest.mark.parametrize("name", BEST)
def test_which_quote_was_best(name: str) -> None:
    hit, second, third, buys, best, other = BEST[name]
    made = Made()
    made.asks(side="1" if buys else "2")
    for dealer, quote, price in (("DLR1", "a", hit), ("DLR2", "b", second), ("DLR3", "c", third)):
        made.quotes(dealer, quote, "Q" + quote, price)
    made.hits("Qa", "DLR1 a", "DLR2 5", "DLR3 5")
    trade = made.trade
    assert trade.second is not None
    assert (trade.best.dealer, trade.second.dealer, trade.cover) == (best, other, None)
    worse = abs(Decimal(hit) - trade.best.price)
    assert (trade.from_best, trade.from_cover) == (worse, None)
    sign = 1 if buys else -1
    assert trade.from_second == sign * (trade.second.price - Decimal(hit))


def test_quotes_that_could_not_be_hit_any_more(made: Made) -> None:
    """They are no second, and a cover that had lapsed is told as one."""
    made.quotes("DLR1", "a1", "Q1", "99.5")
    made.quotes("DLR2", "b1", "Q2", "99.25", "09:00:04.000")
    made.hits("Q1", "DLR1 a1", "DLR2 4")
    assert (made.trade.best.name, made.trade.second) == ("a1", None)
    assert made.trade.cover == made.quote("b1") and made.trade.cover_lapsed
    assert made.trade.from_cover == Decimal("-0.25") and made.trade.from_second is None


# What the investor is told and what the dealer of a standing quote is told; how the request and its quote end.
ENDS = {
    "passed": ("AI|693=p|131=r1|297=11", "AJ|131=R1|694=6", "passed", "passed"),
    "expired": ("AI|131=r1|297=7", "AJ|131=R1|694=3", "expired", "expired"),
    "expired without a notice": ("AI|131=r1|297=7", "AI|131=R1|297=9", "expired", "ended"),
    "a dealer's decline": ("AI|131=r1|297=11", "AJ|131=R2|694=6", "open", "standing"),
    "a refused hit": ("AI|693=h|131=r1|297=5", "AI|131=R1|297=9", "open", "standing"),
}


@pytest.mark.parametrize("name", ENDS)
def test_other_ends_of_a_request(made: Made, name: str) -> None:
    told, notice, end, fate = ENDS[name]
    made.quotes("DLR1", "a1", "Q1", "99.5")
    made.takes("INV1 " + told, "DLR1 " + notice)
    assert (made.request.end, made.quote("a1").end) == (end, fate)
    assert not made.collector.facts.trades


# A hit or a pass, what it is answered, and of the response its kind, answer, reason, request, and the quote that it names.
RESPONSES: dict[str, tuple[str, str, tuple[object, ...]]] = {
    "refused": (
        "AJ|693=h|117=Q1|694=1",
        "AI|693=h|131=r1|117=Q1|297=5|300=4|58=Gone",
        ("hit", "refused", "Gone", 1, "a1"),
    ),
    "of no quote": (
        "AJ|693=h|117=Q9|694=1",
        "AI|693=h|117=Q9|297=9",
        ("hit", "not found", "", None, None),
    ),
    "a pass": ("AJ|693=p|131=r1|694=6", "AI|693=p|131=r1|297=11", ("pass", "passed", "", 1, None)),
    "rejected": ("AJ|693=h|117=Q1|694=1", "3|45=9|373=5|58=no", ("hit", "rejected", "no", 1, "a1")),
    "unanswered": ("AJ|693=h|117=Q1|694=1", "", ("hit", "unanswered", "", 1, "a1")),
}


@pytest.mark.parametrize("name", RESPONSES)
def test_responses(made: Made, name: str) -> None:
    came, answer, expected = RESPONSES[name]
    made.quotes("DLR1", "a1", "Q1", "99.5")
    told = ["INV1 " + answer] if answer else []
    found = made.takes(*told, came="INV1 %s|50=T2" % came)
    assert found is not None
    number = None if found.request is None else found.request.number
    quote = None if found.quote is None else found.quote.name
    assert (found.kind, found.answer, found.reason, number, quote) == expected
    assert (found.investor, found.trader, found.entry) == ("INV1", "T2", 3)
    assert made.request.last_hit_entry == (3 if expected[0] == "hit" and number else None)


def test_what_is_no_response(made: Made) -> None:
    assert made.takes("DLR1 AI|131=R1|297=11", came="DLR1 AG|131=R1") is None
    assert made.takes() is None


# ------------------------------------------------------------ why a message was refused

# What a firm says, what it is told, and why that refuses it: what, code and words.
REFUSALS: dict[str, tuple[str, list[str], tuple[str, str, str] | None]] = {
    "a quote": ("DLR1 S|117=a", ["DLR1 AI|117=a|297=5|300=8"], ("quote", "300=8", "")),
    "a cancel": ("DLR1 Z|117=a", ["DLR1 AI|117=a|297=9"], ("cancel", "297=9", "")),
    "a request": ("INV1 R|131=r", ["INV1 AG|131=r|658=1"], ("request", "658=1", "")),
    "a decline": ("DLR1 AG|131=R", ["DLR1 3|45=1|371=50|373=1"], ("decline", "373=1 371=50", "")),
    "a hit": ("INV1 AJ|694=1", ["INV1 AI|297=5|300=4|58=Gone"], ("hit", "300=4", "Gone")),
    "a pass": ("INV1 AJ|694=6", ["INV1 AI|297=9"], ("pass", "297=9", "")),
    "another message": ("INV1 n|1=1", ["INV1 3|371=35|373=11"], ("message", "373=11 371=35", "")),
    "no answer": ("DLR1 S|117=a", ["DLR2 AI|117=a|297=5"], ("quote", "none", "")),
    "the first answer that refuses": (
        "DLR1 S|117=a",
        ["DLR1 AI|117=b|297=17", "DLR1 AI|117=a|297=5|300=3", "DLR1 3|373=1"],
        ("quote", "300=3", ""),
    ),
    "none that refuses": ("DLR1 S|117=a", ["DLR1 AI|117=a|297=0"], None),
}


@pytest.mark.parametrize("name", REFUSALS)
def test_why_a_message_was_refused(made: Made, name: str) -> None:
    came, told, expected = REFUSALS[name]
    made.takes(*told, came=came)
    assert refusal_of(made.last, {}) == (None if expected is None else Refusal(*expected))


def test_what_nobody_sent_is_not_refused(made: Made) -> None:
    made.takes("INV1 AI|131=r1|297=7")
    assert refusal_of(made.last, {}) is None
