"""Wrong desks: each is the right one with one usual mistake, and has the case that was written for it."""

from __future__ import annotations

import time
from decimal import Decimal

from mireseason_certify.frames import Fields, Message, written

from tests.certify.desk import Desk, Store

Act = dict[str, str]
NAMES = {"S": 117, "AJ": 693}  # of a quote, and of a hit
PRICES = (132, 133)


def risen(price: str) -> str:
    """On the grid of every bond."""
    return str(Decimal(price) + 1)


class ResetsItsNumbers(Desk):
    """Begins at 1 with each connection."""

    def reconnects_with(self) -> None:
        self.store = Store()


class StaysOut(Desk):
    """Does not log on again once its line has ended."""

    def reconnects_with(self) -> None:
        self.stays_out = True


class TriesWithoutPause(Desk):
    """Logs on again and again while it is refused."""

    PAUSE = 0.02


class NoApplication(Desk):
    """Leaves DefaultApplVerID (1137) out of its Logon."""

    def logon_fields(self) -> Fields:
        return [item for item in super().logon_fields() if item[0] != 1137]


class AnotherUsername(Desk):
    """Logs on by another username (553) than it was given."""

    def logon_fields(self) -> Fields:
        return [(553, "desk-1") if tag == 553 else (tag, it) for tag, it in super().logon_fields()]


class IgnoresTestRequests(Desk):
    def answers_test_request(self, message: Message) -> None:
        """Nothing."""


class AnswersWithoutItsName(Desk):
    """Answers a TestRequest without its TestReqID (112)."""

    def answers_test_request(self, message: Message) -> None:
        self.put("0", [])


class CountsHeartbeatsTwice(Desk):
    def heartbeat_every(self) -> float:
        return super().heartbeat_every() / 10


class NeverAsksForAGap(Desk):
    """Takes whatever comes for the next message."""

    def asks_for_gap(self, message: Message) -> None:
        self.store.expected = message.number + 1
        self.does(message)


class AsksFromTheNewOne(Desk):
    """Asks for what it has, and not for what is missing."""

    def asks_for_gap(self, message: Message) -> None:
        self.put("2", [(7, str(message.number)), (16, "0")])


class NeverSendsAgain(Desk):
    def sends_again(self, begin: int, end: int) -> None:
        """Nothing."""


class SendsAgainUnderNewNumbers(Desk):
    """Takes what is asked for for something new."""

    def sends_again(self, begin: int, end: int) -> None:
        for number in range(begin, (end or self.store.next - 1) + 1):
            kept = self.store.sent[number]
            if kept[0] not in "A012345":
                self.put(kept[0], kept[1])


class SendsAgainAsNew(Desk):
    """Leaves PossDupFlag (43) out of what it sends again."""

    def write_again(self, number: int, kind: str, fields: Fields, sending: str) -> None:
        self._write(written(kind, self.to.firm, number, fields))


class SendsAgainWhatItIsNow(Desk):
    """Builds what is asked for anew, under its number: the price has moved."""

    def write_again(self, number: int, kind: str, fields: Fields, sending: str) -> None:
        moved = [(tag, risen(it) if tag in PRICES else it) for tag, it in fields]
        super().write_again(number, kind, moved, sending)


class SendsAgainAndAnew(Desk):
    """Sends what is asked for, and the same once more as something new."""

    def write_again(self, number: int, kind: str, fields: Fields, sending: str) -> None:
        super().write_again(number, kind, fields, sending)
        if kind in NAMES:
            own = (NAMES[kind], self.name("again"))
            self.put(kind, [own if tag == own[0] else (tag, it) for tag, it in fields])


class KeepsItsNumbersForGood(Desk):
    """Does not begin at 1 behind an operator's reset."""

    def begins_anew(self) -> None:
        """Nothing."""


class OneNameForAll(Desk):
    """All its quotes have one QuoteID (117)."""

    def name(self, head: str) -> str:
        return "always" if head == "q" else super().name(head)


class WritesThePriceIn44(Desk):
    def send_quote(self, act: Act, tag: int, price: str) -> None:
        super().send_quote(act, 44, price)


class AlwaysOffers(Desk):
    """Quotes an offer, also to an investor that sells."""

    def send_quote(self, act: Act, tag: int, price: str) -> None:
        super().send_quote(act, 133, price)


class RoundsPrices(Desk):
    def send_quote(self, act: Act, tag: int, price: str) -> None:
        super().send_quote(act, tag, str(int(float(price)) + 1))


class CorrectsPrices(Desk):
    """Sends another price in place of one that it takes for wrong."""

    def quote(self, act: Act) -> None:
        known = {act["bond"]: float(act["price"])}
        is_off = "off the bond's grid" in act.get("text", "")
        super().quote({**act, "price": str(int(known[act["bond"]]))} if is_off else act)


class StaysInTheBand(Desk):
    """Sends a price of the band in place of one that is outside it."""

    def quote(self, act: Act) -> None:
        is_outside = "outside the bond's band" in act.get("text", "")
        super().quote({**act, "price": "100"} if is_outside else act)


class ReplacesUnderTheOldName(Desk):
    """A second quote on a request has the QuoteID of the first."""

    def send_quote(self, act: Act, tag: int, price: str) -> None:
        before = [
            name
            for name, it in self.quotes.items()
            if it["request"] == act["request"] and it["state"] == "stands"
        ]
        self.next_name = before[-1] if before else ""
        super().send_quote(act, tag, price)

    def name(self, head: str) -> str:
        return getattr(self, "next_name", "") or super().name(head)


class WithdrawsAll(Desk):
    """Cancels all quotes where one is to go."""

    def withdraw(self, act: Act) -> None:
        self.cancel_all()


class WithdrawsTheLast(Desk):
    """Cancels the quote that it sent last."""

    def withdraw(self, act: Act) -> None:
        super().withdraw({**act, "quote": list(self.quotes)[-1]})


class WithdrawsTheFirst(Desk):
    """Cancels the quote that has stood longest."""

    def withdraw(self, act: Act) -> None:
        standing = [name for name, it in self.quotes.items() if it["state"] == "stands"]
        super().withdraw({**act, "quote": standing[0]})


class WithdrawsOneForAll(Desk):
    """Cancels one of its quotes where all are to go."""

    def cancel_all(self) -> None:
        standing = [name for name, it in self.quotes.items() if it["state"] == "stands"]
        if standing:
            self.withdraw({"quote": standing[0]})
        else:
            super().cancel_all()


class DeclinesByACancel(Desk):
    def decline(self, act: Act) -> None:
        self.cancel_all()


class DeclinesItsQuote(Desk):
    """Sends a quote's name where a decline has to name the request."""

    def decline(self, act: Act) -> None:
        self.send("AG", [(131, list(self.quotes)[-1] if self.quotes else "none"), (658, "10")])


class BelievesItsWithdrawal(Desk):
    """Takes a quote for gone once it has sent the cancel, whatever the venue says."""

    def withdraw(self, act: Act) -> None:
        self.quotes[act["quote"]]["state"] = "withdrawn"
        super().withdraw(act)

    def won(self, message: Message) -> None:
        if self.quotes[message.get(117)]["state"] != "withdrawn":
            super().won(message)


class BooksEachEnd(Desk):
    """Takes an end of a request that it has quoted for a trade."""

    end = ""

    def told_notice(self, message: Message) -> None:
        has_quoted = any(
            it["request"] == message.get(131) and it["state"] == "stands"
            for it in self.quotes.values()
        )
        if message.get(694) == self.end and has_quoted:
            self.won(message)
        super().told_notice(message)


class TakesCoverForWon(BooksEachEnd):
    end = "4"


class TakesDoneAwayForWon(BooksEachEnd):
    end = "5"


class TakesAPassForWon(BooksEachEnd):
    end = "6"


class TakesAnExpiryForWon(BooksEachEnd):
    end = "3"


class BooksTheWrongSide(Desk):
    """Adds what it has sold."""

    def won(self, message: Message) -> None:
        quantity = int(message.get(38))
        self.book(message.get(48), quantity if message.get(54) == "1" else -quantity)


class TradesOnARejectedQuote(Desk):
    """Takes a quote that came too late for a trade."""

    def told_report(self, message: Message) -> None:
        quote = self.quotes.get(message.get(117))
        if quote and quote["state"] == "sent" and message.get(300) == "4":
            quantity = int(quote["quantity"])
            self.book(quote["bond"], -quantity if quote["side"] == "1" else quantity)
        super().told_report(message)


class BooksEachQuoteOfARequest(Desk):
    """Books a replaced quote beside the one that won."""

    def won(self, message: Message) -> None:
        for it in self.quotes.values():
            if it["request"] == message.get(131):
                super().won(message)


class QuotesFourAtMost(Desk):
    """Leaves out a request while four of its quotes stand."""

    def quote(self, act: Act) -> None:
        if sum(it["state"] == "stands" for it in self.quotes.values()) < 4:
            super().quote(act)


class AnswersWhatItWasNotAsked(Desk):
    """Declines each request that it is not told to quote."""

    def does_task(self, number: int, act: Act) -> None:
        if act["do"] == "nothing" and "request" in act:
            self.decline(act)
        super().does_task(number, act)


# Of investors.


class AsksOneDealer(Desk):
    """Names the first of the dealers alone."""

    def ask(self, act: Act) -> None:
        super().ask({**act, "dealers": act["dealers"].split(",")[0]})


class AlwaysBuys(Desk):
    def ask(self, act: Act) -> None:
        super().ask({**act, "side": "1"})


class CapsItsQuantity(Desk):
    """Sends what is allowed in place of what it was told."""

    def ask(self, act: Act) -> None:
        super().ask({**act, "quantity": str(min(5_000_000, int(act["quantity"])))})


class DeadlineThatHasPassed(Desk):
    """Writes ExpireTime (126) in a time zone behind UTC."""

    def ask(self, act: Act) -> None:
        super().ask({**act, "seconds": str(float(act["seconds"]) - 5 * 3600)})


class HitsTheFirst(Desk):
    """Hits the quote that it was shown first on a request."""

    def hit(self, quote: str) -> None:
        request = self.offers[quote]["request"] if quote in self.offers else ""
        shown = [name for name, it in self.offers.items() if it["request"] == request]
        super().hit(shown[0] if shown else quote)


class HitsTheBest(Desk):
    """Hits the best price of those that stand on a request."""

    def hit(self, quote: str) -> None:
        request = self.offers[quote]["request"] if quote in self.offers else ""
        offers = {name: it for name, it in self.offers.items() if it["request"] == request}

        def cost(name: str) -> Decimal:
            price = Decimal(offers[name]["price"])
            return price if offers[name]["side"] == "1" else -price

        super().hit(min(offers, key=cost, default=quote))


class HitsTheLast(Desk):
    """Hits the quote that it was shown last on a request, though its dealer has withdrawn it."""

    def stands(self, request: str) -> str:
        return [name for name, it in self.shown.items() if it["request"] == request][-1]


class HitsTheFirstShown(Desk):
    """Hits the quote that it was shown first where it has asked several dealers, though that dealer has withdrawn it."""

    def stands(self, request: str) -> str:
        if "," not in self.requests[request]["dealers"]:
            return super().stands(request)
        return next(name for name, it in self.shown.items() if it["request"] == request)


class HitsWhatIsGone(Desk):
    """Does not take a quote off its page when it is withdrawn or replaced."""

    def told_report(self, message: Message) -> None:
        if message.get(297) != "17":
            super().told_report(message)


class BooksRefusedHits(Desk):
    """Takes each answer to a hit for a trade."""

    def told_report(self, message: Message) -> None:
        quote = self.hits.get(message.get(693), "")
        if quote and message.get(297) == "5":
            self.book_quote(quote)
        super().told_report(message)


class BooksAtTheHit(Desk):
    """Takes a hit that is sent for a trade."""

    def hit(self, quote: str) -> None:
        self.book_quote(quote)
        super().hit(quote)

    def told_report(self, message: Message) -> None:
        if message.get(297) != "0":
            super().told_report(message)


class BooksAPass(Desk):
    """Takes the answer to a pass for a trade."""

    def told_report(self, message: Message) -> None:
        if message.get(297) == "11" and message.get(693):
            self.book_request(message.get(131))
        super().told_report(message)


class BooksAnExpiry(Desk):
    def told_report(self, message: Message) -> None:
        if message.get(297) == "7":
            self.book_request(message.get(131))
        super().told_report(message)


class PassesTheLast(Desk):
    """Passes the request that it made last."""

    def passes(self, act: Act) -> None:
        super().passes({**act, "request": list(self.requests)[-1]})


class AnswersAfterAMinute(Desk):
    """Is so slow that the venue takes it for gone."""

    def answers_test_request(self, message: Message) -> None:
        time.sleep(10)  # longer than a case waits
        super().answers_test_request(message)


class BooksCopies(Desk):
    """Takes what comes again under another number (97=Y) for new."""

    def is_known(self, message: Message) -> bool:
        return False


class IgnoresWhatComesLate(Desk):
    """Takes no report and no notice that is sent again (43=Y)."""

    def does(self, message: Message) -> None:
        if message.get(43) != "Y" or message.kind not in ("AI", "AJ"):
            super().does(message)


DEALERS = {
    BooksCopies: "lost-store",
    IgnoresWhatComesLate: "trade-while-away",
    ResetsItsNumbers: "lost-line",
    StaysOut: "logout",
    TriesWithoutPause: "suspended",
    NoApplication: "logon",
    AnotherUsername: "logon",
    IgnoresTestRequests: "logon",
    AnswersWithoutItsName: "logon",
    AnswersAfterAMinute: "logon",
    CountsHeartbeatsTwice: "heartbeat",
    NeverAsksForAGap: "gap-to-the-desk",
    AsksFromTheNewOne: "gap-to-the-desk",
    NeverSendsAgain: "gap-of-the-desk",
    SendsAgainUnderNewNumbers: "gap-of-the-desk",
    SendsAgainAsNew: "gap-of-the-desk",
    SendsAgainWhatItIsNow: "gap-of-the-desk",
    SendsAgainAndAnew: "gap-of-the-desk",
    KeepsItsNumbersForGood: "lost-store",
    WritesThePriceIn44: "quote-offer",
    AlwaysOffers: "quote-bid",
    RoundsPrices: "quote-offer",
    CorrectsPrices: "off-grid",
    StaysInTheBand: "outside-band",
    ReplacesUnderTheOldName: "replaced",
    BooksEachQuoteOfARequest: "replaced",
    WithdrawsAll: "withdrawn",
    WithdrawsTheLast: "withdrawn-one-of-two",
    WithdrawsTheFirst: "withdrawn-one-of-two",
    WithdrawsOneForAll: "cancelled-all",
    DeclinesByACancel: "declined",
    DeclinesItsQuote: "declined",
    BelievesItsWithdrawal: "hit-in-the-race",
    TakesCoverForWon: "cover",
    TakesDoneAwayForWon: "done-away",
    TakesAPassForWon: "passed-by",
    TakesAnExpiryForWon: "expired",
    BooksTheWrongSide: "won",
    TradesOnARejectedQuote: "late",
    QuotesFourAtMost: "ten-at-once",
    OneNameForAll: "quote-",
    AnswersWhatItWasNotAsked: "not-answered",
}
INVESTORS = {
    BooksCopies: "lost-store",
    SendsAgainAndAnew: "gap-of-the-desk",
    IgnoresWhatComesLate: "trade-while-away",
    AsksOneDealer: "ask-three",
    AlwaysBuys: "ask-to-sell",
    CapsItsQuantity: "too-much",
    DeadlineThatHasPassed: "ask-to-buy",
    HitsTheFirst: "hit-one-of-three",
    HitsTheBest: "hit-one-of-three",
    HitsTheLast: "hit-the-other",
    HitsTheFirstShown: "hit-the-other",
    HitsWhatIsGone: "hit-replaced",
    BooksRefusedHits: "hit-gone",
    BooksAtTheHit: "hit-gone",
    BooksAPass: "passed",
    BooksAnExpiry: "expired",
    PassesTheLast: "ten-at-once",
}
