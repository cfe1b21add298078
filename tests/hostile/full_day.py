#!/usr/bin/env python3
"""A day of 64 dealers and 64 investors at the limits of a configuration (full_market.py).

`write` writes it, for `rfq_venue day`. `run` runs it, woven, and checks what each firm was sent against
the rules (docs/MARKET.md). How a dealer's next quote is answered follows from what it was sent before,
unless its live quote is asked for its word. What was sent to investors and to dealers has to agree,
request by request. Firms race, so no two days need be the same.

The first day has as many requests as possible, the next ones fewer, on which the makers quote more
often; then they begin anew.

usage: full_day.py write [REQUESTS] > DAY              REQUESTS of each investor (64)
       full_day.py run PROGRAM [DAYS]                  (3)
"""

import subprocess
import sys
from collections.abc import Iterable
from typing import NamedTuple

from tests.hostile.full_market import (
    ASKED,
    ASKED_AT_ONCE,
    DEADLINE,
    HIT,
    HITS,
    INVESTORS,
    QUOTED,
    QUOTES,
    REQUESTS,
    Ask,
    Fields,
    Quote,
    asked_of,
    day,
    quotes_of,
)
from tests.model.venue_command import words_of

SHAPES = REQUESTS, REQUESTS // 4, REQUESTS // 16  # requests of an investor on a day


class Unlawful(Exception):
    """What was sent is not what the rules give."""


def check(holds: bool, *what: object) -> None:
    if not holds:
        raise Unlawful(" ".join(map(str, what)))


class Sent(NamedTuple):
    """A message of the venue: its moment, its type and its fields, none of them twice."""

    time: str
    kind: str
    fields: Fields

    def is_all(self, time: str, kind: str, fields: Fields) -> bool:
        """Whether it is this message, with its fields in this order."""
        came, wanted = list(self.fields.items()), list(fields.items())
        return (self.time, self.kind, came) == (time, kind, wanted)

    def number(self, tag: int, letter: str) -> int:
        """The number behind this letter in a field."""
        return int(self.fields[tag].removeprefix(letter))


def fields_of(body: str) -> Fields:
    pairs = [field.split("=", 1) for field in body.split("|")]
    fields = {int(tag): value for tag, value in pairs}
    check(len(fields) == len(pairs), "a field twice:", body)
    return fields


class Dealer:
    """What one dealer was sent, message by message."""

    def __init__(self, number: int, asked: list[Ask]) -> None:
        self.asked = {("INV%d" % ask.investor, ask.quantity()): ask for ask in asked}
        self.said = quotes_of(number, len(asked))
        self.shown: list[Ask] = []
        self.quotes = 0  # that were accepted
        self.accepted: dict[Ask, list[Quote]] = {}
        self.lifted: set[Ask] = set()  # whose quote it knows to be lifted
        self.notices: dict[Ask, Sent] = {}

    def take(self, sent: Sent) -> None:
        acts = {"R": self.take_request, "AI": self.take_report, "AJ": self.take_notice}
        acts[sent.kind](sent)

    def take_request(self, sent: Sent) -> None:
        ask = self.asked.pop((sent.fields[448], sent.fields[38]))
        self.shown.append(ask)
        self.accepted[ask] = []
        wanted = {131: "R%d" % len(self.shown), 146: "1"} | ask.terms() | {126: DEADLINE, 453: "1"}
        wanted |= {448: "INV%d" % ask.investor, 447: "D", 452: "13"}
        check(sent.is_all(ASKED, "R", wanted), "another request:", sent)

    def take_report(self, sent: Sent) -> None:
        quote = next(self.said)
        reason = sent.fields.get(300)  # none where the quote is accepted
        check(reason in self.reasons(quote), "another answer to a quote:", sent)
        answer = {297: "0"} if reason is None else {297: "5", 300: reason}
        wanted = {131: "R%d" % quote.request, 117: quote.id} | answer
        check(sent.is_all(QUOTED, "AI", wanted), "another report:", sent)
        if reason is None:
            self.quotes += 1
            self.accepted[self.shown[quote.request - 1]].append(quote)
        elif reason == "4" and self.shown[quote.request - 1] not in self.notices:
            self.lifted.add(self.shown[quote.request - 1])

    def reasons(self, quote: Quote) -> tuple[str | None, ...]:
        """Why the quote may be refused now; None where it may be accepted."""
        if quote.request > len(self.shown):
            return ("99",)
        ask = self.shown[quote.request - 1]
        if ask in self.notices or ask in self.lifted:
            return ("4",)
        if self.quotes == QUOTES:
            return ("3",)
        # The word of the quote that it would replace is asked.
        return (None, "4") if self.accepted[ask] else (None,)

    def take_notice(self, sent: Sent) -> None:
        number = sent.number(131, "R")
        check(1 <= number <= len(self.shown), "a notice of no request:", sent)
        ask, end = self.shown[number - 1], sent.fields[694]
        check(ask not in self.notices, "a second notice:", sent)
        check(end in ("1", "4", "5"), "another end:", sent)
        check(end == "5" or self.accepted[ask] != [], "a notice of no quote:", sent)
        self.notices[ask] = sent
        wanted = {693: "N%d" % len(self.notices), 131: "R%d" % number}
        if end == "1":
            quote = self.accepted[ask][-1]
            wanted |= {117: quote.id, 694: end} | ask.terms() | {133: quote.price}
        else:
            wanted |= {694: end} | ask.terms()
        check(sent.is_all(HIT, "AJ", wanted), "another notice:", sent)

    def end(self) -> None:
        check(not self.asked, "requests that it was not shown:", *self.asked)
        check(next(self.said, None) is None, "quotes that were not answered")
        won = {ask for ask, notice in self.notices.items() if notice.fields[694] == "1"}
        check(self.lifted <= won, "a lifted quote that has not won")


class Shown(NamedTuple):
    """A quote that an investor was shown."""

    ask: Ask
    dealer: int
    price: str


class Investor:
    """What one investor was sent, message by message."""

    def __init__(self, number: int, requests: int) -> None:
        self.number, self.requests, self.made = number, requests, 0
        self.unanswered = {"h%d" % (n + 1) for n in range(HITS)}
        self.shown: list[Shown] = []
        self.standing: dict[tuple[Ask, int], int] = {}  # the number of the quote that stands
        self.gone: tuple[Ask, int] | None = None  # of the quote whose place the next one takes
        self.won: dict[Ask, Shown] = {}
        self.refused: list[tuple[Shown, str]] = []

    def take(self, sent: Sent) -> None:
        gone, self.gone = self.gone, None
        if sent.kind == "S":
            self.take_quote(sent, gone)
            return
        check(gone is None and sent.kind == "AI", "not the quote for which another went:", sent)
        if 693 in sent.fields:
            self.take_reply(sent)
        elif sent.fields[297] == "17":
            self.take_end(sent)
        else:
            self.made += 1
            wanted = {131: "q%d" % self.made, 297: "0"}
            check(sent.is_all(ASKED, "AI", wanted), "another report:", sent)

    def take_quote(self, sent: Sent, gone: tuple[Ask, int] | None) -> None:
        ask, price = Ask(self.number, sent.number(131, "q")), sent.fields[133]
        dealer = sent.number(448, "DLR")
        is_asked = 1 <= ask.number <= self.made and dealer in ask.dealers()
        check(is_asked and ask not in self.won, "a quote on no open request:", sent)
        before = (ask, dealer) if (ask, dealer) in self.standing else None
        check(gone == before, "two quotes of one dealer:", sent)
        self.shown.append(Shown(ask, dealer, price))
        self.standing[ask, dealer] = len(self.shown)
        wanted = {131: "q%d" % ask.number, 117: "Q%d" % len(self.shown)} | ask.instrument()
        wanted |= {54: "1", 133: price, 135: ask.quantity(), 537: "1", 453: "1"}
        wanted |= {448: "DLR%d" % dealer, 447: "D", 452: "35"}
        check(sent.is_all(QUOTED, "S", wanted), "another quote:", sent)

    def take_end(self, sent: Sent) -> None:
        number = sent.number(117, "Q")
        check(1 <= number <= len(self.shown), "the end of no quote:", sent)
        ask, dealer, _ = self.shown[number - 1]
        check(self.standing[ask, dealer] == number, "the end of a quote that is gone:", sent)
        self.gone = ask, dealer
        wanted = {131: "q%d" % ask.number, 117: "Q%d" % number, 297: "17"}
        check(sent.is_all(QUOTED, "AI", wanted), "another end:", sent)

    def take_reply(self, sent: Sent) -> None:
        """The quote of a hit is known where it was shown before, and there alone."""
        number, answer = sent.number(693, "h"), sent.fields[297]
        self.unanswered.remove("h%d" % number)
        check((answer == "9") == (number > len(self.shown)), "was the quote shown?", sent)
        hit = None if answer == "9" else self.shown[number - 1]
        wanted = {693: "h%d" % number} | ({131: "q%d" % hit.ask.number} if hit else {})
        wanted |= {117: "Q%d" % number, 297: answer}
        if hit and answer == "0":
            check(hit.ask not in self.won, "a second award:", sent)
            self.won[hit.ask] = hit
        elif hit and answer == "5":
            self.refused.append((hit, sent.fields[58]))
            wanted |= {300: "4", 58: sent.fields[58]}
        check(answer in ("0", "5", "9"), "another answer to a hit:", sent)
        check(sent.is_all(HIT, "AI", wanted), "another reply:", sent)

    def end(self) -> None:
        check(self.made == self.requests, "requests that were not answered")
        check(not self.unanswered and self.gone is None, "hits that were not answered")


class Market(NamedTuple):
    """All that was sent on a day."""

    dealers: list[Dealer]
    investors: list[Investor]

    def agrees(self) -> None:
        for investor in self.investors:
            self.agrees_on_quotes(investor)
            self.agrees_on_awards(investor)
            self.agrees_on_refusals(investor)
        won = {ask for investor in self.investors for ask in investor.won}
        told = {ask for dealer in self.dealers for ask in dealer.notices}
        check(told <= won, "a notice of a request that was not awarded:", *(told - won))

    def agrees_on_quotes(self, investor: Investor) -> None:
        """Of what a dealer quoted on a request it was shown the first ones, in their order."""
        shown: dict[tuple[Ask, int], list[str]] = {}
        for quote in investor.shown:
            shown.setdefault((quote.ask, quote.dealer), []).append(quote.price)
        for (ask, dealer), prices in shown.items():
            quoted = [quote.price for quote in self.dealers[dealer].accepted[ask]]
            check(quoted[: len(prices)] == prices, "DLR%d on" % dealer, ask, quoted, prices)

    def agrees_on_awards(self, investor: Investor) -> None:
        """Each dealer was told, the winner that it won, and one other at most that it is cover."""
        for ask, hit in investor.won.items():
            dealers = {dealer: self.dealers[dealer].notices for dealer in ask.dealers()}
            check(all(ask in notices for notices in dealers.values()), "an end not told:", ask)
            ends = {dealer: notices[ask].fields[694] for dealer, notices in dealers.items()}
            winners = [dealer for dealer, end in ends.items() if end == "1"]
            check(winners == [hit.dealer], "the winners of", ask, winners)
            check(dealers[hit.dealer][ask].fields[133] == hit.price, "another price of", ask)
            check(list(ends.values()).count("4") <= 1, "two covers of", ask)

    def agrees_on_refusals(self, investor: Investor) -> None:
        """The request was awarded, or the dealer has quoted anew: none cancels here."""
        for hit, refusal in investor.refused:
            is_last = self.dealers[hit.dealer].accepted[hit.ask][-1].price == hit.price
            lawful = {"NotOpen": hit.ask in investor.won, "Gone": not is_last}
            lawful["Withdrawn"] = not is_last
            check(lawful[refusal], "a hit is refused:", hit, refusal)

    def counts(self) -> dict[str, int]:
        shown = sum(len(investor.shown) for investor in self.investors)
        won = sum(len(investor.won) for investor in self.investors)
        refused = sum(len(investor.refused) for investor in self.investors)
        quotes = sum(dealer.quotes for dealer in self.dealers)
        return {"quotes": quotes, "shown": shown, "hits": won, "hits refused": refused}

    def steps(self, requests: int) -> tuple[int, int]:
        """The fewest and the most steps of the day: its messages, and the duties that they left."""
        quotes, shown, won, refused = self.counts().values()
        said, made = day(requests).count("\nsay "), INVESTORS * requests
        opened = made * (1 + ASKED_AT_ONCE + 1)  # open, a show for each dealer, ready
        hits = 2 * (won + refused) + ASKED_AT_ONCE * won  # hit, answer; a tell for each dealer
        fewest = said + opened + hits + quotes  # a post for each
        # A relay for each post that took effect: it shows a quote, unless the request was closed.
        return fewest + shown, fewest + quotes


def taken(lines: Iterable[str], requests: int) -> Market:
    """What was sent, message by message, each firm's numbers from 1."""
    dealers = [Dealer(number, asked) for number, asked in enumerate(asked_of(requests))]
    investors = [Investor(number, requests) for number in range(INVESTORS)]
    firms: dict[str, Dealer | Investor] = {
        "DLR%d" % number: dealer for number, dealer in enumerate(dealers)
    }
    firms |= {"INV%d" % number: investor for number, investor in enumerate(investors)}
    numbers = dict.fromkeys(firms, 0)
    for line in lines:
        name, number, time, kind, body = line.split(" ", 4)
        numbers[name] += 1
        check(int(number) == numbers[name], "another number:", line)
        firms[name].take(Sent(time, kind, fields_of(body)))
    for firm in firms.values():
        firm.end()
    return Market(dealers, investors)


def run(program: list[str], requests: int) -> dict[str, int]:
    """A day, and how much there was of what; Unlawful where it is not by the rules."""
    words, text = [*program, "day", "--woven"], day(requests).encode()
    ran = subprocess.run(words, input=text, capture_output=True, timeout=600)
    told = ran.stderr.decode(errors="replace")
    check(ran.returncode == 0 and told == "", "status", ran.returncode, told)
    *lines, last = ran.stdout.decode().splitlines()
    market = taken(lines, requests)
    market.agrees()
    fewest, most = market.steps(requests)
    check(last.startswith("woven "), "no steps:", last)
    check(fewest <= int(last.removeprefix("woven ")) <= most, last, "not", fewest, "to", most)
    return {"messages": len(lines)} | market.counts()


def main() -> None:
    mode, *words = sys.argv[1:]
    if mode == "write":
        sys.stdout.write(day(int(words[0]) if words else REQUESTS))
        return
    program, days = words_of(words[0]), int(words[1]) if len(words) > 1 else len(SHAPES)
    hits = 0
    for number in range(days):
        try:
            counts = run(program, SHAPES[number % len(SHAPES)])
        except (Unlawful, LookupError, ValueError, StopIteration) as fault:
            sys.exit("day %d: %s: %s" % (number + 1, type(fault).__name__, fault))
        said = ", ".join("%d %s" % (count, name) for name, count in counts.items())
        print("day %d: %s" % (number + 1, said), flush=True)
        hits += counts["hits"]
    if hits == 0:
        sys.exit("no quote was hit: the firms have not met")
    print("%d days, each by the rules" % days)


if __name__ == "__main__":
    main()
