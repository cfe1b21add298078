"""Draws days of a whole venue that tell what one dealer lives through.

A *story* is what one dealer, DLR1, lives through: the requests that it is shown, its own messages,
and how its requests end. A *day* tells a story as a day of a whole venue. It draws everything anew
that the story leaves open: the other firms, their order and their limits, the bonds, who else is
asked, who wins, what the others quote, ids, traders, requests that the dealer never sees, messages
that are refused or dropped, and turns of the others.
"""

from __future__ import annotations

from random import Random
from typing import Any

BONDS = ["BONDA0000001", "BONDB0000002", "BONDC0000003"]
OPENING = 32_400_000  # 09:00:00
CLOSING = 60_000_000  # 16:40:00, behind every moment of a story


def time_text(moment: int) -> str:
    seconds, thousandths = divmod(moment, 1000)
    return "%02d:%02d:%02d.%03d" % (seconds // 3600, seconds // 60 % 60, seconds % 60, thousandths)


def price_text(ticks: int) -> str:
    """A price of whole 256ths as a decimal."""
    whole, part = divmod(ticks, 256)
    return str(whole) if part == 0 else ("%d.%08d" % (whole, part * 390625)).rstrip("0")


class Request:
    """A request that the dealer is shown."""

    def __init__(self, draw: Random, number: int, moment: int) -> None:
        self.number = number  # the dealer's own
        self.investor = draw.choice(["INV1", "INV2"])
        self.bond = draw.choice(BONDS[:2])
        self.side = draw.choice([1, 2])
        self.quantity = draw.randrange(1, 5_000_000)
        self.deadline = draw.choice([CLOSING, moment + draw.randrange(10_000, 90_000)])
        self.closed = self.declined = False
        self.live: tuple[
            str, int
        ] | None = None  # the dealer's live quote on it: its QuoteID and price


class Story:
    """Chapters, each a word, a moment and what belongs to it."""

    def __init__(self, draw: Random) -> None:
        self.draw, self.moment, self.quotes = draw, OPENING, 0
        self.requests: list[Request] = []
        self.chapters: list[tuple[Any, ...]] = []
        for _ in range(draw.randrange(2, 14)):
            self.moment += draw.randrange(1, 9_000)
            self.live_on(self.chapter())

    def put(self, word: str, *more: Request | str | int | tuple[str, int] | None) -> None:
        self.chapters.append((word, self.moment) + more)

    def live_on(self, request: Request | None) -> None:
        """Closes the request, where the chapter did."""
        if request:
            request.closed, request.live = True, None

    def chapter(self) -> Request | None:
        """The next chapter; answers the request that it closes, if any."""
        draw = self.draw
        open_ones = [request for request in self.requests if not request.closed]
        if not open_ones or draw.random() < 0.25:
            request = Request(draw, len(self.requests) + 1, self.moment)
            self.requests.append(request)
            self.put("ask", request)
            return None
        request = draw.choice(open_ones)
        word = draw.choice(
            ["quote"] * 6
            + ["cancel", "cancel_all", "decline", "nonsense", "hit", "hit", "leave", "expire"]
        )
        closed: Request | None = getattr(self, word)(request)
        return closed

    def quote(self, request: Request) -> None:
        self.quotes += 1
        name, ticks = "a%d" % self.quotes, self.draw.randrange(20_000, 30_000)
        accepted = self.moment < request.deadline and not request.declined
        self.put("quote", request, name, ticks, accepted)
        if accepted:
            request.live = name, ticks

    def cancel(self, request: Request) -> None:
        self.put("cancel", request.live[0] if request.live else "a99")
        request.live = None

    def cancel_all(self, _: Request) -> None:
        self.put("cancel_all")
        for request in self.requests:
            request.live = None

    def decline(self, request: Request) -> None:
        self.put("decline", request)
        request.declined = request.declined or not request.live

    def nonsense(self, _: Request) -> None:
        self.put("nonsense", self.draw.randrange(4))

    def hit(self, request: Request) -> Request | None:
        """The investor hits the dealer's quote, another's before it, or another's behind a third's."""
        if self.moment >= request.deadline:
            return None
        ends = ["own", "own", "late cancel", "cover", "away"] if request.live else ["away"]
        self.put("hit", request, self.draw.choice(ends), request.live)
        return request

    def leave(self, request: Request) -> Request:
        self.put("leave", request)
        return request

    def expire(self, request: Request) -> Request:
        self.moment = max(self.moment, request.deadline)
        self.put("expire", request)
        return request


class Day:
    """A story, told as a day of a whole venue."""

    def __init__(self, story: Story, draw: Random) -> None:
        self.story, self.draw = story, draw
        self.rich = ["DLR%d" % n for n in range(2, 2 + draw.randrange(2, 6))]
        self.poor = ["DLR%d" % n for n in range(20, 20 + draw.randrange(3))]
        self.strangers = ["INV%d" % n for n in range(3, 3 + draw.randrange(3))]
        self.traders: dict[str, str] = {}
        self.steps: list[str] = []
        self.rooms: dict[int, dict[str, Any]] = {}
        self.made: dict[str, int] = {}  # requests
        self.seen: dict[str, int] = {}  # requests shown
        self.offers: dict[str, int] = {}  # quotes shown
        self.moment = OPENING

    def configuration(self) -> str:
        draw = self.draw
        bonds = BONDS + ["BONDX%07d" % draw.randrange(10**7)]
        dealers = ["DLR1"] + self.rich + self.poor
        investors = ["INV1", "INV2"] + self.strangers
        for rows in (bonds, dealers, investors):
            draw.shuffle(rows)
        text = ["version = 1", 'date = "20250314"']
        text += ['[[bond]]\nid = "%s"' % bond for bond in bonds]
        for dealer in dealers:
            self.traders[dealer] = "T1" if dealer == "DLR1" else "T%d" % draw.randrange(2, 99)
            text.append(
                '[[dealer]]\nname = "%s"\ntraders = ["%s"]' % (dealer, self.traders[dealer])
            )
            text.append("exposure = %d" % (1 if dealer in self.poor else 10**15))
            text.append("quotes = %d" % (400 if dealer == "DLR1" else draw.randrange(300, 4000)))
        for investor in investors:
            self.traders[investor] = "V%d" % draw.randrange(1, 99)
            text.append(
                '[[investor]]\nname = "%s"\ntraders = ["%s"]' % (investor, self.traders[investor])
            )
            text.append(
                "requests = %d\nopen = 500\nquantity = %d"
                % (draw.randrange(500, 800), draw.randrange(5 * 10**6, 10**9))
            )
        return "\n".join(text)

    def say(self, firm: str, kind: str, body: str, trader: str | None = None) -> None:
        self.steps.append(
            "say %s %s %s %s %s"
            % (firm, trader or self.traders[firm], time_text(self.moment), kind, body)
        )

    def turn(self, actor: str, times: int) -> None:
        self.steps.append("turn %s %d" % (actor, times))

    def ask(
        self, investor: str, bond: str, side: int, quantity: int, deadline: int, dealers: list[str]
    ) -> str:
        """A request to these dealers, in this order, which is shown to each; answers its id."""
        name = "%s%d" % (self.draw.choice("qrs"), self.draw.randrange(10**9))
        parties = "|".join("448=%s|447=D|452=35" % dealer for dealer in dealers)
        fields = "131=%s|146=1|48=%s|22=4|54=%d|38=%d|126=20250314-%s|453=%d|%s"
        self.say(
            investor,
            "R",
            fields % (name, bond, side, quantity, time_text(deadline), len(dealers), parties),
        )
        self.turn(investor, len(dealers) + 2)
        self.made[investor] = self.made.get(investor, 0) + 1
        for dealer in dealers:
            self.seen[dealer] = self.seen.get(dealer, 0) + 1
        return name

    def offer(
        self, investor: str, dealer: str, request: int, bond: str, side: int, ticks: int
    ) -> int:
        """Another dealer's quote, shown to the investor; answers its number there."""
        tag = 133 if side == 1 else 132
        name = "b%d" % self.draw.randrange(10**9)
        self.say(
            dealer,
            "S",
            "117=%s|131=R%d|48=%s|22=4|%d=%s" % (name, request, bond, tag, price_text(ticks)),
        )
        self.turn(dealer, 2)
        if dealer in self.rich:
            self.offers[investor] = self.offers.get(investor, 0) + 1
        return self.offers.get(investor, 0)

    def aside(self) -> None:
        """Something among the others of which the story does not tell, or nothing."""
        draw = self.draw
        for _ in range(draw.choice([0, 0, 1, 1, 2])):
            what = draw.randrange(4)
            if what == 0:
                others = self.rich + self.poor
                dealers = draw.sample(others, draw.randrange(1, min(8, len(others)) + 1))
                investor = draw.choice(["INV1", "INV2"] + self.strangers)
                bond, side = draw.choice(BONDS), draw.choice([1, 2])
                self.ask(investor, bond, side, draw.randrange(2, 5 * 10**6), CLOSING, dealers)
                for dealer in dealers:
                    self.offer(
                        investor,
                        dealer,
                        self.seen[dealer],
                        bond,
                        side,
                        draw.randrange(20_000, 30_000),
                    )
            elif what == 1:
                self.say(draw.choice(self.rich), "Z", "298=5|117=none")
            elif what == 2:
                investor = draw.choice(["INV1", "INV2"])
                frame = "8=FIXT.1.1|9=5|35=R|10=%03d|" % draw.randrange(256)
                self.steps.append("in %s %s %s" % (investor, time_text(self.moment), frame))
            else:
                self.turn(draw.choice(self.rich + ["CLOCK"]), draw.randrange(1, 4))

    def text(self) -> str:
        for word, moment, *more in self.story.chapters:
            self.moment = moment
            self.aside()
            getattr(self, "tell_" + word)(*more)
        self.aside()
        return "\n".join(self.steps)

    def tell_ask(self, request: Request) -> None:
        # At least two others who can quote are asked, so that another can win before a third.
        others = self.draw.sample(self.rich, self.draw.randrange(2, len(self.rich) + 1))
        others += self.draw.sample(self.poor, self.draw.randrange(len(self.poor) + 1))
        dealers = ["DLR1"] + others[:7]
        self.draw.shuffle(dealers)
        name = self.ask(
            request.investor,
            request.bond,
            request.side,
            request.quantity,
            request.deadline,
            dealers,
        )
        asked = {dealer: self.seen[dealer] for dealer in dealers if dealer != "DLR1"}
        self.rooms[request.number] = {
            "n": self.made[request.investor],
            "id": name,
            "asked": asked,
            "own": None,
        }
        for dealer in asked:
            if self.draw.random() < 0.5:
                self.counter(request, dealer, self.draw.randrange(20_000, 30_000))

    def counter(self, request: Request, dealer: str, ticks: int) -> int:
        """A quote of another dealer on a request of the story."""
        shown = self.rooms[request.number]["asked"][dealer]
        return self.offer(request.investor, dealer, shown, request.bond, request.side, ticks)

    def tell_quote(self, request: Request, name: str, ticks: int, accepted: bool) -> None:
        tag = 133 if request.side == 1 else 132
        self.say(
            "DLR1",
            "S",
            "117=%s|131=R%d|48=%s|22=4|%d=%s"
            % (name, request.number, request.bond, tag, price_text(ticks)),
        )
        self.turn("DLR1", 2)
        if accepted:
            self.offers[request.investor] = self.offers.get(request.investor, 0) + 1
            self.rooms[request.number]["own"] = self.offers[request.investor]

    def tell_cancel(self, name: str) -> None:
        self.say("DLR1", "Z", "298=5|117=%s" % name)
        self.turn("DLR1", 2)

    def tell_cancel_all(self) -> None:
        self.say("DLR1", "Z", "298=4")
        self.turn("DLR1", 3 * len(self.story.requests) + 1)

    def tell_decline(self, request: Request) -> None:
        self.say("DLR1", "AG", "131=R%d|658=10" % request.number)
        self.turn("DLR1", 2)

    def tell_nonsense(self, kind: int) -> None:
        if kind == 0:
            self.say("DLR1", "Z", "298=5|117=x", trader="T1X")
        elif kind == 1:
            self.say("DLR1", "S", "117=x|131=R77|48=BONDA0000001|22=4|133=99.5")
        elif kind == 2:
            self.steps.append("in DLR1 %s 8=FIXT.1.1|9=5|35=R|10=000|" % time_text(self.moment))
        else:
            self.say("DLR1", "R", "131=q")

    def tell_hit(self, request: Request, end: str, live: tuple[str, int] | None) -> None:
        room = self.rooms[request.number]
        worse = 1 if request.side == 1 else -1
        able = [dealer for dealer in room["asked"] if dealer in self.rich]
        self.draw.shuffle(able)
        hit = room["own"]
        if end in ("cover", "away"):
            price = live[1] if live else 25_000
            hit = self.counter(request, able[0], price + self.draw.randrange(-100, 100))
            for dealer in able[1:]:
                self.counter(request, dealer, price + worse * self.draw.randrange(1, 100))
            if end == "away" and live:
                self.counter(request, able[1], price - worse * self.draw.randrange(1, 100))
        self.say(
            request.investor, "AJ", "693=h%d|117=Q%d|694=1" % (self.draw.randrange(10**9), hit)
        )
        if end == "late cancel":
            self.turn(request.investor, 1)
            assert live is not None
            self.tell_cancel(live[0])
        self.turn(request.investor, len(room["asked"]) + 3)

    def tell_leave(self, request: Request) -> None:
        room = self.rooms[request.number]
        self.say(
            request.investor,
            "AJ",
            "693=p%d|694=6|131=%s" % (self.draw.randrange(10**9), room["id"]),
        )
        self.turn(request.investor, len(room["asked"]) + 3)

    def tell_expire(self, request: Request) -> None:
        room = self.rooms[request.number]
        self.steps.append("expire %s %d %s" % (request.investor, room["n"], time_text(self.moment)))
        self.turn("CLOCK", len(room["asked"]) + 5)
