#!/usr/bin/python3
"""Draws a day of a venue by a seed, and writes its log as the gateway does.

usage: draw_day.py LOG [--requests N] [--seed N] [--noise N] [--dealers N] [--investors N]
                   [--form N] -- VENUE WORDS ..

Investors ask; dealers quote, replace, withdraw and decline. Each goes by what it was sent so far: the
venue's program answers each line before the next is drawn. `--noise` adds so many messages that are
refused, for each dealer and request.
"""

import argparse
import heapq
import itertools
import random
import subprocess
from collections.abc import Callable
from dataclasses import dataclass, field
from functools import partial
from pathlib import Path
from typing import NamedTuple

from tests.audit.ledger import TOLD, Fields, Ledger, fields_of, frame, time_text

DATE = "20261125"
OPENING, CLOSING = 8 * 3_600_000, 17 * 3_600_000
BONDS = {"US91282CAA18": 256, "US91282CBB27": 128, "US912810TM09": 64, "US912810SX72": 32}
MIDDLES = {
    "US91282CAA18": 99.5,
    "US91282CBB27": 101.25,
    "US912810TM09": 87.75,
    "US912810SX72": 73.0,
}
BANDED = ("US91282CBB27", "US912810SX72")  # half a point to each side of the middle
ALL_DEALERS = {
    "ALPHA": ("AL1", "AL2"),
    "BRAVO": ("BR1",),
    "CEDAR": ("CE1",),
    "DELTA": ("DE1",),
    "EIGER": ("EI1",),
}
ALL_INVESTORS = {"FJORD": ("FJ1", "FJ2"), "GROVE": ("GR1",)}


def name_of(bond: str) -> str:
    """What people call a bond, where a day says it."""
    return "Treasury <%s>" % bond[-3:]


@dataclass(frozen=True)
class Firms:
    """The firms of a day, each with its traders."""

    dealers: dict[str, tuple[str, ...]]
    investors: dict[str, tuple[str, ...]]
    currencies: tuple[str, ...] = ()  # of the bonds, in their order; empty of one without
    in_32nds: bool = False  # how all bonds are quoted
    are_bonds_named: bool = False

    @property
    def all(self) -> dict[str, tuple[str, ...]]:
        return {**self.dealers, **self.investors}


def first_of(table: dict[str, tuple[str, ...]], count: int) -> dict[str, tuple[str, ...]]:
    return dict(itertools.islice(table.items(), count))


def configuration(firms: Firms) -> bytes:
    text = 'version = 3\ndate = "%s"\n' % DATE
    more = itertools.chain(firms.currencies, itertools.repeat(""))
    for (bond, grid), currency in zip(BONDS.items(), more):
        text += '\n[[bond]]\nid = "%s"\ngrid = %d\n' % (bond, grid)
        if bond in BANDED:
            text += 'low = "%s"\nhigh = "%s"\n' % (MIDDLES[bond] - 0.5, MIDDLES[bond] + 0.5)
        if currency:
            text += 'currency = "%s"\n' % currency
        if firms.in_32nds:
            text += 'quoted = "32nds"\n'
        if firms.are_bonds_named:
            text += 'name = "%s"\n' % name_of(bond)
    for name, traders in firms.dealers.items():
        text += '\n[[dealer]]\nname = "%s"\ntraders = [%s]\n' % (name, quoted(traders))
        text += "quotes = 4096\nexposure = 60000000\n"
    for name, traders in firms.investors.items():
        text += '\n[[investor]]\nname = "%s"\ntraders = [%s]\n' % (name, quoted(traders))
        text += "requests = 1024\nopen = 16\nquantity = 20000000\n"
    return text.encode()


def quoted(words: tuple[str, ...]) -> str:
    return ", ".join('"%s"' % word for word in words)


@dataclass
class Request:
    """A request as those who take part in it know it."""

    investor: str
    name: str
    bond: str
    buys: bool
    quantity: int
    deadline: int
    dealers: list[str]
    shown: dict[str, str] = field(default_factory=dict)  # dealer to its name of the request
    standing: dict[str, tuple[str, float]] = field(default_factory=dict)  # to dealer and price
    live: dict[str, str] = field(default_factory=dict)  # dealer to its own name of its quote
    ended: bool = False
    hits: int = 0


class Given(NamedTuple):
    """A message of the venue, and what is noted beside it: `why` or `trade`, and the name."""

    firm: str
    data: bytes
    note: tuple[str, str] | None = None


def has_notes(venue: list[str]) -> bool:
    """Whether the program has the flag --notes: one that has not calls it a wrong argument."""
    words = [*venue, "live", "--notes"]
    return subprocess.run(words, input=b"", capture_output=True, check=False).returncode != 2


class Market:
    """The venue, its firms and what is still to come."""

    def __init__(
        self, path: Path, seed: int, noise: int, firms: Firms, venue: list[str], form: int = 6
    ) -> None:
        self.draw, self.noise, self.firms = random.Random(seed), noise, firms
        self.door = random.Random("door %d" % seed)  # its own: the day is the same without it
        notes = form > 3 and has_notes(venue)
        self.ledger = Ledger(path, DATE, configuration(firms), form=form, notes=notes)
        words = [*venue, "live", "--frames", "--marks", *(["--notes"] if notes else [])]
        self.venue = subprocess.Popen(words, stdin=subprocess.PIPE, stdout=subprocess.PIPE)
        self.write(configuration(firms) + b"%%\n")
        self.coming: list[tuple[int, int, Callable[[int], None]]] = []
        self.order, self.names = itertools.count(), itertools.count(1)
        self.numbers: dict[str, int] = {}
        self.requests: dict[tuple[str, str], Request] = {}
        self.deadline: int | None = None
        self.now = OPENING

    # ------------------------------------------------------------ the venue

    def write(self, data: bytes) -> None:
        assert self.venue.stdin is not None
        self.venue.stdin.write(data)
        self.venue.stdin.flush()

    def answers(self) -> list[Given]:
        """What the venue gives for the last line."""
        assert self.venue.stdout is not None
        messages: list[Given] = []
        for line in self.venue.stdout:
            word, _, rest = line.decode().rstrip("\n").partition(" ")
            if word in ("done", "fault"):
                times = rest.split(" ")[1:]
                self.deadline = moment_of(times[0]) if word == "done" and times else None
                return messages
            if word in TOLD:
                messages[-1] = messages[-1]._replace(note=(word, rest.split(" ")[2]))
            else:
                messages.append(Given(word, rest.replace("|", "\x01").encode()))
        raise RuntimeError("the venue has ended")

    def say(self, firm: str, trader: str, kind: str, body: Fields, number: bool = True) -> None:
        """A message of a firm, now, and what is sent for it."""
        self.numbers[firm] = self.numbers.get(firm, 0) + 1
        head = [("35", kind), ("34", str(self.numbers[firm])), ("49", firm), ("50", trader)]
        head += [("52", "%s-%s" % (DATE, time_text(self.now))), ("56", "VENUE")]
        data = frame(head + body)
        place = self.ledger.came(firm, self.now, data, number)
        self.write(("hex %s %s %s\n" % (firm, time_text(self.now), data.hex())).encode())
        self.deliver(place, self.ledger.sessions[firm].came)

    def sweep(self, moment: int) -> None:
        self.now = moment
        place = self.ledger.clock(moment)
        self.write(("clock %s\n" % time_text(moment)).encode())
        self.deliver(place, None)

    def deliver(self, place: int, answered: int | None) -> None:
        for firm, data, note in self.answers():
            self.ledger.given(firm, data, place, self.now, answered, note)
            self.learn(firm, dict(fields_of(data)[2:-1]))

    # ------------------------------------------------------------ what firms learn

    def learn(self, firm: str, told: dict[str, str]) -> None:
        kind = told["35"]
        if kind == "R":
            request = next(one for one in reversed(self.requests.values()) if firm in one.dealers)
            request.shown[firm] = told["131"]
        elif firm in self.firms.investors and (firm, told.get("131", "")) in self.requests:
            self.learn_request(self.requests[firm, told["131"]], told)

    def learn_request(self, request: Request, told: dict[str, str]) -> None:
        status = told.get("297")
        if told["35"] == "S":
            price = float(told.get("133") or told["132"])
            request.standing[told["117"]] = (told["448"], price)
        elif status == "17":
            dealer, _ = request.standing.pop(told["117"], ("", 0.0))
        elif ends(told):
            request.ended = True

    # ------------------------------------------------------------ time

    def later(self, moment: int, act: Callable[[int], None]) -> None:
        heapq.heappush(self.coming, (moment, next(self.order), act))

    def play(self, count: int) -> None:
        for firm in self.firms.all:
            self.ledger.log_on(firm, OPENING)
        last = OPENING
        for at in range(count):
            span = (CLOSING - OPENING - 1_200_000) // count
            when = OPENING + 60_000 + at * span + self.draw.randrange(span)
            if at % 5 == 4:  # beside the one before
                when = last + 15_000
            self.later(when, self.ask)
            last = when
        self.come_to_the_door()
        while self.coming or self.deadline is not None:
            moment = self.coming[0][0] if self.coming else CLOSING
            if self.deadline is not None and self.deadline <= moment:
                self.sweep(max(self.deadline, self.now))
                continue
            _, _, act = heapq.heappop(self.coming)
            self.now = max(self.now, moment)
            act(self.now)
        for firm in self.firms.all:
            self.ledger.log_off(firm, CLOSING)
        self.ledger.close()
        assert self.venue.stdin is not None
        self.venue.stdin.close()
        self.venue.wait()

    # ------------------------------------------------------------ the door

    def come_to_the_door(self) -> None:
        """Each firm loses its connection once or twice, and others come who are not let in."""
        for firm in self.firms.all:
            for _ in range(self.door.choice([1, 1, 2])):
                self.at_some_time(partial(self.ledger.log_on_again, firm))
        for _ in range(3):
            firm, left_out = self.door.choice(list(self.firms.all)), self.door.choice([0, 0, 44])
            self.at_some_time(partial(self.ledger.refuse, firm, left_out))
        for _ in range(2):
            self.at_some_time(self.ledger.stranger)
        for firm in self.firms.all:
            self.at_some_time(partial(self.ledger.reject, firm))
            if self.ledger.form > 4:
                kind = "S" if firm in self.firms.dealers else "R"
                self.at_some_time(partial(self.ledger.not_take, firm, kind))

    def at_some_time(self, act: Callable[[int], None]) -> None:
        self.later(self.door.randrange(OPENING + 60_000, CLOSING - 1_200_000), act)

    # ------------------------------------------------------------ investors

    def ask(self, moment: int) -> None:
        draw = self.draw
        investor, bond = draw.choice(list(self.firms.investors)), draw.choice(list(BONDS))
        listed = list(self.firms.dealers)
        dealers = draw.sample(listed, min(len(listed), draw.choice([2, 3, 3, 4, 5])))
        name = "%s-%03d" % (investor[0], next(self.names))
        deadline = (moment // 1000 + draw.choice([120, 180, 300, 300, 600])) * 1000
        quantity = draw.choice([1, 2, 2, 5, 5, 10, 25 if draw.random() < 0.2 else 15]) * 1_000_000
        request = Request(investor, name, bond, draw.random() < 0.5, quantity, deadline, dealers)
        self.requests[investor, name] = request
        if draw.random() < 0.06:
            self.ask_for(request, "US0000000000", name + "x")
        self.ask_for(request, bond, name)
        if not request.shown:
            return
        for dealer in dealers:
            self.answer(request, dealer, moment)
        end = draw.choices(["hit", "pass", "nothing"], [14, 3, 3])[0]
        when = moment + draw.randrange(45_000, 170_000)
        if end == "hit":
            self.later(when, lambda now: self.hit(request))
            if draw.random() < 0.25:
                self.later(when - 4_000, lambda now: self.hit_gone(request))
        elif end == "pass":
            self.later(when, lambda now: self.leave(request))

    def ask_for(self, request: Request, bond: str, name: str) -> None:
        until = "%s-%s" % (DATE, time_text(request.deadline))
        body = [("131", name), ("146", "1"), ("55", "[N/A]"), ("48", bond), ("22", "4")]
        body += [("54", "1" if request.buys else "2"), ("38", str(request.quantity))]
        body += [("126", until), ("453", str(len(request.dealers)))]
        for dealer in request.dealers:
            body += [("448", dealer), ("447", "D"), ("452", "35")]
        self.say(request.investor, self.draw.choice(self.firms.all[request.investor]), "R", body)

    def respond(self, request: Request, kind: str, tag: str, name: str) -> None:
        body = [("693", "%s%d" % (kind, next(self.names))), ("694", kind), (tag, name)]
        self.say(request.investor, self.firms.all[request.investor][0], "AJ", body)

    def hit(self, request: Request) -> None:
        if request.ended or not request.standing:
            self.leave(request)
            return
        choose = min if request.buys else max
        best = choose(request.standing, key=lambda name: request.standing[name][1])
        name = best if self.draw.random() < 0.85 else self.draw.choice(sorted(request.standing))
        dealer = request.standing[name][0]
        if self.draw.random() < 0.2:  # the dealer is a moment too late, or in time
            cancel = lambda now: self.cancel(request, dealer)  # noqa: E731
            self.later(self.now + self.draw.choice([0, 40]), cancel)
        when = self.now + self.draw.choice([0, 20])
        self.later(when, lambda now: self.respond(request, "1", "117", name))
        request.hits += 1
        if request.hits < 3:
            self.later(self.now + 2_500, lambda now: self.hit_again(request))

    def hit_again(self, request: Request) -> None:
        if not request.ended and request.standing:
            self.hit(request)

    def hit_gone(self, request: Request) -> None:
        self.respond(request, "1", "117", "Q%d" % self.draw.randrange(1, 60))

    def leave(self, request: Request) -> None:
        self.respond(request, "6", "131", request.name)

    # ------------------------------------------------------------ dealers

    def answer(self, request: Request, dealer: str, moment: int) -> None:
        draw = self.draw
        what = draw.choices(["quote", "decline", "nothing"], [16, 3, 1])[0]
        when = moment + draw.randrange(2_500, 30_000)
        if what == "decline":
            self.later(when, lambda now: self.decline(request, dealer))
        if what != "quote":
            return
        if draw.random() < 0.08:
            self.later(when - 900, lambda now: self.quote(request, dealer, spoilt=True))
        if draw.random() < 0.04:
            self.later(when - 500, lambda now: self.cancel(request, dealer, trader="NOBODY"))
        self.later(when, lambda now: self.quote(request, dealer))
        for _ in range(draw.choice([0, 0, 1, 1, 2])):
            again = when + draw.randrange(8_000, 70_000)
            self.later(again, lambda now: self.quote(request, dealer))
        if draw.random() < 0.12:
            behind = when + draw.randrange(20_000, 90_000)
            self.later(behind, lambda now: self.cancel(request, dealer))
        if draw.random() < 0.05:
            self.later(when + draw.randrange(4_000, 40_000), lambda now: self.cancel_all(dealer))
        for _ in range(self.noise):
            self.later(when + draw.randrange(90_000), lambda now: self.quote(request, dealer, True))

    def quote(self, request: Request, dealer: str, spoilt: bool = False) -> None:
        draw, grid = self.draw, BONDS[request.bond]
        away = draw.randrange(0, 9) / grid * (1 if request.buys else -1)
        wrong = 1 if request.bond in BANDED else 0.001  # outside the band, or off the grid
        price = MIDDLES[request.bond] + away + (wrong if spoilt else 0)
        name = "%s%d" % (dealer[0].lower(), next(self.names))
        body = [("117", name), ("131", request.shown[dealer]), ("48", request.bond), ("22", "4")]
        body.append(("133" if request.buys else "132", ("%.8f" % price).rstrip("0").rstrip(".")))
        if draw.random() < 0.1:
            until = min(request.deadline, self.now + draw.choice([30_000, 60_000]))
            body.append(("62", "%s-%s" % (DATE, time_text(until))))
        self.say(dealer, draw.choice(self.firms.all[dealer]), "S", body)
        if not spoilt:
            request.live[dealer] = name

    def cancel(self, request: Request, dealer: str, trader: str = "") -> None:
        body = [("298", "5"), ("117", request.live.get(dealer, "none"))]
        self.say(dealer, trader or self.firms.all[dealer][0], "Z", body)

    def cancel_all(self, dealer: str) -> None:
        # Without a number it is the gateway's own, of a dealer that is gone.
        number = self.draw.random() < 0.5
        self.say(dealer, self.firms.all[dealer][0], "Z", [("298", "4")], number)

    def decline(self, request: Request, dealer: str) -> None:
        body = [("131", request.shown[dealer]), ("658", "10")]
        self.say(dealer, self.firms.all[dealer][0], "AG", body)


def moment_of(text: str) -> int:
    hours, minutes, seconds = text.split(":")
    return int(hours) * 3_600_000 + int(minutes) * 60_000 + round(float(seconds) * 1000)


def ends(told: dict[str, str]) -> bool:
    """Whether a message to an investor is the end of its request."""
    status = told.get("297")
    answered = (status == "0" and "117" in told) or (status == "11" and "693" in told)
    return status == "7" or answered


def main() -> None:
    parser = argparse.ArgumentParser()
    parser.add_argument("log", type=Path)
    parser.add_argument("--requests", type=int, default=40)
    parser.add_argument("--seed", type=int, default=1)
    parser.add_argument("--noise", type=int, default=0)
    parser.add_argument("venue", nargs="+")
    parser.add_argument("--dealers", type=int, default=len(ALL_DEALERS))
    parser.add_argument("--investors", type=int, default=len(ALL_INVESTORS))
    parser.add_argument("--form", type=int, default=6, choices=(3, 4, 5, 6), help="of the log")
    parser.add_argument("--currencies", default="", help="of the bonds, with commas between them")
    parser.add_argument("--in-32nds", action="store_true", help="quotes all bonds in 32nds")
    parser.add_argument("--named", action="store_true", help="gives the bonds names")
    text = "a file for the last checkpoint, as a gateway keeps it outside of its log"
    parser.add_argument("--checkpoint", type=Path, help=text)
    text = "a file for all checkpoints, a line each, as a gateway sends them"
    parser.add_argument("--sent", type=Path, help=text)
    words = parser.parse_args()
    words.log.unlink(missing_ok=True)
    firms = Firms(
        first_of(ALL_DEALERS, words.dealers),
        first_of(ALL_INVESTORS, words.investors),
        tuple(words.currencies.split(",")) if words.currencies else (),
        words.in_32nds,
        words.named,
    )
    market = Market(words.log, words.seed, words.noise, firms, words.venue, words.form)
    market.play(words.requests)
    if words.checkpoint is not None:
        words.checkpoint.write_text(market.ledger.outside)
    if words.sent is not None:
        lines = [text.rstrip("\n").replace("\n", "\t") for text in market.ledger.all_outside]
        words.sent.write_text("".join(line + "\n" for line in lines))


if __name__ == "__main__":
    main()
