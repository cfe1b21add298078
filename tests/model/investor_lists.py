"""Draws due text of an investor that no venue brings about."""

from __future__ import annotations

from typing import TYPE_CHECKING

from .frames import time_text
from .investor_lines import REPLIES

if TYPE_CHECKING:
    from .days import Draw

OPENING = 9 * 3_600_000
BOND = "BONDA0000001"
PARTIES = "453=%d%s"
BANDS = (" 99 100", " 99 99", " 0.00390625 999.99609375", " 0100. 99", " 99.50390625 99.5", " 99")


class MadeUpInvestor:
    """Due text of one investor: its own messages, and items that fit them or do not."""

    def __init__(self, draw: Draw) -> None:
        self.draw, self.moment, self.number = draw, OPENING, 1
        self.requests = self.quotes = 0
        self.names = ["DLR%d" % n for n in range(1, draw.of(1, 3, 3, 12))]
        limits = draw.of(1, 3, 1024), draw.of(1, 3, 1024), draw.of(1_000_000, 5_000_000, 10**12)
        traders = draw.of("T8", "T8 T9", "VENUE T8")
        self.lines = ["date 20250314", "investor INV1 %d %d %d %s" % (*limits, traders)]
        self.lines += [
            "bond %s %s%s" % (BOND, draw.of("32", "256", "0064"), draw.of("", "", *BANDS)),
            "bond BONDB0000002 128",
        ][: draw.of(0, 1, 2, 2)]
        self.lines += ["dealer " + name for name in self.names]
        if draw.chance(0.2):
            self.lines.insert(draw.randint(0, len(self.lines)), draw.of("", "# x", "#"))
        for _ in range(draw.randint(0, 30)):
            self.go_on()

    def text(self) -> bytes:
        return b"\n".join(line.encode() for line in self.lines)

    def go_on(self) -> None:
        draw = self.draw
        self.moment = max(0, min(86_399_999, self.moment + draw.of(0, 1, 1_000, 60_000, -1_000)))
        acts = [self.request] * 3 + [self.quoted] * 6 + [self.hit] * 3 + [self.answered] * 3
        draw.choice(
            acts + [self.gone, self.gone, self.declined, self.leave, self.expired, self.odd]
        )()

    def time(self, later: int = 0) -> str:
        return time_text(min(86_399_999, self.moment + later)).decode()

    def one_of(self, count: int) -> int:
        """A number up to this one, for the most part."""
        return (
            self.draw.randint(1, max(1, count))
            if self.draw.chance(0.9)
            else int(self.draw.of(0, count + 1, 999_999_999))
        )

    def say(self, kind: str, body: str) -> None:
        number = "|34=%d" % self.number if self.draw.chance(0.05) else ""
        self.number += 1
        self.lines.append(
            "say %s %s %s %s%s"
            % (self.draw.of("T8", "T8", "T8", "T7"), self.time(), kind, body, number)
        )

    def request(self) -> None:
        draw = self.draw
        chosen = draw.sample(self.names, draw.randint(0, min(9, len(self.names)))) + draw.of(
            [], [], ["INV1"], ["DLR1"]
        )
        parties = "".join("|448=%s|447=D|452=35" % name for name in chosen)
        self.requests += 1
        body = "131=a%d|146=1|48=%s|22=4|54=%d|38=%d|126=20250314-%s|" + PARTIES
        self.say(
            "R",
            body
            % (
                self.one_of(self.requests),
                draw.of(BOND, BOND, "BONDB0000002", "X"),
                draw.of(1, 2),
                draw.of(1_000_000, 5_000_001),
                self.time(draw.of(0, 60_000, 600_000)),
                len(chosen),
                parties,
            ),
        )

    def quoted(self) -> None:
        draw = self.draw
        self.quotes += 1
        price = draw.of(
            "99.5", "099.50390625", ".5", "5.", "999.99609375", "99.50390625", "100", "0.00390625"
        )
        until = "" if draw.chance(0.8) else " " + self.time(draw.of(0, 60_000))
        dealer = draw.of(*(self.names or ["DLR1"]), "DLR9")
        self.lines.append(
            "quoted %d %s %s %s%s" % (self.one_of(self.requests), dealer, price, self.time(), until)
        )

    def gone(self) -> None:
        self.lines.append(
            "gone %d %d %s" % (self.one_of(self.requests), self.one_of(self.quotes), self.time())
        )

    def declined(self) -> None:
        self.lines.append(
            "declined %d %s %s"
            % (self.one_of(self.requests), self.draw.of("DLR1", "DLR2"), self.time())
        )

    def hit(self) -> None:
        self.say("AJ", "693=h%d|694=1|117=Q%d" % (self.number, self.one_of(self.quotes)))

    def leave(self) -> None:
        self.say("AJ", "693=p%d|694=6|131=a%d" % (self.number, self.one_of(self.requests)))

    def answered(self) -> None:
        reply = self.draw.choice(REPLIES).decode()
        quote = self.draw.of("", " %d" % self.one_of(self.quotes), " %d" % self.one_of(self.quotes))
        self.lines.append(
            "answered %d h%d %s %s%s"
            % (self.one_of(self.requests), self.number, reply, self.time(), quote)
        )

    def expired(self) -> None:
        self.lines.append("expired %d %s" % (self.one_of(self.requests), self.time()))

    def odd(self) -> None:
        lines = [
            "own %s  x",
            "hex %s 7c",
            "quoted 1 DLR1 99.5 %s 09",
            "quoted 1 DLR1 99.501 %s",
            "quoted 1 VENUE 99.5 %s",
            "gone 1 %s",
            "gone 1 0 %s",
            "answered 1 h|x Passed %s",
            "answered 1 h passed %s",
            "answered 1 h Passed %s x",
            "answered 1 h Passed %s ",
            "expired x %s",
            "declined 1 dlr1 %s",
            "lifted 1",
            "bond BONDC0000003 32",
            "bond BONDC0000003 32 99",
            "bond BONDC0000003 32 99 x",
            "dealer DLR7",
            "closed 1 1 %s",
            "expired 1 %s 1",
        ]
        line = self.draw.choice(lines)
        if self.draw.chance(0.1):
            self.lines.append(line % self.time() if "%" in line else line)
