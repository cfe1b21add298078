"""The room of one request: who is asked, the book of their quotes, and how it ends."""

from __future__ import annotations

from collections.abc import Callable
from dataclasses import dataclass
from typing import TYPE_CHECKING

from .dealer import COVER, DONE_AWAY, EXPIRED, HIT, PASS

if TYPE_CHECKING:
    from .desk import Ask


@dataclass
class Posted:
    dealer: int
    word: tuple[int, int]
    ticks: int
    until: int | None


class Room:
    def __init__(self) -> None:
        self.phase = "vacant"
        self.ask: Ask | None = None
        self.dealers: list[int] = []
        self.book: list[
            Posted
        ] = []  # the quotes that stand, in the order in which they were posted
        self.notices: list[tuple[int, int]] = []  # of a room that ended: each dealer and its 694

    def open(self, ask: Ask, dealers: list[int]) -> None:
        self.phase, self.ask, self.dealers = "opening", ask, dealers

    def asked(self) -> Ask:
        """What is asked for in a room that was opened."""
        assert self.ask is not None
        return self.ask

    def ready(self) -> None:
        self.phase = "open"

    def takes(self) -> bool:
        return self.phase in ("opening", "open")

    def post(self, dealer: int, word: tuple[int, int], ticks: int, until: int | None) -> bool:
        """Whether it took effect; a dealer's quote replaces the one before."""
        if not self.takes():
            return False
        self.book = [quote for quote in self.book if quote.dealer != dealer]
        self.book.append(Posted(dealer, word, ticks, until))
        return True

    def unpost(self, word: tuple[int, int]) -> bool:
        """Whether it took effect: where the quote stands in a room that has not ended."""
        if not self.takes() or self.standing(word) is None:
            return False
        self.book = [quote for quote in self.book if quote.word != word]
        return True

    def standing(self, word: tuple[int, int]) -> Posted | None:
        return next((quote for quote in self.book if quote.word == word), None)

    def hit(
        self, word: tuple[int, int], moment: int, lift: Callable[[tuple[int, int]], str]
    ) -> str:
        """Awarded, or the name of the first refusal; the word is asked by `lift` where none was before it."""
        if self.phase != "open":
            return "NotOpen"
        if moment >= self.asked().deadline:
            return "Deadline"
        quote = self.standing(word)
        if quote is None:
            return "Gone"
        if quote.until is not None and quote.until <= moment:
            return "Expired"
        if lift(word) == "withdrawn":
            return "Withdrawn"
        self.award(quote)
        return "Awarded"

    def award(self, winner: Posted) -> None:
        others = [quote for quote in self.book if quote is not winner]
        sign = 1 if self.asked().side == 1 else -1
        cover = min(
            others, key=lambda quote: sign * quote.ticks, default=None
        )  # of equals the first posted
        kinds = {dealer: DONE_AWAY for dealer in self.dealers}
        if cover:
            kinds[cover.dealer] = COVER
        kinds[winner.dealer] = HIT
        self.end(kinds)

    def leave(self) -> str:
        """The investor passes: Passed, or the refusal."""
        if self.phase != "open":
            return "NotOpen"
        self.end({dealer: PASS for dealer in self.dealers})
        return "Passed"

    def expire(self, moment: int) -> bool:
        if self.phase != "open" or moment < self.asked().deadline:
            return False
        self.end({dealer: EXPIRED for dealer in self.dealers})
        return True

    def end(self, kinds: dict[int, int]) -> None:
        self.phase = "ended"
        self.notices = [(dealer, kinds[dealer]) for dealer in self.dealers]
