"""Tells one whole request: its acts in their order, and the life of each quote."""

import re
from dataclasses import dataclass, field
from itertools import pairwise

from .prices import Price
from .reading import GLYPHS, Shape
from .requests import Act, Note, Request

TIME = re.compile(r"([0-9]{2}):([0-9]{2}):([0-9]{2}(?:\.[0-9]{3})?)")
FATES = {
    "replaced": Shape.REPLACE,
    "withdrawn": Shape.WITHDRAW,
    "won": Shape.WON,
    "cover": Shape.COVER,
    "done away": Shape.AWAY,
    "passed": Shape.PASS,
    "expired": Shape.CLOCK,
    "standing": Shape.QUOTE,
}


@dataclass
class Quote:
    """A quote that was accepted, until it stood no longer."""

    dealer: str
    name: str  # its dealer's
    shown: str  # the investor's
    price: Price
    first: int  # the act that brought it
    moment: str
    last: int | None = None  # the act that ended it
    end_moment: str = ""
    fate: str = "standing"
    until: str = ""  # 62

    @property
    def has_lapsed(self) -> bool:
        """Whether its validity passed before it ended, so that it could not be hit to the end."""
        if not self.until:
            return False
        return not self.end_moment or seconds(self.until) <= seconds(self.end_moment)

    @property
    def hit_until(self) -> str:
        """The moment from which it could not be hit; empty while it can."""
        return self.until if self.has_lapsed else self.end_moment

    @property
    def shape(self) -> Shape:
        return FATES[self.fate]

    @property
    def glyph(self) -> str:
        return GLYPHS[self.shape]


@dataclass
class Story:
    """A request with its acts."""

    request: Request
    acts: list[Act]
    quotes: list[Quote] = field(default_factory=list)

    @property
    def lanes(self) -> list[str]:
        """The investor and the dealers that it asked, in its order."""
        return [self.request.investor, *self.request.dealers]

    @property
    def cover(self) -> Quote | None:
        """The quote that was told to be the cover."""
        return next((quote for quote in self.quotes if quote.fate == "cover"), None)

    @property
    def has_door(self) -> bool:
        """Whether the log says on which connection any of it came."""
        return any(act.came_on for act in self.acts)

    def quotes_of(self, dealer: str) -> list[Quote]:
        return [quote for quote in self.quotes if quote.dealer == dealer]

    def closing(self, dealer: str) -> Note | None:
        """How the dealer was told that the request ended."""
        for act in self.acts:
            note = act.note_to(dealer)
            if note is not None and note.kind == "AJ":
                return note
        return None

    def declined(self, dealer: str) -> bool:
        return any(
            act.actor == dealer and act.said.shape is Shape.DECLINE and not act.is_refused
            for act in self.acts
        )

    @property
    def gaps(self) -> list[float]:
        """Of each act but the first, the seconds since the one before."""
        moments = [seconds(act.moment) for act in self.acts]
        return [after - before for before, after in pairwise(moments)]


def seconds(moment: str) -> float:
    """The seconds of a time of day; 0 where the text is none."""
    found = TIME.fullmatch(moment)
    return int(found[1]) * 3600 + int(found[2]) * 60 + float(found[3]) if found else 0.0


def story_of(request: Request, acts: list[Act]) -> Story:
    """Follows the quotes through the acts, by what their dealers are told."""
    story = Story(request, list(acts))
    live: dict[str, Quote] = {}
    for index, act in enumerate(acts):
        answer = act.note_to(act.actor)
        accepted = answer is not None and answer.words.text == "accepted"
        if act.said.shape is Shape.QUOTE and accepted and act.actor is not None:
            before = live.pop(act.actor, None)
            if before is not None:
                end(before, "replaced", index, act)
                words = act.said._replace(shape=Shape.REPLACE, text="replaces")
                story.acts[index] = act._replace(said=words)
            live[act.actor] = quote = quote_of(request, act, index)
            story.quotes.append(quote)
        for note in act.told:
            if note.firm == request.investor or note.firm not in live:
                continue
            if note.words.text == "withdrawn" and note.words.quote == live[note.firm].name:
                end(live.pop(note.firm), "withdrawn", index, act)
            elif note.kind == "AJ":
                fate = note.words.text if note.words.text in FATES else "done away"
                end(live.pop(note.firm), fate, index, act)
    return story


def quote_of(request: Request, act: Act, index: int) -> Quote:
    shown = [note for note in act.told if note.firm == request.investor and note.kind == "S"]
    name = shown[0].words.quote if shown else ""
    price = act.said.price or Price("")
    quote = Quote(act.actor or "", act.said.quote, name, price, index, act.moment)
    quote.until = act.said.until
    return quote


def end(quote: Quote, fate: str, index: int, act: Act) -> None:
    quote.fate, quote.last, quote.end_moment = fate, index, act.moment
