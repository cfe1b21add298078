"""Says in words what messages mean: those of a firm, and those that the venue sends."""

from enum import Enum
from typing import NamedTuple

from .dictionary import Dictionary
from .frame import Fields, number_in, text_of
from .prices import Price


class Shape(Enum):
    """How an act is drawn, so that it needs no colour."""

    ASK = "ask"
    QUOTE = "quote"
    REPLACE = "replace"
    WITHDRAW = "withdraw"
    DECLINE = "decline"
    HIT = "hit"
    PASS = "pass"
    REFUSED = "refused"
    CLOCK = "clock"
    TOLD = "told"
    WON = "won"
    COVER = "cover"
    AWAY = "away"


GLYPHS = {
    Shape.ASK: "◉",
    Shape.QUOTE: "●",
    Shape.REPLACE: "◐",
    Shape.WITHDRAW: "✕",
    Shape.DECLINE: "⊘",
    Shape.HIT: "◆",
    Shape.PASS: "□",
    Shape.REFUSED: "△",
    Shape.CLOCK: "◷",
    Shape.TOLD: "▸",
    Shape.WON: "◆",
    Shape.COVER: "◇",
    Shape.AWAY: "■",
}


# What the names mean by which a hit or a pass is refused, in 58.
HIT_REFUSALS = {
    "NotOpen": "request not open",
    "Deadline": "request past its deadline",
    "Gone": "quote replaced or gone",
    "Expired": "quote past its validity",
    "Withdrawn": "quote withdrawn first",
}


class Words(NamedTuple):
    """What was said or told, by whom or to whom it stands beside."""

    shape: Shape
    text: str
    price: Price | None = None
    detail: str = ""
    quote: str = ""  # the quote's name, as this firm knows it
    refused: bool = False
    until: str = ""  # of a quote, its 62

    @property
    def glyph(self) -> str:
        return GLYPHS[self.shape]


def price_text_of(fields: Fields) -> str:
    """OfferPx (133) or BidPx (132); empty where neither stands."""
    return text_of(fields, 133) or text_of(fields, 132)


def price_of(fields: Fields) -> Price | None:
    """OfferPx (133) or BidPx (132), where one stands."""
    text = price_text_of(fields)
    return Price(text) if text else None


def moment_of(text: str) -> str:
    """The time of day of a moment with its date."""
    return text.partition("-")[2] or text


class Reader:
    """Says messages in words, those of codes by the dictionary."""

    def __init__(self, dictionary: Dictionary) -> None:
        self._dictionary = dictionary

    # ------------------------------------------------------------ what a firm says

    def said(self, fields: Fields) -> Words:
        """A message of a firm, whatever it is answered."""
        kind = text_of(fields, 35)
        if kind == "R":
            return Words(Shape.ASK, "asks", detail=text_of(fields, 131))
        if kind == "S":
            return self._said_quote(fields)
        if kind == "Z":
            return self._said_cancel(fields)
        if kind == "AG":
            return Words(Shape.DECLINE, "declines", detail=text_of(fields, 131))
        if kind == "AJ" and text_of(fields, 694).lstrip("0") == "1":
            quote = text_of(fields, 117)
            return Words(Shape.HIT, "hits %s" % quote, detail=text_of(fields, 693), quote=quote)
        if kind == "AJ":
            return Words(Shape.PASS, "passes", detail=text_of(fields, 693))
        return Words(Shape.TOLD, self._dictionary.type_name(kind))

    def _said_quote(self, fields: Fields) -> Words:
        until = moment_of(text_of(fields, 62))
        detail = text_of(fields, 117) + (" until %s" % until if until else "")
        quote = text_of(fields, 117)
        return Words(Shape.QUOTE, "quotes", price_of(fields), detail, quote, until=until)

    def _said_cancel(self, fields: Fields) -> Words:
        if text_of(fields, 298).lstrip("0") == "4":
            return Words(Shape.WITHDRAW, "withdraws all its quotes")
        quote = text_of(fields, 117)
        return Words(Shape.WITHDRAW, "withdraws", detail=quote, quote=quote)

    def unread(self, firm: str | None) -> Words:
        """What is no message of its own: a piece of a firm's stream, or without a firm a sweep."""
        return Words(Shape.TOLD, "sends a piece") if firm else Words(Shape.CLOCK, "deadline")

    # ------------------------------------------------------------ what a firm is told

    def told(self, fields: Fields, is_dealer: bool) -> Words:
        """A message of the venue."""
        kind = text_of(fields, 35)
        if kind == "3":
            return self._told_reject(fields)
        if kind == "R":
            until = "until %s" % moment_of(text_of(fields, 126))
            return Words(Shape.TOLD, "is shown %s" % text_of(fields, 131), detail=until)
        if kind == "AJ":
            return self._told_notice(fields)
        if kind == "AG":
            reason = self.meaning(fields, 658)
            return Words(Shape.REFUSED, "refused: %s" % reason, refused=True)
        if kind == "S":
            return self._told_quote(fields)
        if is_dealer:
            return self._told_dealer(fields)
        return self._told_investor(fields)

    def meaning(self, fields: Fields, tag: int) -> str:
        value = text_of(fields, tag)
        return self._dictionary.meaning(tag, value) or value

    def _told_reject(self, fields: Fields) -> Words:
        tag = text_of(fields, 371)
        name = self._dictionary.names.get(number_in(tag) or 0, tag)
        text = "rejected: %s" % self.meaning(fields, 373)
        return Words(Shape.REFUSED, text, detail="%s (%s)" % (name, tag), refused=True)

    def _told_notice(self, fields: Fields) -> Words:
        how = text_of(fields, 694)
        detail = text_of(fields, 693)
        if how == "1":
            quote = text_of(fields, 117)
            return Words(Shape.WON, "won", price_of(fields), detail, quote)
        shapes = {"4": Shape.COVER, "3": Shape.CLOCK, "6": Shape.PASS}
        text = {"3": "expired", "6": "passed"}.get(how, self.meaning(fields, 694))
        return Words(shapes.get(how, Shape.AWAY), text, detail=detail)

    def _told_quote(self, fields: Fields) -> Words:
        quote = text_of(fields, 117)
        until = moment_of(text_of(fields, 62))
        detail = text_of(fields, 448) + (" until %s" % until if until else "")
        return Words(Shape.TOLD, "is shown %s" % quote, price_of(fields), detail, quote)

    def _told_dealer(self, fields: Fields) -> Words:
        status, quote = text_of(fields, 297), text_of(fields, 117)
        on_quote = bool(text_of(fields, 131)) and bool(quote)
        if status == "0":
            return Words(Shape.TOLD, "accepted", detail=quote, quote=quote)
        if status == "17":
            return Words(Shape.WITHDRAW, "withdrawn", detail=quote, quote=quote)
        if status == "11":
            return Words(Shape.TOLD, "accepted", detail=text_of(fields, 131))
        if status == "9":
            return Words(Shape.REFUSED, "no such quote", detail=quote, refused=True)
        reason = "refused: %s" % self.meaning(fields, 300)
        what = quote if on_quote else quote or text_of(fields, 131)
        return Words(Shape.REFUSED, reason, detail=what, quote=quote, refused=True)

    def _told_investor(self, fields: Fields) -> Words:
        status, quote = text_of(fields, 297), text_of(fields, 117)
        response = text_of(fields, 693)
        if status == "9":
            return Words(Shape.REFUSED, "not found", detail=quote, refused=True)
        if status == "5":
            name = text_of(fields, 58)
            reason = "refused: %s" % HIT_REFUSALS.get(name, name)
            return Words(Shape.REFUSED, reason, detail=quote, quote=quote, refused=True)
        if response and status == "0":
            return Words(Shape.WON, "awarded", detail=quote, quote=quote)
        if response:
            return Words(Shape.TOLD, "passed")
        if status == "17":
            return Words(Shape.WITHDRAW, "%s is gone" % quote, quote=quote)
        if status == "11":
            return Words(Shape.DECLINE, "%s declined" % text_of(fields, 448))
        if status == "7":
            return Words(Shape.CLOCK, "expired")
        return Words(Shape.TOLD, "accepted", detail=text_of(fields, 131))
