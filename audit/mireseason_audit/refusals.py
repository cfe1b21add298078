"""Says why a firm's message was refused, by its answer."""

from typing import NamedTuple

from .exchanges import Exchange, Told
from .frame import text_of
from .lines import Came
from .names import is_hit
from .wire_texts import WireTexts

KINDS = {"R": "request", "S": "quote", "Z": "cancel", "AG": "decline"}


class Refusal(NamedTuple):
    """A refusal by its code, and by its text where the answer has one."""

    what: str  # request, quote, cancel, decline, hit, pass, message
    code: str  # as `300=8`: the tag that says why, and its value; `none` without an answer
    name: str = ""  # Text (58): the words of a reason, or the name of a hit's or a pass's


def kind_of(came: Came | None) -> str:
    """What a firm's message is, in a word."""
    if came is None:
        return "message"
    kind = text_of(came.fields, 35)
    if kind == "AJ":
        return "hit" if is_hit(came) else "pass"
    return KINDS.get(kind, "message")


def is_refusing(told: Told) -> bool:
    """Whether a message of the venue refuses what it answers."""
    if told.kind == "AI":
        return told.text(297) in ("5", "9")
    return told.kind in ("3", "AG")


def refusal_of(exchange: Exchange, wires: dict[str, WireTexts]) -> Refusal | None:
    """Why the message of an entry was refused, rejected, or dropped; None where it was not."""
    if exchange.firm is None:
        return None
    answers = exchange.answers()
    told = next((one for one in answers if is_refusing(one)), None)
    what = kind_of(exchange.came)
    if told is None:
        return None if answers else Refusal(what, "none")
    wire = wires.get(told.firm.name)
    name = told.text(58) or (wire.of(told.number).reason if wire else "")
    return Refusal(what, code_of(told), name)


def code_of(told: Told) -> str:
    """The tag that says why, and its value."""
    if told.kind == "3":
        return "373=%s 371=%s" % (told.text(373), told.text(371))
    if told.kind == "AG":
        return "658=" + told.text(658)
    if told.text(297) == "9":
        return "297=9"
    return "300=" + told.text(300)
