"""What the gateway adds on the wire to a message of the venue: a refusal's name or reason in Text
(58), and a trade's name in TradeID (1003). A log of an older gateway has neither.
"""

from typing import NamedTuple

from .frame import fields_of, text_of
from .log import Log

TEXT, TRADE = b"\x0158=", b"\x011003="
MOST_KEPT = 8192  # more than one entry brings a firm


class WireText(NamedTuple):
    """What was added to one message; empty where nothing was."""

    reason: str = ""  # 58
    trade: str = ""  # 1003


NOTHING = WireText()


class WireTexts:
    """Goes through a firm's session once, as far as it is asked for."""

    def __init__(self, log: Log, firm: str) -> None:
        self._told = log.told_beside(firm) if log.has_chain else iter(())
        self._next: tuple[int, bytes] | None = (0, b"")  # that was not looked at yet
        self._kept: dict[int, WireText] = {}  # of the last ones to which something was added

    def of(self, number: int) -> WireText:
        """What was added to the message that carries this number of the venue's: of the last ones
        that were asked for, or of a later one.
        """
        while self._next is not None and self._next[0] <= number:
            self._keep(self._next[0], added_to(self._next[1]))
            self._next = next(self._told, None)
        return self._kept.get(number, NOTHING)

    def _keep(self, number: int, text: WireText) -> None:
        if text != NOTHING:
            self._kept[number] = text
            if len(self._kept) > MOST_KEPT:
                del self._kept[next(iter(self._kept))]


def added_to(message: bytes) -> WireText:
    """The two texts that stand in a message, or in what tells of them."""
    if TEXT not in message and TRADE not in message:
        return NOTHING
    fields = fields_of(message)
    return WireText(text_of(fields, 58), text_of(fields, 1003))
