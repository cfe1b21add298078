"""Finds the request that each message is about, by the names that the messages bear.

A request has its own name in the messages of its investor (131), and one for each dealer (`R1`,
`R2`, ..). A quote has its dealer's name (117), and the one under which the investor is shown it
(`Q1`, `Q2`, ..). The audit learns each name from the message that brings it, and counts none.
"""

from .exchanges import Exchange, Told
from .frame import text_of
from .lines import Came


def is_hit(came: Came) -> bool:
    """Whether a QuoteResponse (35=AJ) hits a quote: 694=1."""
    return text_of(came.fields, 35) == "AJ" and text_of(came.fields, 694).lstrip("0") == "1"


def opens_request(exchange: Exchange) -> bool:
    """Whether a message opens a request: one that is answered by its acceptance."""
    came = exchange.came
    if came is None or text_of(came.fields, 35) != "R":
        return False
    answer = next(iter(exchange.answers()), None)
    return answer is not None and answer.kind == "AI" and answer.text(297) == "0"


class Names:
    """The names that messages have brought, each with its request by its key: 0, 1, 2 .."""

    def __init__(self) -> None:
        self._of_dealers: dict[tuple[str, str], int] = {}  # dealer and R
        self._of_investors: dict[tuple[str, str], int] = {}  # investor and 131
        self._quotes: dict[tuple[str, str], int] = {}  # dealer and its 117
        self._shown: dict[tuple[str, str], int] = {}  # investor and Q

    def open(self, exchange: Exchange, key: int) -> None:
        """The name of a request that a message opens, as its acceptance has it."""
        answer = exchange.answers()[0]
        self._of_investors[answer.firm.name, answer.text(131)] = key

    def learn(self, told: Told, opened: int | None) -> None:
        """The names that a message of the venue brings; a request is shown when it is opened."""
        firm = told.firm
        if told.kind == "R" and opened is not None:
            self._of_dealers[firm.name, told.text(131)] = opened
        elif told.kind == "S":
            key = self._of_investors.get((firm.name, told.text(131)))
            if key is not None:
                self._shown[firm.name, told.text(117)] = key
        elif firm.is_dealer and told.kind == "AI" and told.text(297) == "0":
            key = self._of_dealers.get((firm.name, told.text(131)))
            if key is not None and told.text(117):
                self._quotes[firm.name, told.text(117)] = key

    def about(self, told: Told) -> int | None:
        """The request that a message of the venue is about."""
        firm, request, quote = told.firm, told.text(131), told.text(117)
        if told.kind in ("3", "AG"):
            return None
        if firm.is_dealer:
            if request:
                return self._of_dealers.get((firm.name, request))
            return self._quotes.get((firm.name, quote))
        if request:
            return self._of_investors.get((firm.name, request))
        return self._shown.get((firm.name, quote))

    def own(self, came: Came | None) -> int | None:
        """The request that a firm's own message names."""
        if came is None:
            return None
        kind, firm = text_of(came.fields, 35), came.firm
        request, quote = text_of(came.fields, 131), text_of(came.fields, 117)
        if kind in ("S", "AG"):
            return self._of_dealers.get((firm, request))
        if kind == "Z" and text_of(came.fields, 298).lstrip("0") != "4":
            return self._quotes.get((firm, quote))
        if kind == "AJ" and is_hit(came):
            return self._shown.get((firm, quote))
        if kind == "AJ":
            return self._of_investors.get((firm, request))
        return None
