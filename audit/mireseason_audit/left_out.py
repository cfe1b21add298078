"""Makes a second day without the messages of the other dealers.

The names under which an investor is shown quotes are counted, so on the second day a hit of the
first may name another quote, or none. The audit asks the venue's program line by line. It gives a
hit of the dealer's own quote the name that the quote has on the second day, and leaves out a hit of
a quote that is no longer there.
"""

from collections.abc import Callable
from dataclasses import dataclass, field
from pathlib import Path

from .exchanges import Exchange, exchanges
from .frame import Fields, fields_of, number_in, text_of
from .lines import Came
from .log import Log
from .names import is_hit
from .records import Day
from .second_day import QUOTE, SEQ_NUM, body_of, is_whole, line_of
from .venue import Conversation, Venue


@dataclass
class LeftOutDay:
    """What was left out, and how hits were named anew."""

    dealer: str
    left_out: dict[str, int] = field(default_factory=dict)  # messages, by firm
    renamed: int = 0
    _before: dict[tuple[str, str], tuple[str, int]] = field(default_factory=dict)
    _after: dict[tuple[str, int], str] = field(default_factory=dict)

    def write(
        self, log: Log, day: Day, venue: Venue, path: Path, step: Callable[[int], None]
    ) -> None:
        """Writes the second day."""
        dealers = {firm.name for firm in day.dealers} - {self.dealer}
        with Conversation(venue) as conversation, path.open("wb", buffering=1 << 20) as file:
            conversation.begin(day.head)
            file.write(day.head)
            for exchange in exchanges(log, day):
                self._learn_before(exchange)
                line = self._line(exchange, dealers)
                if line is not None:
                    file.write(line + b"\n")
                    self._learn_after(exchange.place, conversation.say(line))
                step(1)

    def _line(self, exchange: Exchange, dealers: set[str]) -> bytes | None:
        """The line of an entry on the second day; None where it is left out."""
        line, came = exchange.entry.line, exchange.came
        if exchange.firm in dealers:
            self._leave(exchange.firm or "")
            return None
        if came is None or not is_whole(came) or came.firm == self.dealer:
            return line
        fields = body_of(came.fields)
        if is_hit(came):
            named = self._named(came)
            if named is None:
                self._leave(came.firm)
                return None
            fields = changed(fields, QUOTE, named)
        less = self.left_out.get(came.firm, 0)
        number = number_in(text_of(fields, SEQ_NUM))
        if less and number is not None:
            fields = changed(fields, SEQ_NUM, str(number - less))
        return line if fields == body_of(came.fields) else line_of(came, fields)

    def _leave(self, firm: str) -> None:
        self.left_out[firm] = self.left_out.get(firm, 0) + 1

    def _named(self, came: Came) -> str | None:
        """The name of the quote that a hit means on the second day; None where it is not there."""
        name = text_of(came.fields, QUOTE)
        if (came.firm, name) not in self._before:
            return name
        dealer, place = self._before[came.firm, name]
        there = self._after.get((came.firm, place))
        if dealer != self.dealer or there is None:
            return None
        self.renamed += there != name
        return there

    def _learn_before(self, exchange: Exchange) -> None:
        """The names of quotes on the first day."""
        for told in exchange.told:
            if told.kind == "S":
                name = told.firm.name, told.text(QUOTE)
                self._before[name] = (told.text(448), exchange.place)

    def _learn_after(self, place: int, messages: list[tuple[str, bytes]]) -> None:
        """The names of quotes on the second day."""
        for firm, frame in messages:
            fields = fields_of(frame)
            if text_of(fields, 35) == "S":
                self._after[firm, place] = text_of(fields, QUOTE)


def changed(fields: Fields, tag: int, value: str) -> Fields:
    """The fields with another value of one tag."""
    return Fields((there, value.encode() if there == tag else data) for there, data in fields)
