"""Draws the line of time of a request for a narrow screen: lanes side by side, all words beside
them.
"""

from html import escape

from .requests import Act
from .story import Story
from .timeline import EDGE, Drawing, Line, Row, broken, price_text, text_lines

WIDTH, LANE = 360, 15
LETTER = 7.0  # the width that a letter is given
NAME_HEIGHT = 74  # of the longest name, upright


class NarrowDrawing(Drawing):
    """Draws one story in a width that needs no sideways scrolling."""

    style = "timeline slim"
    head_height = float(NAME_HEIGHT + 14)

    def _lanes_of(self, names: list[str]) -> dict[str, float]:
        self._width = WIDTH
        self._text_x = EDGE + LANE * len(names) + 4.0
        return {name: EDGE + LANE * at + 4.0 for at, name in enumerate(names)}

    def _cells(self, act: Act) -> dict[str, list[Line]]:
        """All words of an act, as if they were the actor's."""
        letters = int((WIDTH - self._text_x) / LETTER)
        price = price_text(act.said.price, self._in_32nds)
        said = " ".join(filter(None, (act.actor or "the clock", act.said.text, price)))
        lines = [("said", piece) for piece in broken(said, letters)]
        for note in act.told:
            price = price_text(note.words.price, self._in_32nds)
            told = " ".join(filter(None, ("▸", note.firm, note.words.text, price)))
            style = "told refused" if note.words.refused else "told"
            lines += [(style, piece) for piece in broken(told, letters)]
        return {"": [("time", act.moment), *lines]}

    def _lane(self, name: str, x: float) -> str:
        """A lane with its name upright above it."""
        text = (
            '<g><line class="lane" x1="%g" y1="%d" x2="%g" y2="%g"/>'
            '<text class="firm" transform="translate(%g %d) rotate(-90)">%s</text></g>'
        )
        foot = NAME_HEIGHT - 2
        return text % (x, NAME_HEIGHT + 2, x, self._height - 8, x + 4, foot, escape(name))

    def _time(self, row: Row, at: int) -> str:
        """It stands among the words."""
        return ""

    def _zone(self) -> str:
        """What the times are in."""
        return '<text class="role" x="%g" y="%d">UTC</text>' % (self._text_x, NAME_HEIGHT - 2)

    def _clock_x(self) -> float:
        return self._text_x - 8

    def _words(self, row: Row) -> str:
        return text_lines(self._text_x, row.y + 10, row.cells[""])


def narrow_timeline(story: Story, roles: dict[str, str], in_32nds: bool) -> str:
    """The line of time of a request, in 360 points."""
    return NarrowDrawing(story, roles, in_32nds).svg()
