"""Draws the line of time of a request, as SVG: a lane for each firm, time going down, an act in
each row.

A row has a mark on the lane of the firm that acts, whose shape says what it does, and an arrow to
each firm that was told; the words stand under them. A quote is a bar on its dealer's lane for as
long as it stood. Nothing is said by colour alone.
"""

import math
from dataclasses import dataclass
from html import escape

from .prices import Price
from .reading import Shape, Words
from .requests import Act
from .story import Quote, Story, seconds

TIME_WIDTH, EDGE = 122, 12
NARROWEST, WIDEST, ALL_LANES = 172, 250, 1050  # widths: of a lane, and of all where they have room
HEAD_HEIGHT, LINE_HEIGHT, ROW_PAD = 58, 16, 20
MOST_GAP = 30
LETTER = 8.2  # the width that a letter is given


Line = tuple[str, str]  # its class, and its text


@dataclass(frozen=True)
class Row:
    """An act, where it stands, and the lines of text at each lane."""

    act: Act
    y: float
    height: float
    cells: dict[str, list[Line]]  # by firm


class Drawing:
    """Draws one story, with the words of each firm on its lane."""

    def __init__(self, story: Story, roles: dict[str, str], in_32nds: bool) -> None:
        self._story, self._roles, self._in_32nds = story, roles, in_32nds
        self._gaps = [0.0, *story.gaps]
        self._lanes = self._lanes_of(story.lanes)
        self._rows = self._laid()
        last = self._rows[-1] if self._rows else None
        self._height = (last.y + last.height if last else self.head_height) + 8

    # ------------------------------------------------------------ where things stand

    style = "timeline"
    head_height = float(HEAD_HEIGHT)

    def _lanes_of(self, names: list[str]) -> dict[str, float]:
        """Where the lane of each firm is."""
        self._lane_width = min(WIDEST, max(NARROWEST, ALL_LANES // len(names)))
        self._width = EDGE + TIME_WIDTH + self._lane_width * len(names) + EDGE
        return {
            name: EDGE + TIME_WIDTH + self._lane_width * at + 10.0 for at, name in enumerate(names)
        }

    def _cells(self, act: Act) -> dict[str, list[Line]]:
        """The lines of text at each lane."""
        return cells_of(act, int(self._lane_width / LETTER), self._in_32nds)

    def _laid(self) -> list[Row]:
        """The rows, one under the other, with more room where more time went by."""
        rows: list[Row] = []
        y = self.head_height
        for act, gap in zip(self._story.acts, self._gaps):
            y += min(MOST_GAP, 5 * math.log2(1 + max(0.0, gap)))
            cells = self._cells(act)
            most = max((len(lines) for lines in cells.values()), default=1)
            height = ROW_PAD + LINE_HEIGHT * most
            rows.append(Row(act, round(y, 1), height, cells))
            y += height
        return rows

    def _y_at(self, moment: str, first: int) -> float:
        """Where a moment is, which is not before that of a row: between two rows as it is between
        their moments.
        """
        rows, at = self._rows, seconds(moment)
        for above, below in zip(rows[first:], rows[first + 1 :]):
            begin, end = seconds(above.act.moment), seconds(below.act.moment)
            if begin <= at < end:
                return above.y + 6 + (below.y - above.y) * (at - begin) / (end - begin)
        return rows[-1].y + 6 + min(rows[-1].height / 2, 12)

    def svg(self) -> str:
        request = self._story.request
        parts = [
            '<svg class="%s" role="img" xmlns="http://www.w3.org/2000/svg" width="%d" height="%d"'
            ' viewBox="0 0 %d %d">'
            % (self.style, self._width, self._height, self._width, self._height),
            "<title>%s</title>" % escape("Request %s" % request.name),
            "<desc>Time goes down. One lane for each of %s. All that is drawn here stands in the"
            " table below it.</desc>" % escape(", ".join(self._lanes)),
            self._zone(),
        ]
        parts += [self._lane(name, x) for name, x in self._lanes.items()]
        parts += [self._bar(quote) for quote in self._story.quotes]
        for at, row in enumerate(self._rows):
            parts.append(self._row(row, at))
        return "\n".join(part for part in parts if part) + "\n</svg>"

    # ------------------------------------------------------------ what is drawn

    def _lane(self, name: str, x: float) -> str:
        role = self._roles.get(name, "")
        end = self._height - 8
        return (
            '<g><line class="lane" x1="%g" y1="%d" x2="%g" y2="%g"/>'
            '<text class="firm" x="%g" y="22">%s</text>'
            '<text class="role" x="%g" y="38">%s</text></g>'
            % (x, HEAD_HEIGHT - 10, x, end, x - 6, escape(name), x - 6, escape(role))
        )

    def _bar(self, quote: Quote) -> str:
        """A quote, from the act that brought it to the one that ended it."""
        x = self._lanes.get(quote.dealer)
        if x is None:
            return ""
        top, kind = self._rows[quote.first].y + 6, quote.fate.replace(" ", "-")
        price = price_text(quote.price, self._in_32nds)
        words = "%s %s, %s" % (quote.dealer, price, quote.fate)
        if quote.has_lapsed:
            foot = self._y_at(quote.until, quote.first)
            words += ", could be hit until %s (62)" % quote.until
        else:
            foot = self._height - 10 if quote.last is None else self._rows[quote.last].y + 6
        text = '<rect class="bar %s" x="%g" y="%.1f" width="6" height="%.1f">'
        text += "<title>%s</title></rect>"
        found = text % (kind, x - 3, top, max(2.0, foot - top), escape(words))
        return found + (lapse(x, max(foot, top + 2), words) if quote.has_lapsed else "")

    def _row(self, row: Row, at: int) -> str:
        act, y = row.act, row.y + 6
        parts = ['<g class="row">', self._time(row, at)]
        start = self._lanes.get(act.actor or "", self._clock_x())
        targets = [self._lanes[note.firm] for note in act.told if note.firm in self._lanes]
        others = sorted({x for x in targets if x != start})
        if others:
            ends = min(start, others[0]), max(start, others[-1])
            wire = '<line class="wire" x1="%g" y1="%g" x2="%g" y2="%g"/>'
            parts.append(wire % (ends[0], y, ends[1], y))
            parts += [arrow(x, y, start) for x in others]
        shape = Shape.REFUSED if act.is_refused else act.said.shape
        parts.append(mark(shape, start, y))
        for note in act.told:
            if note.words.shape in (Shape.WON, Shape.COVER) and note.firm in self._lanes:
                if self._lanes[note.firm] != start:
                    parts.append(mark(note.words.shape, self._lanes[note.firm], y))
        return "".join(parts) + self._words(row) + "</g>"

    def _zone(self) -> str:
        """What the times are in."""
        return '<text class="role" x="%d" y="22">UTC</text>' % EDGE

    def _clock_x(self) -> float:
        """Where the marks of the clock are."""
        return EDGE + TIME_WIDTH - 12.0

    def _words(self, row: Row) -> str:
        """The text of a row, at each lane."""
        return "".join(
            text_lines(self._lanes[firm] + 12, row.y + 22, lines)
            for firm, lines in row.cells.items()
            if firm in self._lanes
        )

    def _time(self, row: Row, at: int) -> str:
        moment = escape(row.act.moment)
        text = '<text class="time" x="%d" y="%g">%s</text>' % (EDGE, row.y + 10, moment)
        gap = self._gaps[at]
        if gap > 0:
            text += '<text class="gap" x="%d" y="%g">%s</text>' % (EDGE, row.y + 25, gap_text(gap))
        return text


def gap_text(gap: float) -> str:
    return "+%d min %02d s" % divmod(round(gap), 60) if gap >= 60 else "+%.3f s" % gap


def price_text(price: Price | None, in_32nds: bool) -> str:
    """A price, of a bond that is quoted so in 32nds where it has any."""
    if price is None:
        return ""
    return (price.thirty_seconds if in_32nds else "") or price.text


def cells_of(act: Act, letters: int, in_32nds: bool) -> dict[str, list[Line]]:
    """The lines at each lane: what was said there, and what was told."""
    cells: dict[str, list[Line]] = {}
    if act.actor is not None:
        cells[act.actor] = words_lines(act.said, "said", letters, in_32nds)
    for note in act.told:
        lines = cells.setdefault(note.firm, [])
        answer = note.firm == act.actor
        if answer and not note.words.refused and note.words.text in ("accepted", "withdrawn"):
            lines.append(("told", note.words.text))
        elif answer:
            told = words_lines(note.words, "told", letters, in_32nds)
            lines += [(style, text) for style, text in told if style != "decimal"]
        else:
            lines += words_lines(note.words, "told", letters, in_32nds)
    return cells


def words_lines(words: Words, style: str, letters: int, in_32nds: bool) -> list[Line]:
    """Words as lines: what, with the price; of one in 32nds the decimal; whose or which."""
    strong = words.shape in (Shape.WON, Shape.COVER, Shape.AWAY)
    first = words.text + (" " + price_text(words.price, in_32nds) if words.price else "")
    lines = [(style + (" strong" if strong else "") + (" refused" if words.refused else ""), first)]
    if in_32nds and words.price and words.price.thirty_seconds:
        lines.append(("decimal", " · ".join(filter(None, (str(words.price), words.detail)))))
    elif words.detail:
        lines.append(("decimal", words.detail))
    return [(name, piece) for name, line in lines for piece in broken(line, letters)]


def broken(line: str, letters: int) -> list[str]:
    """A line in pieces that a lane has room for, broken at spaces."""
    pieces = [""]
    for word in line.split(" "):
        if pieces[-1] and len(pieces[-1]) + len(word) >= letters:
            pieces.append(word)
        else:
            pieces[-1] = "%s %s" % (pieces[-1], word) if pieces[-1] else word
    return pieces


def text_lines(x: float, y: float, lines: list[Line]) -> str:
    return "".join(
        '<text class="%s" x="%g" y="%g">%s</text>' % (style, x, y + LINE_HEIGHT * at, escape(text))
        for at, (style, text) in enumerate(lines)
    )


def arrow(x: float, y: float, start: float) -> str:
    """The head of an arrow at a lane."""
    back = -7 if x > start else 7
    points = "%g,%g %g,%g %g,%g" % (x, y, x + back, y - 4, x + back, y + 4)
    return '<polygon class="head" points="%s"/>' % points


def lapse(x: float, y: float, words: str) -> str:
    """The mark at the end of a quote's validity."""
    path = '<path class="lapse" d="M%g %.1f h14 M%g %.1f l8 8 M%g %.1f l-8 8">'
    path += "<title>%s</title></path>"
    return path % (x - 7, y, x - 4, y - 4, x + 4, y - 4, escape(words))


PATHS = {
    Shape.HIT: "M0 -8 L8 0 L0 8 L-8 0 Z",
    Shape.WON: "M0 -8 L8 0 L0 8 L-8 0 Z",
    Shape.COVER: "M0 -8 L8 0 L0 8 L-8 0 Z",
    Shape.PASS: "M-6 -6 H6 V6 H-6 Z",
    Shape.REFUSED: "M0 -7 L7 6 H-7 Z",
    Shape.WITHDRAW: "M-6 -6 L6 6 M-6 6 L6 -6",
}


def mark(shape: Shape, x: float, y: float) -> str:
    """The mark of an act. Shapes differ where colours do."""
    where = 'class="mark %s" transform="translate(%g %g)"' % (shape.value, x, y)
    if shape in PATHS:
        return '<path %s d="%s"/>' % (where, PATHS[shape])
    inner = {
        Shape.ASK: '<circle r="7"/><circle class="core" r="2.5"/>',
        Shape.REPLACE: '<circle r="6"/><path class="half" d="M0 -6 A6 6 0 0 1 0 6 Z"/>',
        Shape.CLOCK: '<circle r="7"/><path d="M0 -4.5 V0 H4"/>',
        Shape.DECLINE: '<circle r="6.5"/><path d="M-4.5 4.5 L4.5 -4.5"/>',
    }.get(shape, '<circle r="6"/>')
    return "<g %s>%s</g>" % (where, inner)


def timeline(story: Story, roles: dict[str, str], in_32nds: bool) -> str:
    """The line of time of a request."""
    return Drawing(story, roles, in_32nds).svg()
