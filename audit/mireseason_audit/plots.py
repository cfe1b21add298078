"""Draws plots as SVG. Nothing is said by colour alone: parts of a bar differ in their pattern and
have their numbers, and marks differ in shape.
"""

from collections.abc import Sequence
from dataclasses import dataclass
from html import escape

WIDTH, LEFT, RIGHT = 400, 108, 12
ROW, TOP, BAR = 26, 26, 16
LETTER = 7.5  # the width that a digit is given
TICKS = 4
FILLS = ("", "hatch", "", "dots", "lines")  # the patterns of parts, which the page has; else plain


@dataclass(frozen=True)
class Bar:
    """A row of parts that are added up, each with its name."""

    label: str
    parts: tuple[tuple[str, int], ...]

    @property
    def total(self) -> int:
        return sum(value for _, value in self.parts)


@dataclass(frozen=True)
class Marks:
    """A row of values on one line, the first of which is the least; None where there is none."""

    label: str
    values: tuple[float | None, ...]


@dataclass(frozen=True)
class Plot:
    """A drawing and what it shows."""

    title: str
    svg: str


@dataclass(frozen=True)
class Frame:
    """A drawing for so many rows."""

    title: str
    text: str
    rows: int
    greatest: float

    @property
    def height(self) -> int:
        return TOP + self.rows * ROW + 6

    def x(self, value: float) -> float:
        return LEFT + (WIDTH - LEFT - RIGHT) * value / self.greatest

    def y(self, row: int) -> int:
        return TOP + row * ROW

    def svg(self, parts: Sequence[str]) -> str:
        head = (
            '<svg class="plot" role="img" xmlns="http://www.w3.org/2000/svg" viewBox="0 0 %d %d">'
            "<title>%s</title><desc>%s All figures stand in the table beside it.</desc>"
        )
        head %= (WIDTH, self.height, escape(self.title), escape(self.text))
        return "\n".join([head, *self.axis(), *parts, "</svg>"])

    def axis(self) -> list[str]:
        """Lines across, with their values above."""
        step = tidy(self.greatest / TICKS)
        values = [step * at for at in range(1 + int(self.greatest / step + 1e-9))]
        line = (
            '<line class="grid" x1="%.1f" y1="%d" x2="%.1f" y2="%d"/>'
            '<text class="tick" x="%.1f" y="%d" text-anchor="middle">%s</text>'
        )
        return [
            line
            % (
                self.x(one),
                TOP - 4,
                self.x(one),
                self.height - 4,
                self.x(one),
                TOP - 10,
                number(one),
            )
            for one in values
        ]

    def label(self, row: int, text: str) -> str:
        at = LEFT - 8, self.y(row) + BAR - 3
        return '<text class="label" x="%d" y="%d" text-anchor="end">%s</text>' % (*at, escape(text))


def tidy(step: float) -> float:
    """A step of 1, 2 or 5 at some power of ten, not below the given one."""
    power = 1.0
    while power * 10 <= step:
        power *= 10
    while power > step:
        power /= 10
    return next((power * one for one in (1, 2, 5) if power * one >= step), power * 10)


def number(value: float) -> str:
    return ("%.6f" % value).rstrip("0").rstrip(".")


def bars(title: str, rows: Sequence[Bar]) -> Plot:
    """Rows of parts, on one scale."""
    frame = Frame(title, "A bar for each row.", len(rows), max([1, *(row.total for row in rows)]))
    parts = []
    for at, row in enumerate(rows):
        parts.append(frame.label(at, row.label))
        before = 0
        for index, (name, value) in enumerate(row.parts):
            if value:
                parts.append(part(frame, at, before, value, name, index))
            before += value
    return Plot(title, frame.svg(parts))


def filled(index: int) -> str:
    """The attributes by which a part differs from the others of its bar."""
    fill = FILLS[index % len(FILLS)]
    return 'class="part p%d"' % index + (' fill="url(#%s)"' % fill if fill else "")


def part(frame: Frame, row: int, before: int, value: int, name: str, index: int) -> str:
    """One part of a bar, with its number where there is room."""
    left, right, y = frame.x(before), frame.x(before + value), frame.y(row)
    text = '<rect %s x="%.1f" y="%d" width="%.1f" height="%d"><title>%s: %d</title></rect>'
    found = text % (filled(index), left, y, right - left, BAR, escape(name), value)
    if right - left > LETTER * len(str(value)) + 6:
        middle = (left + right) / 2
        words = '<text class="on p%d" x="%.1f" y="%d" text-anchor="middle">%d</text>'
        found += words % (index, middle, y + BAR - 4, value)
    return found


SHAPES = (
    '<circle class="mark" cx="%.1f" cy="%d" r="4.5"/>',
    '<path class="mark" d="M%.1f %d m0 -6 v12"/>',
    '<circle class="mark open" cx="%.1f" cy="%d" r="4.5"/>',
)


def spreads(title: str, rows: Sequence[Marks], names: Sequence[str]) -> Plot:
    """Rows of two or three marks on a line: a full one, a stroke where there are three, an open
    one.
    """
    known = [value for row in rows for value in row.values if value is not None]
    frame = Frame(
        title,
        "Marks on a line for each row: %s." % ", ".join(names),
        len(rows),
        max([*known, 0]) or 1,
    )
    shapes = SHAPES if len(names) == len(SHAPES) else (SHAPES[0], SHAPES[-1])
    parts = []
    for at, row in enumerate(rows):
        parts.append(frame.label(at, row.label))
        y = frame.y(at) + BAR // 2
        points = [
            (frame.x(max(one, 0)), shape, name, one)
            for one, shape, name in zip(row.values, shapes, names)
            if one is not None
        ]
        if points:
            line = '<line class="span" x1="%.1f" y1="%d" x2="%.1f" y2="%d"/>'
            parts.append(line % (points[0][0], y, points[-1][0], y))
        for x, shape, name, value in points:
            text = "<g><title>%s: %s</title>%s</g>"
            parts.append(text % (escape(name), number(value), shape % (x, y)))
    return Plot(title, frame.svg(parts))
