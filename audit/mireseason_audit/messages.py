"""Shows a message as HTML: its text, and its fields by their names."""

from collections.abc import Mapping
from html import escape
from typing import NamedTuple

from .bonds import Bond
from .dictionary import Dictionary
from .frame import Fields, barred, text_of

BOND = 48
MOST_KEPT, LONGEST_KEPT = 10_000, 64  # fields that are kept as they are written, and their bytes


class Shown(NamedTuple):
    """A message, and what stands above it."""

    anchor: str
    incoming: bool
    moment: str
    place: int
    number: str  # 34
    text: str
    fields: Fields
    requests: tuple[int, ...] = ()
    came_on: str = ""  # in words: the connection that it came on


class MessageWriter:
    """Writes messages. Fields that often stand are written once and kept."""

    def __init__(self, dictionary: Dictionary, bonds: Mapping[str, Bond] | None = None) -> None:
        self._dictionary = dictionary
        self._names = {bond.id: bond.name for bond in (bonds or {}).values()}
        self._kept: dict[tuple[int, bytes], str] = {}

    def html(self, shown: Shown) -> str:
        kind = self._dictionary.type_name(text_of(shown.fields, 35))
        links = "".join(
            ' <a href="../requests/%04d.html">request %d</a>' % (key + 1, key + 1)
            for key in shown.requests
        )
        return (
            '<article class="message %s" id="%s"><p class="head"><span class="way">%s</span>'
            " <b>%s</b> <span>34=%s</span> <span>%s</span> <span>entry %d</span>%s%s</p>"
            "<code>%s</code><details><summary>%d fields by name</summary><ul>%s</ul></details>"
            "</article>\n"
            % (
                "came" if shown.incoming else "told",
                shown.anchor,
                "▸ to the venue" if shown.incoming else "◂ from the venue",
                escape(kind),
                escape(shown.number),
                escape(shown.moment),
                shown.place,
                links,
                " <span>%s</span>" % escape(shown.came_on) if shown.came_on else "",
                escape(shown.text),
                len(shown.fields),
                "".join([self._field(field) for field in shown.fields]),
            )
        )

    def _field(self, field: tuple[int, bytes]) -> str:
        text = self._kept.get(field)
        if text is None:
            text = self._written(*field)
            is_short = len(field[1]) <= LONGEST_KEPT
            if is_short and field[0] in self._dictionary.names and len(self._kept) < MOST_KEPT:
                self._kept[field] = text
        return text

    def _written(self, tag: int, data: bytes) -> str:
        value = barred(data)
        name = self._dictionary.names.get(tag, "")
        meaning = self._dictionary.meaning(tag, value)
        if tag == BOND:
            meaning = self._names.get(value, "")
        return "<li><i>%s</i> %s <b>%s</b>%s</li>" % (
            tag or "?",
            escape(name or "(not in the dictionary)"),
            escape(value),
            " " + escape(meaning) if meaning else "",
        )
