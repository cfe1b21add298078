"""Pages as tables, texts and links, for the tests."""

from dataclasses import dataclass, field
from html.parser import HTMLParser
from pathlib import Path

EMPTY = {"meta", "link", "br", "img", "input", "hr"}


@dataclass
class Element:
    """An element of a page."""

    name: str
    attributes: dict[str, str]
    children: list["Element | str"] = field(default_factory=list)

    @property
    def text(self) -> str:
        """All its text, with one space where there is any."""
        return " ".join(self.raw.split())

    @property
    def raw(self) -> str:
        return "".join(child if isinstance(child, str) else child.raw for child in self.children)

    def all(self, name: str, style: str = "") -> list["Element"]:
        """The elements of a name below it, in their order; with a class, those that have it."""
        found = []
        for child in self.children:
            if isinstance(child, Element):
                styles = child.attributes.get("class", "").split()
                if child.name == name and (not style or style in styles):
                    found.append(child)
                found += child.all(name, style)
        return found

    def own(self, *names: str) -> list["Element"]:
        return [one for one in self.children if isinstance(one, Element) and one.name in names]


class Reader(HTMLParser):
    """Reads a page; an element that is not closed as it was opened is a fault."""

    def __init__(self) -> None:
        super().__init__(convert_charrefs=True)
        self.root = Element("", {})
        self.open = [self.root]

    def handle_starttag(self, tag: str, attrs: list[tuple[str, str | None]]) -> None:
        element = Element(tag, {name: value or "" for name, value in attrs})
        self.open[-1].children.append(element)
        if tag not in EMPTY:
            self.open.append(element)

    def handle_startendtag(self, tag: str, attrs: list[tuple[str, str | None]]) -> None:
        self.open[-1].children.append(Element(tag, {name: value or "" for name, value in attrs}))

    def handle_endtag(self, tag: str) -> None:
        if self.open[-1].name != tag:
            raise ValueError("</%s> ends <%s>" % (tag, self.open[-1].name))
        self.open.pop()

    def handle_data(self, data: str) -> None:
        self.open[-1].children.append(data)


def read_page(path: Path) -> Element:
    reader = Reader()
    reader.feed(path.read_text())
    reader.close()
    if len(reader.open) != 1:
        raise ValueError("%s: <%s> is not closed" % (path, reader.open[-1].name))
    return reader.root


def table_behind(page: Element, heading: str) -> Element:
    """The first table behind a heading of this text."""
    found = False
    for element in walk(page):
        if element.name in ("h1", "h2") and element.text == heading:
            found = True
        elif found and element.name == "table":
            return element
    raise ValueError("no table behind %r" % heading)


def walk(element: Element) -> list[Element]:
    found = []
    for child in element.children:
        if isinstance(child, Element):
            found += [child, *walk(child)]
    return found


def rows_of(table: Element) -> list[list[Element]]:
    return [row.own("td", "th") for body in table.own("tbody") for row in body.own("tr")]
