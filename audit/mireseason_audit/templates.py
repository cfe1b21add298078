"""Fills the templates of the pages, and writes the values in them."""

from functools import lru_cache
from pathlib import Path

import jinja2
from markupsafe import Markup

from .bonds import Bond, bonds_of
from .frame import directed
from .prices import Price, quantity_of
from .records import Day

HERE = Path(__file__).resolve().parent / "templates"
MONTHS = (
    "January February March April May June July August September October November December"
).split()


def quantity_text(text: str) -> str:
    """A whole number with a space between thousands; what is none stays as it is."""
    value = quantity_of(text)
    return text if value is None else format(value, ",").replace(",", "\u202f")


def shown(value: object) -> object:
    """What stands in a page: of a text its letters in their order."""
    return directed(value) if type(value) is str else value


def date_text(text: str) -> str:
    """A date in words; what is none stays as it is."""
    if len(text) == 8 and text.isascii() and text.isdigit() and 1 <= int(text[4:6]) <= 12:
        return "%d %s %s" % (int(text[6:]), MONTHS[int(text[4:6]) - 1], text[:4])
    return text


class Prices:
    """Writes prices: those of bonds that are quoted in 32nds so, with the decimal beside them."""

    def __init__(self, bonds: dict[str, Bond]) -> None:
        self._in_32nds = {bond.id for bond in bonds.values() if bond.in_32nds}

    def html(self, price: Price | str | None, bond: str) -> Markup:
        text = price.text if isinstance(price, Price) else price
        return price_of_text(text, bond in self._in_32nds) if text else Markup("")


class BondNames:
    """Writes bonds: the identifier, and beside it the name where the configuration has one."""

    def __init__(self, bonds: dict[str, Bond]) -> None:
        self._names = {bond.id: bond.name for bond in bonds.values() if bond.name}

    def html(self, bond: str) -> Markup:
        name = self._names.get(bond)
        return (
            Markup("%s") % bond if name is None else Markup("%s <small>%s</small>") % (bond, name)
        )


@lru_cache(maxsize=4096)
def price_of_text(text: str, in_32nds: bool) -> Markup:
    words = Price(text).thirty_seconds if in_32nds else ""
    if not words:
        return Markup('<span class="price">%s</span>') % text
    return Markup('<span class="price">%s <small>%s</small></span>') % (words, text)


def capitalize_first(text: str) -> str:
    return text[:1].upper() + text[1:]


class Templates:
    """Pages of one day."""

    def __init__(self, day: Day) -> None:
        self._day = day
        self._environment = jinja2.Environment(
            loader=jinja2.FileSystemLoader(HERE),
            autoescape=True,
            trim_blocks=True,
            lstrip_blocks=True,
            undefined=jinja2.StrictUndefined,
            finalize=shown,
        )
        self._environment.filters["quantity"] = quantity_text
        self._environment.filters["price"] = Prices(bonds_of(day)).html
        self._environment.filters["bond"] = BondNames(bonds_of(day)).html
        self._environment.filters["capitalize_first"] = capitalize_first
        self._environment.filters["date"] = date_text

    def page(self, name: str, up: str, **values: object) -> str:
        """A page; `up` leads from it to the folder of all."""
        template = self._environment.get_template(name)
        return template.render(up=up, day=self._day, **values)
