"""Makes the lists of a day's requests by firm, bond, end and hour: pages that need no script."""

from collections.abc import Iterable
from dataclasses import dataclass
from pathlib import Path

from .bonds import bonds_of
from .page_names import ROWS_A_PAGE, file_name
from .records import Day
from .requests import Request
from .templates import Templates

ENDS = ("awarded", "passed", "expired", "open")


@dataclass(frozen=True)
class RequestList:
    """Some requests of a day, and how their pages are called."""

    kind: str  # firm, bond, end, hour
    key: str
    title: str
    requests: tuple[Request, ...]

    @property
    def count(self) -> int:
        return len(self.requests)

    @property
    def pages(self) -> int:
        return max(1, -(-self.count // ROWS_A_PAGE))

    def name(self, page: int) -> str:
        """The name of a page, beside the others."""
        return "%s-%s%s.html" % (self.kind, self.key, "" if page == 1 else "-%d" % page)


def lists_of(day: Day, requests: Iterable[Request]) -> list[RequestList]:
    """All lists, those of a kind together; none is empty but a firm's or a bond's."""
    all_of = list(requests)
    found = [
        listed(
            "firm",
            firm.name,
            "Requests of " + firm.name,
            [one for one in all_of if firm.name in (one.investor, *one.dealers)],
        )
        for firm in day.firms
    ]
    found += [
        listed("bond", id_, "Requests of " + bond.words, [one for one in all_of if one.bond == id_])
        for id_, bond in bonds_of(day).items()
    ]
    found += [
        listed(
            "end",
            end,
            "Requests that were %s" % end if end != "open" else "Open requests",
            [one for one in all_of if one.end == end],
        )
        for end in ENDS
        if any(one.end == end for one in all_of)
    ]
    hours = sorted({one.moment[:2] for one in all_of if one.moment[:2].isdecimal()})
    return found + [
        listed(
            "hour",
            hour,
            "Requests from %s:00 UTC on" % hour,
            [one for one in all_of if one.moment[:2] == hour],
        )
        for hour in hours
    ]


def listed(kind: str, key: str, title: str, requests: list[Request]) -> RequestList:
    return RequestList(kind, key, title, tuple(requests))


def write_list(templates: Templates, one: RequestList, total: int, folder: Path) -> None:
    """The pages of one list."""
    for page in range(1, one.pages + 1):
        text = templates.page(
            "requests.html",
            "../",
            list=one,
            total=total,
            requests=one.requests[(page - 1) * ROWS_A_PAGE : page * ROWS_A_PAGE],
            page=page,
            pages=one.pages,
            page_of=one.name,
            file_name=file_name,
        )
        (folder / one.name(page)).write_text(text, encoding="utf-8")
