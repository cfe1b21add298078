"""Makes the pages of a firm: all that came from it and all that it was sent, so many entries a
page.
"""

from collections.abc import Iterator
from contextlib import closing
from dataclasses import dataclass
from pathlib import Path

from .before import Before
from .bonds import bonds_of
from .book import Book
from .came_on import CameOn
from .dictionary import read_dictionary
from .frame import Fields, barred, fields_of, text_of
from .lines import came_of
from .log import Log, Source
from .messages import MessageWriter, Shown
from .page_names import ENTRIES_A_PAGE, page_name
from .records import Day, Entry, Firm, Sent
from .templates import Templates


@dataclass(frozen=True)
class FirmJob:
    """Writes the pages of one firm, in a process of its own. Answers how many."""

    source: Source
    day: Day
    firm: Firm
    book: Path
    dictionary: Path
    folder: Path
    before: Before | None = None

    def __call__(self) -> int:
        writer = MessageWriter(read_dictionary(self.dictionary), bonds_of(self.day))
        templates = Templates(self.day)
        with self.source.open() as log, closing(Book(self.book)) as book:
            came_on = CameOn(log.logons(self.firm.name)) if log.has_door else None
            pages = log.last_place() // ENTRIES_A_PAGE + 1
            messages = merged(log, self.firm.name)
            waiting = next(messages, None)
            for page in range(pages):
                requests = book.requests_at(page * ENTRIES_A_PAGE, (page + 1) * ENTRIES_A_PAGE)
                is_same = self._is_same(page, pages)
                parts = []
                while waiting and (waiting[0] // ENTRIES_A_PAGE <= page or page == pages - 1):
                    about = requests.get(waiting[0], ())
                    parts.append("" if is_same else writer.html(shown(waiting[1], about, came_on)))
                    waiting = next(messages, None)
                if not is_same:
                    self._write(templates, page, pages, parts)
        return pages

    def _is_same(self, page: int, pages: int) -> bool:
        """Whether a page is what it was, in which case it is taken from there."""
        before = self.before
        if before is None or before.last // ENTRIES_A_PAGE + 1 != pages or page == pages - 1:
            return False
        path = self.folder / page_name(self.firm.name, page * ENTRIES_A_PAGE)
        return before.give(path, self.folder)

    def _write(self, templates: Templates, page: int, pages: int, parts: list[str]) -> None:
        text = templates.page(
            "firm.html",
            "../",
            firm=self.firm,
            page=page + 1,
            pages=pages,
            first=page * ENTRIES_A_PAGE,
            last=(page + 1) * ENTRIES_A_PAGE - 1,
            count=len(parts),
            messages="".join(parts),
        )
        path = self.folder / page_name(self.firm.name, page * ENTRIES_A_PAGE)
        path.write_text(text, encoding="utf-8")


def merged(log: Log, firm: str) -> Iterator[tuple[int, Entry | Sent]]:
    """What came from a firm and what it was sent, by the entries; what came stands first."""
    came, sent = log.came(firm), log.sent(firm)
    entry, row = next(came, None), next(sent, None)
    while entry is not None or row is not None:
        if row is None or (entry is not None and entry.place <= row.place):
            assert entry is not None
            yield entry.place, entry
            entry = next(came, None)
        else:
            yield row.place, row
            row = next(sent, None)


def shown(row: Entry | Sent, requests: tuple[int, ...], came_on: CameOn | None) -> Shown:
    """A row as a message, and of one that came, where the log says that, on which connection."""
    if isinstance(row, Sent):
        fields = fields_of(row.bytes)
        moment = text_of(fields, 52).partition("-")[2]
        anchor = "s%d" % row.number
        text = barred(row.bytes)
        return Shown(anchor, False, moment, row.place, str(row.number), text, fields, requests)
    came = came_of(row.line)
    fields = came.fields if came else Fields()
    text = came.text if came else barred(row.line)
    number = text_of(fields, 34)
    words = came_on.words(row) if came_on else ""
    anchor = "e%d" % row.place
    return Shown(anchor, True, row.moment, row.place, number, text, fields, requests, words)
