"""Makes the pages of the door: what happened to connections, so many rows a page."""

from dataclasses import dataclass
from itertools import islice
from pathlib import Path

from .log import Source
from .records import Day
from .templates import Templates


@dataclass(frozen=True)
class DoorJob:
    """Writes the pages, in a process of its own; answers how many."""

    source: Source
    day: Day
    pages: int
    rows_a_page: int
    folder: Path

    def __call__(self) -> int:
        templates = Templates(self.day)
        with self.source.open() as log:
            events = log.connection_events()
            for page in range(1, self.pages + 1):
                rows = list(islice(events, self.rows_a_page))
                text = templates.page("door.html", "", events=rows, page=page, pages=self.pages)
                (self.folder / ("door-%d.html" % page)).write_text(text, encoding="utf-8")
        return self.pages
