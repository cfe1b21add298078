"""Makes the pages of requests."""

from contextlib import closing
from dataclasses import dataclass
from pathlib import Path

from .before import Before
from .bonds import bonds_of
from .book import Book
from .narrow_timeline import narrow_timeline
from .page_names import file_name, page_name
from .records import Day
from .requests import Act, Note, Request
from .story import Story, story_of
from .templates import Templates
from .timeline import timeline


@dataclass(frozen=True)
class DealerLine:
    """A dealer of a request, as its page lists it."""

    name: str
    shown: str
    answer: str  # in words, where it did not quote
    told: str
    told_glyph: str


@dataclass(frozen=True)
class RequestJob:
    """Writes the pages of some requests, in a process of its own."""

    day: Day
    requests: tuple[Request, ...]
    count: int  # of all requests
    book: Path
    folder: Path
    before: Before | None = None

    def __call__(self) -> int:
        templates = Templates(self.day)
        roles = {firm.name: firm.kind for firm in self.day.firms}
        bonds = bonds_of(self.day)
        with closing(Book(self.book)) as book:
            same = self._same(book)
            for request in self.requests:
                path = self.folder / "requests" / file_name(request.key)
                if request.key in same and self.before and self.before.give(path, self.folder):
                    continue
                story = story_of(request, book.acts(request.key))
                bond = bonds.get(request.bond)
                in_32nds = bond is not None and bond.in_32nds
                text = request_page(templates, story, roles, in_32nds, self.count)
                path.write_text(text, encoding="utf-8")
        return len(self.requests)

    def _same(self, book: Book) -> set[int]:
        """The requests whose pages are what they were. Behind the last one there was no other."""
        if self.before is None:
            return set()
        changed = book.requests_since(self.before.last)
        count = len(list((self.before.folder / "requests").iterdir()))
        last = {count - 1} if count < self.count else set()
        return {request.key for request in self.requests} - changed - last


def request_page(
    templates: Templates, story: Story, roles: dict[str, str], in_32nds: bool, count: int
) -> str:
    return templates.page(
        "request.html",
        "../",
        story=story,
        request=story.request,
        dealers=[dealer_line(story, name) for name in story.request.dealers],
        drawing=timeline(story, roles, in_32nds),
        narrow=narrow_timeline(story, roles, in_32nds),
        linked=lambda name: name in roles,
        before=file_name(story.request.key - 1) if story.request.key > 0 else "",
        after=file_name(story.request.key + 1) if story.request.key + 1 < count else "",
        entry_page=entry_page,
        note_page=note_page,
    )


def dealer_line(story: Story, name: str) -> DealerLine:
    closing_note = story.closing(name)
    answer = "declined" if story.declined(name) else "no quote"
    return DealerLine(
        name,
        story.request.shown.get(name, ""),
        "" if story.quotes_of(name) else answer,
        closing_note.words.text if closing_note else "nothing yet",
        closing_note.words.glyph if closing_note else "",
    )


def entry_page(act: Act) -> str:
    """Where the message of an act stands; empty for a sweep."""
    return "%s#e%d" % (page_name(act.actor, act.place), act.place) if act.actor else ""


def note_page(act: Act, note: Note) -> str:
    """Where a message that was told stands."""
    return "%s#s%d" % (page_name(note.firm, act.place), note.number)
