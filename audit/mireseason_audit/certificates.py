"""Makes the certificate of a dealer: its list, its messages, their hashes, and the commands that
make them again.
"""

import hashlib
import itertools
import shutil
from collections.abc import Iterator
from dataclasses import dataclass
from pathlib import Path

from . import items
from .findings import Finding
from .frame import barred, fields_of, text_of
from .jobs import Files
from .log import Source
from .pair import Compared, compare
from .reading import Reader
from .records import Day, Firm
from .requests import Request
from .second_day import Moved, MovedDay, append, needle, on_request
from .streams import digest_of, lines_of
from .templates import Templates
from .venue import Venue, message_of

SHOWN_LINES = 40
MOVED_BY = 32  # 32nds: a point
MOST_RANKED = 500  # requests among which one is chosen


@dataclass(frozen=True)
class Second:
    """A second day in which one dealer's prices on one request were moved."""

    request: Request
    mover: str
    moved: tuple[Moved, ...]
    day: Path
    both: Path


@dataclass(frozen=True)
class Seen:
    """A message that a dealer was sent, or would have been."""

    number: str
    moment: str
    words: str
    text: str


@dataclass(frozen=True)
class CertificateJob:
    """Writes the certificate of one dealer, in a process of its own; answers what must not be."""

    source: Source
    venue: Venue
    files: Files
    day: Day
    dealer: Firm
    reader: Reader
    second: Second | None
    good: bool
    folder: Path

    def __call__(self) -> list[Finding]:
        name = self.dealer.name
        list_path = self.folder / "certificates" / (name + ".due")
        sums = Sums()
        with list_path.open("wb") as file, self.files.due(name).open("rb") as due:
            for line in due:
                sums.take(line)
                file.write(line)
        messages_path = self.folder / "certificates" / (name + ".messages")
        shutil.copyfile(self.files.alone(name), messages_path)
        digest = digest_of(messages_path)
        compared = None
        before: list[Seen] = []
        after: list[Seen] = []
        if self.second is not None:
            compared = compare(self.venue, name, self.second.both)
            request = self.second.request
            before = self._seen(lines_of(self.files.alone(name)), request)
            arguments = ["replay", name, "--live", "--frames"]
            with self.venue.run(arguments, self.second.day) as run:
                after = self._seen(run.lines(), request)
        self._write(sums, digest, messages_path, compared, before, after)
        if compared is None or (compared.row_equal and compared.holds):
            return []
        text = "a second day beside this one: " + ", ".join(compared.lines)
        return [Finding(name, text, named_items=(items.ALONE,))]

    def _seen(self, lines: Iterator[bytes], request: Request) -> list[Seen]:
        """What is about one request of all that the venue gives the dealer on a day."""
        about = b"|131=%s|" % request.shown.get(self.dealer.name, "").encode()
        found = []
        for _, frame in (message_of(line) for line in lines if about in line):
            fields = fields_of(frame)
            words = self.reader.told(fields, is_dealer=True)
            text = " ".join([words.text, str(words.price or "")]).strip()
            moment = text_of(fields, 52).partition("-")[2]
            found.append(Seen(text_of(fields, 34), moment, text, barred(frame)))
        return found

    def _write(
        self,
        sums: "Sums",
        digest: str,
        messages: Path,
        compared: Compared | None,
        before: list[Seen],
        after: list[Seen],
    ) -> None:
        with messages.open("rb") as file:
            first = itertools.islice(file, SHOWN_LINES)
            shown = [line.decode("utf-8", "replace") for line in first]
            rest = sum(1 for _ in file)
        text = Templates(self.day).page(
            "certificate.html",
            "../",
            dealer=self.dealer,
            good=self.good,
            sums=sums,
            messages_digest=digest,
            messages_count=len(shown) + rest,
            messages="".join(shown),
            compared=compared,
            second=self.second,
            seen=list(itertools.zip_longest(before, after)),
        )
        path = self.folder / "certificates" / (self.dealer.name + ".html")
        path.write_text(text, encoding="utf-8")


class Sums:
    """A list of what was due, as it is read."""

    def __init__(self) -> None:
        self._digest = hashlib.sha256()
        self.kinds: dict[str, int] = {}
        self.first: list[str] = []
        self.count = -2  # the date and the dealer's row are no items

    def take(self, line: bytes) -> None:
        self._digest.update(line)
        self.count += 1
        word = line.split(b" ", 1)[0].decode("utf-8", "replace")
        if self.count > 0:
            word = "own" if word in ("hex", "say") else word
            self.kinds[word] = self.kinds.get(word, 0) + 1
        if len(self.first) < SHOWN_LINES:
            self.first.append(line.decode("utf-8", "backslashreplace"))

    @property
    def digest(self) -> str:
        return self._digest.hexdigest()

    @property
    def text(self) -> str:
        return "".join(self.first)


def seconds_for(
    source: Source, day: Day, requests: list[Request], folder: Path, day_file: Path, key: int | None
) -> list[Second]:
    """Second days for all certificates: on each of some requests the prices of one dealer moved."""
    found = []
    for request in chosen(requests, [firm.name for firm in day.dealers], key):
        for mover in movers(request):
            name = "%d-%s" % (request.key, mover)
            path, both = folder / ("second-%s.live" % name), folder / ("both-%s.live" % name)
            changed, by = MovedDay(), -MOVED_BY if request.buys else MOVED_BY
            with source.open() as log:
                move = on_request(request, mover, by)
                changed.write(log, day, move, path, needle(request.shown.get(mover, "")))
            if changed.moved:
                append(day_file, path, both)
                found.append(Second(request, mover, tuple(changed.moved), path, both))
    return found


def chosen(requests: list[Request], dealers: list[str], key: int | None) -> list[Request]:
    """The request that is named, or as few as have asked all dealers, those with a cover first."""
    if key is not None:
        return [one for one in requests if one.key == key]
    ranked = sorted(requests, key=lambda one: (not one.cover, not one.winner, one.key))
    waiting, found = set(dealers), []
    while waiting and ranked:
        best = max(ranked[:MOST_RANKED], key=lambda one: len(waiting & set(one.dealers)))
        ranked.remove(best)
        if not waiting & set(best.dealers):
            break
        waiting -= set(best.dealers)
        found.append(best)
    return found


def movers(request: Request) -> list[str]:
    """The dealer whose prices are moved, and another one for that dealer's own certificate."""
    listed = [request.winner, request.cover, *request.dealers]
    return list(dict.fromkeys(name for name in listed if name))[:2]


def second_for(seconds: list[Second], dealer: str) -> Second | None:
    """A second day on a request that the dealer was asked, with another dealer's prices moved."""
    others = [one for one in seconds if one.mover != dealer]
    asked = [one for one in others if dealer in one.request.dealers]
    return next(iter(asked or others), None)
