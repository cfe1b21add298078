"""Lists what was unusual on a day, which a supervisor looks at first, each with a link to it."""

from collections import Counter
from collections.abc import Iterable, Iterator
from dataclasses import dataclass, field
from typing import NamedTuple

from .book import Fault
from .day_tables import SessionRow
from .door import LEFT_OUT, LOGON, REFUSED, STRANGER
from .facts import milliseconds
from .log import Log
from .not_taken import CLOCK_SET
from .notes import Act, ClockNote, acts, clock_notes
from .page_names import ROWS_A_PAGE, file_name, page_name
from .records import ConnectionEvent
from .requests import Request

MOST_SHOWN = 20  # of a kind
MOST_ADDRESSES = 1000
LATE = 1000  # milliseconds after its deadline: a request is swept by then
OTHERS = "addresses that were left out"
SET, UNSYNCHRONISED = "set", "unsynchronised"


class Item(NamedTuple):
    """One thing, and the page that has more of it; empty where none has."""

    words: str
    link: str = ""


@dataclass
class Kind:
    """Things of one kind: how many, and the first of them."""

    title: str
    count: int = 0
    items: list[Item] = field(default_factory=list)

    def add(self, words: str, link: str = "") -> None:
        self.count += 1
        if len(self.items) < MOST_SHOWN:
            self.items.append(Item(words, link))


@dataclass
class Strangers:
    """Who came and was not let in, by address and reason."""

    counts: Counter[tuple[str, str]] = field(default_factory=Counter)
    rows: dict[tuple[str, str], int] = field(default_factory=dict)  # the first of each

    def take(self, events: Iterable[ConnectionEvent]) -> None:
        for event in events:
            if event.event not in (STRANGER, REFUSED, LEFT_OUT):
                continue
            key = host_of(event.address) or OTHERS, event.why or ""
            if key in self.counts or len(self.counts) < MOST_ADDRESSES:
                self.counts[key] += event.left_out + (event.event != LEFT_OUT)
                self.rows.setdefault(key, event.place)

    def kind(self) -> Kind:
        found = Kind("Connections that were not let in")
        for (host, why), count in self.counts.most_common():
            link = door_link(self.rows[host, why])
            found.add("%d from %s: %s" % (count, host, why), link)
        found.count = self.counts.total()
        return found


@dataclass
class Logons:
    """Which firms logged on from where, and by which certificate."""

    firms: dict[str, dict[str, int]] = field(default_factory=dict)  # by host, each one's first row
    named: set[str] = field(default_factory=set)  # that showed a certificate
    without: dict[str, int] = field(default_factory=dict)  # the first row of each

    def take(self, event: ConnectionEvent) -> None:
        if event.event != LOGON or event.firm is None:
            return
        host = host_of(event.address)
        if host in self.firms or len(self.firms) < MOST_ADDRESSES:
            self.firms.setdefault(host, {}).setdefault(event.firm, event.place)
        if event.certificate:
            self.named.add(event.firm)
        else:
            self.without.setdefault(event.firm, event.place)

    def shared(self) -> Kind:
        """A firm that uses another's address may have its password, too."""
        found = Kind("Addresses from which several firms logged on")
        for host, rows in self.firms.items():
            if len(rows) > 1:
                found.add("%s: %s" % (host, ", ".join(sorted(rows))), door_link(max(rows.values())))
        return found

    def bare(self) -> Kind:
        found = Kind("Firms that logged on with a certificate, and also without one")
        for firm in sorted(self.named & self.without.keys()):
            row = self.without[firm]
            found.add("%s: row %d has none" % (firm, row), door_link(row))
        return found


def door_link(row: int) -> str:
    """Where a row of the door stands."""
    return "door-%d.html#r%d" % ((row - 1) // ROWS_A_PAGE + 1, row)


@dataclass
class Seen:
    """What one pass over a day collects for the list."""

    hits: Kind = field(default_factory=lambda: Kind("Hits that were refused"))
    acts: list[Act] = field(default_factory=list)
    clock: list[ClockNote] = field(default_factory=list)
    strangers: Strangers = field(default_factory=Strangers)
    logons: Logons = field(default_factory=Logons)

    def take_hit(self, fault: Fault) -> None:
        link = "%s#e%d" % (page_name(fault.firm, fault.place), fault.place)
        text = "%s %s %s: %s" % (fault.moment, fault.firm, fault.said, fault.why)
        self.hits.add(text, link)

    def read(self, log: Log) -> None:
        """What no exchange tells: acts, the clock, and who was at the door."""
        if log.has_chain:
            self.acts, self.clock = list(acts(log)), list(clock_notes(log))
        if log.has_door:
            self.strangers.take(log.connection_events())
            for event in log.connection_events():
                self.logons.take(event)


def host_of(address: str) -> str:
    """An address without its port."""
    return address.rpartition(":")[0] or address


def unusual(
    seen: Seen, requests: Iterable[Request], sessions: Iterable[SessionRow] = ()
) -> list[Kind]:
    """All kinds of which the day has something."""
    requests = list(requests)
    kinds = [
        seen.hits,
        late_sweeps(requests),
        open_requests(requests),
        clock_steps(seen.clock),
        told_of_clock(list(sessions)),
        *act_kinds(seen.acts, requests),
        seen.strangers.kind(),
        seen.logons.shared(),
        seen.logons.bare(),
    ]
    return [kind for kind in kinds if kind.count]


def late_sweeps(requests: Iterable[Request]) -> Kind:
    """Requests that expired long after their deadline."""
    found = Kind("Requests that expired more than a second after their deadline")
    for request in requests:
        late = milliseconds(request.end_moment) - milliseconds(request.deadline)
        if request.end == "expired" and late > LATE:
            text = "request %d, %d ms after %s"
            words = text % (request.key + 1, late, request.deadline)
            found.add(words, "requests/" + file_name(request.key))
    return found


def open_requests(requests: Iterable[Request]) -> Kind:
    found = Kind("Requests without an end")
    for request in requests:
        if request.end == "open":
            text = "request %d of %s" % (request.key + 1, request.investor)
            found.add(text, "requests/" + file_name(request.key))
    return found


def clock_steps(notes: Iterable[ClockNote]) -> Kind:
    """Where the clock was set, or nobody kept it right."""
    found = Kind("What was wrong with the gateway's clock")
    for note in notes:
        if note.state == SET:
            found.add("entry %d, %s: set by %d us" % (note.place, note.moment, note.microseconds))
        elif note.state == UNSYNCHRONISED:
            found.add("entry %d, %s: not synchronised" % (note.place, note.moment))
    return found


def told_of_clock(sessions: list[SessionRow]) -> Kind:
    """Firms that were told that the clock was set: the gateway took nothing new of them then."""
    found = Kind("Messages that were not taken since the clock of the venue was set")
    for session in sessions:
        name, link = session.firm.name, "firms/%s.html#not-taken" % session.firm.name
        for one in session.first_not_taken:
            if one.words.startswith(CLOCK_SET):
                found.add("%s: %s was told so" % (one.moment, name), link)
    found.count = sum(session.told_of_clock for session in sessions)
    return found


def act_kinds(listed: Iterable[Act], requests: Iterable[Request]) -> Iterator[Kind]:
    """Acts of operators, those of one word together."""
    pages = {request.trade: file_name(request.key) for request in requests if request.trade}
    kinds: dict[str, Kind] = {}
    for act in listed:
        word, _, rest = act.what.partition(" ")
        because = ', because "%s"' % act.because if act.because else ""
        text = "entry %d, %s: %s: %s%s" % (act.place, act.moment, act.who, act.what, because)
        kind = kinds.setdefault(word, Kind("Acts of operators: %s" % word))
        page = pages.get(rest)
        kind.add(text, "requests/" + page if page else "")
    yield from kinds.values()
