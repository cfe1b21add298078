"""Plays the cases of one role, in an order that the seed draws, and notes the result of each."""

from __future__ import annotations

import time
from collections.abc import Callable, Sequence
from contextlib import closing
from dataclasses import dataclass, field
from pathlib import Path

from .case import Case, depth, with_needs
from .clock import MovedClock
from .dealer_cases import case as dealer_market
from .dealer_session import QuoteAct
from .draw import Draw
from .investor_cases import case as investor_market
from .investor_session import HitAct
from .own_venue import NoVenue, OwnVenue, Programs
from .played import NotAnswered, PlayedFirm
from .relay import Relay, Seen
from .session_cases import Act, SessionCases, is_in_order, is_logged_on
from .stage import Failed, Stage, Unreachable
from .telling import Line, Telling

PASSED, FAILED, UNREACHABLE = "passed", "failed", "unreachable"
TLS = "TLS and certificates: the desk is on the venue's own machine"
CRASH = "the desk's own end: whether its position and the names that it has used are on disk"
VALIDITY = "a quote's own validity (62), and a replacement that is refused"
NO_NIGHT = "the next day's Logon, with new numbers: the clock was not moved (--clock)"


@dataclass
class Outcome:
    """What came of one case."""

    name: str
    title: str
    outcome: str
    why: str = ""
    seconds: float = 0.0
    messages: list[str] = field(default_factory=list)


ACTS: dict[str, type[Act]] = {"dealer": QuoteAct, "investor": HitAct}
SHOWN_BY = {"dealer": ("quote-offer", "quote-bid"), "investor": ("hit-only",)}
TRADE = {"dealer": "won", "investor": "hit-only"}
MARKET = {"dealer": dealer_market, "investor": investor_market}
NEXT_DAY = "next-day"  # it begins without a desk that is logged on
FIRST, LAST = "logon", ("lost-store", "day-end", NEXT_DAY)


def cases_of(role: str, has_clock: bool = False) -> list[Case]:
    """All cases of a role, as they are written."""
    of_session = SessionCases(ACTS[role], SHOWN_BY[role], TRADE[role], has_clock)
    return [*of_session.cases().all, *MARKET[role].all]


def not_tried(has_clock: bool) -> dict[str, str]:
    """What no case tries, and why."""
    night = {} if has_clock else {"next day": NO_NIGHT}
    return {**night, "tls": TLS, "crash": CRASH, "validity": VALIDITY}


def chosen(role: str, draw: Draw, only: Sequence[str], has_clock: bool = False) -> list[Case]:
    """Those that are asked for and all that they need, in a drawn order: the Logon first, then the market's, then the session's,
    each behind what it needs, then a lost store, the day's end, and the next day.
    """
    known = {one.name: one for one in cases_of(role, has_clock)}
    unknown = [name for name in only if name not in known]
    if unknown:
        raise NoVenue("a %s has no case %s: --list prints them" % (role, unknown[0]))
    wanted = with_needs([FIRST, *(only or known)], known)
    places = {FIRST: -1, **{name: 2 + at for at, name in enumerate(LAST)}}
    return sorted(
        draw.shuffled([one for one in known.values() if one.name in wanted]),
        key=lambda one: (
            places.get(one.name, int(one.is_of_session)),
            depth(one.name, known),
        ),
    )


@dataclass
class Trial:
    """One run."""

    programs: Programs
    folder: Path
    desk: str
    role: str
    draw: Draw
    telling: Telling
    port: int
    patience: float
    only: Sequence[str] = ()
    clock: MovedClock | None = None  # where it can be moved to the next day
    outcomes: dict[str, Outcome] = field(default_factory=dict)
    broken_by: str = ""  # the case behind which the desk's session is not in order

    def run(self, is_ready: Callable[[], None] = lambda: None) -> list[Outcome]:
        """All cases. The venue is there only meanwhile."""
        cases = chosen(self.role, self.draw, self.only, self.clock is not None)
        cast = self.draw.cast(self.desk, self.role)
        with closing(OwnVenue(self.programs, self.folder, cast)) as venue:
            venue.write()
            venue.start()
            with closing(Relay(self.port, venue.port)) as relay:
                return self._with(relay, venue, cases, is_ready)

    def _with(
        self, relay: Relay, venue: OwnVenue, cases: Sequence[Case], is_ready: Callable[[], None]
    ) -> list[Outcome]:
        played = [
            [PlayedFirm(who, venue.port) for who in firms if who != venue.cast.desk]
            for firms in (venue.cast.dealers, venue.cast.investors)
        ]
        dealers, investors = played
        stage = Stage(relay, venue, self.draw, self.telling, dealers, investors, self.patience)
        stage.clock = self.clock
        for firm in (*dealers, *investors):
            firm.log_on()
        self._heads(stage, cases)
        is_ready()
        try:
            for one in cases:
                self.outcomes[one.name] = self._tried(stage, one)
            return list(self.outcomes.values())
        finally:
            for firm in (*dealers, *investors):
                firm.log_out()

    def _heads(self, stage: Stage, cases: Sequence[Case]) -> None:
        """What the developer needs before anything can be tried."""
        who = stage.venue.cast.desk
        lines = [Line(one.name, one.title) for one in cases]
        settings = {
            "SocketConnectHost": "127.0.0.1",
            "SocketConnectPort": str(stage.relay.port),
            "SenderCompID (49)": who.name,
            "TargetCompID (56)": "VENUE",
            "SenderSubID (50)": who.trader,
            "Username (553)": who.name,
            "Password (554)": who.password,
            **(self.clock.words() if self.clock else {}),
        }
        self.telling.begin(lines, settings, stage.venue.order("hand-out", who.name))
        for name, value in settings.items():
            self.telling.print("%-22s %s" % (name, value))

    def _tried(self, stage: Stage, one: Case) -> Outcome:
        line, began = self.telling.lines[len(self.outcomes)], time.monotonic()
        line.outcome = "is tried"
        self.telling.print("%s: %s" % (one.name, one.title))
        stage.begins(one.name, is_first=one.name == FIRST)
        place = stage.place
        outcome, why = self._played(stage, one)
        line.outcome, line.why = outcome, why
        self.telling.print("  %s%s" % (outcome, ": " + why if why else ""))
        said = [text_of(seen) for seen in stage.relay.since(place)]
        stage.ends()
        if outcome == FAILED and one.is_of_session and one.name != FIRST:
            self._probe(stage, one)
        return Outcome(one.name, one.title, outcome, why, time.monotonic() - began, said)

    def _played(self, stage: Stage, one: Case) -> tuple[str, str]:
        """The outcome, and why."""
        try:
            self._can_be_tried(stage, one)
            one.play(stage)
            return PASSED, stage.note
        except Unreachable as why:
            return UNREACHABLE, str(why)
        except Failed as why:
            return FAILED, str(why)
        except NotAnswered as why:
            return UNREACHABLE, "a firm that is played is in another state: %s" % why

    def _can_be_tried(self, stage: Stage, one: Case) -> None:
        """Raises Unreachable where the case would show nothing of its own."""
        lacking = [name for name in one.needs if self.outcomes[name].outcome != PASSED]
        if lacking:
            raise Unreachable("it needs %s, which has not passed" % lacking[0])
        if one.name == FIRST:
            return
        if self.outcomes[FIRST].outcome != PASSED:
            raise Unreachable("the desk has not logged on as it has to")
        if self.broken_by:
            raise Unreachable("the desk's session is not in order after %s" % self.broken_by)
        if not stage.relay.has_line() and one.name != NEXT_DAY:
            self._brought_back(stage)

    def _probe(self, stage: Stage, one: Case) -> None:
        """Whether the other cases can still be tried."""
        stage.begins(one.name, is_first=False)
        self.telling.print("  whether the session is in order all the same:")
        try:
            if not stage.relay.has_line():
                self._brought_back(stage)
            is_sound = is_in_order(stage, ACTS[self.role](stage))
        except (Failed, Unreachable, NotAnswered):
            is_sound = False
        stage.ends()
        if not is_sound:
            self.broken_by = one.name

    def _brought_back(self, stage: Stage) -> None:
        """A case begins with a desk that is logged on."""
        try:
            is_logged_on(stage)
        except Failed as why:
            raise Unreachable("the desk is not logged on: %s" % why) from None
        stage.goes_on()


def text_of(seen: Seen) -> str:
    """A message of the report."""
    lost = " (lost by the case)" if seen.is_lost else ""
    return "%s %s%s" % (seen.by.value, seen.message.bars, lost)
