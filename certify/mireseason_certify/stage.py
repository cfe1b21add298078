"""What a case has at hand: the desk's line, the venue, the firms that are played, and the developer."""

from __future__ import annotations

import time
from collections.abc import Callable, Sequence
from dataclasses import dataclass, field
from decimal import Decimal, InvalidOperation

from .clock import MovedClock
from .draw import Draw
from .frames import Message, now
from .own_venue import Bond, OwnVenue
from .played import PlayedFirm
from .relay import By, Fits, Relay, Seen
from .telling import Telling

PROMPT = 10.0  # seconds in which the venue, or the desk by itself, does what it has to
LOOK = 0.2  # seconds between two looks at what the developer says
UNTIL_READ = 1.0  # seconds in which a desk reads what it was sent
SETTLED = 1.0  # seconds in which nothing more may come


class Failed(Exception):
    """The desk did something else than it had to; the text says what was expected and what was seen."""


class Unreachable(Exception):
    """The case can't be tried, since the desk is not where it has to begin."""


@dataclass(frozen=True)
class Request:
    """A request that the desk was shown, or that it has made."""

    id: str  # QuoteReqID (131), as the desk reads it
    own_id: str  # as its investor reads it
    bond: Bond
    side: str  # Side (54) of the investor
    quantity: int

    @property
    def price_tag(self) -> int:
        """OfferPx (133) where the investor buys, BidPx (132) where it sells."""
        return 133 if self.side == "1" else 132

    def change(self, is_dealer: bool) -> int:
        """What a trade of it changes in a position: the buyer has more."""
        buys = (self.side == "1") is not is_dealer
        return self.quantity if buys else -self.quantity


@dataclass
class Stage:
    """For one run of all cases."""

    relay: Relay
    venue: OwnVenue
    draw: Draw
    telling: Telling
    dealers: Sequence[PlayedFirm]
    investors: Sequence[PlayedFirm]
    patience: float  # seconds that the developer has for a task
    case: str = ""
    place: int = 0  # of the relay's messages: where the case begins
    note: str = ""  # what the report says of a case that has passed
    clock: MovedClock | None = None
    open: list[tuple[PlayedFirm, str]] = field(default_factory=list)  # requests, by 131

    @property
    def desk(self) -> str:
        return self.venue.cast.desk.name

    @property
    def soon(self) -> float:
        """Seconds to the deadline of a request that the desk has to quote before it expires."""
        return 5.0 + 0.6 * self.patience

    def begins(self, case: str, is_first: bool) -> None:
        """What was seen before is another case's; the first one has all."""
        self.case, self.place = case, 0 if is_first else self.relay.count()
        self.note = ""

    def ends(self) -> None:
        """Faults are over, and no request stays open."""
        self.telling.done()
        self.relay.forget_losses()
        self.relay.refuse(False)
        self.relay.pause(False)
        self.relay.let_go()
        for investor, own_id in self.open:
            investor.send("AJ", [(693, self.draw.name("end")), (131, own_id), (694, "6")])
        self.open.clear()

    def restart(self) -> None:
        """The venue is killed, and comes back; the firms that are played log on again."""
        self.venue.kill()
        for firm in (*self.dealers, *self.investors):
            firm.log_out()
        self.venue.start()
        for firm in (*self.dealers, *self.investors):
            firm.log_on()

    def opens_next_day(self) -> str:
        """The clock is moved, the venue opens its next day, and the firms that are played begin it. Returns its date."""
        assert self.clock
        for firm in (*self.dealers, *self.investors):
            firm.log_out()
        self.relay.pause(True)  # a Logon that no venue takes would use up a number of the desk's
        self.clock.to_next_day()
        for firm in (*self.dealers, *self.investors):
            firm.begins_day()
            firm.log_on()
        self.relay.pause(False)
        return now()[:8]

    def closed(self, own_id: str) -> None:
        """A request that is open no more."""
        self.open = [one for one in self.open if one[1] != own_id]

    # The developer.

    def task(self, text: str, do: str, may_refuse: bool = False, **needs: object) -> None:
        """Tells what the desk has to do now."""
        act = {"do": do, **{k: str(v) for k, v in needs.items()}}
        self.telling.say(self.case, text, act, may_refuse=may_refuse)

    def position(self, bond: Bond) -> int:
        """The position that the developer reads off the desk."""
        text = "Enter the position that your desk has in %s: bought less sold, in face value."
        self.telling.say(self.case, text % bond.id, {"do": "position", "bond": bond.id}, asks=True)
        said = self.telling.answer(self.patience)
        self.telling.done()
        try:
            return int((said or "").replace(",", "").replace("_", ""))
        except ValueError:
            raise Failed("no position was entered for %s, but %r" % (bond.id, said)) from None

    def holds(self, bond: Bond, expected: int) -> None:
        """Compares the desk's position with what it has to be. The desk may not have read yet what it was just sent: so whoever
        reads the position off is asked to look again, once."""
        held = self.position(bond)
        if held != expected:
            time.sleep(UNTIL_READ)
            held = self.position(bond)
        if held != expected:
            raise Failed(
                "the desk's position in %s is %d, and has to be %d" % (bond.id, held, expected)
            )

    def holds_once(self, bond: Bond, change: int) -> None:
        """The trade of which the desk was told twice. It may be lost with the desk's store, and is not to count twice."""
        held = self.position(bond)
        if held == 0:
            self.note = "the desk's trades are lost with its store"
        elif held != change:
            text = "the desk's position in %s is %d, and has to be %d: the copy (97=Y) is no other trade"
            raise Failed(text % (bond.id, held, change))

    # What is said on the line.

    def desk_sends(self, what: str, fits: Fits, seconds: float | None = None) -> Message:
        """A message of the desk that has to come, within the developer's patience."""
        return self.desk_sent(what, fits, seconds).message

    def desk_sent(self, what: str, fits: Fits, seconds: float | None = None) -> Seen:
        seen = self.relay.wait(By.DESK, fits, self.place, seconds or self.patience)
        if seen is None:
            raise Failed("the desk has not sent %s" % what)
        return seen

    def desk_sends_or_refuses(self, what: str, fits: Fits) -> Message | None:
        """A message of the desk, or None where the developer says that the desk sends no such thing."""
        until = time.monotonic() + self.patience
        while time.monotonic() < until:
            seen = self.relay.wait(By.DESK, fits, self.place, LOOK)
            if seen is not None:
                return seen.message
            if self.telling.has_refused():
                self.note = "the desk refuses it by itself"
                return None
        raise Failed("the desk has not sent %s" % what)

    def venue_sends(self, what: str, fits: Fits, seconds: float = PROMPT) -> Message:
        """A message of the venue that has to reach the desk."""
        seen = self.relay.wait(By.VENUE, fits, self.place, seconds)
        if seen is None:
            raise Failed(
                "the venue was to send %s, which does not reach the desk%s"
                % (what, self._rejects())
            )
        return seen.message

    def _rejects(self) -> str:
        """The last message of the desk's in the case that was rejected (35=3), or not taken (35=j)."""
        said = [one.message for one in self.relay.since(self.place) if one.by is By.VENUE]
        told = [one.bars for one in said if one.kind in ("3", "j")]
        return "; it has sent %s" % told[-1] if told else ""

    def sends_nothing(self, what: str, fits: Fits, seconds: float = SETTLED) -> None:
        """A message of the desk that must not come."""
        seen = self.relay.wait(By.DESK, fits, self.place, seconds)
        if seen is not None:
            raise Failed("the desk has sent %s: %s" % (what, seen.message.bars))

    def goes_on(self) -> None:
        """What was seen until now is done with."""
        self.place = self.relay.count()

    def until(self, what: str, is_so: Callable[[], bool], seconds: float = PROMPT) -> None:
        end = time.monotonic() + seconds
        while not is_so():
            if time.monotonic() > end:
                raise Failed("it has to be so that %s, and is not" % what)
            time.sleep(0.05)


def same_price(text: str, price: Decimal) -> bool:
    """Whether a field has this price, however it is written."""
    try:
        return Decimal(text) == price
    except InvalidOperation:
        return False


def is_reply(of: str, value: str, status: str, reason: str = "") -> Fits:
    """A QuoteStatusReport (35=AI) with this value in a field, QuoteStatus (297) and reason (300)."""
    tag = int(of)

    def fits(one: Message) -> bool:
        return (
            one.kind == "AI"
            and one.get(tag) == value
            and one.get(297) == status
            and (not reason or one.get(300) == reason)
        )

    return fits


def is_kind(kind: str, **fields: str) -> Fits:
    """A message of this type whose fields, named as `_131`, have these values."""
    wanted = {int(name[1:]): value for name, value in fields.items()}
    return lambda one: one.kind == kind and all(one.get(t) == v for t, v in wanted.items())
