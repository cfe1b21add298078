"""What the FIX session of every desk has to be able to do. A dealer's desk and an investor's each show it by an act of their
own.
"""

from __future__ import annotations

from dataclasses import dataclass
from statistics import median
from typing import Protocol

from .case import Cases
from .frames import Message, moment_of, number_of
from .own_venue import Bond
from .relay import By, Fits, Seen
from .stage import Failed, Stage, is_kind

SLACK = 2.0  # seconds that a Heartbeat may be late, beside a fifth of its interval
ANSWER = 15.0  # seconds in which a TestRequest is answered: the venue waits for a minute
OUT = 2.0  # seconds for which a firm is suspended
FEW = 3  # Logons of a desk that is refused meanwhile, from which on it is seen whether it waits
LEAST_PAUSE = 0.2  # seconds that it waits, as a rule, from the end of a line to its next Logon
# The sum and the length, PossDupFlag, SendingTime, OrigSendingTime, and what was read meanwhile.
OF_ONE_SENDING = frozenset((8, 9, 10, 43, 52, 122, 369))


class Act(Protocol):
    """What a desk does by its role, to show that its session is in order."""

    def __init__(self, stage: Stage) -> None:
        """Has the desk do what it has to do before all else, while it is logged on."""

    def prepare(self, stage: Stage) -> None:
        """What has to be there before the desk can do it."""

    def tell(self, stage: Stage) -> None:
        """The developer's task."""

    def fits(self, message: Message) -> bool:
        """Whether it is the desk's message of this act."""

    def is_taken(self, stage: Stage) -> None:
        """Fails where the venue has not answered it as it has to."""

    @staticmethod
    def trades(stage: Stage) -> Trade:
        """The desk has traded, and is told so."""

    @staticmethod
    def trades_away(stage: Stage) -> Trade:
        """The desk has traded, and has no line on which it could be told."""


@dataclass(frozen=True)
class Trade:
    """A trade of the desk, as the venue tells of it."""

    bond: Bond
    change: int  # of the desk's position
    fits: Fits  # the message that tells of it


@dataclass(frozen=True)
class SessionCases:
    """The cases of the session, shown by one kind of act."""

    act: type[Act]
    acts: tuple[str, ...]  # the cases of the market that show the act
    trade: str  # the one that shows a trade
    has_clock: bool = False  # whether the clock can be moved to the next day

    def cases(self) -> Cases:
        """All, in their order. The Logon is always the first that is tried."""
        case, acts, gap = Cases(is_of_session=True), self.acts, "gap-to-the-desk"
        case("Logs on, and answers the TestRequest that follows")(self.logon)
        case("Sends a Heartbeat as often as its Logon says")(self.heartbeat)
        case("Logs out, and is answered", acts)(self.logout)
        case("Goes on with its numbers after its line was cut", acts)(self.lost_line)
        case("Is refused with a wrong password, and logs on with the right one", ("logout",))(
            self.password
        )
        case("Asks for a message of the venue that was lost, and acts on it", acts)(
            self.gap_to_the_desk
        )
        case(
            "Sends again as it was, or fills the gap of, a message of its own that was lost", acts
        )(self.gap_of_the_desk)
        case(
            "Gets a message again during which its line was cut", ("lost-line", "gap-of-the-desk")
        )(self.lost_with_its_line)
        case("Takes what came while it was away", ("lost-line", gap))(self.away)
        case("Books the trade that was made while it was away", ("away", self.trade))(
            self.trade_while_away
        )
        case("Goes on after the venue was killed", ("lost-line",))(self.restart)
        case("Is suspended, and logs on once that is over", ("lost-line",))(self.suspended)
        case(
            "Comes back with a lost store, by the operator's reset", ("lost-line", gap, self.trade)
        )(self.lost_store)
        case("Copes with the end of the day", ("suspended",))(self.day_end)
        if self.has_clock:
            case("Begins the next day with new numbers", ("day-end",))(self.next_day)
        return case

    def logon(self, stage: Stage) -> None:
        stage.task("Start your desk: log on.", "log on")
        first = stage.desk_sends("a Logon (35=A) on port %d" % stage.relay.port, is_kind("A"))
        is_as_printed(stage, first)
        for tag, value, what in ((1137, "9", "DefaultApplVerID"), (98, "0", "EncryptMethod")):
            if first.get(tag) != value:
                raise Failed("%s (%d) of the Logon is not %s: %s" % (what, tag, value, first.bars))
        begins_at_1(first)
        is_let_in(stage)

    def heartbeat(self, stage: Stage) -> None:
        interval = float(last_logon(stage).message.get(108) or 30)
        limit = 1.2 * interval + SLACK
        text = "Leave your desk alone for up to %.0f s: it has to send two Heartbeats."
        stage.task(text % (2 * limit), "nothing")
        first = stage.desk_sent("a Heartbeat (35=0)", is_kind("0", _112=""), limit)
        stage.goes_on()
        second = stage.desk_sent("a second Heartbeat (35=0)", is_kind("0", _112=""), limit)
        apart = seconds_between(first, second)
        if apart < 0.5 * interval:
            text = "Heartbeats come %.1f s apart; the Logon's HeartBtInt (108) is %.0f"
            raise Failed(text % (apart, interval))

    def password(self, stage: Stage) -> None:
        text = "End your session, log on with the password `%s` once, and then with your own."
        stage.task(text % WRONG, "wrong password", password=WRONG)
        stage.desk_sends("a Logon with the wrong password", is_kind("A", _554=WRONG))
        mine = stage.venue.cast.desk.password
        stage.desk_sends("a Logon with the right password", is_kind("A", _554=mine))
        is_logged_on(stage)
        works(stage, self.act(stage))

    def gap_to_the_desk(self, stage: Stage) -> None:
        act, other = self.act(stage), self.act(stage)
        stage.goes_on()
        place = stage.place
        stage.relay.lose(By.VENUE, lambda one: not one.is_of_session)
        act.prepare(stage)
        other.prepare(stage)  # something follows, which shows the gap
        stage.until("a message of the venue is lost", stage.relay.has_lost)
        lost = next(one for one in stage.relay.since(place) if one.is_lost).message
        asked = stage.desk_sends("a ResendRequest (35=2)", is_kind("2"))
        begin = number_of(asked.get(7))
        if begin is None or begin > lost.number:
            raise Failed("it does not ask for %d: %s" % (lost.number, asked.bars))
        stage.venue_sends("it again", lambda one: one.is_again and one.number == lost.number)
        show(stage, act)

    def gap_of_the_desk(self, stage: Stage) -> None:
        act = self.act(stage)
        act.prepare(stage)
        stage.relay.lose(By.DESK, act.fits)
        act.tell(stage)
        lost = stage.desk_sends("its message", act.fits)
        stage.task("Do nothing: your message was lost, and the session mends that.", "nothing")
        stage.venue_sends("a ResendRequest (35=2)", is_kind("2"), self._until_noticed(stage))
        again(stage, act, lost)

    def lost_line(self, stage: Stage) -> None:
        stage.relay.cut()
        is_logged_on(stage, "Let your desk log on again: its line was cut.")
        keeps_its_numbers(stage)
        works(stage, self.act(stage))

    def lost_with_its_line(self, stage: Stage) -> None:
        act = self.act(stage)
        act.prepare(stage)
        stage.relay.lose(By.DESK, act.fits)
        act.tell(stage)
        lost = stage.desk_sends("its message", act.fits)
        stage.relay.cut()
        is_logged_on(stage, "Let your desk log on again: its line was cut.")
        keeps_its_numbers(stage)
        again(stage, act, lost)

    def away(self, stage: Stage) -> None:
        act = self.act(stage)
        stage.goes_on()
        stage.relay.refuse(True)
        stage.relay.cut()
        act.prepare(stage)
        stage.relay.refuse(False)
        is_logged_on(stage, "Let your desk log on again.")
        show(stage, act)

    def trade_while_away(self, stage: Stage) -> None:
        trade = self.act.trades_away(stage)
        stage.goes_on()
        stage.relay.refuse(False)
        is_logged_on(stage, "Let your desk log on again: it has traded meanwhile.")
        stage.venue_sends("that it has traded", trade.fits)
        stage.holds(trade.bond, trade.change)

    def restart(self, stage: Stage) -> None:
        act = self.act(stage)
        act.prepare(stage)
        stage.restart()
        is_logged_on(stage, "Let your desk log on again: the venue was ended and is back.")
        keeps_its_numbers(stage)
        show(stage, act)

    def suspended(self, stage: Stage) -> None:
        stage.goes_on()
        place = stage.place
        stage.venue.order("suspend", stage.desk, "--because", "a conformance case")
        try:
            stage.task("Do nothing: the operator has suspended your firm.", "nothing")
            stage.until("the desk's line ends", lambda: not stage.relay.has_line(), 15)
            stage.sends_nothing("a message of the market", lambda one: not one.is_of_session, OUT)
        finally:
            stage.venue.order("resume", stage.desk)
        is_logged_on(stage, "Let your desk log on again: the suspension is over.")
        waits_between_logons(stage, place)
        works(stage, self.act(stage))

    def logout(self, stage: Stage) -> None:
        stage.task("Log out, and then log on again.", "log out")
        stage.desk_sends("a Logout (35=5)", is_kind("5"))
        stage.venue_sends("its own Logout", is_kind("5"))
        stage.until("the desk's line ends", lambda: not stage.relay.has_line(), 15)
        is_logged_on(stage, "Log on again.")
        keeps_its_numbers(stage)
        works(stage, self.act(stage))

    def lost_store(self, stage: Stage) -> None:
        trade = self.act.trades(stage)  # nothing of the desk shows that it has what it was told
        text = "Stop your desk, delete the store of its session, and start it again."
        stage.task(text, "lose the store")
        first = stage.desk_sent("a Logon with number 1", is_kind("A", _34="1"))
        stage.until("the venue refuses it", lambda: not stage.relay.has_line(first.line))
        stage.goes_on()
        stage.venue.order("reset-session", stage.desk, "--because", "a conformance case")
        text = (
            "The operator has reset your session: log on with number 1 (a fresh store, or 141=Y)."
        )
        logs_on(stage, text, "begin numbers at 1")
        stage.venue_sends(
            "the trade again, as a copy (97=Y)", lambda one: one.get(97) == "Y" and trade.fits(one)
        )
        stage.holds_once(trade.bond, trade.change)
        works(stage, self.act(stage))

    def day_end(self, stage: Stage) -> None:
        stage.goes_on()
        place = stage.place
        stage.venue.order("end-day", "--now", "--because", "a conformance case")
        stage.task("Do nothing: the venue's day has ended.", "nothing")
        stage.venue_sends("a Logout (35=5)", is_kind("5"), stage.patience)
        stage.until("the desk's line ends", lambda: not stage.relay.has_line(), 15)
        stage.sends_nothing("a message of the market", lambda one: not one.is_of_session, OUT)
        waits_between_logons(stage, place)

    def next_day(self, stage: Stage) -> None:
        stage.goes_on()
        date = stage.opens_next_day()
        stage.task("Let your desk log on: it is the next day.", "log on")
        first = stage.desk_sends(
            "a Logon (35=A) of the next day",
            lambda one: one.kind == "A" and one.get(52).startswith(date),
        )
        begins_at_1(first)
        is_let_in(stage)
        stage.telling.done()
        works(stage, self.act(stage))

    def _until_noticed(self, stage: Stage) -> float:
        """Seconds until the desk's next message, which shows that one is missing."""
        return 1.2 * float(last_logon(stage).message.get(108) or 30) + 10


WRONG = "not-the-password"


def logs_on(stage: Stage, text: str, do: str = "log on") -> None:
    """The desk's Logon is accepted, and it answers the TestRequest behind that."""
    stage.task(text, do)
    stage.desk_sends("a Logon (35=A)", is_kind("A"))
    is_let_in(stage)


def is_as_printed(stage: Stage, logon: Message) -> None:
    """The venue would end the connection without a word."""
    who = stage.venue.cast.desk
    for tag, value, name in (
        (49, who.name, "SenderCompID"),
        (56, "VENUE", "TargetCompID"),
        (553, who.name, "Username"),
        (554, who.password, "Password"),
    ):
        if logon.get(tag) != value:
            raise Failed("%s (%d) of the Logon is not the one that was printed" % (name, tag))
    if not 1 <= (number_of(logon.get(108)) or 0) <= 300:
        raise Failed("HeartBtInt (108) of the Logon is none of 1 to 300: %s" % logon.bars)


def is_let_in(stage: Stage) -> None:
    """The venue answers the Logon, and the desk the TestRequest that follows."""
    stage.venue_sends("that the Logon is accepted", is_kind("A"), stage.patience)
    stage.venue_sends("a TestRequest (35=1)", is_kind("1"))
    place = stage.place

    def answers(one: Message) -> bool:
        """The venue asks again where its first TestRequest is in a gap, which it fills."""
        asked = [seen.message for seen in stage.relay.since(place) if seen.by is By.VENUE]
        names = {it.get(112) for it in asked if it.kind == "1"}
        return one.kind == "0" and one.get(112) in names

    stage.desk_sends(
        "a Heartbeat with the TestRequest's 112", answers, min(ANSWER, 2 * stage.patience)
    )


def is_logged_on(stage: Stage, text: str = "Let your desk log on.") -> None:
    """The desk logs on behind what was seen so far of the case, if it has not by itself."""
    logs_on(stage, text)
    stage.telling.done()


def is_in_order(stage: Stage, act: Act) -> bool:
    """Whether a session in which a case has failed can go on."""
    try:
        works(stage, act)
    except Failed:
        return False
    return True


def waits_between_logons(stage: Stage, place: int) -> None:
    """A desk that is refused for a while does not try without end. Its own pauses are looked at: how often it comes to try
    is also a matter of the venue.
    """
    pauses = stage.relay.pauses(place)
    if len(pauses) >= FEW and median(pauses) < LEAST_PAUSE:
        text = "the desk has tried to log on %d times, mostly %.2f s after it was refused: let it wait between"
        raise Failed(text % (len(pauses), median(pauses)))


def keeps_its_numbers(stage: Stage) -> None:
    """Its last Logon goes on with the numbers of the day."""
    logon = last_logon(stage).message
    if logon.get(141) == "Y" or logon.number == 1:
        raise Failed("the desk has begun its numbers anew: %s" % logon.bars)


def begins_at_1(logon: Message) -> None:
    """The first Logon of a day."""
    if logon.number != 1:
        raise Failed("the day's first Logon has number %d (34), not 1" % logon.number)


def seconds_between(first: Seen, second: Seen) -> float:
    """By the desk's own clock, where it writes 52 to the millisecond: on a busy machine two messages may be read at once that
    were not sent so.
    """
    sent = [moment_of(one.message.get(52)) for one in (first, second)]
    if sent[0] and sent[1]:
        return (sent[1] - sent[0]).total_seconds()
    return second.moment - first.moment


def last_logon(stage: Stage) -> Seen:
    """The last Logon of the desk."""
    all_of_it = [one for one in stage.relay.since(0) if one.by is By.DESK]
    return [one for one in all_of_it if one.message.kind == "A"][-1]


def show(stage: Stage, act: Act) -> None:
    """The desk does what was prepared, and the venue takes it."""
    act.tell(stage)
    stage.desk_sends("its message", act.fits)
    act.is_taken(stage)


def works(stage: Stage, act: Act) -> None:
    """A whole act: the session is in order."""
    act.prepare(stage)
    show(stage, act)


def again(stage: Stage, act: Act, lost: Message) -> None:
    """The lost message is sent again as it was, and no other in its place; or its number is filled: a desk may refuse to send
    what is stale."""

    def mends(one: Message) -> bool:
        return one.number == lost.number and one.is_again and one.kind in (lost.kind, "4")

    mended = stage.desk_sends("number %d again, with 43=Y" % lost.number, mends)
    if mended.kind == "4":
        return
    if content(mended) != content(lost):
        text = "number %d comes again with other content: %s; it was %s"
        raise Failed(text % (lost.number, mended.bars, lost.bars))
    act.is_taken(stage)
    stage.sends_nothing(
        "the same under another number, though %d was sent again" % lost.number,
        lambda one: act.fits(one) and one.number != lost.number,
    )


def content(message: Message) -> list[tuple[int, str]]:
    """What stays the same where a message is sent again."""
    return sorted(field for field in message.fields if field[0] not in OF_ONE_SENDING)
