"""Drives a session by lines: crates/session_cases/src/desk.rt has the calls and their answers."""

from dataclasses import dataclass
from pathlib import Path

from tests.sessions.calls import DATE, ORDERS, Denial, Session, Turn
from tests.sessions.case_file import bytes_of

MORNING = 9 * 3_600_000
MOST_WANTS = 40
PAST_THE_LAST = 999_999_999
MOST_MESSAGE = 65_536
SOH = b"\x01"
HIDDEN = (b"49", b"56", b"34", b"52")  # fields that an answer leaves out
ENDINGS = ("", "ends", "parts")
NOTICES = ("", "credentials", "refused", "lost store", "rejected", "dead")


@dataclass
class Kept:
    """What is kept under a number."""

    frame: bytes
    first: int  # the moment
    is_copy: bool
    is_own: bool  # a Reject or a 35=j of the session

    @property
    def type(self) -> bytes:
        return self.frame.split(SOH)[2]


def framed(body: bytes, version: bytes = b"FIXT.1.1") -> bytes:
    front = b"8=%s\x019=%d\x01%s" % (version, len(body), body)
    return b"%s10=%03d\x01" % (front, sum(front) % 256)


def with_end(fields: bytes) -> bytes:
    return fields if fields.endswith(SOH) else fields + SOH


def time_of(moment: int) -> str:
    seconds, millis = divmod(moment, 1000)
    minutes, second = divmod(seconds, 60)
    return "%02d:%02d:%02d.%03d" % (minutes // 60, minutes % 60, second, millis)


def moment_of(text: str) -> int:
    clock, _, millis = text.partition(".")
    hours, minutes, seconds = map(int, clock.split(":"))
    return ((hours * 60 + minutes) * 60 + seconds) * 1000 + int((millis + "000")[:3])


def shown(front: str, frame: bytes) -> str:
    """The fields of a frame behind a front."""
    pieces = frame.split(SOH)[2:-2]
    fields = [piece for piece in pieces if piece.partition(b"=")[0] not in HIDDEN]
    return " ".join([front, *(["|".join(map(printed, fields))] if fields else [])])


def printed(text: bytes) -> str:
    return "".join(
        "\\\\" if byte == 0x5C else chr(byte) if 0x20 <= byte < 0x7F else "\\x%02x" % byte
        for byte in text
    )


class Desk:
    def __init__(self, library: Path) -> None:
        self.session = Session(library)
        self.session.moment = MORNING
        self.denial: Denial | None = None
        self.kept: dict[int, Kept] = {}

    def call(self, line: str) -> list[str]:
        """Makes a call, and says what it answers."""
        name, _, rest = line.partition(" ")
        if name == "repeat":
            return self.repeat(rest)
        if name in ORDERS:
            return self.order(name)
        if name in ("came", "wrong", "foreign", "bare", "long", "late", "bytes"):
            return self.come(name, rest)
        answer: list[str] = getattr(self, "call_" + name)(rest)
        return answer

    def repeat(self, rest: str) -> list[str]:
        first, last, line = rest.split(" ", 2)
        answers = [
            self.call(line.replace("<n>", str(number)))
            for number in range(int(first), int(last) + 1)
        ]
        return answers[-1]

    def order(self, order: str) -> list[str]:
        copies = self.renumber() if order == "reset" else 0
        return self.done(self.session.ordered(order, copies), True)

    def come(self, name: str, rest: str) -> list[str]:
        connection, _, fields = rest.partition(" ")
        if name == "bytes":
            data = bytes_of(fields)
        elif name == "bare":
            data = framed(bytes_of(fields))
        elif name in ("long", "late"):
            data = framed(self.with_long_field(name, fields))
        else:
            data = framed(
                self.with_header(fields), b"FIX.4.4" if name == "foreign" else b"FIXT.1.1"
            )
        turn = self.session.came(int(connection), data[:MOST_MESSAGE], name != "wrong", self.denial)
        return self.done(turn, True)

    def call_at(self, rest: str) -> list[str]:
        self.session.moment = moment_of(rest)
        return []

    def call_desk(self, rest: str) -> list[str]:
        self.session.desk = rest.encode()
        return []

    def call_deny(self, rest: str) -> list[str]:
        reason, name, text = rest.split(" ", 2)
        self.denial = Denial(int(reason), b"" if name == "-" else name.encode(), text.encode())
        return []

    def call_take(self, _rest: str) -> list[str]:
        self.denial = None
        return []

    def call_logout(self, rest: str) -> list[str]:
        return self.done(self.session.log_out(rest.encode()), True)

    def call_give(self, rest: str) -> list[str]:
        return self.done(self.session.given(framed(with_end(bytes_of(rest)))), False)

    def call_gone(self, rest: str) -> list[str]:
        self.session.gone(int(rest))
        return []

    def call_tick(self, _rest: str) -> list[str]:
        return self.done(self.session.tick(), True)

    def call_flow(self, _rest: str) -> list[str]:
        answer: list[str] = []
        for _ in range(MOST_WANTS):
            wanted = self.session.wants()
            if wanted.kind in (0, 4):
                return answer
            answer += self.call_tick("") if wanted.kind == 3 else self.hand(wanted.number)
        return [*answer, ".."]

    def call_wants(self, _rest: str) -> list[str]:
        wanted = self.session.wants()
        word = ("nothing", "again %d", "fresh %d", "tick", "logon %d")[wanted.kind]
        return [word % wanted.number if "%" in word else word]

    def call_cut(self, rest: str) -> list[str]:
        found = self.session.next(bytes_of(rest))
        what = ("waits", "message of %d" % found.len, "too long")[found.kind]
        return ["skips %d, %s" % (found.skip, what)]

    def call_numbers(self, _rest: str) -> list[str]:
        return ["%d %d" % (self.session.state.day.expected, self.session.state.day.next)]

    def hand(self, number: int) -> list[str]:
        """What is kept under a number is handed in."""
        behind = min((other for other in self.kept if other > number), default=PAST_THE_LAST)
        kept = self.kept.get(number, Kept(b"", 0, False, False))
        turn = self.session.hands(behind, kept.frame, kept.first, kept.is_copy)
        return self.done(turn, False)

    def renumber(self) -> int:
        """What the firm is not known to have gets new numbers; how many that is."""
        had = self.session.state.day.had
        left = [
            kept
            for number, kept in sorted(self.kept.items())
            if number > had and not kept.is_own and kept.type != b"35=0"
        ]
        self.kept = {
            number: Kept(kept.frame, kept.first, True, False) for number, kept in enumerate(left, 2)
        }
        return len(left)

    def done(self, turn: Turn, is_own: bool) -> list[str]:
        """A turn is done, and answered."""
        told, answer = turn.told, []
        if told.drops_rejects:
            answer.append("drops rejects")
            self.kept = {number: kept for number, kept in self.kept.items() if not kept.is_own}
        if told.first.is_kept:
            answer.append(shown("keeps %d" % told.first.number, turn.kept))
            kept = Kept(turn.kept, self.session.moment, False, False)
            kept.is_own = is_own and kept.type in (b"35=3", b"35=j")
            self.kept[told.first.number] = kept
        for sent, data in ((told.first, turn.first), (told.second, turn.second)):
            if data:
                answer.append(shown("%d %d" % (told.connection, sent.number), data))
        if told.takes:
            answer.append("takes %d" % told.takes)
        if told.ending:
            answer.append("%s %d" % (ENDINGS[told.ending], told.connection))
        if told.notice:
            answer.append("tells " + NOTICES[told.notice])
        return answer

    def with_long_field(self, name: str, rest: str) -> bytes:
        """Fields with a long one behind them, or before them."""
        length, _, fields = rest.partition(" ")
        front, behind = ("35=S", with_end(bytes_of(fields))) if name == "late" else (fields, b"")
        return self.with_header(front) + b"5000=%s\x01" % (b"x" * int(length)) + behind

    def with_header(self, fields: str) -> bytes:
        """The fields of a message, with those of the header that they lack."""
        first, _, rest = fields.partition("|")
        front = [first]
        front += [] if "|49=" in fields else ["49=DLR1"]
        front += [] if "|56=" in fields else ["56=VENUE"]
        now = "%s-%s" % (DATE.decode(), time_of(self.session.moment))
        front += [] if "|52=" in fields else ["52=" + now]
        return with_end(bytes_of("|".join([*front, rest])))
