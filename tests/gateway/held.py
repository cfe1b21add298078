"""Compares what firms received and what the gateway logged with the venue's own answers over the log."""

from collections.abc import Iterable, Iterator

from tests.gateway.firm import SESSION_TAGS, VENUE_MOMENT, VENUE_NUMBER, Firm, Received
from tests.gateway.ledger import Ledger, Mark, Told, fields_of
from tests.model.frames import read_frame, read_time

MOST_LATE = 120_000  # milliseconds that a clock line may be late: the gateway may have been away, and its venue be fed again
BEHIND_MOMENT = {
    b"S": 537,
    b"AI": 297,
    b"R": 453,
}  # the field in front of which 60 stands; it is the last one of others
APPLICATION_VERSION = 1128
REF_NUMBER = 45  # of a Reject: the number of the message that is meant


def venue_body(frame: bytes) -> tuple[tuple[int, bytes], ...]:
    return tuple(item for item in fields_of(frame) if item[0] not in SESSION_TAGS)


def used_numbers(ledger: Ledger, firm: str) -> list[int]:
    """The session's numbers of the messages that the venue counted, in order: one that it drops has no place here."""
    counted = [entry for entry in ledger.messages_of(firm) if is_counted(entry.message)]
    return [entry.session_number for entry in counted]


def is_counted(message: bytes) -> bool:
    """Whether the venue takes the message's number, which the gateway gave it."""
    fields = read_frame(message)
    return fields is not None and sum(tag == 34 for tag, _ in fields) == 1


def as_received(frame: bytes, numbers: list[int]) -> tuple[tuple[int, bytes], ...]:
    """The body that the firm should have got: that of the venue, where a Reject names the session's number."""
    body = venue_body(frame)
    if fields_of(frame)[0] != (35, b"3"):
        return body
    return tuple(
        (tag, b"%d" % numbers[int(value) - 1]) if tag == REF_NUMBER else (tag, value)
        for tag, value in body
    )


def is_well_placed(message: Received, told: tuple[int, bytes] | None) -> bool:
    """Whether 1181 is the first field after the header, 60 stands where the dictionary has it, and what is told beside it last."""
    tags = [tag for tag, _ in message.fields if tag not in SESSION_TAGS]
    if told is not None and tags.pop() != told[0]:
        return False
    behind = [*tags, None][tags.index(VENUE_MOMENT) + 1]
    return tags[0] == VENUE_NUMBER and behind == BEHIND_MOMENT.get(message.kind)


def differences(firm: Firm, answers: list[bytes], ledger: Ledger, told: Told) -> Iterator[str]:
    """What is missing, different, or under two session numbers; nothing where all is as it has to be. told has the fields that
    the firm is told beside the venue's messages."""
    numbers = used_numbers(ledger, firm.name)
    by_number: dict[int, Received] = {}
    for message in firm.received:
        known = by_number.setdefault(message.venue_number, message)
        if known.session_number != message.session_number:
            yield "%s: %d came under the session's %d and %d" % (
                firm.name,
                message.venue_number,
                known.session_number,
                message.session_number,
            )
        if known.body != message.body:
            yield "%s: %d came with two bodies: %r, %r" % (
                firm.name,
                message.venue_number,
                known.raw,
                message.raw,
            )
    for number, frame in enumerate(answers, 1):
        if number not in by_number:
            yield "%s: %d is missing: %r" % (firm.name, number, frame)
            continue
        message, beside = by_number.pop(number), [told[number]] if number in told else []
        if (message.kind, message.body) != (
            fields_of(frame)[0][1],
            (*as_received(frame, numbers), *beside),
        ):
            yield "%s: %d is another: %r came, %r is the venue's" % (
                firm.name,
                number,
                message.raw,
                frame,
            )
        elif message.value(VENUE_MOMENT) != dict(fields_of(frame))[52]:
            yield "%s: %d has another 60 than the venue's 52" % (firm.name, number)
        elif not is_well_placed(message, told.get(number)):
            yield "%s: %d has its 1181 or its 60 in another place: %r" % (
                firm.name,
                number,
                message.raw,
            )
    for number, message in by_number.items():
        yield "%s: %d is none of the venue's: %r" % (firm.name, number, message.raw)
    sessions = {message.session_number: message.venue_number for message in firm.received}
    if len(sessions) != len({message.venue_number for message in firm.received}):
        yield "%s: one number of the session has two messages of the venue" % firm.name


def unlogged(firm: Firm, ledger: Ledger) -> Iterator[str]:
    """Messages that the firm's engine has sent, the gateway has not rejected, and the log lacks, or has twice."""
    numbers = [entry.number for entry in ledger.messages_of(firm.name)]
    if len(set(numbers)) != len(numbers):
        yield "%s: a number of the session stands twice in the log" % firm.name
    rejected = {message.value(REF_NUMBER) for message in firm.admin if message.kind == b"3"}
    for name, number in firm.sent.items():
        if number not in numbers and b"%d" % number not in rejected:
            yield "%s: %s, the session's %d, is not in the log" % (firm.name, name, number)


def altered(firm: Firm, ledger: Ledger) -> Iterator[str]:
    """Messages that stand in the log with other fields than the firm's engine was told to send, which may put them in another
    order; and a log that does not have them in the session's order."""
    messages = {entry.session_number: entry.message for entry in ledger.messages_of(firm.name)}
    if list(messages) != sorted(messages):
        yield "%s: the log has the session's messages in another order: %r" % (
            firm.name,
            list(messages),
        )
    for name, number in firm.sent.items():
        if number in messages and told_fields(fields_of(messages[number])) != told_fields(
            firm.told[name]
        ):
            yield "%s: %s, the session's %d, is %r in the log, and was %r" % (
                firm.name,
                name,
                number,
                messages[number],
                firm.told[name],
            )


def told_fields(fields: Iterable[tuple[int, bytes]]) -> list[tuple[int, bytes]]:
    """35 and what is neither of the session nor put there by the engine."""
    return sorted(
        item
        for item in fields
        if item[0] == 35 or item[0] not in (*SESSION_TAGS, APPLICATION_VERSION)
    )


def unkept(ledger: Ledger, answers: dict[str, list[bytes]]) -> Iterator[str]:
    """Firms of which the log has other messages than the venue gives over the log."""
    for firm in {*ledger.sent, *answers}:
        if ledger.sent.get(firm, []) != list(enumerate(answers.get(firm, []), 1)):
            yield "%s: `sent` is not what the venue gives" % firm


def clock_faults(ledger: Ledger, marks: list[Mark]) -> Iterator[str]:
    """Clock lines that nothing is due for, and deadlines that no clock line came for."""
    last = 0
    for entry, before in zip(ledger.entries[1:], marks):
        now, due = milliseconds(entry.moment), None if before.deadline is None else milliseconds(
            before.deadline
        )
        if now < last:
            yield "place %d has an earlier moment than the one before" % entry.place
        if entry.is_clock and (due is None or due > now):
            yield "place %d: a clock line, and nothing is due before %s" % (
                entry.place,
                before.deadline,
            )
        if not entry.is_clock and due is not None and due + MOST_LATE < now:
            yield "place %d: no clock line came for the deadline %s" % (
                entry.place,
                before.deadline,
            )
        last = now


def milliseconds(moment: str) -> int:
    found = read_time(moment.encode())
    assert found is not None, moment
    return found


def count_of(firm: Firm) -> int:
    return len({message.venue_number for message in firm.received})
