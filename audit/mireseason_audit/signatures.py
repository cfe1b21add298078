"""Checks the signatures of a log: by its checkpoints a gateway has signed where the log stood."""

from collections.abc import Iterable, Iterator, Sequence
from dataclasses import dataclass
from hashlib import sha256
from pathlib import Path

from cryptography.hazmat.primitives.asymmetric.ed25519 import Ed25519PublicKey

from . import items
from .door import DOOR
from .faults import Unreadable
from .findings import Finding
from .log import Log
from .outside import KeptCheckpoint
from .records import NO_NAME, Checkpoint, Day
from .signing import is_signed, public_key


SIGNATURES = (items.SIGNATURES,)  # what a finding belongs to
NO_SIGNATURE = bytes(64)  # of what stands before the first checkpoint


@dataclass(frozen=True)
class Signed:
    """What was found of the signatures of a log."""

    checkpoints: int
    last: Checkpoint | None  # the last one whose signature is right
    findings: tuple[Finding, ...]

    @property
    def words(self) -> str:
        """In one line."""
        if self.findings:
            return "%d checkpoints, NOT AS THEY SHOULD BE" % self.checkpoints
        assert self.last is not None
        text = "%d checkpoints, each by a gateway; no entry follows the last, of entry %d"
        return text % (self.checkpoints, self.last.place)


def read_keys(paths: Iterable[Path]) -> list[Ed25519PublicKey]:
    """The public keys of the gateways."""
    return [public_key(path, "gateway's key") for path in paths]


def text_of(day: Day, one: Checkpoint) -> bytes:
    """What was signed, as gateway/schema.sql has it."""
    lines = [
        "mireseason log 4",
        "venue %s" % (day.venue or NO_NAME),
        "day %s" % day.date,
        "configuration %s" % sha256(day.configuration).hexdigest(),
        "term %d" % one.term,
        "entry %d %s" % (one.place, one.hash.hex()),
        "connection %d %s" % (one.event, one.event_hash.hex()),
        "checkpoint %d" % one.number,
    ]
    return "".join(line + "\n" for line in lines).encode()


def chained_text_of(day: Day, one: Checkpoint, before: bytes) -> bytes:
    """The same since form 6, with the last seal and the signature of the one before."""
    _, _, rest = text_of(day, one).partition(b"\n")
    place, _, number = rest.rpartition(b"checkpoint ")
    seal = "seal %d %s\n" % (one.seal, one.notes_hash.hex())
    more = "before %s\nend %s\n" % (before.hex(), "yes" if one.is_end else "no")
    parts = b"mireseason log 6\n", place, seal.encode(), b"checkpoint ", number, more.encode()
    return b"".join(parts)


def texts_of(log: Log, day: Day) -> Iterator[tuple[Checkpoint, bytes | None]]:
    """Each checkpoint, and what was signed: None of one behind a gap, of which nobody can tell."""
    before: Checkpoint | None = None
    for one in log.checkpoints():
        number = 1 if before is None else before.number + 1
        if not log.numbers_checkpoints:
            yield one, text_of(day, one)
        elif one.number == number:
            mark = NO_SIGNATURE if before is None else before.signature
            yield one, chained_text_of(day, one, mark)
        else:
            yield one, None
        before = one


def check_signatures(log: Log, day: Day, keys: Sequence[Ed25519PublicKey]) -> Signed:
    """Each signature of the log, and what follows the last."""
    if not log.has_seals:
        raise Unreadable("the log is of a form in which gateways did not sign")
    count, whole = 0, -1  # the last entry that a right signature covers
    end: Checkpoint | None = None
    findings: list[Finding] = []
    for one, text in texts_of(log, day):
        count += 1
        end = one
        if text is None:
            continue
        if is_signed(text, one.signature, keys):
            whole = one.place if not findings else whole
        elif not findings:
            findings.append(unsigned_checkpoint(one, whole))
    findings += unsigned(log, end)
    return Signed(count, end, tuple(findings))


def unsigned_checkpoint(one: Checkpoint, whole: int) -> Finding:
    """One whose signature is that of no key: it, or what it covers, was changed."""
    text = "checkpoint %d is signed by none of the keys: the log was changed here"
    if whole + 1 < one.place:
        text += ", or from entry %d on" % (whole + 1)
    return Finding("entries", text % one.number, one.place, named_items=SIGNATURES)


def unsigned(log: Log, end: Checkpoint | None) -> Iterator[Finding]:
    """What no checkpoint covers."""
    place, event = (-1, 0) if end is None else (end.place, end.event)
    entries, events = log.last_place() - place, log.last_event() - event
    if entries > 0:
        text = "%d entr%s the last checkpoint: no gateway has signed them"
        words = text % (entries, "y follows" if entries == 1 else "ies follow")
        yield Finding("entries", words, place + 1, named_items=SIGNATURES)
    if events > 0:
        words = "no gateway has signed the rows from %d on" % (event + 1)
        yield Finding(DOOR, words, named_items=SIGNATURES)


def unsigned_outside(
    kept: Iterable[KeptCheckpoint], keys: Sequence[Ed25519PublicKey]
) -> Iterator[Finding]:
    """The first checkpoint that was kept outside and is signed by none of the keys."""
    for one in kept:
        if not is_signed(one.text, one.signature, keys):
            yield Finding("cut", "%s is signed by none of the keys" % one.source, one.place)
            return
