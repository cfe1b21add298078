"""What a log is checked against beside the venue's rules: what was expected of it, its gateways'
signatures, checkpoints that were kept outside of it, and a supervisor's seal.
"""

from collections.abc import Callable, Iterator
from dataclasses import dataclass, replace
from pathlib import Path
from typing import TypeVar

from . import items
from .faults import Unreadable, Wrong
from .findings import Finding
from .identity import Asked
from .log import Log, Source
from .notes import acts
from .looks import WRONG
from .outside import KeptCheckpoint, compared, is_of, missing_rows
from .seal import KeptLog, Sealed, sealed
from .seal import compared as compared_seal
from .verdict import Verdict

Result = TypeVar("Result")
UNSIGNED = "a checkpoint that was kept outside is NOT SIGNED by any of the keys"
LOSS = "log accept-loss"  # the act of an operator


@dataclass(frozen=True)
class Evidence:
    """All that was named, read and verified as far as it can be without the log."""

    asked: Asked = Asked()
    keys: tuple[Path, ...] = ()
    kept: tuple[KeptCheckpoint, ...] | None = None  # None: no file was named
    seal: Sealed | None = None

    def told_of(self, check: Callable[[], Result]) -> Result:
        """What a check gives. Where the log can't be read as one, the checkpoints that were kept
        outside may still say what it had.
        """
        try:
            return check()
        except Wrong as fault:
            last = max(self.kept or (), key=lambda one: one.place, default=None)
            if last is None:
                raise
            text = "%s; %s shows that it had entries up to %d"
            raise Wrong(text % (fault, last.source, last.place)) from None

    def judge(self, source: Source, verdict: Verdict) -> Verdict:
        """The verdict with what the evidence says."""
        verdict.identity.asked = self.asked
        verdict.findings += verdict.identity.findings()
        with source.open() as log:
            if self.keys:
                self._judge_signatures(log, verdict)
            if self.kept is not None:
                self._judge_kept(log, verdict, list(self.kept))
            if self.seal is not None:
                self._judge_seal(log, verdict, self.seal)
        return verdict

    def _judge_signatures(self, log: Log, verdict: Verdict) -> None:
        from .signatures import check_signatures, read_keys, unsigned_outside

        keys = read_keys(self.keys)
        signed = check_signatures(log, verdict.day, keys)
        verdict.findings += signed.findings
        verdict.signed = signed.words
        verdict.findings += unsigned_outside(self.kept or (), keys)

    def _judge_kept(self, log: Log, verdict: Verdict, kept: list[KeptCheckpoint]) -> None:
        if not log.has_seals:
            raise Unreadable("the log is of a form in which gateways did not sign")
        found = list(compared(log, verdict.day, kept))
        if log.numbers_checkpoints:
            found += missing_rows(log.checkpoints(), kept)
        if found:
            found = list(with_loss(log, found))
        verdict.findings += found
        own = [one for one in kept if is_of(one, verdict.day)]
        last = max(own, key=lambda one: one.place, default=None)
        if found or last is None:
            verdict.uncut = WRONG[items.CUT]
        elif any(items.CUT in one.items for one in verdict.findings):
            verdict.uncut = UNSIGNED
        else:
            self._judge_reach(verdict, last)

    def _judge_reach(self, verdict: Verdict, last: KeptCheckpoint) -> None:
        verdict.reach = min(last.place, verdict.last_place)
        verdict.uncut = self._kept_words(last, verdict.last_place)

    def _kept_words(self, last: KeptCheckpoint, end: int) -> str:
        text = "the log has all up to entry %d of %d, as %s says"
        words = text % (last.place, end, last.source)
        if last.place < end:
            words += "; nothing from outside says what came after that"
        return words if self.keys else words + "; its signature was not checked: no --gateway-key"

    def _judge_seal(self, log: Log, verdict: Verdict, seal: Sealed) -> None:
        now = sealed(log, verdict.day, verdict.chained)
        found = list(compared_seal(seal, now, KeptLog(log)))
        verdict.findings += found
        verdict.seal = seal_words(verdict, bool(found))


def with_loss(log: Log, found: list[Finding]) -> Iterator[Finding]:
    """The findings, each with what an operator gave up, if one did."""
    losses = [act for act in acts(log) if act.what.startswith(LOSS)]
    text = '; entry %d: %s accepted the loss of a log\'s end, because "%s"'
    told = "".join(text % (act.place, act.who, act.because) for act in losses)
    yield from (replace(one, text=one.text + told) for one in found)


def seal_words(verdict: Verdict, is_other: bool) -> str:
    if is_other:
        return "signed by the key; the log is NOT AS IT WAS SEALED"
    if any(items.ENTRIES in one.items for one in verdict.findings):
        return "signed by the key; the last entry is that, and others are NOT AS THEY WERE"
    return "signed by the key, and the log is as it was sealed"
