"""What all commands on a log share: their arguments, the log, and the check of it."""

import argparse
from dataclasses import dataclass
from pathlib import Path

from .check import Checker
from .evidence import Evidence
from .faults import Unreadable
from .identity import Asked
from .jobs import Files
from .log import Source
from .outside import KeptCheckpoint, read_outside
from .progress import Progress
from .report import report
from .seal import Sealed, read_seal
from .tables import Form
from .venue import Venue
from .verdict import Verdict


@dataclass(frozen=True)
class Work:
    """The arguments, the log, and a folder that is gone at the end."""

    words: argparse.Namespace
    source: Source
    folder: Path
    venue: Venue

    def checker(self, source: Source | None = None, scratch: Path | None = None) -> Checker:
        """A checker of the log, or of another one with a folder of its own."""
        files = Files(scratch or self.folder)
        return Checker(source or self.source, self.venue, files, self.words.jobs, Progress())


def checked(work: Work) -> Verdict:
    """The verdict, with all that the arguments name to hold the log against."""
    evidence = evidence_of(work)
    checker = work.checker()
    verdict = evidence.judge(work.source, evidence.told_of(checker.check))
    checker.check_end(verdict)  # the evidence, too, is of the log as it was when the check began
    return verdict


def is_good(verdict: Verdict) -> bool:
    """Whether a log is as it should be; where it is not, prints what is found."""
    if not verdict.is_good:
        print("\n".join(report(verdict)))
    return verdict.is_good


def seal_path(work: Work, named: Path | None) -> Path:
    """Where a seal is, or is to be: the named file, else beside the log."""
    return work.source.seal_path if named is None else named


def evidence_of(work: Work) -> Evidence:
    """What the arguments name; it is read first, since it may be none."""
    words = work.words
    check_whole(words)
    asked = Asked(words.date, words.venue_name, words.program_sha256)
    return Evidence(asked, tuple(words.gateway_key), kept_of(words), seal_of(work))


def check_whole(words: argparse.Namespace) -> None:
    """Unreadable where a part of a log is to be held against what is of the whole."""
    if getattr(words, "until", None) is None and getattr(words, "at", None) is None:
        return
    whole = {
        "--gateway-key": words.gateway_key,
        "--checkpoint": words.checkpoint,
        "--key": words.key,
    }
    for option, value in whole.items():
        if value:
            text = "signatures, checkpoints and seals are of the whole log: leave out %s, or"
            raise Unreadable((text + " --until and --at") % option)


def kept_of(words: argparse.Namespace) -> tuple[KeptCheckpoint, ...] | None:
    """The checkpoints of the named files; None where none is named."""
    if not words.checkpoint:
        return None
    return tuple(one for path in words.checkpoint for one in read_outside(path))


def seal_of(work: Work) -> Sealed | None:
    """The seal, where a key is named."""
    words = work.words
    if words.key is None and words.seal is not None:
        raise Unreadable("a seal says nothing without --key, the public key that signed it")
    return None if words.key is None else read_seal(seal_path(work, words.seal), words.key)


def form_of(work: Work) -> Form | None:
    """CSV or JSON, where the arguments say so."""
    words = work.words
    return Form.CSV if words.csv else Form.JSON if words.json else None
