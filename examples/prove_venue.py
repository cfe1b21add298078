#!/usr/bin/env python3
"""Proves and builds the venue's program, crates/rfq_venue/out/rfq_venue, and the libraries with which the
gateway is linked: crates/fix_sessions_c/out/libfix_sessions_c.a, its sessions, and
crates/session_recovery_c/out/libsession_recovery_c.a, their recovery. It tells how far it is.

usage: prove_venue.py [--jobs N]

It copies the crates below these out of the repository, without tests and without wrong bodies. An `rt ci`
over the whole copy proves them side by side, as far as memory allows, and proves, builds and runs the
program. Over what that leaves, the kit's compiler builds each library; `rt lib` would prove every crate below
once more. If the kit's `rt ci` takes names and keeps what it proves, an `rt ci CRATE` proves each crate
before that, as soon as those below it are proved. It takes what an earlier run or a gate has proved,
and what is newer than all its sources. In the end it says whether all are the bytes that
crates/proved.sha256 has for these sources.
"""

import argparse
import os
import re
import shutil
import signal
import subprocess
import sys
import tempfile
import time
from dataclasses import dataclass, field
from pathlib import Path
from typing import IO

ROOT = Path(__file__).resolve().parent.parent
sys.path[:0] = [str(ROOT), str(ROOT / "tools")]

from proved import LIBRARIES, MADE, below, compare, crates_of, made_of

from tests.harness.kit import Libraries

MEMORY_OF_A_CRATE = 3 << 30  # bytes
MINUTES_OF_ONE = 175  # for all, as if on one processor
MORE = 1  # crates at work beyond the processors, for the time in which one can't fill its own
BEHIND, NICEST = 3, 12  # how nice a proof is for each one for which more waits, at most
LOOK, TELL = 0.5, 30.0  # seconds
KEPT = "and that is kept"  # what rt says last where the next run may take what this one proved


def lines_of(name: str) -> int:
    """The lines of a crate's code with its contracts, which tell best how long its proof takes."""
    files = (ROOT / "crates" / name / "src").rglob("*.rt")
    return sum(each.read_bytes().count(b"\n") for each in files)


def ways_up(crates: dict[str, list[str]], names: list[str]) -> dict[str, int]:
    """How many lines each crate has with those on the longest way up: what has to wait for it."""
    ways: dict[str, int] = {}
    for name in reversed(names):
        above = [ways[each] for each in ways if name in crates[each]]
        ways[name] = lines_of(name) + max(above, default=0)
    return ways


def is_newer(file: Path, names: list[str]) -> bool:
    """Whether a program or a library is newer than all that it is made from."""
    if not file.is_file():
        return False
    made = file.stat().st_mtime
    sources = [ROOT / "crates.txt"]
    for name in names:
        for part in ("src", "specs", "proofs"):
            sources += (ROOT / "crates" / name / part).rglob("*")
    return all(source.stat().st_mtime < made for source in sources)


def copy_crates(names: list[str], to: Path) -> None:
    """Copies these crates, and no others, to the top of a repository."""
    lines = (ROOT / "crates.txt").read_text().splitlines(keepends=True)
    named = [line for line in lines if line.partition(":")[0].split()[:1] in [[it] for it in names]]
    (to / "crates.txt").write_text("".join(named))
    shutil.copy2(ROOT / "HANDLES", to)
    rest = shutil.ignore_patterns("out")
    for name in names:
        shutil.copytree(ROOT / "crates" / name, to / "crates" / name, ignore=rest)


def crates_in_memory() -> int:
    memory = os.sysconf("SC_PAGE_SIZE") * os.sysconf("SC_PHYS_PAGES")
    return max(1, memory // MEMORY_OF_A_CRATE)


def takes_names() -> bool:
    """Whether the kit's `rt ci` proves the crates that it is given, and keeps them for the next run."""
    told = subprocess.run(["rt", "help"], capture_output=True, text=True, check=False)
    return re.search(r"^ *rt ci \[?NAME", told.stdout + told.stderr, re.MULTILINE) is not None


def jobs_here() -> int:
    return min(len(os.sched_getaffinity(0)), crates_in_memory())


def clock(seconds: float) -> str:
    return "%d:%02d" % divmod(int(seconds), 60)


@dataclass
class Proof:
    """An `rt ci` of some crates, or of all, that goes on in a process group of its own."""

    name: str
    process: "subprocess.Popen[bytes]"
    output: IO[bytes]
    began: float = field(default_factory=time.monotonic)

    @property
    def took(self) -> float:
        return time.monotonic() - self.began

    def text(self) -> str:
        self.output.seek(0)
        return self.output.read().decode(errors="replace")

    def why(self) -> str:
        """What rt tells of a crate that is not proved: its first faults, or else its last words."""
        lines = self.text().splitlines()
        faults = [line for line in lines if ": error: " in line or line.endswith(": not proved")]
        return "\n".join(faults[:20] or lines[-20:])

    def end(self) -> None:
        if self.process.poll() is None:
            os.killpg(self.process.pid, signal.SIGTERM)
        self.process.wait()
        self.output.close()


def begin(place: Path, name: str, words: list[str], niceness: int = 0) -> Proof:
    output = tempfile.TemporaryFile()
    process = subprocess.Popen(
        ["nice", "-n", str(niceness), "rt", "ci", *words],
        cwd=place,
        stdin=subprocess.DEVNULL,
        stdout=output,
        stderr=subprocess.STDOUT,
        process_group=0,  # and no session: between two of these niceness counts nothing
    )
    return Proof(name, process, output)


class Prover:
    """Proves crates side by side, those first for which most waits."""

    def __init__(
        self, crates: dict[str, list[str]], names: list[str], jobs: int, place: Path
    ) -> None:
        self.crates, self.place, self.count = crates, place, len(names)
        self.most = min(jobs + MORE, crates_in_memory())
        ways = ways_up(crates, names)
        self.waiting = sorted(names, key=lambda name: -ways[name])
        self.ways = ways
        self.running: list[Proof] = []
        self.proved: set[str] = set()
        self.is_kept = True
        self.began = self.told = time.monotonic()

    def tell(self, words: str) -> None:
        self.told = time.monotonic()
        far = (clock(self.told - self.began), len(self.proved), self.count, words)
        print("%6s  %d of %d crates proved; %s" % far, flush=True)

    def begin_ready(self) -> None:
        ready = [name for name in self.waiting if self.proved.issuperset(self.crates[name])]
        for name in ready[: self.most - len(self.running)]:
            self.waiting.remove(name)
            rank = sum(self.ways[each.name] > self.ways[name] for each in self.running)
            self.running.append(begin(self.place, name, [name], min(BEHIND * rank, NICEST)))

    def take_ended(self) -> None:
        for proof in [each for each in self.running if each.process.poll() is not None]:
            text = proof.text()
            if proof.process.returncode != 0:
                sys.exit("%s was not proved:\n%s" % (proof.name, proof.why()))
            self.is_kept = self.is_kept and KEPT in text
            self.running.remove(proof)
            self.proved.add(proof.name)
            self.tell("%s in %s" % (proof.name, clock(proof.took)))
            proof.end()

    def run(self) -> None:
        """Proves them all, or stops where rt can't keep what it proves, which would begin anew."""
        try:
            while self.is_kept and (self.waiting or self.running):
                self.begin_ready()
                time.sleep(LOOK)
                self.take_ended()
                if self.running and time.monotonic() - self.told >= TELL:
                    self.tell("at work: " + ", ".join(each.name for each in self.running))
        finally:
            for proof in self.running:
                proof.end()


def prove_all(place: Path) -> None:
    """Proves what is not proved yet, in rt's own order, and builds and runs what is a program."""
    proof = begin(place, "the program", [])
    told = 0
    try:
        while proof.process.poll() is None:
            time.sleep(LOOK)
            proved = re.findall(r"^rt: (\w+) proved$", proof.text(), re.MULTILINE)
            for name in proved[told:]:
                print("%6s  %s" % (clock(proof.took), name), flush=True)
            told = len(proved)
        if proof.process.returncode != 0:
            sys.exit("the program was not proved:\n%s" % proof.why())
    finally:
        proof.end()


def make_library(place: Path, name: str) -> None:
    """Builds a library over the crates that `rt ci` has built there."""
    told = Libraries.of(place).build_static(name)
    if not made_of(name, place).is_file():
        sys.exit("%s gives no library:\n%s" % (name, "\n".join(told[-20:])))


def keep(place: Path, name: str) -> None:
    """Takes what was made over into this repository."""
    to = made_of(name)
    to.parent.mkdir(exist_ok=True)
    shutil.copy2(made_of(name, place), to)
    to.touch()
    print("%s is proved and built" % to)


def prove(crates: dict[str, list[str]], tops: list[str], jobs: int) -> None:
    """Proves these crates with all below them, and makes of each what it is built into."""
    every = [name for top in tops for name in [*below(crates, top), top]]
    # A program's own proof is part of the last run, which builds it.
    names = [name for name in dict.fromkeys(every) if name not in tops or name in LIBRARIES]
    print("Proving %d crates:" % len(names), flush=True)
    print(
        "about %d minutes the first time, if nothing else runs." % (MINUTES_OF_ONE // jobs),
        flush=True,
    )
    # Outside the repository: rt ci runs at the top of one.
    with tempfile.TemporaryDirectory(prefix="mireseason-") as folder:
        place = Path(folder)
        copy_crates(list(dict.fromkeys(every)), place)
        if takes_names():
            Prover(crates, names, jobs, place).run()
            print("What is a program is proved, built and run:", flush=True)
        prove_all(place)
        for name in [top for top in tops if top in LIBRARIES]:
            make_library(place, name)
        for top in tops:
            keep(place, top)


def main() -> None:
    parser = argparse.ArgumentParser()
    parser.add_argument("--jobs", type=int, default=jobs_here())
    given = parser.parse_args()
    signal.signal(signal.SIGTERM, lambda *_: sys.exit(143))
    crates = crates_of((ROOT / "crates.txt").read_text())
    stands = {top: is_newer(made_of(top), [*below(crates, top), top]) for top in MADE}
    for top in [top for top in MADE if stands[top]]:
        print("%s stands, and is newer than its sources" % made_of(top))
    wanting = [top for top in MADE if not stands[top]]
    if wanting:
        prove(crates, wanting, given.jobs)
    compare()


if __name__ == "__main__":
    main()
