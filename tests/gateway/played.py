"""Plays days one after another, each drawn by a seed, and tells what is wrong with each. Their scripts share its
options.
"""

import argparse
import shutil
import tempfile
from collections.abc import Callable
from pathlib import Path

from tests.gateway.midnight import TEST, wait_for_room

TOLD_FAULTS = 20  # of a day

# By the words, in a folder of the day's own, of this seed: what is wrong in the end.
OneDay = Callable[[argparse.Namespace, Path, int], list[str]]


def parser_of(damages: str, usual: int) -> argparse.ArgumentParser:
    """Of the programs and of the days; how often something is damaged has a name of its own."""
    parser = argparse.ArgumentParser()
    parser.add_argument("gateway", type=Path)
    parser.add_argument("player", type=Path)
    for name, count in (("--days", 3), ("--messages", 2000), (damages, usual), ("--seed", 1)):
        parser.add_argument(name, type=int, default=count)
    parser.add_argument("--keep", type=Path, help="where the files of days with a fault are put")
    parser.add_argument("venue", nargs="+")
    return parser


def play_all(words: argparse.Namespace, one_day: OneDay, needs: float = TEST) -> int:
    """Plays each day, which takes so many seconds at most, and tells what is wrong and how many passed; the status."""
    failed = 0
    for seed in range(words.seed, words.seed + words.days):
        wait_for_room("day %d" % seed, needs)
        with tempfile.TemporaryDirectory(prefix="mrt") as name:
            folder = Path(name)
            folder.chmod(0o755)  # a database reads there as another user
            faults = one_day(words, folder, seed)
            failed += bool(faults)
            tell(seed, faults)
            if faults and words.keep:
                shutil.copytree(folder, words.keep / ("day%d" % seed), dirs_exist_ok=True)
    print("%d passed, %d failed" % (words.days - failed, failed))
    return 1 if failed else 0


def tell(seed: int, faults: list[str]) -> None:
    told = faults[:TOLD_FAULTS]
    if len(faults) > TOLD_FAULTS:
        told.append("%d faults in all" % len(faults))
    for fault in told:
        print("day %d: %s" % (seed, fault), flush=True)
