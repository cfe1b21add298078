#!/usr/bin/env python3
"""Tries what a cut of power leaves on a host's disk.

usage: disks.py [--images FOLDER]

What was synchronised is there after a cut, what was not is gone, and a disk that was full and was
emptied is empty.
"""

import argparse
import os
import signal
import sys
import tempfile
from pathlib import Path

from tests.lab.disk import Disk

MEGABYTES = 32
USER = "postgres"
WORDS = b"words\n"


def write(place: Path, synced: bool) -> None:
    with place.open("wb") as file:
        file.write(WORDS)
        file.flush()
        if synced:
            os.fsync(file.fileno())


def cut(disk: Disk) -> None:
    disk.cut_power()
    disk.attach_again()


def synced_stays(disk: Disk) -> bool:
    place = disk.mount / USER / "synced"
    write(place, synced=True)
    cut(disk)
    return place.exists() and place.read_bytes() == WORDS


def unsynced_goes(disk: Disk) -> bool:
    place = disk.mount / USER / "unsynced"
    write(place, synced=False)
    cut(disk)
    return not place.exists()


def takes_more(disk: Disk) -> bool:
    try:
        write(disk.mount / USER / "more", synced=True)
    except OSError:
        return False
    return True


def full_takes_no_more(disk: Disk) -> bool:
    disk.fill()
    return not takes_more(disk)


def emptied_stays_empty(disk: Disk) -> bool:
    """Where all that filled it was synchronised."""
    os.sync()
    disk.empty()
    cut(disk)
    return not disk.ballast.exists() and takes_more(disk)


def main() -> int:
    parser = argparse.ArgumentParser()
    parser.add_argument("--images", type=Path, help="where the disk's image is")
    words = parser.parse_args()
    # The disk is taken away also where it is interrupted.
    signal.signal(signal.SIGTERM, lambda *_: sys.exit(143))
    failed = 0
    tries = (synced_stays, unsynced_goes, full_takes_no_more, emptied_stays_empty)
    with tempfile.TemporaryDirectory(dir=words.images) as folder:
        disk = Disk(Path(folder) / "image", Path(folder) / "disk", MEGABYTES)
        try:
            disk.make({USER: USER})
            for each in tries:
                if not each(disk):
                    print("  %s: not so" % each.__name__)
                    failed += 1
        finally:
            disk.remove()
    print("%d passed, %d failed" % (len(tries) - failed, failed))
    return 1 if failed else 0


if __name__ == "__main__":
    sys.exit(main())
