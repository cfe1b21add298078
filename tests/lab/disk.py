"""A host's disk: a file system of its own in an image, which a test can fill, and whose power it can cut."""

import errno
import fcntl
import os
import pwd
import shutil
import struct
from collections.abc import Iterator
from contextlib import contextmanager
from pathlib import Path

from tests.lab.run import run, tried

# Of ext4 and xfs: the file system ends at once and writes back nothing.
SHUT_DOWN, WRITE_NOTHING = 0x8004587D, 2

PARTS = (16 << 20, 1 << 20, 64 << 10, 4 << 10)


def has_room(file: int, size: int, part: int) -> bool:
    """Makes a file longer, if the disk has room for that."""
    try:
        os.posix_fallocate(file, size, part)
    except OSError as fault:
        if fault.errno == errno.ENOSPC:
            return False
        raise
    return True


class Disk:
    """ext4 in a file. What was not synchronised is not in the file but by chance, so that after a
    cut of power there is what was synchronised, and little else."""

    def __init__(self, image: Path, mount: Path, megabytes: int) -> None:
        self.image, self.mount, self.megabytes = image, mount, megabytes

    @property
    def ballast(self) -> Path:
        return self.mount / "ballast"

    def make(self, folders: dict[str, str]) -> None:
        """With these folders in it, each of a user."""
        self.mount.mkdir(parents=True, exist_ok=True)
        self.image.unlink(missing_ok=True)
        with self.image.open("wb") as file:
            file.truncate(self.megabytes * 1024 * 1024)
        run("mkfs.ext4", "-q", "-F", "-m", "0", str(self.image))
        self.attach()
        self.mount.chmod(0o755)
        for name, user in folders.items():
            (self.mount / name).mkdir(mode=0o700)
            owner = pwd.getpwnam(user)
            os.chown(self.mount / name, owner.pw_uid, owner.pw_gid)

    def attach(self) -> None:
        run("mount", "-o", "loop,commit=300,noatime", str(self.image), str(self.mount))

    def fill(self) -> None:
        """Leaves no room."""
        size = 0
        with self.ballast.open("wb") as file:
            for part in PARTS:
                while has_room(file.fileno(), size, part):
                    size += part

    def empty(self) -> None:
        """For good: what is gone stays gone after a cut of power, too."""
        self.ballast.unlink(missing_ok=True)
        with self.opened() as place:
            os.fsync(place)

    def cut_power(self) -> None:
        """From here on nothing is written. The host's processes have to be ended before it is
        attached again."""
        with self.opened() as place:
            fcntl.ioctl(place, SHUT_DOWN, struct.pack("I", WRITE_NOTHING))

    @contextmanager
    def opened(self) -> Iterator[int]:
        """Its topmost folder."""
        place = os.open(self.mount, os.O_RDONLY)
        try:
            yield place
        finally:
            os.close(place)

    def attach_again(self) -> None:
        run("umount", str(self.mount))
        self.attach()

    def remove(self) -> None:
        if os.path.ismount(self.mount) and not tried("umount", str(self.mount)):
            tried("umount", "--lazy", str(self.mount))
        self.image.unlink(missing_ok=True)
        shutil.rmtree(self.mount, ignore_errors=True)
