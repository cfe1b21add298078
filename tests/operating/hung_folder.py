"""A folder on a disk that answers nothing, like one of a machine that is gone."""

import ctypes
import os
from collections.abc import Iterator
from contextlib import contextmanager
from pathlib import Path

import pytest

DETACH = 2  # MNT_DETACH


@contextmanager
def hung(folder: Path) -> Iterator[None]:
    """A file system of FUSE is mounted there, whose program reads no question. At the end all questions are answered by an error."""
    if os.geteuid() != 0:
        pytest.skip("file systems are mounted by root alone")
    libc = ctypes.CDLL(None, use_errno=True)
    try:
        device = os.open("/dev/fuse", os.O_RDWR | os.O_CLOEXEC)
    except OSError as why:
        pytest.skip("this container has no FUSE: %s" % why)
    options = b"fd=%d,rootmode=40000,user_id=0,group_id=0" % device
    place = os.fsencode(folder)
    if libc.mount(b"hung", place, b"fuse", 0, options) != 0:
        fault = os.strerror(ctypes.get_errno())
        os.close(device)
        pytest.skip("this container mounts no file system: %s" % fault)
    try:
        yield
    finally:
        os.close(device)
        libc.umount2(place, DETACH)
