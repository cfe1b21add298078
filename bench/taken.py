"""What a process has taken so far, as the kernel counts it."""

import os
from pathlib import Path

TICKS = os.sysconf("SC_CLK_TCK")


def processor_seconds(pid: int) -> float:
    words = Path("/proc/%d/stat" % pid).read_text().rsplit(")", 1)[1].split()
    return (int(words[11]) + int(words[12])) / TICKS


def written_bytes(pid: int) -> int:
    """What it has had its disk write."""
    lines = Path("/proc/%d/io" % pid).read_text().splitlines()
    return int(dict(line.split(": ") for line in lines)["write_bytes"])


def most_memory(pid: int) -> int:
    """The most bytes that it had in memory."""
    lines = Path("/proc/%d/status" % pid).read_text().splitlines()
    return 1024 * int(next(line for line in lines if line.startswith("VmHWM:")).split()[1])


def children(pid: int) -> list[int]:
    files = Path("/proc/%d/task/" % pid).glob("*/children")
    return [int(word) for file in files for word in file.read_text().split()]
