#!/usr/bin/env python3
"""A second implementation of the venue's program, written from its rules alone.

usage: program.py [alone [--frames] [--notes]] | replay [FIRM] [--frames] [--live] [--notes] | due DEALER [--live]
                  | due --investor INVESTOR [--live] | dues [--live] | compare DEALER [--live]
                  | compare --investor INVESTOR [--live] | blotter FIRM [--live]
                  | live [--frames] [--marks] [--notes]
"""

import os
import sys
from collections.abc import Callable, Iterable
from dataclasses import dataclass
from typing import BinaryIO

from .commands import Streams, do_alone, do_blotter, do_compare, do_due, do_dues, do_replay
from .inputs import Fault
from .live import live


class Usage(Exception):
    """Wrong arguments."""


@dataclass(frozen=True)
class Command:
    """What does it (None for `live`), its flags, and the fewest and the most words behind it."""

    act: Callable[..., Iterable[bytes]] | None
    flags: tuple[str, ...]
    fewest: int
    most: int


COMMANDS = {
    "alone": Command(do_alone, ("--frames", "--notes"), 0, 0),
    "replay": Command(do_replay, ("--frames", "--live", "--notes"), 0, 1),
    "due": Command(do_due, ("--live", "--investor"), 1, 1),
    "dues": Command(do_dues, ("--live",), 0, 0),
    "compare": Command(do_compare, ("--live", "--investor"), 1, 1),
    "blotter": Command(do_blotter, ("--live",), 1, 1),
    "live": Command(None, ("--frames", "--marks", "--notes"), 0, 0),
}


def read_arguments(words: list[str]) -> tuple[Command | None, list[bool], list[bytes]]:
    """The command, its flags and its words; None where help is asked."""
    if any(word in ("--help", "-h") for word in words):
        return None, [], []
    name, *rest = words or ["alone"]
    if name not in COMMANDS:
        raise Usage
    if rest and rest[-1] == "--":
        rest.pop()
    command = COMMANDS[name]
    flags, words = [word for word in rest if word.startswith("-")], [
        word for word in rest if not word.startswith("-")
    ]
    if any(flag not in command.flags for flag in flags) or len(set(flags)) < len(flags):
        raise Usage
    if not command.fewest <= len(words) <= command.most:
        raise Usage
    return command, [flag in flags for flag in command.flags], [word.encode() for word in words]


def run(words: list[str], stream: BinaryIO, out: BinaryIO, err: BinaryIO) -> int:
    """Does what the words say with the input; answers the status."""
    try:
        command, flags, names = read_arguments([os.fsencode(word).decode() for word in words])
    except (Usage, UnicodeDecodeError):
        err.write(b"wrong arguments\n")
        return 2
    if command is None:
        out.write((__doc__ or "").encode())
        return 0
    try:
        if command.act is None:
            frames, marks, notes = flags
            live(stream, frames, marks, notes, out, err)
        else:
            out.write(
                b"".join(line + b"\n" for line in command.act(Streams(stream, err), *flags, *names))
            )
        return 0
    except Fault as fault:
        err.write(str(fault).encode() + b"\n")
        return 1


def main() -> None:
    status = run(sys.argv[1:], sys.stdin.buffer, sys.stdout.buffer, sys.stderr.buffer)
    sys.stdout.flush()
    sys.exit(status)


if __name__ == "__main__":
    main()
