"""Inputs as lines and parts, with their limits and faults."""

from collections.abc import Iterator
from dataclasses import dataclass
from typing import BinaryIO

from .configuration import ConfigFault, Configuration, read_configuration

MOST_BYTES = 16_777_216
DIVIDER = b"%%"


class Fault(Exception):
    """A fault of the program, as it is told on standard error."""


@dataclass(frozen=True)
class Part:
    """Lines between two dividers, and the number of the first."""

    first: int
    lines: tuple[bytes, ...]


def lines_of(data: bytes) -> list[bytes]:
    lines = data.split(b"\n")
    return lines[:-1] if lines[-1] == b"" else lines


def parts_of_input(stream: BinaryIO, count: int) -> list[Part]:
    """The whole input, which has a limit, as so many parts."""
    data = stream.read(MOST_BYTES + 1)
    if len(data) > MOST_BYTES:
        raise Fault("input")
    lines, parts, first = lines_of(data), [], 1
    for number, line in enumerate(lines, 1):
        if line == DIVIDER:
            parts.append(Part(first, tuple(lines[first - 1 : number - 1])))
            first = number + 1
    parts.append(Part(first, tuple(lines[first - 1 :])))
    if len(parts) != count:
        raise Fault("parts")
    return parts


def configuration_of(lines: tuple[bytes, ...]) -> Configuration:
    try:
        return read_configuration(b"".join(line + b"\n" for line in lines))
    except ConfigFault as fault:
        raise Fault("config: " + fault.args[0]) from None


def numbered_lines(stream: BinaryIO) -> Iterator[tuple[int, bytes]]:
    """The lines of an input as they come, without their line feeds. Only a line has a limit, and not the input."""
    number = 0
    while line := stream.readline(MOST_BYTES + 1):
        line = line.removesuffix(b"\n")
        if len(line) > MOST_BYTES:
            raise Fault("input")
        number += 1
        yield number, line


def read_head(lines: Iterator[tuple[int, bytes]]) -> Configuration:
    """The configuration in front of the steps, which are left to be read."""
    head: list[bytes] = []
    size = 0
    for _, line in lines:
        if line == DIVIDER:
            return configuration_of(tuple(head))
        head.append(line)
        size += len(line) + 1
        if size > MOST_BYTES:
            raise Fault("input")
    raise Fault("parts")
