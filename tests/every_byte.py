#!/usr/bin/env python3
"""Writes the cases of each byte in a field: crates/all_cases/data/commands-bytes.cases, to standard output.

usage: every_byte.py            writes them
       every_byte.py PROGRAM ..  compares `PROGRAM .. live --marks` with them

For each value of a byte a dealer says by `hex` one message with that byte in a field. The answers follow from the rules
of docs/FORMATS.md alone. SOH ends the field, so that what follows is no field, and the message is no frame and dropped.
Any other byte belongs to the value, and the value is an identifier (117), or is ignored (58). The message is a cancel
(35=Z, 298=5) of a quote that the dealer does not have, so its answer goes to the dealer alone.
"""

import subprocess
import sys
from collections.abc import Callable, Iterator

OfByte = Callable[
    [int, int], tuple[bytes, str]
]  # of a byte and a number: the message, and its answer
SOH = b"\x01"
FIRST_LINE = 15  # of the steps: behind the configuration and its `%%`
CONFIGURATION = """version = 1
date = "20250314"
[[dealer]]
name = "DLR1"
traders = ["T1"]
quotes = 4
exposure = 10000000
[[investor]]
name = "INV1"
traders = ["T8"]
requests = 3
open = 2
quantity = 5000000
%%
"""


def frame(body: bytes) -> bytes:
    front = b"8=FIXT.1.1" + SOH + b"9=%d" % len(body) + SOH + body
    return front + b"10=%03d" % (sum(front) % 256) + SOH


def cancel(number: int, quote: bytes, more: bytes) -> bytes:
    fields = [
        b"35=Z",
        b"49=DLR1",
        b"56=VENUE",
        b"34=%d" % number,
        b"52=20250314-09:00:00",
        b"50=T1",
        b"298=5",
        b"117=" + quote,
    ]
    return frame(b"".join(field + SOH for field in fields) + more)


def is_in_identifier(byte: int) -> bool:
    return 0x21 <= byte <= 0x7E and byte != 0x7C


def of_identifier(byte: int, number: int) -> tuple[bytes, str]:
    """The message, and the type and the fields of its answer."""
    message = cancel(number, b"a%c" % byte, b"")
    if is_in_identifier(byte):
        return message, f"AI 117=a{chr(byte)}|297=9"
    return message, f"3 45={number}|371=117|372=Z|373=6"


def of_ignored_field(byte: int, number: int) -> tuple[bytes, str]:
    return cancel(number, b"none", b"58=x%cy" % byte + SOH), "AI 117=none|297=9"


def told(of_byte: OfByte) -> tuple[list[str], list[str]]:
    """What the dealer says, and what is printed of it."""
    steps: list[str] = []
    answers: list[str] = []
    number = 1
    for byte in range(256):
        message, answer = of_byte(byte, number)
        steps.append(f"hex DLR1 09:00:00 {message.hex().upper()}")
        if byte != SOH[0]:
            answers.append(f"DLR1 {number} 09:00:00.000 {answer}")
            number += 1
        answers.append(f"done {FIRST_LINE + byte}")
    return steps, answers


CASES: dict[str, OfByte] = {
    "each byte in an identifier": of_identifier,
    "each byte in a field that is ignored": of_ignored_field,
}


def case(name: str) -> Iterator[str]:
    steps, answers = told(CASES[name])
    yield f"case {name}"
    yield "<< VENUE"
    yield from ("< " + step for step in steps)
    yield "run live --marks"
    yield "> 0"
    yield from ("> " + answer.replace("\\", "\\\\") for answer in answers)
    yield ""


def write() -> None:
    print(
        "# Each value of a byte, 00 to FF, in a field of a message that is said digit by digit: what `live` does, and"
    )
    print("# that no other firm is sent anything. Written by tests/every_byte.py, from the rules.")
    print("place commands\n")
    print("block VENUE")
    print("".join(f"< {line}\n" for line in CONFIGURATION.splitlines()))
    print("\n".join(line for name in CASES for line in case(name)).rstrip("\n"))


def holds(program: list[str], name: str) -> bool:
    """Whether a program prints what a case says, and nothing else."""
    steps, answers = told(CASES[name])
    day = CONFIGURATION + "".join(step + "\n" for step in steps)
    run = subprocess.run(
        [*program, "live", "--marks"], input=day, capture_output=True, encoding="ascii", check=False
    )
    printed = run.stdout.splitlines()
    if (run.returncode, printed) == (0, answers):
        return True
    print(f"{name}: status {run.returncode}, {len(printed)} lines of {len(answers)}")
    for line, answer in [pair for pair in zip(printed, answers) if pair[0] != pair[1]][:5]:
        print(f"{line!r} where {answer!r} should stand")
    return False


def main() -> int:
    if not sys.argv[1:]:
        write()
        return 0
    good = sum(holds(sys.argv[1:], name) for name in CASES)
    print(f"{good} passed, {len(CASES) - good} failed")
    return 0 if good == len(CASES) else 1


if __name__ == "__main__":
    sys.exit(main())
