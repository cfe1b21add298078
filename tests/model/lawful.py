"""Checks days on threads against the rules: is there an order of their actions that gives these bytes?

It draws days, half of them so that a few words are fought over; `PROGRAM day --frames` runs each on
threads. A search (`orders.py`), which knows nothing of how the threads went, gets what each firm was
sent. The order that it finds is played on a venue of the model, which has to send the same.
"""

import subprocess
from collections.abc import Iterator
from dataclasses import dataclass

from .actions import Inboxes, Message, message_of, played
from .compare import joined
from .configuration import Configuration, read_configuration
from .days import Day, Draw
from .frames import SOH, read_frame
from .lines import StepReader
from .orders import Search
from .replay import CLOCK, Venue

# ---------------------------------------------------------------- days


def lines_of(day: Day) -> list[bytes]:
    return [line for line in day.lines if not line.startswith(b"turn ")]


def fought_over(draw: Draw) -> tuple[list[str], list[bytes]]:
    """A day on which the dealers' messages of a few requests come many times, and the investor's hits too."""
    dealers, hits = ["DLR%d" % n for n in range(1, draw.randint(2, 4))], draw.randint(3, 8)
    head = ["version = 1", 'date = "20250314"', "[[bond]]", 'id = "BONDA0000001"']
    for name in dealers:
        head += [
            "[[dealer]]",
            'name = "%s"' % name,
            'traders = ["T1"]',
            "quotes = 4096",
            "exposure = 1000000000000",
        ]
    head += [
        "[[investor]]",
        'name = "INV1"',
        'traders = ["T1"]',
        "requests = 8",
        "open = 8",
        "quantity = 5000000",
    ]
    requests, lines = draw.randint(1, 3), []
    for n in range(1, requests + 1):
        asked = draw.sample(dealers, draw.randint(1, len(dealers)))
        parties = "".join("|448=%s|447=D|452=35" % name for name in asked)
        lines.append(
            "say INV1 T1 09:00:00 R 131=a%d|146=1|48=BONDA0000001|22=4|54=%d|38=1000|126=20250314-09:00:30|453=%d%s"
            % (n, draw.of(1, 2), len(asked), parties)
        )
    for n in range(1, hits + 1):
        kind = draw.choice(
            ["694=1|117=Q%d" % draw.randint(1, hits)] * 5
            + ["694=6|131=a%d" % draw.randint(1, requests)]
        )
        lines.append("say INV1 T1 09:00:10 AJ 693=h%d|%s" % (n, kind))
    for name in dealers:
        lines += list(pressed(draw, name, requests))
    if draw.chance(0.5):
        lines += ["clock 09:00:%d" % draw.of(10, 30)] * draw.randint(1, 2)
    return head, [line.encode() for line in lines]


def pressed(draw: Draw, name: str, requests: int) -> Iterator[str]:
    for n in range(1, draw.randint(8, 24)):
        request = draw.randint(1, requests)
        price = draw.of("99.5", "99.5", "99.4375", "99.53125")
        until = draw.of("", "", "", "|62=20250314-09:00:10")
        yield draw.choice(
            [
                "say %s T1 09:00:05 S 117=q%d|131=R%d|48=BONDA0000001|22=4|13%d=%s%s"
                % (name, n, request, draw.of(2, 3), price, until)
            ]
            * 6
            + [
                "say %s T1 09:00:05 Z 117=q%d|298=5" % (name, draw.randint(1, n)),
                "say %s T1 09:00:05 Z 298=4" % name,
            ]
            + ["say %s T1 09:00:05 AG 131=R%d|658=10" % (name, request)]
        )


def day_of(seed: int) -> tuple[list[str], list[bytes]]:
    draw = Draw(seed)
    if seed % 2:
        return fought_over(draw)
    day = Day(draw)
    return day.head, lines_of(day)


def inboxes_of(configuration: Configuration, lines: list[bytes]) -> Inboxes:
    reader = StepReader(configuration)
    inboxes: Inboxes = {actor: [] for actor in [*range(len(configuration.firms)), CLOCK]}
    for line in lines:
        for step in reader.steps(line):
            inboxes[CLOCK if step[0] == "expire" else step[1]].append(step)
    return inboxes


def sent_in(configuration: Configuration, output: bytes) -> list[list[Message]]:
    """What each firm was sent; ValueError where a message is no frame, or has not the number of its place."""
    wanted: list[list[Message]] = [[] for _ in configuration.firms]
    for line in output.splitlines():
        name, _, frame = line.partition(b" ")
        fields, firm = read_frame(frame.replace(b"|", SOH)), configuration.firm(name)
        if firm is None:
            raise ValueError(line.decode())
        messages = wanted[firm]
        if fields is None or fields[3] != (34, b"%d" % (len(messages) + 1)):
            raise ValueError(line.decode())
        messages.append(message_of(fields))
    return wanted


@dataclass(frozen=True)
class Run:
    """A run of a day on threads: what came of each actor, and what each firm was sent."""

    configuration: Configuration
    inboxes: Inboxes
    sent: list[list[Message]]

    def messages(self) -> int:
        return sum(map(len, self.sent))

    def venue(self) -> Venue:
        """The venue of the model after an order of the actions that sends the firms the same; ValueError where there is none."""
        order = Search(self.configuration, self.inboxes, self.sent).order()
        if order is None:
            raise ValueError("no order of its actions gives these messages")
        venue = played(self.configuration, self.inboxes, order)
        if [[message_of(fields) for fields in desk.sent] for desk in venue.desks] != self.sent:
            raise ValueError("the order that was found gives other messages")
        return venue


def ran(program: list[str], seed: int) -> Run:
    """A run of the day of this seed; ValueError where the program tells a fault."""
    head, lines = day_of(seed)
    configuration = read_configuration("\n".join(head).encode())
    text = joined("\n".join(head).encode(), b"\n".join(lines))
    run = subprocess.run(
        [*program, "day", "--frames"], input=text, capture_output=True, timeout=600
    )
    if run.returncode != 0:
        raise ValueError("status %d: %s" % (run.returncode, run.stderr.decode()))
    return Run(configuration, inboxes_of(configuration, lines), sent_in(configuration, run.stdout))
