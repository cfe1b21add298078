"""Plays a drawn day of stock initiators over TCP, and ends gateway, venue and initiators by SIGKILL.

The log is a file of SQLite, or a schema of the PostgreSQL database that is named. At the end of each day every message that
an initiator's engine had sent is in the log once. Each initiator has the messages that the venue gives for the log, and that
the second implementation of the venue gives too: none is missing, none is different, and none came under two numbers of the
session.
"""

import os
import random
import time
from pathlib import Path

from tests.gateway.door import Door, Programs
from tests.gateway.firm import Firm, Identity, Places
from tests.gateway.ledger import PostgresLog
from tests.gateway.market import Act, Market, play
from tests.gateway.settle import wait_all_on
from tests.gateway.wait import LONG, until, within

HERE = Path(__file__).resolve().parent
ROOT = HERE.parent.parent

DEALERS = [Identity("DLR%d" % n, "T%d" % n, "dealer-%d-secret" % n) for n in range(1, 5)]
INVESTORS = [Identity("INV%d" % n, "V%d" % n, "investor-%d-secret" % n) for n in range(1, 3)]
VENUE_ENDS_A_MINUTE = 2  # the gateway takes the third within a minute for a fault of the venue
SHORT_DEADLINE = 2.0  # seconds: for so long the log is still in the end
DICTIONARIES = (ROOT / "fix" / "FIXT11.xml", ROOT / "fix" / "MIRESEASON.xml")


class Day:
    """One drawn day: the gateway, its firms, and where they are ended."""

    def __init__(
        self, programs: Programs, player: Path, folder: Path, seed: int, postgres: str
    ) -> None:
        self.draw = random.Random("ends of %d" % seed)
        log = PostgresLog(postgres, "day_%d_%d" % (seed, os.getpid())) if postgres else None
        self.door = Door(programs, folder, DEALERS, INVESTORS, postgres=log)
        places = Places(player, folder, DICTIONARIES, self.door.port)
        self.dealers = [Firm(places, who) for who in DEALERS]
        self.investors = [Firm(places, who) for who in INVESTORS]
        self.market = Market(seed, self.dealers, self.investors)
        self.ends = {"gateway": 0, "venue": 0, "initiator": 0}
        self.venue_ends: list[float] = []
        self.acts = 0

    @property
    def firms(self) -> list[Firm]:
        return self.dealers + self.investors

    def open(self) -> None:
        self.door.write()
        self.door.start()
        self.door.wait_open()
        for firm in self.firms:
            firm.start()
        for firm in self.firms:
            firm.wait_on()

    def send(self, act: Act) -> None:
        """Sends a message, and now and then waits until the venue has said something to its firm."""
        self.acts += 1
        name, before = "m%d" % self.acts, len(act.firm.received)
        act.firm.send(name, act.kind, act.fields)
        act.firm.wait_sent(name)
        if self.draw.random() < 0.3:
            within(0.2, lambda: len(act.firm.looked()) > before)

    def end_one(self) -> None:
        """Ends something by SIGKILL, and starts it again where nobody else does."""
        what = self.draw.choice(["gateway", "venue", "initiator"])
        if what == "venue" and not self.may_end_venue():
            what = "gateway"
        self.ends[what] += 1
        if what == "gateway":
            self.door.kill()
            self.door.start()
        elif what == "venue":
            self.venue_ends.append(time.monotonic())
            until("there is a venue", LONG, self.door.kill_venue)
        else:
            firm = self.draw.choice(self.firms)
            firm.kill()
            firm.start()
        if self.draw.random() < 0.7:
            wait_all_on(self.door, self.firms)

    def may_end_venue(self) -> bool:
        now = time.monotonic()
        return sum(now - then < 70 for then in self.venue_ends) < VENUE_ENDS_A_MINUTE

    def play(self, messages: int, ends: int) -> None:
        places = set(self.draw.sample(range(1, messages + 1), ends))

        def send(act: Act) -> None:
            self.send(act)
            if self.acts in places:
                self.end_one()

        play(self.market, messages, send)

    def close(self) -> None:
        for firm in self.firms:
            if firm.process:
                firm.kill()
        self.door.close()
