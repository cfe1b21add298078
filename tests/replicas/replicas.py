#!/usr/bin/env python3
"""Plays drawn days of stock initiators on three database hosts and two gateways, and damages them
on the way.

usage: replicas.py GATEWAY PLAYER [--days N] [--messages N] [--faults N] [--seed N] [--venues N]
                   [--upkeep] [--wrong local|terms] [--keep FOLDER] [--images FOLDER]
                   -- VENUE WORDS ..

At the end of each day each initiator has the messages of the venue's program over the log that is
left: none is missing, none is different, none came under two numbers of the session; and each
message that an initiator's engine had sent is in the log once. A gateway that was cut off from the
database has ended by itself. With several venues all that is true of each of them. With --upkeep an
operator takes hosts out and in, four times, in the place of drawn damages.
"""

import argparse
import os
import signal
import sys
import time
from pathlib import Path

from parts.site import ALONE

from tests.gateway.door import today
from tests.gateway.held import count_of
from tests.gateway.midnight import TEST
from tests.gateway.played import parser_of, play_all
from tests.gateway.wait import TooLong, until, within
from tests.lab.gateway import PORT
from tests.lab.machine import FIRMS, GATEWAYS, Machine, site_here
from tests.lab.run import Fault, found_in, whole_paths
from tests.replicas.book import PATIENCE, last_place, read_ledger, terms
from tests.replicas.damage import Course, Damage, Damages
from tests.replicas.figures import Figures
from tests.replicas.side import Cast, Side, Stage
from tests.replicas.upkeep import Upkeep
from tests.replicas.watch import Watch
from tests.replicas.wrong import SET_UPS, spoil, synchronous_of

CAST = Cast.of(dealers=4, investors=2)
NAMES = ("north", "south", "east", "west")
USUAL_PACE = 0.1  # seconds that a message waits for an answer
PACE = 0.4  # the same while something is damaged
BREATH = 0.1  # seconds from one message to the next while something is damaged, at least
STILL = 2.0  # seconds without an entry at the end of a day: longer than the shortest deadline
LOOKS = 30  # how often the end of a day is looked at until no deadline comes in between
FAULT = 60.0  # seconds of its day that a fault has, at most: four times what it takes

# Both addresses, and a heartbeat that finds a gateway that is gone before its cut is mended.
SETTINGS = {
    "SocketConnectHost": GATEWAYS[0].address,
    "SocketConnectPort": str(PORT),
    "SocketConnectHost1": GATEWAYS[1].address,
    "SocketConnectPort1": str(PORT),
    "HeartBtInt": "2",
    "ReconnectInterval": "1",
}


class Day:
    def __init__(self, words: argparse.Namespace, folder: Path, seed: int) -> None:
        self.words, self.venue = words, list(whole_paths(words.venue))
        self.names = (ALONE,) if words.venues == 1 else NAMES[: words.venues]
        site = site_here(tuple(self.venue), self.names, synchronous_of(words.wrong))
        self.machine = Machine(
            folder, words.images / folder.name, words.gateway.resolve(), site, folder.name
        )
        inside = tuple(self.machine.network.words(FIRMS.name))
        stage = Stage(folder, words.player.resolve(), PORT, SETTINGS, inside)
        self.sides = [
            self.side(stage, name, seed + 1000 * at) for at, name in enumerate(self.names)
        ]
        self.damages: Course = Damages(self.machine, seed, words.faults)
        if words.upkeep:
            self.damages = Upkeep(self.machine)
        self.figures, self.problems = Figures(), list[str]()

    def side(self, stage: Stage, name: str, seed: int) -> Side:
        schema = self.schema(name)
        return stage.side(name, seed, CAST, lambda: read_ledger(self.machine, schema))

    def schema(self, name: str) -> str:
        """Of a venue's log."""
        return self.machine.site.schema.replace("{venue}", name).replace("{date}", today())

    @property
    def sent(self) -> int:
        return sum(side.sent for side in self.sides)

    # ------------------------------------------------------------ the day

    def open(self) -> None:
        credentials = CAST.credentials(self.words.gateway.resolve())
        self.machine.up(dict.fromkeys(self.names, CAST.venue_text()), credentials)
        for name in self.names:
            spoil(self.machine, self.schema(name), self.words.wrong)
        for side in self.sides:
            side.start()
        self.wait_all_on()

    def wait_all_on(self) -> None:
        until("all firms are logged on", PATIENCE, self.all_on)

    def all_on(self) -> bool:
        return all([side.all_on() for side in self.sides])

    def send(self, wait: float) -> None:
        """The next message, at each venue in its turn."""
        self.sides[self.sent % len(self.sides)].send(wait)

    def send_on(self) -> None:
        """The next message while something is damaged. With as many as are answered the log becomes
        so long that a slow venue reads it for minutes, and the damage lasts for as long.
        """
        began = time.monotonic()
        self.send(PACE)
        time.sleep(max(0.0, began + BREATH - time.monotonic()))

    def play(self) -> None:
        between = max(self.words.messages // (self.words.faults + 1), 1)
        for _ in range(self.words.faults):
            for _ in range(between):
                self.send(USUAL_PACE)
            self.suffer(self.damages.begin())
        for _ in range(between):
            self.send(USUAL_PACE)

    def suffer(self, damage: Damage) -> None:
        """Goes on sending until all is as it was."""
        starts = self.starts_of(damage.silenced)
        while not damage.mended:
            self.send_on()
            damage.look()
        if damage.silenced and self.starts_of(damage.silenced) == starts:
            self.problems.append("%s: %s did not end" % (damage.what, damage.silenced))
        end = time.monotonic() + PATIENCE
        with Watch(self.hosts_are_well) as watch:
            while not (watch.well and self.all_on()):
                self.send_on()
                if time.monotonic() > end:
                    text = "%s: not all is as it was within %g s"
                    raise TooLong(text % (damage.what, PATIENCE))
        self.figures.add(damage.what, damage.began, time.monotonic())
        print(
            "  %-34s %5.1f s until all was as before"
            % (damage.what, time.monotonic() - damage.began),
            flush=True,
        )

    def starts_of(self, gateway: str) -> int:
        return self.machine.supervisor.services[gateway].starts if gateway else 0

    def hosts_are_well(self) -> bool:
        following = self.machine.following()
        return following is not None and following.stands_by() and self.machine.cluster.is_ready()

    # ------------------------------------------------------------ its end

    def settled(self) -> list[str]:
        """What is wrong in the end; the gateways have ended."""
        for look in range(LOOKS):
            if look > 0:
                self.start_gateways()
            before = self.caught_up()
            self.stop_gateways()
            # Where a deadline came in between, its messages are still to be sent.
            if self.places() == before:
                break
        return self.problems + [
            self.told_of(side, fault) for side in self.sides for fault in side.faults(self.venue)
        ]

    def caught_up(self) -> list[int]:
        """Waits until firms have what the logs give them; the last places of those logs."""
        self.wait_all_on()
        self.wait_still()
        return [side.caught_up(self.venue) - 1 for side in self.sides]

    def stop_gateways(self) -> None:
        """The one that follows in front, so that it does not take over. None may speak just now:
        on a busy machine the primary becomes another one without a damage, too.
        """
        speaking = found_in("a gateway speaks", PATIENCE, self.machine.speaking)
        for gateway in sorted(self.machine.gateways, key=lambda each: each is speaking):
            gateway.service.stop(PATIENCE)

    def start_gateways(self) -> None:
        for gateway in self.machine.gateways:
            self.machine.supervisor.locked(gateway.service.start)

    def places(self) -> list[int]:
        """The last place of each log."""
        return [last_place(self.machine, self.schema(name)) for name in self.names]

    def wait_still(self) -> None:
        seen, since = self.places(), time.monotonic()

        def still() -> bool:
            nonlocal seen, since
            places = self.places()
            if places != seen:
                seen, since = places, time.monotonic()
            return time.monotonic() - since > STILL

        within(STILL + PATIENCE, still)

    @staticmethod
    def told_of(side: Side, fault: str) -> str:
        return "%s: %s" % (side.name, fault) if side.name else fault

    def tell(self) -> None:
        for side in self.sides:
            ledger = side.read()
            distinct = sum(count_of(firm) for firm in side.firms)
            again = sum(len(firm.received) for firm in side.firms) - distinct
            text = "%d messages of firms, %d entries, %d terms; %d messages to firms, %d came again"
            print(
                "  "
                + self.told_of(
                    side,
                    text
                    % (
                        side.sent,
                        len(ledger.entries),
                        terms(self.machine, self.schema(side.name)),
                        distinct,
                        again,
                    ),
                )
            )
        firms = [firm for side in self.sides for firm in side.firms]
        moments = [message.moment / 1e9 for firm in firms for message in firm.received]
        for line in self.figures.lines(moments):
            print("  without an answer: %s" % line, flush=True)

    def close(self) -> None:
        for side in self.sides:
            side.close()
        self.machine.down()


def one_day(words: argparse.Namespace, folder: Path, seed: int) -> list[str]:
    day, began = Day(words, folder, seed), time.monotonic()
    try:
        day.open()
        print("day %d: all up after %.0f s" % (seed, time.monotonic() - began), flush=True)
        day.play()
        found = day.settled()
        day.tell()
        took, load = time.monotonic() - began, os.getloadavg()[2]
        text = "day %d: %d faults, %.0f s, load %.0f"
        print(text % (seed, len(day.figures.faults), took, load), flush=True)
        return found
    except (TooLong, Fault, RuntimeError) as fault:
        told = [
            "%s's last words: %s" % (each.name, each.last_words()) for each in day.machine.gateways
        ]
        return ["%s; %s" % (fault, "; ".join(told))]
    finally:
        day.close()


def read_words() -> argparse.Namespace:
    parser = parser_of("--faults", 30)
    parser.add_argument("--venues", type=int, default=1, choices=range(1, len(NAMES) + 1))
    parser.add_argument("--upkeep", action="store_true", help="what an operator does, four faults")
    parser.add_argument("--wrong", choices=SET_UPS, default="")
    parser.add_argument("--images", type=Path, default=Path("/dev/shm/mireseason"))
    return parser.parse_args()


if __name__ == "__main__":
    # Hosts are taken away also where it is interrupted.
    signal.signal(signal.SIGTERM, lambda *_: sys.exit(143))
    words = read_words()
    sys.exit(play_all(words, one_day, TEST + FAULT * words.faults))
