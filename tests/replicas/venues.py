#!/usr/bin/env python3
"""Plays a day of two venues behind one gateway: each firm is in both, with a session at each.

usage: venues.py GATEWAY PLAYER [--messages N] -- VENUE WORDS ..

Each venue's firms have the messages of the venue's program over that venue's log, and none of the
other's; a Logon that names no venue, or one that is not there, is refused.
"""

import argparse
import signal
import socket
import subprocess
import sys
import tempfile
from collections.abc import Iterator
from pathlib import Path

from parts.site import file_of, venues_text

from tests.gateway.door import Port, seal_text
from tests.gateway.firm import Firm
from tests.gateway.ledger import Ledger, read_ledger
from tests.gateway.midnight import wait_for_room
from tests.gateway.played import TOLD_FAULTS
from tests.gateway.wait import TooLong, until, within
from tests.lab.run import whole_paths
from tests.replicas.side import Cast, Side, Stage

CAST = Cast.of(dealers=2, investors=1)
NAMES = ("north", "south")
START = 180.0  # seconds in which the gateway listens and ends, and firms log on
LOOKS = 30  # how often the day is looked at until no deadline comes in between
SILENCE = 4.0  # seconds in which a refused Logon is not answered by another
REST = """[log]
sqlite = "{venue}.db"
[fix]
port = %d
credentials = "credentials.toml"
"""


class TwoVenues:
    def __init__(self, words: argparse.Namespace, folder: Path) -> None:
        self.words, self.folder, self._port = words, folder, Port()
        self.venue = list(whole_paths(words.venue))
        self.write()
        self.stage = Stage(folder, words.player.resolve(), self._port.number, {})
        self.sides = [self.side(name, seed) for seed, name in enumerate(NAMES)]
        self.gateway = self.start()

    def start(self) -> subprocess.Popen[bytes]:
        with (self.folder / "told").open("ab") as told:
            return subprocess.Popen(
                [self.words.gateway.resolve(), self.folder / "gateway.toml"],
                stdin=subprocess.DEVNULL,
                stdout=told,
                stderr=told,
            )

    def write(self) -> None:
        for name in NAMES:
            (self.folder / file_of(name)).write_text(CAST.venue_text())
        credentials = CAST.credentials(self.words.gateway.resolve())
        (self.folder / "credentials.toml").write_text(credentials)
        (self.folder / "credentials.toml").chmod(0o600)
        text = venues_text(NAMES, tuple(self.venue)) + REST % self._port.number
        text += seal_text(self.words.gateway, self.folder)
        (self.folder / "gateway.toml").write_text(text)

    def side(self, name: str, seed: int) -> Side:
        def read() -> Ledger:
            return read_ledger(self.folder / (name + ".db"))

        return self.stage.side(name, seed, CAST, read)

    @property
    def sent(self) -> int:
        return sum(side.sent for side in self.sides)

    def open(self) -> None:
        until("the gateway listens", START, self.listens)
        for side in self.sides:
            side.start()
        for side in self.sides:
            side.wait_all_on()

    def listens(self) -> bool:
        if self.gateway.poll() is not None:
            raise TooLong((self.folder / "told").read_text())
        with socket.socket() as probe:
            return probe.connect_ex(("127.0.0.1", self._port.number)) == 0

    def play(self, messages: int) -> None:
        """In turns, so that both are busy at once."""
        for _ in range(messages):
            for side in self.sides:
                side.send(0)

    def refused(self) -> Iterator[str]:
        """Logons that name no venue, or one that is not there."""
        for venue in ("", "west"):
            firm = Firm(self.stage.places("other" + venue, venue), CAST.investors[0])
            firm.start()
            if within(SILENCE, firm.logged_on):
                yield "a Logon to the venue %r is taken" % venue
            firm.kill()

    def untold(self) -> Iterator[str]:
        """Sessions that logged on of which the gateway did not tell at which venue."""
        told = (self.folder / "told").read_text()
        for side in self.sides:
            for firm in side.firms:
                words = "logged on firm=%s venue=%s" % (firm.name, side.name)
                if words not in told:
                    yield "the gateway did not tell `%s`" % words

    def settled(self) -> Iterator[str]:
        """What is wrong in the end; the gateway has ended."""
        for look in range(LOOKS):
            if look > 0:
                self.gateway = self.start()
                for side in self.sides:
                    side.wait_all_on()
            before = [side.caught_up(self.venue) for side in self.sides]
            self.gateway.terminate()
            if self.gateway.wait(START) != 0:
                yield "the gateway ended with status %d" % self.gateway.returncode
            # Where a deadline came in between, its messages are still to be sent.
            if [len(side.read().entries) for side in self.sides] == before:
                break
        for side in self.sides:
            if len(side.read().entries) < self.words.messages:
                yield "%s: %d entries alone" % (side.name, len(side.read().entries))
            for fault in side.faults(self.venue):
                yield "%s: %s" % (side.name, fault)

    def close(self) -> None:
        for side in self.sides:
            side.close()
        if self.gateway.poll() is None:
            self.gateway.kill()
            self.gateway.wait()


def main() -> None:
    parser = argparse.ArgumentParser()
    parser.add_argument("gateway", type=Path)
    parser.add_argument("player", type=Path)
    parser.add_argument("--messages", type=int, default=300)
    parser.add_argument("venue", nargs="+")
    words = parser.parse_args()
    # The gateway is ended also where it is interrupted.
    signal.signal(signal.SIGTERM, lambda *_: sys.exit(143))
    wait_for_room("the day of two venues")
    with tempfile.TemporaryDirectory() as name:
        both = TwoVenues(words, Path(name))
        try:
            both.open()
            both.play(words.messages)
            faults = [*both.untold(), *both.refused(), *both.settled()]
        except TooLong as fault:
            faults = [str(fault)]
        finally:
            both.close()
    for text in faults[:TOLD_FAULTS]:
        print("two venues: %s" % text)
    print("two venues: %d messages" % both.sent)
    print("%d passed, %d failed" % (not faults, bool(faults)))
    sys.exit(1 if faults else 0)


if __name__ == "__main__":
    main()
