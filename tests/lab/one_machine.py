"""A whole installation on this machine: three database hosts with etcd, Patroni and PostgreSQL, two
gateways with their venues, each host a network namespace of its own.

usage: python3 -m tests.lab.one_machine up FOLDER [--images FOLDER] [--gateway PROGRAM] [--venue WORDS] [--day FOLDER]
       python3 -m tests.lab.one_machine down FOLDER [--images FOLDER]

`up` starts all, prints where what is, stays, and takes all down at its end: Ctrl-C or SIGTERM.
`down` takes down what an `up` left that was killed. The day's folder has the venue's configuration
(venue.toml, whose date is set to today's) and the firms' credentials.toml: examples/gateway if none
is named.
"""

import argparse
import re
import signal
import sys
import time
from datetime import datetime, timezone
from pathlib import Path
from typing import NoReturn

from parts.site import ALONE

from tests.lab.gateway import PORT
from tests.lab.machine import FIRMS, Machine, check_root, remove, site_here
from tests.lab.run import Fault, whole_paths

ROOT = Path(__file__).resolve().parents[2]
LOOK = 0.5  # seconds from one look at who speaks to the next


def read_words() -> argparse.Namespace:
    parser = argparse.ArgumentParser(usage=__doc__)
    parser.add_argument("what", choices=["up", "down"])
    parser.add_argument("folder", type=Path)
    parser.add_argument("--images", type=Path)
    parser.add_argument("--gateway", type=Path, default=ROOT / "gateway/out/mireseason-gateway")
    parser.add_argument("--venue", default=str(ROOT / "crates/rfq_venue/out/rfq_venue"))
    parser.add_argument("--day", type=Path, default=ROOT / "examples/gateway")
    return parser.parse_args()


def today(venue: str) -> str:
    date = datetime.now(timezone.utc).strftime("%Y%m%d")
    return re.sub(r"(?m)^date = .*$", 'date = "%s"' % date, venue)


def stay(machine: Machine) -> NoReturn:
    """Until a signal; says who speaks whenever that changes."""
    known = ""
    while True:
        speaking = machine.speaking()
        name = speaking.name if speaking else "nobody"
        if name != known:
            print("%s speaks" % name, flush=True)
            known = name
        time.sleep(LOOK)


def up(words: argparse.Namespace, images: Path) -> None:
    site = site_here(whole_paths(words.venue.split()))
    machine = Machine(words.folder.resolve(), images, words.gateway.resolve(), site)
    try:
        machine.up(
            {ALONE: today((words.day / "venue.toml").read_text())},
            (words.day / "credentials.toml").read_text(),
        )
        for gateway in machine.gateways:
            print(
                "%s is %s:%d, from `%s`"
                % (
                    gateway.name,
                    gateway.host.address,
                    PORT,
                    " ".join(machine.network.words(FIRMS.name)),
                )
            )
        stay(machine)
    finally:
        machine.down()


def main() -> None:
    words = read_words()
    images = (words.images or words.folder / "images").resolve()
    signal.signal(signal.SIGTERM, lambda *_: sys.exit(0))
    try:
        check_root()
        if words.what == "up":
            up(words, images)
        else:
            remove("mireseason", words.folder.resolve(), images)
    except KeyboardInterrupt:
        pass
    except Fault as fault:
        sys.exit("one_machine.py: %s" % fault)


if __name__ == "__main__":
    main()
