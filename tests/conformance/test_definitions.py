"""Each definition against the gateway: those of QuickFIX's source package, and this venue's own."""

import tempfile
from collections.abc import Iterator
from pathlib import Path

import pytest

from tests.conformance.conversation import Conversation, Departs
from tests.conformance.definition import lines_of
from tests.conformance.firms import PASSWORD, DoorOfMany, Firms
from tests.gateway.door import Door
from tests.gateway.firm import Identity
from tests.gateway.midnight import wait_for_room
from tests.gateway.stage import Tools

HERE = Path(__file__).resolve().parent
DEFINITIONS = [
    path for part in ("quickfix", "venue") for path in sorted(HERE.glob(part + "/*.def"))
]
WAITS = ("4a_NoDataSentDuringHeartBtInt", "6_SendTestRequest")  # for the end of HeartBtInt
# HeartBtInt of each try, in seconds: of those that wait for its end, and of all others.
INTERVALS = {True: (2, 8, 30), False: (60, 120, 300)}
# Seconds of each try, beside HeartBtInt: the most that a message takes.
LIMITS = (20.0, 60.0, 180.0)


@pytest.fixture(scope="session")
def firms(tools: Tools) -> Iterator[Firms]:
    """Firms whose sessions nobody has begun."""
    with tempfile.TemporaryDirectory(prefix="mrc") as name:
        folders = (Path(name) / ("gateway%d" % number) for number in range(1, 100))

        def make(dealers: list[Identity], investors: list[Identity]) -> Door:
            folder = next(folders)
            folder.mkdir()
            return DoorOfMany(tools.programs, folder, dealers, investors)

        made = Firms(make)
        yield made
        made.close()


def tried(path: Path, firms: Firms, interval: int, limit: float) -> None:
    """One try, by a dealer and an investor of its own."""
    pair = firms.pair()
    names = {"DEALER": pair.dealer, "INVESTOR": pair.investor, "PASSWORD": PASSWORD}
    names["INTERVAL"] = str(interval)
    limit += 3 * interval
    Conversation(pair.port, names, limit, pair.house.does).play(lines_of(path))


@pytest.mark.parametrize("path", DEFINITIONS, ids=[path.stem for path in DEFINITIONS])
def test_definition(path: Path, firms: Firms) -> None:
    """What the gateway says is what the definition expects, byte for byte but for its moments.

    A session has times of its own, such as the two seconds in which an old connection has to answer. On a machine that
    had no time for that a definition is played again, with longer ones, before the gateway is blamed.
    """
    wait_for_room(path.stem)
    *first, last = zip(INTERVALS[path.stem in WAITS], LIMITS)
    for interval, limit in first:
        try:
            tried(path, firms, interval, limit)
            return
        except Departs as departs:
            print("%s: played again: %s" % (path.stem, departs))
    tried(path, firms, *last)
