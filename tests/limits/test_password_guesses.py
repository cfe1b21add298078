"""What a stranger learns and gets by guessing passwords, on however many connections, and of whichever name."""

import time
from concurrent.futures import ThreadPoolExecutor
from itertools import accumulate

from tests.gateway.stage import DEALER, Stage, check
from tests.gateway.wait import LONG
from tests.gateway.wire import Wire
from tests.limits.test_renewal import edit

SOURCE = "127.0.3.1"
AT_ONCE = 8  # connections of one address: half of what it may have without a Logon
PAUSES = [0.01, 0.02, 0.04, 0.08, 0.16]  # before the next Logon of an address is judged
LONGEST = 0.25
GUESSES = 3 * AT_ONCE
TRIES = 8  # one after the other


def least_seconds(guesses: int) -> float:
    """That so many wrong passwords of one address take, by the pauses between them alone."""
    pauses = PAUSES + [LONGEST] * guesses
    return list(accumulate(pauses))[guesses - 2]


def refused(stage: Stage, name: bytes, source: str = SOURCE) -> None:
    """A Logon with a wrong password, and the end of its connection."""
    with Wire(stage.door.port, source=source) as wire:
        assert wire.logon(name, b"guess")
        assert wire.closed_within(LONG) and not wire.waiting


def test_guesses_on_many_connections(stage: Stage) -> None:
    """Each waits for its pause, as if they came one after the other; another address does not."""
    stage.open()
    began = time.monotonic()
    with ThreadPoolExecutor(AT_ONCE) as guessers:
        list(guessers.map(lambda _: refused(stage, b"DLR1"), range(GUESSES)))
        took = time.monotonic() - began
    counted = stage.counters()['mireseason_wrong_passwords_total{firm="DLR1"}']
    check(counted == GUESSES, "%g of %d are judged" % (counted, GUESSES))
    least = least_seconds(GUESSES)
    check(took >= least, "%d guesses took %.2f s, and not %.2f" % (GUESSES, took, least))
    with Wire(stage.door.port) as wire:
        assert wire.logon(b"DLR1", DEALER.password.encode())
        assert wire.read_kind(b"A") is not None, "another address is not judged"


def test_pauses_tell_nothing(stage: Stage) -> None:
    """A name of nobody, one of a firm, and one of a firm that comes from elsewhere: whoever tries it has the same pauses."""
    stage.door.write()
    edit(stage, "[DLR1]", '[DLR1]\naddresses = ["192.0.2.0/24"]')
    stage.door.start()
    stage.door.wait_open()
    for place, name in enumerate((b"NOBODY", b"DLR2", b"DLR1")):
        began = time.monotonic()
        for _ in range(TRIES):
            refused(stage, name, "127.0.3.%d" % (place + 2))
        took, least = time.monotonic() - began, least_seconds(TRIES)
        check(took >= least, "%d tries of %r took %.2f s, not %.2f" % (TRIES, name, took, least))
