"""Somebody who may not, and somebody who may, gives each operator's command: what the first is told, and what the audit says of
the second.
"""

import json
import re
from collections.abc import Callable
from dataclasses import dataclass

import pytest

from tests.admin.operator import acts, admin, audit, is_root, said_as, socket_of
from tests.gateway.market import BOND
from tests.gateway.stage import OTHER, Stage
from tests.gateway.wait import LONG, until
from tests.gateway.wire import Wire
from tests.harness.clock import Clock
from tests.limits.flood import logged_on
from tests.operating.test_configuration import VENUE

MAY, MAY_NOT = ("daemon", "daemon"), ("nobody", "nogroup")  # a user and its one group
WHO = "daemon(1)"
TRADE = "TRADE"  # stands for the name of the trade of the day
NAME = BOND.decode()


@dataclass(frozen=True)
class Scene:
    """A day with a trade, at a gateway whose clock the test moves."""

    stage: Stage
    clock: Clock
    trade: str

    def told(self, text: str) -> None:
        """Waits until the gateway says so."""
        door = self.stage.door
        until("the gateway says %r" % text, LONG, lambda: text in door.told.read_text())


@dataclass(frozen=True)
class Command:
    """Its words; whether it changes something; what has to have happened; and what stands in the help of a gateway that has
    it."""

    words: str
    is_act: bool = True
    after: Callable[[Scene], None] | None = None
    needs: str = ""


def firm_loses_its_store(scene: Scene) -> None:
    """Its engine begins at 1 again, and is refused."""
    with logged_on(scene.stage, OTHER) as wire:
        wire.ask()
    with Wire(scene.stage.door.port) as wire:
        assert wire.logon(OTHER.name.encode(), OTHER.password.encode())
        assert wire.read_kind(b"A") is None, "a firm that has lost its store is let in"
    scene.told("lost store")


def clock_is_set(scene: Scene) -> None:
    scene.clock.set(-40)
    scene.told("clock was set by=-")


def checkpoint_is_lost(scene: Scene) -> None:
    """The gateway is started again without what it kept outside of its log, and waits."""
    door = scene.stage.door
    assert door.stop() == 0, door.last_words()
    door.kept.unlink()
    door.start()
    scene.told("waits for the operator")


def day_is_open(scene: Scene) -> None:
    scene.stage.door.wait_open()


COMMANDS = [
    Command("help", is_act=False),
    Command("status", is_act=False),
    Command("firms", is_act=False),
    Command("firm DLR1", is_act=False),
    Command("hand-out DLR1", is_act=False),
    Command("next-day", is_act=False),
    Command("limit DLR1", is_act=False),
    Command("limit DLR1 day_bytes=800000"),
    Command("halt"),
    Command("resume"),
    Command("halt --bond " + NAME),
    Command("resume --bond " + NAME),
    Command("cancel DLR1"),
    Command("cancel DLR1 --trader T1", needs="cancel FIRM [--trader"),
    Command("bust " + TRADE),
    Command("suspend DLR1"),
    Command("resume DLR1"),
    Command("release DLR2", after=firm_loses_its_store),
    Command("reset-session DLR2"),
    Command("reload"),
    Command("clock accept", after=clock_is_set),
    Command("log accept-loss", after=checkpoint_is_lost),
    Command("end-day", needs="end-day", after=day_is_open),
]


def line_of(words: list[str]) -> bytes:
    """A request as mireseason-admin writes it: a space in a word is %20."""
    return ("1 text %s\n" % " ".join(word.replace(" ", "%20") for word in words)).encode()


def said(stage: Stage, who: tuple[str, str], words: list[str]) -> str:
    """What a user is answered, where the mode of the socket's file lets everybody connect."""
    path = socket_of(stage)
    until("the operator's socket is there", LONG, path.exists)
    path.chmod(0o666)
    return said_as(*who, path, line_of(words))


def acts_in(stage: Stage) -> list[tuple[str, str, str]]:
    """What the audit says of operators: who, what and why, in the order of the log."""
    found = audit(stage, "acts", "--json")
    assert found.status == 0, found.text
    return [(row["who"], row["act"], row["because"]) for row in json.loads(found.out)]


def refused(stage: Stage, words: list[str]) -> None:
    """Somebody who may not is told so, and nothing stands in the log."""
    before = acts(stage)
    answer = said(stage, MAY_NOT, words)
    assert answer.startswith("error\nyou may not"), (words, answer)
    assert acts(stage) == before, "%s stands in the log" % words


def done(stage: Stage, command: Command, words: list[str]) -> str:
    """Somebody who may has it done, for a reason of its own where it is an act; the reason."""
    reason = "%s, by phone" % command.words.split()[0] if command.is_act else ""
    call = [*words, "--because", reason] if reason else words
    answer = said(stage, MAY, call)
    assert answer.startswith("ok\n"), (call, answer)
    return reason


def open_day(stage: Stage) -> None:
    """A gateway of many days."""
    (stage.folder / "venue.toml").write_text(VENUE)
    stage.door.write()
    stage.door.start()
    stage.door.wait_open()
    stage.log_on(stage.dealer, stage.investor)


def check_all_tried(usages: list[str]) -> None:
    """Each command that the gateway has is one of these."""
    names = [re.split(r" (?:\[|--because|FIRM|TRADE)", usage)[0] for usage in usages]
    tried = [command.words + " " for command in COMMANDS]
    names.remove("backup")  # for root alone: test_backup.py calls it
    names.remove("admit")  # of a signed report: tests/admin/test_admissions.py calls it
    untried = [name for name in names if not any(one.startswith(name + " ") for one in tried)]
    assert not untried, "no case calls %s" % untried


@pytest.mark.skipif(not is_root(), reason="to call as another user needs root")
def test_each_command_as_two_users(stage: Stage, clock: Clock) -> None:
    """One may not run it, the other may; the audit has a line for each act, with who it was and why, and for nothing else."""
    stage.door.operators = MAY[1]
    open_day(stage)
    stage.auction([stage.dealer])
    trade = next(
        message.given(1003).decode()
        for message in stage.dealer.looked()
        if message.value(694) == b"1"
    )
    usages = [row["command"] for row in json.loads(admin(stage, "--json", "help").out)["rows"]]
    check_all_tried(usages)

    scene, expected = Scene(stage, clock, trade), []
    for command in COMMANDS:
        if not any(command.needs in usage for usage in usages):
            continue
        if command.after:
            command.after(scene)
        words = command.words.replace(TRADE, trade).split()
        refused(stage, words)
        reason = done(stage, command, words)
        if command.is_act:
            expected.append((WHO, " ".join(words), reason))
    for firm in (stage.dealer, stage.investor):
        firm.kill()
    assert stage.door.stop() == 0, stage.door.last_words()
    assert acts_in(stage) == expected
    assert "operator refused who=nobody(65534)" in stage.door.told.read_text()
