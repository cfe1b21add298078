"""Whatever a page or a program says, the desk goes on, and answers others."""

import json
import random
from typing import Any

from tests.desk.conftest import House
from tests.desk.desks import Desk
from tests.desk.test_door import SCHEMA, TOKEN, enter, with_program
from tests.desk.view import Refused, View, log_in
from tests.gateway.wait import LONG, until
from tests.harness.options import Form

MESSAGES = {Form.SHORT: 300, Form.LONG: 20_000}
GROWTH = 200  # MB that the process may have grown by
OF_PAGES: list[Any] = [
    {"do": "claim", "request": "R1"},
    {"do": "hand over", "request": "R1", "to": "tom"},
    {"do": "set limits", "login": "tess", "quantity": 1, "exposure": None},
    {"do": "set distance", "distance": 256},
    {"do": "ask list", "name": "x", "seconds": 60, "dealers": [], "lines": []},
    {"do": "day", "date": "20260105", "find": "buy"},
    {"do": "find", "find": "buy"},
    {"do": "save group", "name": "x", "dealers": ["DLR1"]},
    {"here": True},
]
ODD: list[Any] = [
    None,
    True,
    -1,
    0,
    1,
    2**31,
    2**53,
    2**63,
    2**64,
    10**400,
    1e308,
    -0.5,
    "",
    "\x00",
]
ODD += [
    "x" * 65,
    "\ud800",
    "\u202e",
    "9" * 4000,
    [],
    [[]],
    {},
    {"do": "quote"},
    [[[[[[[["a"]]]]]]]],
]


def drawn(seeded: random.Random, commands: list[Any]) -> str:
    """A command with something of it in another form; often it is none any more."""
    command: Any = {**seeded.choice(commands), "number": seeded.randrange(1000)}
    for _ in range(seeded.randrange(3)):
        key = seeded.choice([*command, "more"])
        if seeded.random() < 0.3:
            command.pop(key, None)
        else:
            command[key] = seeded.choice(ODD)
        if not command:
            break
    text = json.dumps(command)
    if seeded.random() < 0.1:
        at = seeded.randrange(len(text))
        text = (
            text[:at] + seeded.choice(["", "[" * 3000, "\\", '"', "}", "\ufeff"]) + text[at + 1 :]
        )
    return text


def memory(pid: int) -> float:
    with open("/proc/%d/status" % pid) as status:
        line = next(one for one in status if one.startswith("VmRSS"))
    return int(line.split()[1]) / 1024


def play(seeded: random.Random, view: View, commands: list[Any]) -> None:
    """Until the desk has enough of it, or for a while."""
    for _ in range(50):
        if view.closed is not None:
            return
        try:
            view.send_text(drawn(seeded, commands))
        except OSError:
            return


def enter_in_turn(desk: Desk) -> View:
    """Once the door lets the program in: it has a pace."""
    entered: list[View] = []

    def is_let_in() -> bool:
        try:
            entered.append(enter(desk))
        except Refused:
            return False
        return True

    until("the program is let in", LONG, is_let_in)
    return entered[0]


def test_drawn_messages(house: House, form: Form, seed: int) -> None:
    """Of the door and of pages; a colleague's page goes on, and the desk takes no more memory for it."""
    with_program(house.dealer)
    desk, seeded = house.dealer, random.Random(seed)
    commands = [{**one} for one in SCHEMA["$defs"]["command"]["examples"]]
    colleague = house.view(desk, "tom")
    tickets = [log_in(desk, login) for login in ("tess", "ada")]
    assert desk.process is not None
    before, sent = memory(desk.process.pid), 0
    while sent < MESSAGES[form]:
        sent += 50
        if seeded.random() < 0.5:
            play(seeded, enter_in_turn(desk), commands)
        else:
            play(seeded, View(desk, ticket=seeded.choice(tickets)), commands + OF_PAGES)
        assert desk.process.poll() is None, desk.last_words()
    colleague.until("it is told the time", lambda: colleague.told.get("now"), LONG)
    assert colleague.act(do="withdraw", request="none") == "The request has ended."
    assert memory(desk.process.pid) - before < GROWTH
    assert TOKEN not in desk.last_words()
