"""The firm's own programs: who gets in, what one may do, and who takes it back."""

import json
import subprocess
from pathlib import Path
from typing import Any

import jsonschema
import pytest

from tests.desk.conftest import House
from tests.desk.desks import ROOT, Desk, ProgramOf
from tests.desk.view import Json, View, ask, log_in, own, upgrade
from tests.gateway.wait import LONG, until

POINT = 256
BOND = "BONDA0000001"
TOKEN = "a-token-that-nobody-guesses-0123456789"
SCHEMA = json.loads((ROOT / "desk" / "door.schema.json").read_text())
STOPPED = "This program is stopped: a trader has to release it."


def with_program(desk: Desk) -> None:
    """The desk has a program with the rights of tess from now on."""
    desk.stop()
    desk.programs = [ProgramOf("P1", "tess", TOKEN)]
    desk.write()
    desk.start()


def enter(desk: Desk) -> View:
    program = View(desk, token=TOKEN, keeps=True)
    program.wait_on()
    return program


def set_reference(house: House, price: int) -> None:
    admin = house.view(house.dealer, "ada")
    assert admin.act(do="set reference", bond=BOND, price=price) == ""


def program_of(view: View) -> Any:
    return view.told["programs"]["programs"][0]


def is_valid(message: Any, name: str) -> None:
    jsonschema.validate(message, {**SCHEMA, "$ref": "#/$defs/%s" % name})


def test_a_program_quotes(house: House) -> None:
    """By the same messages as a page; pages show whose a quote is, and that a program is connected."""
    with_program(house.dealer)
    set_reference(house, 99 * POINT)
    tess, investor = house.view(house.dealer), house.view(house.investor)
    assert not program_of(tess)["isOn"]
    program = enter(house.dealer)
    tess.until("it is connected", lambda: program_of(tess)["isOn"])
    assert program.hello["trader"] == {
        **tess.hello["trader"],
        "name": "P1",
        "isProgram": True,
    }
    asked = investor.ask_for(["DLR1"])
    shown = program.wait_shown(1)
    program.quote(shown, 99 * POINT)
    tess.until("the quote", lambda: tess.live(shown))
    assert tess.requests[shown]["quotes"][0]["trader"] == "P1"
    assert tess.requests[shown]["quotes"][0]["program"] == "P1"
    investor.until("the quote", lambda: investor.requests[asked]["quotes"])
    assert investor.hit(asked, "DLR1") == ""
    program.until("it is done", lambda: program.requests[shown]["state"] == "done")
    for message in program.heard:
        is_valid(message, "message")
    assert {message["t"] for message in program.heard} >= {"hello", "requests", "changes", "said"}


def test_f9_takes_back_and_stops(house: House) -> None:
    """At once; the program may withdraw and do nothing else, over a restart too, until it is released."""
    with_program(house.dealer)
    set_reference(house, 99 * POINT)
    tess, investor, program = (
        house.view(house.dealer),
        house.view(house.investor),
        enter(house.dealer),
    )
    investor.ask_for(["DLR1"])
    shown = program.wait_shown(1)
    program.quote(shown, 99 * POINT)
    assert tess.act(do="cancel all") == ""
    tess.until(
        "it is taken back", lambda: tess.requests[shown]["quotes"][0]["state"] == "withdrawn"
    )
    quote = {"do": "quote", "request": shown, "price": 99 * POINT, "seconds": 0, "replaces": ""}
    assert program.act(**quote) == STOPPED
    assert program.act(do="withdraw", request=shown) == "There is no live quote to withdraw."
    assert (program_of(tess)["isStopped"], program_of(tess)["by"]) == (True, "tess")
    house.dealer.kill()
    house.dealer.start()
    program, tom, lou = (
        enter(house.dealer),
        house.view(house.dealer, "tom"),
        house.view(house.dealer, "lou"),
    )
    assert program.act(**quote) == STOPPED
    assert program.act(do="release program", name="P1") == "A program may not do this."
    assert lou.act(do="release program", name="P1").startswith("You may only look")
    assert tom.act(do="release program", name="P2") == "The desk has no program 'P2'."
    assert tom.act(do="release program", name="P1") == ""
    assert program.act(**quote) == ""
    assert tom.act(do="stop program", name="P1") == ""
    assert program.act(**quote) == STOPPED


def test_where_a_page_asks_a_program_is_refused(house: House) -> None:
    """Without anything to hold its price against, and far from the reference or the firm's last price."""
    with_program(house.dealer)
    investor, program = house.view(house.investor), enter(house.dealer)
    investor.ask_for(["DLR1"])
    shown = program.wait_shown(1)

    def quoted(points: float) -> str:
        return program.act(
            do="quote", request=shown, price=int(points * POINT), seconds=0, replaces=""
        )

    assert quoted(99).startswith("There is nothing to compare the price with")
    set_reference(house, 99 * POINT)
    assert quoted(100.25) == "The price is more than 1 from the reference 99."
    assert quoted(97.75) == "The price is more than 1 from the reference 99."
    assert quoted(100) == ""
    program.until("it is live", lambda: program.live(shown))
    set_reference(house, 101 * POINT)
    tess = house.view(house.dealer)
    live = program.live(shown)
    assert live is not None
    far = {"do": "quote", "request": shown, "price": 102 * POINT, "seconds": 0}
    assert program.act(**far, replaces=live["id"]) == (
        "The price is more than 1 from the firm's last one, 100."
    )
    assert tess.act(**far, replaces=live["id"]) == ""


def test_a_programs_limits_are_its_traders(house: House) -> None:
    """What the trader has quoted counts for the program, and the other way."""
    house.dealer.traders[0].limits["exposure"] = 3_000_000
    with_program(house.dealer)
    set_reference(house, 99 * POINT)
    tess, investor, program = (
        house.view(house.dealer),
        house.view(house.investor),
        enter(house.dealer),
    )
    for _ in range(2):
        investor.ask_for(["DLR1"])
    program.wait_shown(2)
    first, second = list(program.requests)
    tess.quote(first, 99 * POINT)
    assert program.act(
        do="quote", request=second, price=99 * POINT, seconds=0, replaces=""
    ).startswith("Your own exposure would be 4,000,000 of the 3,000,000")


def test_a_program_that_connects_again_and_again(house: House) -> None:
    """Each connection is told the whole day: twenty at once, and one a second, are let in; the others are few events, and
    hide no refused login."""
    with_program(house.dealer)
    desk, port = house.dealer, house.dealer.port.number
    host, right = "127.0.0.1:%d" % port, "Bearer " + TOKEN
    statuses = []
    for _ in range(200):
        link, status = upgrade(port, host, desk.origin, path="/program", authorization=right)
        link.close()
        statuses.append(status)
    assert statuses[:20] == [101] * 20 and statuses.count(403) > 60
    ask(port, "POST", "/login", own(desk), b'{"login": "tess", "password": "wrong"}')
    events = desk.told.read_text()
    assert 0 < events.count("Program refused: it connects too often, from 127.0.0.1") <= 60
    assert "Login refused: tess from 127.0.0.1" in events
    until("it may come again", LONG, lambda: connects(port, host, desk.origin, right))


def connects(port: int, host: str, origin: str, right: str) -> bool:
    link, status = upgrade(port, host, origin, path="/program", authorization=right)
    link.close()
    return status == 101


def test_who_has_no_token(house: House) -> None:
    """Is refused, whatever cookie it has, and a token is of no use at the page's own place."""
    with_program(house.dealer)
    desk, port = house.dealer, house.dealer.port.number
    host, cookie = "127.0.0.1:%d" % port, log_in(desk).cookie
    for header in ("", "Bearer ", "Bearer x", "Basic " + TOKEN, "Bearer %sx" % TOKEN, TOKEN):
        for given in ("", cookie):
            assert upgrade(port, host, desk.origin, given, "/program", header)[1] == 403
    right = "Bearer " + TOKEN
    assert upgrade(port, host, desk.origin, "", "/socket", right)[1] == 403
    assert upgrade(port, host, "http://evil.example", "", "/program", right)[1] == 403
    assert upgrade(port, host, None, "", "/program", right)[1] == 403
    assert "Program refused: no program has the token, from 127.0.0.1" in desk.last_words()
    assert TOKEN not in desk.last_words()


def test_what_a_program_does_not_do(house: House) -> None:
    """Nor does one with a page's message that is none; a second connection takes the place of the first."""
    with_program(house.dealer)
    program = enter(house.dealer)
    commands: list[Json] = [
        {"do": "cancel all"},
        {"do": "claim", "request": "x"},
        {"do": "set limits", "login": "tess", "quantity": None, "exposure": None},
        {"do": "set distance", "distance": 1},
        {"do": "stop program", "name": "P1"},
    ]
    for command in commands:
        assert program.act(**command) == "A program may not do this."
    assert (
        program.act(do="set reference", bond=BOND, price=1) == "Only the firm's admin may do this."
    )
    again = enter(house.dealer)
    assert program.until_closed() == 1008
    assert program.why == "This program has connected again."
    again.send({"do": "nothing", "number": 1})
    assert again.until_closed() == 1008


def test_its_examples(tmp_path: Path) -> None:
    """What the schema has as examples of commands is valid, and a wrong one is not."""
    for command in SCHEMA["$defs"]["command"]["examples"]:
        is_valid(command, "command")
    with pytest.raises(jsonschema.ValidationError):
        is_valid({"do": "quote", "number": 1}, "command")


def test_the_pricer(house: House) -> None:
    """It quotes around the mid that it is given, wider with size, up to its limit; its input's end is its kill switch."""
    with_program(house.dealer)
    set_reference(house, 99 * POINT)
    tess, investor = house.view(house.dealer), house.view(house.investor)
    token = house.dealer.folder / "DLR1.P1.token"
    program = str(ROOT / "desk" / "sample" / "pricer.py")
    words = ["/usr/bin/python3", program, house.dealer.origin, str(token)]
    with subprocess.Popen(words, stdin=subprocess.PIPE, text=True) as pricer:
        assert pricer.stdin is not None
        investor.ask_for(["DLR1"], quantity=1_000_000)
        investor.ask_for(["DLR1"], quantity=5_000_000, side="sell")
        investor.ask_for(["DLR1"], quantity=5_000_000)
        tess.wait_shown(3)
        small, large, beyond = list(tess.requests)
        pricer.stdin.write("%s 99\n" % BOND)
        pricer.stdin.flush()
        for request in (small, large):
            tess.until("its quote", lambda: tess.live(request))  # noqa: B023
        offered, bid = tess.live(small), tess.live(large)
        assert offered is not None and bid is not None
        assert 99 * POINT < offered["price"] < 99 * POINT + 16
        assert 99 * POINT - 40 < bid["price"] < 99 * POINT - 16
        assert tess.requests[beyond]["quotes"] == []
        pricer.stdin.close()
        assert pricer.wait(LONG) == 0
    tess.until("all is withdrawn", lambda: not tess.live(small) and not tess.live(large))
