"""examples/venue.sh, the first command of README: a venue to trade on, and its end."""

import os
import re
import shlex
import subprocess
import urllib.request
from pathlib import Path

import pytest

from tests.desk.desks import DEALER, INVESTOR, ROOT, Desk, FirmOf
from tests.desk.view import View, log_in
from tests.gateway.door import Port
from tests.gateway.wait import LONG, TooLong, until

BOND = "XS0000000036"
POINT = 256
CLONE, FOLDER = "a clone", "a day"
# The gateway, three sample firms, two desks, the supervisor's view, and who tells how auctions end.
PROGRAMS = 8
COMMAND = os.path.join(".", CLONE, "examples", "venue.sh")


def page(text: str, firm: str, role: FirmOf, program: Path, folder: Path) -> View:
    """The page of a firm whose address, login and password stand in this text."""
    found = re.search(firm + r", .* http://127\.0\.0\.1:(\d+)/ +login (\S+) +password (\S+)", text)
    assert found, text
    desk = Desk(program, folder, role, 0, "")
    desk.port.number = int(found[1])
    view = View(desk, found[2], ticket=log_in(desk, found[2], found[3]))
    view.wait_on()
    return view


def trade(investor: View, dealer: View) -> None:
    """The investor asks this dealer alone, and hits its quote of 100."""
    asked = investor.ask_for(["DLR3"], bond=BOND)

    def own() -> list[str]:
        return [name for name, one in dealer.requests.items() if one["investor"] == "INV1"]

    dealer.until("it is shown", own)
    dealer.quote(own()[0], 100 * POINT)
    investor.until("its quote is there", lambda: investor.requests[asked]["quotes"])
    assert investor.hit(asked, "DLR3") == ""


def try_operator(folder: Path, told: str) -> None:
    """Each line that says what an operator can try has a command that does what it says, and the page is there."""
    (address,) = re.findall(r"operator +(http://127\.0\.0\.1:\d+/)", told)
    with urllib.request.urlopen(address, timeout=LONG) as page:
        assert b"Mireseason gateway" in page.read()
    lines = re.findall(r'(?m)^    ([a-z][a-z-]*)( [A-Z0-9]+)?( --because "[^"]+")?  ', told)
    assert [line[0] for line in lines] == [
        "halt", "suspend", "cancel", "release", "next-day", "status"
    ]  # fmt: skip
    for word, firm, why in lines:
        words = [str(folder / "admin"), word, *firm.split(), *shlex.split(why)]
        done = subprocess.run(words, capture_output=True, text=True, timeout=LONG, check=False)
        assert done.returncode == 0, (words, done.stderr)
    for words in (["resume"], ["resume", "DLR1"]):
        subprocess.run([str(folder / "admin"), *words], check=True, timeout=LONG)


def is_banner_true(banner: str, gateway: Path) -> bool:
    """Whether it calls unproved exactly what a second implementation stands for."""
    told = subprocess.run([gateway, "--version"], capture_output=True, text=True, check=True).stdout
    is_program = (ROOT / "crates" / "rfq_venue" / "out" / "rfq_venue").exists()
    return (
        banner.startswith("A venue to try: no trade here is real.")
        and ("not proved: its program" in banner) == (not is_program)
        and ("its sessions" in banner) == ("sessions not proved" in told)
    )


def environment(folder: str) -> dict[str, str]:
    return {**os.environ, "PATH": "/usr/bin:" + os.environ["PATH"], "FOLDER": folder}


def begun(
    desk_program: Path, gateway_program: Path, place: Path, ports: list[Port]
) -> tuple["subprocess.Popen[bytes]", Path]:
    """The command, and what it has told. There is a space in each path, and none begins at the root."""
    (place / CLONE).symlink_to(ROOT)
    words = environment(FOLDER) | {
        "PORTS": " ".join(str(port.number) for port in ports),
        "GATEWAY": os.path.relpath(gateway_program.parent, place),
        "DESK": os.path.relpath(desk_program.parent, place),
    }
    told = place / "told"
    with told.open("wb") as out:
        running = subprocess.Popen([COMMAND], env=words, stdout=out, stderr=out, cwd=place)
    try:
        until(
            "it runs",
            LONG,
            lambda: "How each auction ends" in told.read_text() or running.poll() is not None,
        )
    except TooLong:
        down(place)
        raise
    return running, told


def down(place: Path) -> "subprocess.CompletedProcess[str]":
    return subprocess.run(
        [COMMAND, "down"],
        env=environment(FOLDER),
        stdout=subprocess.PIPE,
        stderr=subprocess.STDOUT,
        text=True,
        timeout=LONG,
        check=False,
        cwd=place,
    )


def working_in(folder: Path) -> list[str]:
    """The processes whose folder this is."""
    return [
        process.name
        for process in Path("/proc").iterdir()
        if process.name.isdigit() and is_link_to(process / "cwd", folder)
    ]


def is_link_to(link: Path, folder: Path) -> bool:
    try:
        return os.readlink(link) == str(folder.resolve())
    except OSError:  # it has ended
        return False


@pytest.fixture
def ports() -> list[Port]:
    """Of the gateway and of three pages: nobody else is given these while the test runs."""
    return [Port() for _ in range(4)]


def test_a_venue_whose_script_was_killed(
    desk_program: Path, gateway_program: Path, place: Path, ports: list[Port]
) -> None:
    """`down` ends what it has left, before the audit."""
    running, told = begun(desk_program, gateway_program, place, ports)
    known = place / FOLDER / "pids"
    try:
        assert "How each auction ends" in told.read_text(), told.read_text()
        # Only then does it start the last one, which tells these ends.
        until("it knows all", LONG, lambda: len(known.read_text().split()) == PROGRAMS)
        running.kill()
        running.wait(LONG)
        assert len(working_in(place / FOLDER)) >= PROGRAMS, known.read_text()
    finally:
        ended = down(place)
    assert ended.returncode == 0, ended.stdout
    assert "whose script was killed are ended" in ended.stdout
    assert "the record is consistent" in ended.stdout
    assert working_in(place / FOLDER) == []


def test_a_venue_to_try(
    desk_program: Path, gateway_program: Path, place: Path, ports: list[Port]
) -> None:
    """Its two desks trade, it tells how that auction ended, and the audit finds the day in order."""
    running, told = begun(desk_program, gateway_program, place, ports)
    try:
        investor, dealer = (
            page(told.read_text(), firm, role, desk_program, place)
            for firm, role in (("INV1", INVESTOR), ("DLR3", DEALER))
        )
        for each in (investor, dealer):
            assert is_banner_true(each.hello["banner"], gateway_program), each.hello["banner"]
        trade(investor, dealer)
        sentence = "INV1 bought 2,000,000 of %s from DLR3 at 100; there was no cover" % BOND
        until("its end is told", LONG, lambda: sentence in told.read_text())
        try_operator(place / FOLDER, told.read_text())
        until("the view is there", LONG, (place / FOLDER / "pages" / "now" / "index.html").exists)
        assert "file://%s/pages/index.html" % (place / FOLDER).resolve() in told.read_text()
    finally:
        ended = down(place)
        running.wait(LONG)
    assert ended.returncode == 0, ended.stdout
    assert "The venue has ended." in ended.stdout and "the record is consistent" in ended.stdout


@pytest.mark.parametrize("mode", [0o1777, 0o775])
def test_a_folder_that_others_may_write(place: Path, mode: int) -> None:
    """On a machine of many nobody else can put his own command in the place of the operator's, or read a password."""
    folder = place / "day"
    folder.mkdir()
    folder.chmod(mode)
    done = subprocess.run(
        [str(ROOT / "examples" / "venue.sh")],
        env={**os.environ, "FOLDER": str(folder), "GATEWAY": "/none", "DESK": "/none"},
        capture_output=True,
        text=True,
        timeout=LONG,
        check=False,
    )
    assert done.returncode == 1 and "others may write there" in done.stderr, done
    assert not list(folder.iterdir())
