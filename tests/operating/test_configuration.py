"""The venue's configuration as its operator wrote it: the gateway tells each fault with its place, and writes nothing before it
is right."""

import json
import os
import random
import re
import shutil
import signal
import socket
import subprocess
import tomllib
from collections.abc import Callable
from pathlib import Path

import pytest

from tests.admin.operator import is_root
from tests.gateway.door import today
from tests.gateway.stage import Stage
from tests.gateway.wait import LONG
from tests.harness.options import ROOT

VENUE = """version = 2
[[bond]]
id = "BONDA0000001"
grid = 256
name = "Treasury 4 % 2034"
currency = "USD"
quoted = "32nds"
[[dealer]]
name = "DLR1"
traders = ["T1"]
quotes = 4096
exposure = 60000000
[[dealer]]
name = "DLR2"
traders = ["T2"]
quotes = 4096
exposure = 60000000
[[investor]]
name = "INV1"
traders = ["V1"]
requests = 1024
open = 64
quantity = 5000000
"""

# What is written in the place of a lawful text, and what the operator is told of it, by hand from FORMATS.md.
FAULTS = {
    "a misspelt key": (
        "exposure",
        "exposre",
        "venue.toml: line 12: dealer DLR1: exposre is no key of a dealer; exposure?",
    ),
    "a limit of nothing": (
        "open = 64",
        "open = 0",
        "venue.toml: line 22: investor INV1: open = 0: it has to be from 1 to 1,024",
    ),
    "a bond's id of 11 letters": (
        '"BONDA0000001"',
        '"BONDA000001"',
        "line 3: bond BONDA000001: id",
    ),
    "an ISIN whose last digit is wrong": (
        'currency = "USD"',
        'isin = "US0378331006"',
        'line 6: bond BONDA0000001: isin = "US0378331006": it has to be an ISIN, whose last digit',
    ),
    "a market's code in small letters": (
        "version = 2",
        'version = 2\nmic = "xmir"',
        'venue.toml: line 2: mic = "xmir": it has to be four capital letters and digits',
    ),
    "a grid in version 1": (
        "version = 2",
        "version = 1",
        "line 4: bond BONDA0000001: grid = 256: it has no effect before version 2",
    ),
    "a band in version 2": (
        "grid = 256",
        'grid = 256\nlow = "99"\nhigh = "101"',
        'line 5: bond BONDA0000001: low = "99": it has no effect before version 3',
    ),
    "a firm that is there twice": (
        '"DLR2"',
        '"DLR1"',
        'line 14: dealer DLR1: name = "DLR1": line 9 has it already',
    ),
    "no TOML": ("open = 64", "open = ", "venue.toml: line 22: "),
}


def told(stage: Stage, *words: str) -> subprocess.CompletedProcess[str]:
    """What --check says."""
    command = [
        str(stage.door.programs.gateway),
        "--check",
        str(stage.folder / "gateway.toml"),
        *words,
    ]
    return subprocess.run(command, capture_output=True, text=True, timeout=LONG, check=False)


def write(stage: Stage, venue: str) -> Path:
    """The gateway's files, with this configuration of the venue."""
    file = stage.folder / "venue.toml"
    file.write_text(venue)
    stage.door.write()
    return file


def is_untouched(stage: Stage) -> bool:
    """Whether nothing was written of a day."""
    return not stage.door.database.exists()


@pytest.mark.parametrize("name", FAULTS)
def test_a_fault_is_told_with_its_place_and_nothing_is_written(stage: Stage, name: str) -> None:
    """--check tells it, a start ends with it, and there is no log whose first entry nobody wants."""
    was, wrong, expected = FAULTS[name]
    write(stage, VENUE.replace(was, wrong, 1))
    found = told(stage)
    assert (found.returncode, expected in found.stderr) == (1, True), found.stderr
    stage.door.start()
    assert stage.door.wait_end() == 1
    assert expected in stage.door.last_words()
    assert is_untouched(stage)


def test_once_it_is_right_the_day_begins(stage: Stage) -> None:
    """A fault leaves nothing behind: the file is mended, the gateway starts, and firms trade."""
    file = write(stage, VENUE.replace("exposure", "exposre"))
    stage.door.start()
    assert stage.door.wait_end() == 1
    more = VENUE.replace("currency", 'isin = "US0378331005"\ncurrency')
    file.write_text('mic = "XMIR"\n' + more)  # which the venue ignores
    stage.open(*stage.firms)
    stage.auction()
    stage.whole()


def test_a_configuration_without_a_date_is_of_today(stage: Stage) -> None:
    """The first entry has the text that the venue was given, with the day's date."""
    write(stage, VENUE)
    stage.open()
    first = stage.door.ledger().entries[0]
    assert 'date = "%s"\n%s' % (today(), VENUE) in json.dumps(first.line.decode()).encode().decode(
        "unicode_escape"
    )


def test_yesterdays_date_is_found(stage: Stage) -> None:
    """By --check, and by a start; --date says which day is meant."""
    write(stage, 'date = "20250314"\n' + VENUE)
    assert "the venue's configuration is of 20250314" in told(stage).stderr
    assert told(stage, "--date", "20250314").returncode == 0
    assert told(stage, "--date", "2025").returncode == 2
    stage.door.start()
    assert stage.door.wait_end() == 1
    assert is_untouched(stage)


def test_a_gateway_that_runs_has_its_own_ports(stage: Stage) -> None:
    """So --check finds no fault while the venue is at work, and says that it is."""
    write(stage, VENUE)
    stage.door.start()
    stage.door.wait_open()
    found = told(stage)
    assert found.returncode == 0, found.stderr
    running = "a gateway runs with it, process %d, and has its ports" % stage.door.running.pid
    assert running in found.stdout, found.stdout


def test_a_port_that_another_program_has_is_found(stage: Stage) -> None:
    """Before the day begins, and with the port's number."""
    write(stage, VENUE)
    assert told(stage).returncode == 0
    with socket.socket() as other:
        other.setsockopt(socket.SOL_SOCKET, socket.SO_REUSEADDR, 1)
        other.bind(("127.0.0.1", stage.door.port))
        other.listen()
        found = told(stage)
    assert (found.returncode, "[fix] port 127.0.0.1:%d" % stage.door.port in found.stderr) == (
        1,
        True,
    ), found.stderr


@pytest.mark.parametrize("part", ["fix", "metrics"])
def test_a_port_that_was_changed_while_a_gateway_runs(stage: Stage, part: str) -> None:
    """A restart would take the other one: whether that is free is asked, though the gateway has the ports that it began with."""
    write(stage, VENUE)
    stage.door.start()
    stage.door.wait_open()
    file = stage.folder / "gateway.toml"
    with socket.create_server(("127.0.0.1", 0)) as other:
        number = other.getsockname()[1]
        was = stage.door.port if part == "fix" else stage.door.metrics
        file.write_text(file.read_text().replace("port = %d\n" % was, "port = %d\n" % number))
        found = told(stage)
        expected = "[%s] port 127.0.0.1:%d: Address already in use" % (part, number)
        assert (found.returncode, expected in found.stderr) == (1, True), found.stderr
    assert told(stage).returncode == 0


PLACES = {
    "[operator]\n": (
        '[operator]\ngroup = "nobodys"\n',
        "the system has no group nobodys",
    ),
    'sqlite = "day.db"': ('sqlite = "away/day.db"', "[log] sqlite: there is no folder "),
    "[metrics]\n": (
        '[copies]\nfolder = "away"\n[metrics]\n',
        "[copies] folder: there is no folder ",
    ),
}


@pytest.mark.parametrize("part", PLACES)
def test_a_place_that_is_not_there_is_found(stage: Stage, part: str) -> None:
    """A folder that has to be there, and a group."""
    stage.door.operators = ""
    write(stage, VENUE)
    file = stage.folder / "gateway.toml"
    text = file.read_text().replace('"day.db"', '"day-{date}.db"')
    assert told(stage).returncode == 0
    wrong, expected = PLACES[part]
    was, wrong = (each.replace("day.db", "day-{date}.db") for each in (part, wrong))
    assert was in text
    file.write_text(text.replace(was, wrong, 1))
    found = told(stage)
    assert (found.returncode, expected in found.stderr) == (1, True), found.stderr


# What of the gateway's file stands by something else, and what is told of it.
ENDS = {
    "one port for two": ("port = {metrics}", "port = {fix}", "[fix] port is the same"),
    "a socket's path": ('"admin.sock"', '"%s"' % ("s" * 108), "has more than 107 bytes"),
    "a socket's folder": (
        '"admin.sock"',
        '"away/admin.sock"',
        "[operator] socket: there is no folder",
    ),
    "a socket's place": ('"admin.sock"', '"venue.toml"', "venue.toml that is no socket"),
    "checkpoints": ('"checkpoints"', '"venue.toml/c"', "[seal] checkpoints: there is no folder"),
    "the program's file": (
        "[venue]\n",
        '[venue]\nprogram = "away/venue"\n',
        "[venue] program: there is no file",
    ),
}


@pytest.mark.parametrize("name", ENDS)
def test_what_ends_a_start_is_found(stage: Stage, name: str) -> None:
    """`--check` and a start find the same."""
    stage.door.operators = ""
    write(stage, VENUE)
    file = stage.folder / "gateway.toml"
    text = file.read_text()
    ports = {"metrics": stage.door.metrics, "fix": stage.door.port}
    was, wrong, expected = (each.format(**ports) for each in ENDS[name])
    assert was in text
    file.write_text(text.replace(was, wrong, 1))
    found = told(stage)
    assert (found.returncode, expected in found.stderr) == (1, True), found.stderr
    stage.door.start()
    assert stage.door.wait_end() == 1


@pytest.mark.skipif(not is_root(), reason="a folder of another user's needs root")
@pytest.mark.parametrize("words", [(), ("--accept-loss",)], ids=["start", "accept-loss"])
def test_root_makes_nothing_for_another_user(stage: Stage, words: tuple[str, ...]) -> None:
    """The gateway's own user could not go on with a log or a checkpoint that root has made: it says so, and makes none."""
    write(stage, VENUE)
    shutil.chown(stage.folder, "daemon", "daemon")
    command = [str(stage.door.programs.gateway), *words, str(stage.folder / "gateway.toml")]
    before = sorted(stage.folder.iterdir())
    done = subprocess.run(command, capture_output=True, text=True, timeout=LONG, check=False)
    expected = "%s belongs to daemon(1), who could not go on with what root makes" % stage.folder
    assert (done.returncode, expected in done.stderr) == (1, True), done.stderr
    assert sorted(stage.folder.iterdir()) == before


KINDS = {
    "listen = 127": "[fix] listen has to be a text, in quotes",
    'port = "9878"': "[fix] port has to be a whole number",
    "plain_tcp_beyond_loopback = 1": "[fix] plain_tcp_beyond_loopback has to be true or false",
}


@pytest.mark.parametrize("wrong", KINDS)
def test_a_value_of_another_kind_is_told(stage: Stage, wrong: str) -> None:
    """With what it has to be, and its line."""
    write(stage, VENUE)
    file = stage.folder / "gateway.toml"
    lines = file.read_text().splitlines()
    key = wrong.split(" = ")[0]
    at = lines.index("[fix]") + 1
    lines = lines[:at] + [each for each in lines[at:] if not each.startswith(key + " = ")]
    lines.insert(at, wrong)
    file.write_text("\n".join(lines) + "\n")
    found = told(stage)
    expected = "gateway.toml: line %d: %s\n" % (at + 1, KINDS[wrong])
    assert (found.returncode, found.stderr.endswith(expected)) == (1, True), found.stderr


def test_files_without_a_byte(stage: Stage) -> None:
    """There may be no holidays. Credentials are what an editor left where the disk is full: a reload would log out everybody."""
    write(stage, VENUE)
    file = stage.folder / "gateway.toml"
    file.write_text(file.read_text() + '[day]\nholidays = "holidays"\n')
    holidays = stage.folder / "holidays"
    found = told(stage)
    line = file.read_text().count("\n")
    words = 'gateway.toml: line %d: [day] holidays = "holidays": ' % line
    assert found.returncode == 1
    assert found.stderr.endswith("/%s%s: can't be read\n" % (words, holidays)), found.stderr
    holidays.write_text("")
    assert told(stage).returncode == 0
    (stage.folder / "credentials.toml").write_text("")
    found = told(stage)
    assert (found.returncode, "credentials.toml: has nothing in it" in found.stderr) == (1, True)


@pytest.mark.parametrize("name", ["credentials.toml", "venue.toml", "keys/seal.key"])
def test_a_pipe_in_the_place_of_a_file(stage: Stage, name: str) -> None:
    """Nobody waits for whoever might write into it."""
    write(stage, VENUE)
    assert told(stage).returncode == 0
    file = stage.folder / name
    file.unlink()
    os.mkfifo(file, 0o600)
    found = told(stage)
    assert (found.returncode, name in found.stderr) == (1, True), found.stderr


def test_the_pages_have_the_defaults() -> None:
    """The example, what the package installs as comments, and what the gateway's page says: a key each, and the same figure."""
    example = tomllib.loads((ROOT / "examples/gateway/gateway.toml").read_text())["limits"]
    installed = (ROOT / "install/packages/config/gateway.toml").read_text()
    taken = re.sub("(?m)^# ", "", installed[installed.index("# [limits]") :])
    assert tomllib.loads(taken)["limits"] == example
    rows = re.findall(r"(?m)^\| `(\w+)` \| ([\d,]+) \|", (ROOT / "gateway/README.md").read_text())
    assert {key: int(figure.replace(",", "")) for key, figure in rows} == example


def with_program(stage: Stage, words: list[str]) -> None:
    """The gateway's file, with another program of the venue."""
    file = stage.folder / "gateway.toml"
    lines = file.read_text().splitlines()
    file.write_text(
        "\n".join(
            "command = " + json.dumps(words) if line.startswith("command") else line
            for line in lines
        )
    )


def a_program_that_is_not_there(folder: Path) -> list[str]:
    return [str(folder / "nobody")]


def a_program_that_takes_no_configuration(folder: Path) -> list[str]:
    program = folder / "strict"
    program.write_text("#!/bin/sh\ncat >/dev/null\necho 'config: Limit' >&2\nexit 1\n")
    program.chmod(0o755)
    return [str(program)]


@pytest.mark.parametrize(
    ("program", "expected"),
    [
        (a_program_that_is_not_there, "nobody"),
        (a_program_that_takes_no_configuration, "config: Limit"),
    ],
)
def test_the_venues_program_is_asked_first(
    stage: Stage, program: Callable[[Path], list[str]], expected: str
) -> None:
    """A configuration that the venue does not take begins no day, whatever the gateway thinks of it."""
    write(stage, VENUE)
    with_program(stage, program(stage.folder))
    found = told(stage)
    assert (found.returncode, expected in found.stderr) == (1, True), found.stderr
    stage.door.start()
    assert stage.door.wait_end() == 1
    assert expected in stage.door.last_words()


def test_a_program_that_leaves_its_input_to_another(stage: Stage) -> None:
    """The other one reads nothing of more than a pipe holds, has left the group that is killed, and holds up nobody."""
    write(stage, VENUE + "# and more\n" * 10_000)
    script = stage.folder / "leaves"
    number = stage.folder / "number"
    script.write_text(
        "#!/bin/sh\nexec 3<&0\nsetsid sleep 600 >%s 2>&1 &\necho $! >%s\nexit 9\n"
        % (os.devnull, number)
    )
    script.chmod(0o755)
    with_program(stage, [str(script)])
    file = stage.folder / "gateway.toml"
    file.write_text(file.read_text().replace("[venue]\n", "[venue]\nconfined = false\n"))
    try:
        found = told(stage)
    finally:
        os.kill(int(number.read_text()), signal.SIGKILL)
    assert found.returncode == 1 and "ended with status 9" in found.stderr, found.stderr


def drawn_fault(draw: random.Random) -> tuple[str, int, str]:
    """A line of the lawful text with one letter of its key left out: the text, the line's number, the key."""
    lines = VENUE.splitlines()
    numbers = [
        at for at, line in enumerate(lines) if " = " in line and len(line.split(" = ")[0]) > 3
    ]
    at = draw.choice(numbers)
    key, value = lines[at].split(" = ")
    letter = draw.randrange(len(key))
    lines[at] = "%s = %s" % (key[:letter] + key[letter + 1 :], value)
    return "\n".join(lines) + "\n", at + 1, key


def test_fifty_drawn_faults_are_told_with_line_and_key(stage: Stage, seed: int) -> None:
    """A letter that is missing from a key, wherever it is."""
    write(stage, VENUE)
    draw = random.Random(seed)
    for _ in range(50):
        text, line, key = drawn_fault(draw)
        (stage.folder / "venue.toml").write_text(text)
        found = told(stage)
        assert found.returncode == 1, text
        assert "line %d: " % line in found.stderr and "; %s?" % key in found.stderr, (
            text,
            found.stderr,
        )
    assert is_untouched(stage)


INSTALLED = ROOT / "install" / "packages" / "config" / "gateway.toml"


def day_as_installed() -> str:
    """The part [day] of a new installation, without its file of holidays."""
    text = INSTALLED.read_text()
    part = text[text.index("[day]") : text.index("[log]")]
    return re.sub("(?m)^holidays .*$", "", part)


def test_hours_that_nobody_has_chosen(stage: Stage) -> None:
    """A new installation opens no day by itself: --check and a start ask for hours, with the line, and there is no log. Once they are
    chosen, and in an installation that has no part [day], the day opens."""
    write(stage, VENUE)
    file = stage.folder / "gateway.toml"
    before = file.read_text()
    assert told(stage).returncode == 0
    part = day_as_installed()
    text = before + part
    file.write_text(text)
    for key, value in (("opens", "00:00"), ("ends", "24:00")):
        asks = '%s = "ask"' % key
        line = text[: text.index(asks)].count("\n") + 1
        expected = "gateway.toml: line %d: [day] %s: say here when a trading day opens" % (
            line,
            asks,
        )
        found = told(stage)
        assert (found.returncode, expected in found.stderr) == (1, True), found.stderr
        stage.door.start()
        assert stage.door.wait_end() == 1
        assert is_untouched(stage)
        text = text.replace(asks, '%s = "%s"' % (key, value))
        file.write_text(text)
    week = "weekdays = " + json.dumps(["Mon", "Tue", "Wed", "Thu", "Fri", "Sat", "Sun"])
    file.write_text(re.sub("(?m)^weekdays = .*$", week, text))
    assert told(stage).returncode == 0, told(stage).stderr
    stage.door.start()
    stage.door.wait_open()


# What stands behind the gateway's file, the words that tell it, and the word whose line that is; none where the key alone is told.
PLACES_OF_FAULTS = {
    "a part of another name": ("[dya]\n", "line {line}: dya is no part of it", "[dya]"),
    "no file of holidays": (
        '[day]\nholidays = "gone"\n',
        'line {line}: [day] holidays = "gone": ',
        "holidays =",
    ),
    "a key of TLS alone": (
        '[tls]\nkey = "gateway.toml"\n',
        "[tls] certificate is missing: [tls] has to have certificate and key",
        "",
    ),
    "no certificate": (
        '[tls]\ncertificate = "gone.pem"\nkey = "gateway.toml"\n',
        'line {line}: [tls] certificate = "gone.pem": No such file or directory',
        "certificate =",
    ),
    "certificates of firms by nobody": (
        '[tls]\ncertificate = "gateway.toml"\nkey = "credentials.toml"\nclient_certificates = true\n',
        "line {line}: [tls] client_certificates needs authorities",
        "client_certificates",
    ),
    "nobody's group": (
        '[operator]\nsocket = "s"\ngroup = "nobodys"\n',
        '[operator] group = "nobodys": the system has no group nobodys',
        "",
    ),
}


@pytest.mark.parametrize("name", PLACES_OF_FAULTS)
def test_a_fault_of_the_gateways_file_is_told_with_its_key(stage: Stage, name: str) -> None:
    """And with its line, where it has one."""
    part, expected, word = PLACES_OF_FAULTS[name]
    write(stage, VENUE)
    file = stage.folder / "gateway.toml"
    text = file.read_text() + part
    file.write_text(text)
    line = text[: text.rindex(word)].count("\n") + 1 if word else 0
    found = told(stage)
    assert found.returncode == 1
    assert expected.format(line=line) in found.stderr, (expected, found.stderr)


def test_a_program_that_is_not_there(stage: Stage) -> None:
    """The key is told, and not what a process said that could not begin."""
    write(stage, VENUE)
    with_program(stage, ["/usr/bin/no-venue", "live", "--frames", "--marks"])
    found = told(stage)
    assert found.returncode == 1
    assert "[venue] command: there is no program /usr/bin/no-venue" in found.stderr, found.stderr


def test_firms_that_can_not_log_on(stage: Stage) -> None:
    """--check names each, and why: it has no credentials, or they held to a day that is over."""
    write(stage, VENUE)
    credentials = stage.folder / "credentials.toml"
    parts = re.split(r"(?m)^(?=\[)", credentials.read_text())
    kept = [part for part in parts if not part.startswith("[DLR2]")]
    text = "".join(kept).replace("[INV1]", '[INV1]\nends = "20200101"')
    credentials.write_text(text)
    found = told(stage)
    assert found.returncode == 0, found.stderr
    assert "DLR2 can't log on: it has no credentials\n" in found.stdout
    assert "INV1 can't log on: its credentials held to 20200101\n" in found.stdout
    assert "DLR1 can't log on" not in found.stdout
