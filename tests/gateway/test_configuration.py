"""Faults of the gateway's configuration, of the credentials and of a site, told when they are read."""

import re
import subprocess
from pathlib import Path

from tests.gateway.stage import DEALER, Stage, check
from tests.gateway.test_logon import with_tls
from tests.gateway.wait import LONG

ROOT = Path(__file__).resolve().parent.parent.parent


def test_configuration_at_fault(stage: Stage) -> None:
    """A key that is none, a level of events that is none, and a part that is none: the gateway ends, and names it."""
    stage.door.write()
    file = stage.folder / "gateway.toml"
    text = file.read_text()
    for events, word in (('level = "loud"', "level"), ('levels = "info"', "levels")):
        file.write_text(text + "[events]\n" + events + "\n")
        stage.refused(word)
    for events in ('events = "error"\n' + text, text + '[[events]]\nlevel = "error"\n'):
        file.write_text(events)
        stage.refused("events")


def test_beyond_the_loopback(stage: Stage) -> None:
    stage.door.write()
    file = stage.folder / "gateway.toml"
    text = file.read_text()
    file.write_text(text.replace('listen = "127.0.0.1"', 'listen = "0.0.0.0"'))
    stage.refused("plain_tcp_beyond_loopback|loopback")


def test_password_in_the_clear(stage: Stage) -> None:
    """A password in the place of its hash: it would be right for nobody."""
    stage.door.write()
    file = stage.folder / "credentials.toml"
    file.write_text(
        re.sub(r'password = ".*"', 'password = "%s"' % DEALER.password, file.read_text(), count=1)
    )
    stage.refused("DLR1.*password")
    check(DEALER.password not in stage.door.last_words(), "it tells the password")


def test_part_without_a_command(stage: Stage) -> None:
    """A key of one venue where there are several: nobody would heed it."""
    stage.door.write()
    file = stage.folder / "gateway.toml"
    text = file.read_text().replace("[venue]", "[venue.north]").replace("day.db", "{venue}.db")
    file.write_text('[venue]\nprogram = "venue"\n' + text)
    stage.refused("program")


def checked(stage: Stage) -> subprocess.CompletedProcess[str]:
    """What --check says of the configuration."""
    words = [str(stage.door.programs.gateway), "--check", str(stage.folder / "gateway.toml")]
    return subprocess.run(words, capture_output=True, text=True, timeout=LONG, check=False)


def test_checked_beforehand(stage: Stage) -> None:
    """--check finds what the sessions could not begin with, too: a key that is not there, and an address that is none."""
    with_tls(stage)
    stage.door.write()
    file = stage.folder / "gateway.toml"
    text = file.read_text()
    check(checked(stage).returncode == 0, "it refuses a right one: %s" % checked(stage).stderr)
    for right, wrong in (("venue.key", "none.key"), ("127.0.0.1", "localhost")):
        file.write_text(text.replace(right, wrong))
        found = checked(stage)
        check(found.returncode == 1 and wrong in found.stderr, "%s: %r" % (wrong, found))


def asked(program: Path, *words: str, given: str = "") -> tuple[int, str, str]:
    """The status of a program, and what it says on standard output and on standard error."""
    done = subprocess.run(
        [program, *words],
        input=given,
        capture_output=True,
        text=True,
        timeout=LONG,
        check=False,
    )
    return done.returncode, done.stdout, done.stderr


def test_what_the_program_does(gateway_program: Path, place: Path) -> None:
    """Its status is 0 where it did what it was asked for, and 1, with the cause, where it could not."""
    version = (ROOT / "VERSION").read_text().splitlines()[0]
    status, told, fault = asked(gateway_program, "--version")
    check(status == 0 and told.startswith("mireseason-gateway %s (" % version), told + fault)
    status, told, fault = asked(gateway_program, "--hash", given="right\n")
    check(status == 0 and re.fullmatch(r"\$y\$\S+\n", told) is not None, told + fault)
    keys, none = str(place / "keys"), str(place / "none.toml")
    status, told, fault = asked(gateway_program, "--make-keys", keys, "a", "b")
    made = [Path(file).name for file in told.split()]
    check(status == 0 and made == ["seal.key", "a.pem", "a.pub", "b.pem", "b.pub"], told + fault)
    for words in (("--make-keys", keys, "a"), ("--check", none), ("--accept-loss", none), (none,)):
        status, told, fault = asked(gateway_program, *words)
        check(status == 1 and fault.startswith("mireseason-gateway: "), "%s: %s" % (words, fault))


def test_what_the_program_does_not(gateway_program: Path) -> None:
    """Its status is 2 where it was asked for nothing that it does."""
    for given in ("", "\n"):
        check(asked(gateway_program, "--hash", given=given)[0] == 2, "no password is hashed")
    day = asked(gateway_program, "--check", "none.toml", "--date", "2025031")
    check(day[0] == 2 and "eight digits" in day[2], "a day of seven digits: %s" % day[2])
    nothing: list[list[str]] = [
        ["--version", "1"],
        ["--hash", "right"],
        ["--make-keys"],
        ["--confined"],
        ["--accept-loss"],
        ["--accept-loss", "none.toml", "none.toml"],
        ["--check"],
        ["--check", "none.toml", "--date"],
        ["--check", "none.toml", "--data", "20250314"],
        ["--chec", "none.toml"],
        ["none.toml", "none.toml"],
        [],
    ]
    for words in nothing:
        status, _, fault = asked(gateway_program, *words)
        check(status == 2 and fault.startswith("usage: "), "%s: %d %s" % (words, status, fault))


def test_begun_with_a_wrong_key(stage: Stage) -> None:
    """So does a start: before there is a log, and not where sessions would begin."""
    with_tls(stage)
    stage.door.tls["key"] = '"none.key"'
    stage.door.write()
    stage.refused("none.key")


def test_password_of_a_shell(stage: Stage) -> None:
    """A password of an installation that is another where a shell, SQL or YAML has read it: it is refused, and not told."""
    site = (ROOT / "install" / "hosts" / "site.toml").read_text()
    file, folder = stage.folder / "site.toml", stage.folder / "db1"
    for odd in ("a$HOME", "it's", "a:b", "", "a b"):
        file.write_text(site.replace("change-me-1", odd))
        found = configured(file, folder)
        check(
            found.returncode == 1 and "password of gateway" in found.stderr and not folder.exists(),
            "%r: %r" % (odd, found),
        )
        check(not odd or odd not in found.stderr, "it tells the password %r" % odd)
    file.write_text(site.replace("change-me-1", "a.B_9~+-"))
    check(configured(file, folder).returncode == 0, "a password is refused")
    check(
        "PASSWORD 'a.B_9~+-'" in (folder / "make_database.sh").read_text(),
        "it is not in make_database.sh",
    )


def configured(site: Path, folder: Path) -> subprocess.CompletedProcess[str]:
    """What configure.py says of a database host."""
    words = [str(ROOT / "install" / "hosts" / "configure.py"), str(site), "db1", str(folder)]
    return subprocess.run(words, capture_output=True, text=True, timeout=LONG, check=False)
