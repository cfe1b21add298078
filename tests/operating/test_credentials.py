"""What mireseason-credentials makes of a file of credentials; the gateway hashes the password."""

from __future__ import annotations

import fcntl
import os
import re
import resource
import socket
import subprocess
import tomllib
from concurrent.futures import ThreadPoolExecutor
from dataclasses import dataclass
from pathlib import Path
from typing import Any

import pytest

from tests.gateway.wait import LONG
from tests.harness.options import ROOT

SCRIPT = ROOT / "install" / "packages" / "sbin" / "mireseason-credentials"
VENUE = """\
version = 2
[[bond]]
id = "BONDA0000001"
name = "LONG6"
[[dealer]]
name = "DLR1"
  [[dealer]]
  name = 'DLR2'   # in single quotes, and indented
[[investor]]
name = "INV1"
"""
KEPT = """\
# Who may log on as which firm.
[DLR1] # since March
username = "desk-1"
password = "$6$old"
addresses = ["192.0.2.0/24"] # their office
"""


@dataclass(frozen=True)
class Office:
    """A folder of configuration, and the program that is tried on it."""

    folder: Path
    gateway: Path

    @property
    def file(self) -> Path:
        return self.folder / "credentials.toml"

    def call(self, *words: str) -> subprocess.CompletedProcess[str]:
        path = {**os.environ, "PATH": f"{self.gateway.parent}:/usr/bin:/bin"}
        return subprocess.run(
            ["/usr/bin/python3", SCRIPT, *words, self.file],
            env=path,
            capture_output=True,
            text=True,
            timeout=LONG,
        )

    def credentials(self) -> dict[str, Any]:
        return tomllib.loads(self.file.read_text())


@pytest.fixture
def office(gateway_program: Path, place: Path) -> Office:
    (place / "gateway.toml").write_text('[venue]\nconfiguration = "venue.toml"\n[fix]\nport = 1\n')
    (place / "venue.toml").write_text(VENUE)
    (place / "credentials.toml").write_text(KEPT)
    return Office(place, gateway_program)


def password_of(settings: str) -> str:
    found = re.search(r"^Password=(\S+)$", settings, re.MULTILINE)
    assert found, settings
    return found[1]


def test_a_new_firm_is_added_behind_the_others(office: Office) -> None:
    ran = office.call("DLR2")
    assert ran.returncode == 0, ran.stderr
    assert office.file.read_text().startswith(KEPT + "\n[DLR2]\n")
    added = office.credentials()["DLR2"]
    assert added["username"] == "DLR2" and added["password"].startswith("$")
    assert password_of(ran.stdout) not in office.file.read_text()
    for line in ("SenderCompID=DLR2", "SocketConnectPort=1", "SocketNodelay=Y"):
        assert line + "\n" in ran.stdout, ran.stdout


@pytest.mark.parametrize(
    "written",
    ["['DLR2']", '["DLR2"]', "  [DLR2]", "[ DLR2 ] # x"],
    ids=["1", "2", "indented", "wide"],
)
def test_a_firm_that_has_credentials_is_not_written_twice(office: Office, written: str) -> None:
    text = KEPT + f'{written}\nusername = "x"\npassword = "$y"\n'
    office.file.write_text(text)
    ran = office.call("DLR2")
    assert ran.returncode == 1 and "has credentials already" in ran.stderr
    assert ran.stdout == "" and office.file.read_text() == text


def test_a_new_password_leaves_all_else(office: Office) -> None:
    ran = office.call("--replace", "DLR1")
    assert ran.returncode == 0, ran.stderr
    assert "Username=desk-1\n" in ran.stdout
    now = office.file.read_text()
    assert now.replace(office.credentials()["DLR1"]["password"], "$6$old") == KEPT


def test_a_firm_is_taken_out(office: Office) -> None:
    assert office.call("DLR2").returncode == 0
    ran = office.call("--remove", "DLR2")
    assert ran.returncode == 0, ran.stderr
    assert ran.stdout == "" and set(office.credentials()) == {"DLR1"}
    assert "# their office" in office.file.read_text()


def test_what_signs_a_report_is_kept(office: Office) -> None:
    """Beside what stands there, and in the place of the one before."""
    for line in ("mireseason-report 1 DLR1 a", "mireseason-report 1 DLR1 b"):
        ran = office.call("--report", line, "DLR1")
        assert ran.returncode == 0 and ran.stdout == "", ran.stderr
        assert "DLR1 has its report" in ran.stderr and "mireseason-admin reload" in ran.stderr
        assert office.file.read_text() == KEPT + f'report = "{line}"\n'
    ran = office.call("--report", "mireseason-report 1 DLR2 a", "DLR2")
    assert ran.returncode == 1 and "DLR2 has no credentials" in ran.stderr


def test_a_firm_that_leaves_has_a_last_day(office: Office) -> None:
    """Its password and all else stay; it is told that the venue's configuration is to lose it too. A second call moves the day."""
    for day in ("20261130", "20261201"):
        ran = office.call("--last", day, "DLR1")
        assert ran.returncode == 0 and ran.stdout == "", ran.stderr
        assert "up to " + day in ran.stderr and "venue's configuration too" in ran.stderr
        kept = tomllib.loads(KEPT)
        kept["DLR1"]["ends"] = day
        assert office.credentials() == kept
    assert "# their office" in office.file.read_text()


@pytest.mark.parametrize("day", ["2026113", "20261131", "tomorrow", "2026-11-30", ""])
def test_a_last_day_is_one_of_the_calendar(office: Office, day: str) -> None:
    ran = office.call("--last", day, "DLR1")
    assert ran.returncode == 2 and office.file.read_text() == KEPT


def test_where_a_firm_connects(office: Office) -> None:
    """To the address at which the gateway listens; one that is all addresses is the machine's name, and none is its own."""
    for listen, host in (
        ('listen = "192.0.2.9"', "192.0.2.9"),
        ('listen = "0.0.0.0"', socket.getfqdn()),
        ('listen = "::"', socket.getfqdn()),
        ("", "127.0.0.1"),
    ):
        text = '[venue]\nconfiguration = "venue.toml"\n[fix]\nport = 7\n%s\n' % listen
        (office.folder / "gateway.toml").write_text(text)
        ran = office.call("--replace", "DLR1")
        assert "SocketConnectHost=%s\nSocketConnectPort=7\n" % host in ran.stdout, ran.stderr


def test_who_is_told_of_the_next_day(office: Office) -> None:
    """A firm that is new, where a venue's configuration says who its firms are."""
    words = "is new in the venue's configuration, it may log on from the next day on"
    assert "if DLR2 " + words in office.call("DLR2").stderr
    assert words not in office.call("--replace", "DLR2").stderr
    (office.folder / "gateway.toml").unlink()
    ran = office.call("INV1")
    assert ran.returncode == 0 and words not in ran.stderr
    assert "INV1 may log on after the next start" in ran.stderr


def test_who_removes_is_told_of_a_restart(office: Office) -> None:
    """The firm is out today too, once the gateway is started again."""
    ran = office.call("--remove", "DLR1")
    assert ran.returncode == 0 and "a restart keeps DLR1 out, also within" in ran.stderr


NEXT = """
# The pension fund: call John before any change.
[INV1]
username = "i"
password = "$6$i"
"""


@pytest.mark.parametrize("before", ["", "[DLR2]\nusername = 'd'\npassword = '$6$d'\n\n"])
def test_who_is_taken_out_takes_no_other_firms_comment(office: Office, before: str) -> None:
    office.file.write_text(before + KEPT + NEXT)
    assert office.call("--remove", "DLR1").returncode == 0
    assert office.file.read_text() == before + "# Who may log on as which firm.\n" + NEXT


def test_a_link_stays_one(office: Office) -> None:
    there = office.folder / "kept.toml"
    office.file.rename(there)
    office.file.symlink_to("kept.toml")
    assert office.call("--replace", "DLR1").returncode == 0
    assert office.file.is_symlink() and "$6$old" not in there.read_text()


@pytest.mark.parametrize(
    "venue",
    [
        '[[dealer]]\nname = ["DLR2"]\n',
        'dealer = ["DLR2"]\n',
        "dealer = 1\n",
        "a" + ".a" * 20000 + " = 1\n",
    ],
    ids=["list", "rows", "number", "dots"],
)
def test_a_venue_at_fault_is_told(office: Office, venue: str) -> None:
    (office.folder / "venue.toml").write_text(venue)
    ran = office.call("DLR2")
    assert ran.returncode == 1 and "Traceback" not in ran.stderr and "venue.toml" in ran.stderr
    assert office.file.read_text() == KEPT


def test_settings_that_nobody_takes(office: Office) -> None:
    """The operator is told that the password is lost."""
    path = {**os.environ, "PATH": f"{office.gateway.parent}:/usr/bin:/bin"}
    words: list[str | Path] = ["/usr/bin/python3", SCRIPT, "--replace", "DLR1", office.file]
    with Path("/dev/full").open("wb") as full:
        ran = subprocess.run(words, env=path, stdout=full, stderr=subprocess.PIPE, timeout=LONG)
    assert ran.returncode == 1 and b"is lost" in ran.stderr and b"--replace" in ran.stderr


def test_a_lock_that_somebody_keeps(office: Office) -> None:
    """Who may open the folder may lock it: the call says so, and ends."""
    folder = os.open(office.folder, os.O_RDONLY)
    try:
        fcntl.flock(folder, fcntl.LOCK_EX)
        ran = office.call("DLR2")
    finally:
        os.close(folder)
    assert ran.returncode == 1 and "another call is at work" in ran.stderr
    assert office.file.read_text() == KEPT


def test_a_gateway_that_hashes_nothing(office: Office, place: Path) -> None:
    """One that is not there, or fails: its words are told, and nothing is written."""
    (place / "bin").mkdir()
    lame = Office(office.folder, place / "bin" / "mireseason-gateway")
    ran = lame.call("DLR2")
    assert ran.returncode == 1 and "mireseason-gateway: No such file" in ran.stderr
    lame.gateway.write_text("#!/bin/sh\necho no entropy >&2\nexit 3\n")
    lame.gateway.chmod(0o755)
    ran = lame.call("--replace", "DLR1")
    assert ran.returncode == 1 and "mireseason-gateway --hash: no entropy" in ran.stderr
    assert office.file.read_text() == KEPT


def test_a_username_of_two_lines(office: Office) -> None:
    """It would be another setting of the firm's session."""
    office.file.write_text(KEPT.replace('"desk-1"', '"desk-1\\nSenderCompID=DLR2"'))
    ran = office.call("--replace", "DLR1")
    assert ran.returncode == 1 and "can't be printed" in ran.stderr
    assert ran.stdout == "" and "$6$old" in office.file.read_text()


@pytest.mark.parametrize("which", [["--replace"], ["--remove"], ["--last", "20261130"]])
def test_who_has_none_is_named(office: Office, which: list[str]) -> None:
    ran = office.call(*which, "INV1")
    assert ran.returncode == 1 and "INV1 has no credentials" in ran.stderr
    assert office.file.read_text() == KEPT


@pytest.mark.parametrize("name", ["LONG6", "NOBODY"])
def test_what_is_no_firm_of_the_venue_gets_none(office: Office, name: str) -> None:
    """A bond's name is none."""
    ran = office.call(name)
    assert ran.returncode == 1 and f"has no firm {name}" in ran.stderr
    assert office.file.read_text() == KEPT


def test_who_is_a_firm_of_one_of_several_venues(office: Office) -> None:
    """Any of them will do, and the firm's settings say which; a file that is not there yet says nothing."""
    parts = ('[venue.%s]\nconfiguration = "%s.toml"\n' % (name, name) for name in "abc")
    (office.folder / "gateway.toml").write_text("".join(parts))
    (office.folder / "venue.toml").rename(office.folder / "b.toml")
    (office.folder / "a.toml").write_text(VENUE.replace("INV1", "INV2"))
    for firm, venues in (("INV1", "b, c"), ("INV2", "a, c")):
        ran = office.call(firm)
        assert ran.returncode == 0
        assert "# TargetSubID (57) of the Logon names the venue: %s." % venues in ran.stdout
    ran = office.call("INV3")
    assert ran.returncode == 1 and "a.toml and " in ran.stderr and "b.toml has no" in ran.stderr
    for name in "ab":
        (office.folder / (name + ".toml")).unlink()
    assert office.call("INV3").returncode == 0


def test_a_disk_that_takes_no_more(office: Office) -> None:
    """The file stays as it was, and nothing is left beside it."""
    path = {**os.environ, "PATH": f"{office.gateway.parent}:/usr/bin:/bin"}
    words: list[str | Path] = [
        "/usr/bin/python3",
        SCRIPT,
        "--last",
        "20261130",
        "DLR1",
        office.file,
    ]

    def full() -> None:
        resource.setrlimit(resource.RLIMIT_FSIZE, (20, 20))

    before = sorted(office.folder.iterdir())
    ran = subprocess.run(
        words, env=path, capture_output=True, text=True, timeout=LONG, preexec_fn=full
    )
    assert ran.returncode == 1 and "File too large" in ran.stderr
    assert sorted(office.folder.iterdir()) == before and office.file.read_text() == KEPT


@pytest.mark.parametrize("name", ["dlr1", "TOOLONG99", "D.1", ""])
def test_what_can_be_no_name_is_a_wrong_argument(office: Office, name: str) -> None:
    assert office.call(name).returncode == 2
    assert office.file.read_text() == KEPT


@pytest.mark.parametrize(
    "text",
    ["[DLR1", "a" + ".a" * 30000 + " = 1\n", "x = " + "[" * 100000, "#" * (1 << 20) + "\n"],
    ids=["cut", "dots", "brackets", "long"],
)
def test_a_file_at_fault_is_named_and_stays(office: Office, text: str) -> None:
    office.file.write_text(text)
    ran = office.call("DLR2")
    assert ran.returncode == 1 and "credentials.toml: " in ran.stderr, ran.stderr
    assert "Traceback" not in ran.stderr and office.file.read_text() == text


def test_two_calls_at_once_lose_nothing(office: Office) -> None:
    office.file.write_text("")
    with ThreadPoolExecutor() as pool:
        ran = list(pool.map(office.call, ["DLR1", "DLR2", "INV1"]))
    assert [one.returncode for one in ran] == [0, 0, 0]
    assert office.file.read_text().startswith("[")
    assert set(office.credentials()) == {"DLR1", "DLR2", "INV1"}


def test_owner_and_mode_stay(office: Office) -> None:
    office.file.chmod(0o640)
    assert office.call("DLR2").returncode == 0
    assert office.file.stat().st_mode & 0o777 == 0o640


def test_a_firms_settings_are_nobody_elses(office: Office) -> None:
    """They have its password, whatever the shell's umask lets others read."""
    settings = office.folder / "dlr2.cfg"
    path = {**os.environ, "PATH": f"{office.gateway.parent}:/usr/bin:/bin"}
    with settings.open("wb") as file:
        settings.chmod(0o644)
        words: list[str | Path] = ["/usr/bin/python3", SCRIPT, "DLR2", office.file]
        subprocess.run(words, env=path, stdout=file, check=True, timeout=LONG)
    assert settings.stat().st_mode & 0o777 == 0o600
    assert "Password=" in settings.read_text()
