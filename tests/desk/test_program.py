"""The desk's own tests in C++, which are built beside its program, its version, and the words of its command line."""

import subprocess
from pathlib import Path

import pytest

from tests.desk.desks import INVESTOR, ROOT, Desk
from tests.gateway.wait import LONG

NOBODY = 9  # a port at which no venue is


def test_the_desks_own_tests(desk_program: Path) -> None:
    """Journal, fold, prices, pages and logins, case by case (desk/unit)."""
    tests = desk_program.parent / "desk_test"
    if not tests.exists():
        pytest.skip("desk_test is not built beside the desk")
    done = subprocess.run([tests], capture_output=True, text=True, timeout=300, check=False)
    assert done.returncode == 0, done.stdout[-4000:] + done.stderr


def test_the_version(desk_program: Path) -> None:
    """One version for all programs, that of the file VERSION, and the commit."""
    told = subprocess.run([desk_program, "--version"], capture_output=True, text=True, check=True)
    version = (ROOT / "VERSION").read_text().splitlines()[0]
    assert told.stdout.startswith("mireseason-desk %s (" % version), told.stdout
    assert told.stdout.endswith(")\n"), told.stdout


def run(program: Path, *words: "str | Path") -> "subprocess.CompletedProcess[str]":
    """A desk that serves would not end."""
    return subprocess.run(
        [program, *words], capture_output=True, text=True, timeout=LONG, check=False
    )


def test_a_check_ends(desk_program: Path, hashed: str, place: Path) -> None:
    """It reads the configuration and what that names, serves nothing, and leaves nothing in the data's folder."""
    desk = Desk(desk_program, place, INVESTOR, NOBODY, hashed)
    desk.write()
    config = place / "INV1.toml"
    told = run(desk_program, "--check", config)
    assert (told.returncode, told.stdout, told.stderr) == (0, "", "")
    assert not desk.data.exists()
    config.write_text("more = 1\n" + config.read_text())
    told = run(desk_program, "--check", config)
    assert told.returncode == 1 and "there is no key 'more'" in told.stderr, told
    (place / "INV1.password").chmod(0o644)
    config.write_text(config.read_text().removeprefix("more = 1\n"))
    told = run(desk_program, "--check", config)
    assert told.returncode == 1 and "chmod 600" in told.stderr, told


def test_words_that_mean_nothing(desk_program: Path, hashed: str, place: Path) -> None:
    """They are answered by the usage: no desk starts by a mistake, least of all with another number of its session."""
    desk = Desk(desk_program, place, INVESTOR, NOBODY, hashed)
    desk.write()
    config = str(place / "INV1.toml")
    wrong: list[list[str]] = [
        [],
        ["--check"],
        ["--next-number", "5"],
        ["--next-number", "0", config],
        ["--next-number", "-1", config],
        ["--next-number", "5x", config],
        ["--next-number", "", config],
        ["--next", "5", config],
        ["--checks", config],
        ["--check", config, config],
        ["-c", config],
        [config, config],
    ]
    for words in wrong:
        told = run(desk_program, *words)
        assert told.returncode == 2 and told.stderr.startswith("usage: mireseason-desk CONFIG"), (
            words,
            told,
        )
    assert not desk.data.exists()
