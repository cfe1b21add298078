"""If something is missing, one line says so and what to do, never a traceback."""

import os
import subprocess
from pathlib import Path

import pytest

from tests.audit.common import AUDIT, audit, keys
from tests.supervisor.conftest import STORED

WITHOUT = 'raise ModuleNotFoundError("No module named %r", name=%r)\n'


@pytest.mark.parametrize(
    "module, words",
    [
        ("jinja2", ["page", STORED, "DIR"]),
        ("psycopg2", ["check", "postgres:dbname=none"]),
        ("cryptography", ["check", STORED, "--gateway-key", "key.pem"]),
    ],
)
def test_a_package(
    tmp_path: Path, venue: tuple[str, ...], module: str, words: list[object]
) -> None:
    """A module of this name, which stands in front of Debian's, says that it is missing."""
    (tmp_path / (module + ".py")).write_text(WITHOUT % (module, module))
    environment = {"PYTHONPATH": os.pathsep.join((str(tmp_path), os.environ["PYTHONPATH"]))}
    named = [tmp_path / "DIR" if word == "DIR" else word for word in words]
    ran = audit(*named, venue=list(venue), environment=environment)
    assert (ran.status, ran.out) == (2, "")
    assert ran.err.count("\n") == 1 and "apt-get install -y python3-%s" % module in ran.err


@pytest.mark.parametrize(
    "words, told",
    [
        (["check"], "the following arguments are required: LOG"),
        ([], "the following arguments are required: COMMAND"),
        (["look", STORED], "invalid choice: 'look'"),
        (["page", STORED, "DIR", "--dictionary", "nothing.xml"], "the dictionary nothing.xml"),
        (["page", STORED, "DIR", "--sign", "nothing.pem"], "nothing.pem"),
        (["record", STORED, "DIR"], "say which record: --rts24"),
        (["record", STORED, "DIR", "--rts24", "--parties", "no.toml"], "name a file by --parties"),
        (["stats", STORED, "--key", "nothing.pub"], "the public key nothing.pub"),
        (["stats", STORED, "--key", "KEY"], "day.db.seal"),
    ],
)
def test_a_word_or_a_file(tmp_path: Path, words: list[object], told: str) -> None:
    _, key = keys(tmp_path)
    places: dict[object, object] = {"DIR": tmp_path / "DIR", "KEY": key}
    command = [str(AUDIT), *[str(places.get(word, word)) for word in words]]
    done = subprocess.run(command, capture_output=True, text=True, check=False, cwd=tmp_path)
    assert (done.returncode, done.stdout, done.stderr.count("\n")) == (2, "", 1), done.stderr
    assert told in done.stderr


def test_the_venues_program() -> None:
    ran = audit("stats", STORED, venue=["/nowhere/rfq_venue"])
    assert (ran.status, ran.out, ran.err.count("\n")) == (2, "", 1)
    assert "build it by `rt run`" in ran.err
