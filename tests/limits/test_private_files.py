"""Secret files: a gateway does not start if others may read them, and makes none that others may read."""

import stat
from pathlib import Path

import pytest

from tests.gateway.stage import Stage
from tests.gateway.strangers import with_tls


def open_to_others(path: Path) -> bool:
    return bool(path.stat().st_mode & stat.S_IRWXO)


@pytest.mark.parametrize("name", ["credentials.toml", "venue.key", "day.db"])
@pytest.mark.parametrize("mode", [0o604, 0o602, 0o620])
def test_a_secret_that_others_have(stage: Stage, name: str, mode: int) -> None:
    """The start names the file and what to do, and ends with status 1; for the group alone it goes on."""
    with_tls(stage, False)
    stage.open()
    stage.door.stop()
    file = stage.folder / name
    file.chmod(mode)
    told = len(stage.door.told.read_bytes())
    stage.door.start()
    assert stage.door.wait_end() == 1
    words = stage.door.told.read_bytes()[told:].decode()
    assert "%s: has the mode %04o" % (file, mode) in words, words
    assert "0640 or 0600" in words
    file.chmod(0o640)
    stage.door.start()
    stage.door.wait_open()


def test_what_it_makes_is_nobody_elses(stage: Stage) -> None:
    """Whatever the umask says, others may not read the log."""
    stage.open(stage.dealer)
    stage.ping(stage.dealer)
    files = list(stage.folder.glob("day.db*"))
    assert len(files) >= 2, "there are %r" % files
    assert not any(open_to_others(file) for file in files), [
        (file.name, oct(file.stat().st_mode)) for file in files
    ]
