"""Checkpoints leave the gateway's host as they are made. If root there makes a day anew, with the
gateway's own program and its real keys, what a supervisor received shows it.
"""

import re
import shutil
from pathlib import Path

from tests.gateway.door import today
from tests.gateway.stage import Stage, check
from tests.gateway.test_seals import ROOT, audited
from tests.gateway.wait import LONG, until


def supervised(stage: Stage) -> Path:
    """Has the gateway send its checkpoints to a supervisor; the file that they come into."""
    folder = stage.folder / "supervisor"
    folder.mkdir()
    program, key = ROOT / "audit" / "mireseason-audit", stage.door.keys / "gateway.pub"
    stage.door.sends = (str(program), "receive", str(folder), "--gateway-key", str(key))
    return folder / ("day-%s.checkpoints" % today())


def last_of(stage: Stage, received: Path) -> bool:
    """Whether what the gateway keeps itself has been received."""
    kept = re.search("^signature (.*)$", stage.door.kept.read_text(), re.MULTILINE)
    return bool(kept and received.exists() and kept[1] in received.read_text())


def lines_of(received: Path) -> int:
    return received.read_bytes().count(b"\n") if received.exists() else 0


def ends_well(stage: Stage, received: Path, before: int) -> None:
    """Once there are more lines than before this start: at its end the gateway gives the supervisor's program two seconds, and on a
    busy machine that takes longer to begin."""
    until("a checkpoint is received", LONG, lambda: lines_of(received) > before)
    check(stage.door.stop() == 0, "the gateway does not end well")


def rebuilt(stage: Stage) -> Stage:
    """Another day of the same date, venue and keys: who has root on the host makes it so."""
    folder = stage.folder / "made"
    folder.mkdir()
    for name in ("keys", "checkpoints"):
        (folder / name).mkdir()
    shutil.copytree(stage.door.keys, folder / "keys", dirs_exist_ok=True)
    shutil.copy(stage.folder / "venue.toml", folder)
    return Stage(stage.tools, folder)


def test_a_day_that_root_made_anew(stage: Stage) -> None:
    """Nothing is wrong in it, nor with its signatures: what was received is of another day."""
    received = supervised(stage)
    stage.open(*stage.firms)
    stage.auction()
    ends_well(stage, received, 0)
    before = lines_of(received)
    stage.door.start()  # and goes on with the numbers of the checkpoints
    stage.door.wait_open()
    ends_well(stage, received, before)
    until("the last checkpoint is received", LONG, lambda: last_of(stage, received))
    check(not (received.parent / "told").exists(), "something was wrong with what was sent")
    evidence = ["--gateway-key", str(stage.door.keys / "gateway.pub")]
    evidence += ["--checkpoint", str(received)]
    true = audited(stage, *evidence)
    check(true.returncode == 0 and "checked     cut-off end: " in true.stdout, true.stdout)
    starts = re.findall(
        r"^gateway   \S+ mireseason-gateway .*, from entry", true.stdout, re.MULTILINE
    )
    check(len(starts) == 2, "each start is not named: %s" % true.stdout)
    other = rebuilt(stage)
    try:
        other.open(*other.firms)
        other.ask()
        check(other.door.stop() == 0, "the gateway does not end well")
        own = ["--checkpoint", str(other.door.kept)]
        alone = audited(other, *evidence[:2], *own)
        check(alone.returncode == 0, "what root made is not whole: %s" % alone.stdout)
        found = audited(other, *evidence)
        check(found.returncode == 1, "it is not found: %s" % found.stdout)
        check("that %s, line 1 has signed" % received.name in found.stdout, found.stdout)
    finally:
        other.close()
