"""What `systemctl reload` calls: it fails if the gateway refuses its files."""

import os
import subprocess
from pathlib import Path

from tests.admin.operator import socket_of, wait_open
from tests.gateway.stage import Stage
from tests.gateway.wait import LONG, until
from tests.harness.options import ROOT

SCRIPT = ROOT / "install" / "packages" / "libexec" / "reload-gateway"
READ = "credentials and certificates were read again"


def reloaded(stage: Stage, socket: Path) -> "subprocess.CompletedProcess[str]":
    """One call, as the unit makes it."""
    environment = {
        "PATH": "%s:%s" % (stage.door.programs.gateway.parent, os.environ["PATH"]),
        "MAINPID": str(stage.door.running.pid),
    }
    return subprocess.run(
        [SCRIPT, "--socket", socket],
        env=environment,
        capture_output=True,
        text=True,
        timeout=LONG,
        check=False,
    )


def test_a_reload_that_is_refused_fails(stage: Stage) -> None:
    """And says why; what is right is read, and no session ends."""
    stage.door.operators = ""
    stage.open(stage.dealer)
    wait_open(stage)
    assert reloaded(stage, socket_of(stage)).returncode == 0
    file = stage.folder / "credentials.toml"
    right = file.read_text()
    file.write_text(right + "[oops\n")
    done = reloaded(stage, socket_of(stage))
    assert done.returncode == 1
    assert "stay as they were" in done.stderr and "credentials.toml: line" in done.stderr
    file.write_text(right)
    assert reloaded(stage, socket_of(stage)).returncode == 0
    assert stage.dealer.logged_on()


def test_without_a_socket_it_is_a_signal(stage: Stage) -> None:
    """Where nobody is there to be asked, as without [operator]."""
    stage.open(stage.dealer)
    before = stage.door.told.read_text(errors="replace").count(READ)
    done = reloaded(stage, stage.folder / "none.sock")
    assert done.returncode == 0, done.stderr
    until(
        "the files are read",
        LONG,
        lambda: stage.door.told.read_text(errors="replace").count(READ) > before,
    )
