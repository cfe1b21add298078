"""The gateway of a definition: what its operator does, and its ends and starts."""

import signal
import subprocess
from dataclasses import dataclass

from tests.gateway.door import Door
from tests.gateway.wait import LONG, until

SIGNALS = {"KILL": signal.SIGKILL, "TERM": signal.SIGTERM}
START = "START"  # once it has ended


@dataclass(frozen=True)
class House:
    """A gateway with an operator's socket."""

    door: Door

    def does(self, words: str) -> None:
        """A signal, a start, or else a command of mireseason-admin, which has to be done."""
        if words in SIGNALS:
            self.door.running.send_signal(SIGNALS[words])
        elif words == START:
            self.door.wait_end()
            self.door.start()
            self.door.wait_open()
        else:
            until("the operator's socket is there", LONG, lambda: self._said("status") == "")
            fault = self._said(words)
            assert not fault, "%s: %s" % (words, fault)

    def _said(self, words: str) -> str:
        """Why a command is not done; nothing where it is."""
        program = self.door.programs.gateway.parent / "mireseason-admin"
        at = str(self.door.folder / "admin.sock")
        command = [str(program), "--socket", at, *words.split()]
        done = subprocess.run(command, capture_output=True, timeout=LONG, check=False)
        return "" if done.returncode == 0 else done.stderr.decode(errors="replace")
