"""Debian's chromium without a screen: a test sees what a page becomes in it, and what it reports."""

import shutil
import subprocess
from dataclasses import dataclass
from pathlib import Path

SECONDS = 900  # a browser that is not done by then hangs; a busy machine takes minutes
PROGRAM = "chromium"
BUDGET = 100_000  # milliseconds of the page's own clock, which goes ahead of the machine's


@dataclass(frozen=True)
class Shown:
    """A page as the browser had it in the end."""

    dom: str
    told: str  # standard error, with a line `CONSOLE` for each message of the page's scripts

    @property
    def complaints(self) -> list[str]:
        return [line for line in self.told.splitlines() if "CONSOLE" in line]


@dataclass(frozen=True)
class Browser:
    """A browser with a profile of its own."""

    profile: Path

    @staticmethod
    def is_installed() -> bool:
        return shutil.which(PROGRAM) is not None

    def show(self, url: str, *words: str, width: int = 1400, height: int = 900) -> Shown:
        """Loads a page, lets its scripts run, and gives what stands there then."""
        done = self.run(
            url,
            "--dump-dom",
            "--virtual-time-budget=%d" % BUDGET,
            "--window-size=%d,%d" % (width, height),
            *words,
        )
        return Shown(done.stdout, done.stderr)

    def picture(self, url: str, file: Path, width: int = 1280, height: int = 900) -> None:
        """Writes a picture (PNG) of a page."""
        self.run(
            url,
            "--screenshot=%s" % file,
            "--window-size=%d,%d" % (width, height),
            "--hide-scrollbars",
        )
        assert file.exists(), "the browser made no picture of %s" % url

    def run(self, url: str, *words: str) -> "subprocess.CompletedProcess[str]":
        usual = [
            "--headless",
            "--no-sandbox",
            "--disable-gpu",
            "--enable-logging=stderr",
            "--allow-file-access-from-files",
        ]
        command = [PROGRAM, *usual, "--user-data-dir=%s" % self.profile, *words, url]
        return subprocess.run(command, capture_output=True, text=True, timeout=SECONDS, check=False)
