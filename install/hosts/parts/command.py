"""Runs a command for an installation."""

import subprocess

from .fault import Fault


def run(*words: str, text: str | None = None, limit: float = 60) -> str:
    """What a command prints; Fault with its last words where it fails."""
    try:
        done = subprocess.run(
            words, input=text, capture_output=True, text=True, timeout=limit, check=False
        )
    except subprocess.TimeoutExpired as fault:
        raise Fault("%s: no end within %g s" % (" ".join(words), limit)) from fault
    except OSError as fault:
        raise Fault("%s: %s" % (" ".join(words), fault)) from fault
    if done.returncode != 0:
        cause = done.stderr.strip() or "status %d" % done.returncode
        raise Fault("%s: %s" % (" ".join(words), cause))
    return done.stdout
