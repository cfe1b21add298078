"""Makes the folders that a command writes into."""

from pathlib import Path

from .faults import Unreadable


def make_folder(folder: Path) -> None:
    """An empty folder, or one that was not there."""
    try:
        folder.mkdir(parents=True, exist_ok=True)
        if any(folder.iterdir()):
            raise Unreadable("%s is not empty: name another folder, or empty it" % folder)
    except OSError as fault:
        raise Unreadable("%s can't be written to: %s" % (folder, fault)) from None
