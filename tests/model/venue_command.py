"""The words of the venue's program, as the harnesses are given it: a file, or a command of several words."""

import os
import shlex
from pathlib import Path


def words_of(command: str) -> list[str]:
    """The words that start the program, with whole paths; a file is one word, also with spaces in its path.

    `python3 tests/model/program.py` puts the second implementation in the program's place.
    """
    words = [command] if os.path.isfile(command) else shlex.split(command)
    return [str(Path(word).resolve()) if os.path.isfile(word) else word for word in words]
