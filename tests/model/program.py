#!/usr/bin/env python3
"""Starts the second implementation of the venue's program by its path, from any folder.

Its modules are the package whose folder has this file, under whatever name that package was imported.
"""

import importlib
import importlib.util
import sys
from pathlib import Path

NAME = "second_venue"  # of the package in this process


def load(folder: Path) -> None:
    """Makes the package of a folder importable under NAME."""
    spec = importlib.util.spec_from_file_location(NAME, folder / "__init__.py")
    if spec is None or spec.loader is None:
        raise ImportError("there is no package in %s" % folder)
    module = importlib.util.module_from_spec(spec)
    sys.modules[NAME] = module
    spec.loader.exec_module(module)


if __name__ == "__main__":
    load(Path(__file__).resolve().parent)
    importlib.import_module(NAME + ".main").main()
