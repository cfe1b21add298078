"""Builds a static library of the tree from what `rt ci` has just built.

usage: static_library.py CRATE FILE    FILE was written before `rt ci` began

`rt lib` takes nothing that `rt ci` left, and would prove every crate below once more. If `rt ci` has not built these
crates since FILE was written, this asks `rt lib` all the same.
"""

import sys
from pathlib import Path

from tests.harness.kit import Libraries, ran


def main() -> int:
    name, since = sys.argv[1], Path(sys.argv[2]).stat().st_mtime
    libraries = Libraries.of(Path.cwd())
    made = Path("crates", name, "out", f"lib{name}.a")
    made.unlink(missing_ok=True)
    if libraries.are_since(name, since):
        told = libraries.build_static(name)
    else:
        told = ran(["rt", "lib"], Path("crates", name))
    print("\n".join(told))
    return 0 if made.is_file() else 1


if __name__ == "__main__":
    sys.exit(main())
