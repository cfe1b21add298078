"""Tables of a page that a script makes. They stand between two marks, of which the first names the script:

    <!-- made by tools/NAME.py: WHAT -->
    <!-- made end -->
"""

from __future__ import annotations

import re
from collections.abc import Callable
from pathlib import Path

FIRST = re.compile(r"<!-- made by (tools/\w+\.py): (.+?) -->")
LAST = "<!-- made end -->"


def filled(text: str, script: str, table: Callable[[str], str]) -> str:
    """A page with the tables of a script made anew, each by what its mark says."""
    mark = r"(<!-- made by %s: (.+?) -->\n).*?(%s)" % (re.escape(script), re.escape(LAST))
    return re.sub(
        mark,
        lambda found: found[1] + "\n" + table(found[2]).rstrip("\n") + "\n\n" + found[3],
        text,
        flags=re.DOTALL,
    )


def write(root: Path, files: dict[str, str], is_check: bool) -> int:
    """Writes those files that are not so yet, or only says which they are; the status of a script."""
    changed = [
        file for file, text in files.items() if (root / file).read_text(encoding="utf-8") != text
    ]
    for file in changed:
        print("%s is not as it would be written" % file if is_check else "%s is written" % file)
        if not is_check:
            (root / file).write_text(files[file], encoding="utf-8")
    return 1 if is_check and changed else 0
