#!/usr/bin/python3
"""Makes each link of a page that a package installs lead to where the packages put what it names.

    install/packages/links.py FOLDER     the pages, by the names that they are installed under

A page is installed in /usr/share/doc, in the folder of the package whose file debian/PACKAGE.docs names it. A link to what no
package has becomes plain text.
"""

import os
import re
import sys
from pathlib import Path

ROOT = Path(__file__).resolve().parents[2]
DOC = "/usr/share/doc"
# Where a page stands in the repository, if that is not docs/NAME, and what else is installed from it.
SOURCES = {
    "gateway.md": "gateway/README.md",
    "desk.md": "desk/README.md",
    "deploy.md": "install/hosts/README.md",
    "SECURITY.md": "SECURITY.md",
}
FOLDERS = {
    "install/prometheus/": "/usr/share/mireseason/prometheus/",
    "fix/": "/usr/share/mireseason/fix/",
}
LINK = re.compile(r"!?\[((?:`[^`]*`|[^]`])*)\]\(([^)#:]+)(#[^)]*)?\)")


def places() -> dict[str, str]:
    """Of each page in the repository, where it is installed."""
    found = {}
    for file in (ROOT / "debian").glob("*.docs"):
        for line in file.read_text().split():
            name = os.path.basename(line)
            found[SOURCES.get(name, "docs/" + name)] = "%s/%s/%s" % (DOC, file.stem, name)
    return found


def place_of(target: str, pages: dict[str, str]) -> str | None:
    """Where a file of the repository is installed, if it is."""
    for folder, place in FOLDERS.items():
        if target.startswith(folder):
            return place + target[len(folder) :]
    return pages.get(target)


def linked(text: str, source: str, pages: dict[str, str]) -> str:
    """A page's text, as it is installed."""

    def link(found: re.Match[str]) -> str:
        words, target, anchor = found[1], found[2], found[3] or ""
        place = place_of(os.path.normpath(os.path.join(os.path.dirname(source), target)), pages)
        if place is None:
            return words
        if place.startswith(DOC):
            place = os.path.relpath(place, os.path.dirname(pages[source]))
        return "[%s](%s%s)" % (words, place, anchor)

    return LINK.sub(link, text)


def main() -> None:
    pages = places()
    for file in Path(sys.argv[1]).glob("*.md"):
        source = SOURCES.get(file.name, "docs/" + file.name)
        file.write_text(linked(file.read_text(), source, pages))


if __name__ == "__main__":
    main()
