"""Checks every relative link: the file is there, and so is the heading that it names."""

from __future__ import annotations

import posixpath
import re

from .page import Checked, Page
from .vocabulary import Vocabulary

LINK = re.compile(r"\[[^\]]*\]\(([^)\s]+)\)")
HEADING = re.compile(r"^#{1,6} (.*?)\s*#*$")
CODE = re.compile(r"`[^`]*`")


def anchor_of(heading: str) -> str:
    """The anchor that GitHub and most other readers make of a heading."""
    text = re.sub(r"\[([^\]]*)\]\([^)]*\)", r"\1", heading).lower()
    return re.sub(r"[^\w\- ]", "", text).replace(" ", "-")


def anchors_of(page: Page) -> set[str]:
    """The anchors of a page; of equal headings the second has `-1` behind it."""
    anchors: set[str] = set()
    for _, line in page.prose():
        heading = HEADING.match(line)
        if heading:
            anchor = anchor_of(heading.group(1))
            count = 0
            while anchor + (f"-{count}" if count else "") in anchors:
                count += 1
            anchors.add(anchor + (f"-{count}" if count else ""))
    return anchors


def fault_of(page: Page, link: str, pages: dict[str, Page], files: set[str]) -> str | None:
    """What is wrong with a link, if anything."""
    target, _, anchor = link.partition("#")
    folder = posixpath.dirname(page.path)
    path = posixpath.normpath(posixpath.join(folder, target)) if target else page.path
    if path not in files:
        return f"there is no {path} behind the link {link}"
    if not anchor:
        return None
    if path not in pages:
        return f"{path} is no page, so it has no heading {anchor}"
    return None if anchor in anchors_of(pages[path]) else f"{path} has no heading {anchor}"


def check_links(pages: list[Page], words: Vocabulary) -> Checked:
    """Looks at each link that does not lead out of the repository."""
    checked = Checked()
    by_path = {page.path: page for page in pages}
    files = set(words.paths)
    for page in pages:
        for line, text in page.prose():
            for link in LINK.findall(CODE.sub("", text)):
                if "://" not in link and not link.startswith("mailto:"):
                    checked.note(page.path, line, fault_of(page, link, by_path, files))
    return checked
