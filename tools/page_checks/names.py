"""Checks that every name in backticks exists.

The rule. A span is cut at spaces, and each part is one of these, the first that fits:
  a path           has a slash, or ends as a file does: some file's or folder's path ends so; in a
                   page of a crate a path in specs/, proofs/ or src/ is that crate's
  a flag           begins with two dashes: some program has it
  a field of FIX   digits, an equals sign: a dictionary of fix/ has the tag
  a qualified name has `::`: the first part and the last exist
  a name           a word with an underscore, or the whole span one word: it is declared
  a hyphened word  the whole span: it is a file's, or a word of a program; with a star a file's
A name with a file behind it in parentheses, `NAME` (`FILE`), stands in that file.
All else (a value, a text, a plain word of a phrase, a word in capitals that stands for one) is no
name.
"""

from __future__ import annotations

import re

from .exceptions import is_excepted
from .page import Checked, Page
from .vocabulary import Vocabulary

ENDS = re.compile(
    r"[\w*.-]\.(?:rt|antt|py|sh|cpp|h|c|md|toml|yml|sql|cases|due|venue|xml|txt|lines|out"
    r"|service|html|db|edits|png)$"
)
NAME = re.compile(r"^[A-Za-z][A-Za-z0-9_]*$")
END_OF_NAME = re.compile(r"^_[a-z_]+")
HYPHENED = re.compile(r"^[a-z][a-z0-9_]*(?:-(?:[a-z0-9_]+|\*))+$")
FLAG = re.compile(r"^--[a-z][a-z-]+$")
TAGGED = re.compile(r"^(\d{1,5})=")
QUALIFIED = re.compile(r"^[A-Za-z_]\w*(?:::[A-Za-z_]\w*)+$")
PLACED = re.compile(r"`([A-Za-z_][\w:]*)` \(`([\w./-]+\.\w+)`")
CAPITALS = re.compile(r"^[A-Z][A-Z0-9]*$")
OF_A_CRATE = ("specs/", "proofs/", "src/")


def folder_of(page: str, path: str) -> str:
    """Below which folder a path of a page stands: a crate's, for what each crate has."""
    parts = page.split("/")
    if parts[0] == "crates" and path.startswith(OF_A_CRATE):
        return "/".join(parts[:2]) + "/"
    return ""


def fault_of_part(page: str, part: str, alone: bool, words: Vocabulary) -> str | None:
    """What is wrong with one part of a span, if it is a name."""
    part = part.strip("()[],;:\"'").rstrip(".")
    if not part or is_excepted(page, part) or CAPITALS.match(part):
        return None
    if part.startswith(("/", "~", "$", "@", "<", "--")) and not FLAG.match(part):
        return None
    if FLAG.match(part):
        return None if words.has_flag(part) else f"no program has {part}"
    tagged = TAGGED.match(part)
    if tagged:
        return None if tagged.group(1) in words.tags else f"no dictionary has tag {tagged.group(1)}"
    if QUALIFIED.match(part):
        return None if words.has_qualified(part) else f"there is no {part}"
    if ("/" in part and "=" not in part) or ENDS.search(part):
        bare = re.sub(r"\b[A-Z]{3,}\b", "*", part)
        return None if words.has_path(bare, folder_of(page, part)) else f"there is no file {part}"
    if NAME.match(part) and (alone or "_" in part):
        return None if words.has_name(part) else f"nothing is named {part}"
    end = END_OF_NAME.match(part)
    if end:
        return None if end.group() in words.texts else f"nothing is named ..{end.group()}"
    if HYPHENED.match(part) and alone:
        known = words.has_name(part) or words.has_path(part, "")
        return None if known else f"nothing is named {part}"
    return None


def check_names(pages: list[Page], words: Vocabulary) -> Checked:
    """Looks at each span of each page: it passes where no part of it is at fault."""
    checked = Checked()
    for page in pages:
        for line, span in page.spans():
            parts = span.split()
            faults = [fault_of_part(page.path, part, len(parts) == 1, words) for part in parts]
            checked.note(page.path, line, next((fault for fault in faults if fault), None))
        for line, text in page.prose():
            for name, path in PLACED.findall(text):
                known = words.stands_in(name, path)
                checked.note(page.path, line, None if known else f"{name} does not stand in {path}")
    return checked
