"""Collects the names that the repository has.

From Rattle's files (.rt, .antt) it takes those that are declared (functions, types, fields,
variants, clauses, definitions, lemmas) and the words in quotes. From every other file it takes each
word.
"""

from __future__ import annotations

import re
from dataclasses import dataclass
from pathlib import Path

WORD = re.compile(r"[A-Za-z_][A-Za-z0-9_]*")
PARTS = re.compile(r"[A-Za-z_][A-Za-z0-9_]*(?:-[A-Za-z0-9_]+)+")
ITEM = re.compile(r"\b(?:fn|struct|enum|trait|type|const|static|mod|macro_rules!)\s+(\w+)")
CLAUSE = re.compile(r"\b(?:ensures|requires|invariant|ensures\*|requires\*|law)\s+(\w+)")
FIELD = re.compile(r"\b(\w+)\s*:(?!:)")
VARIANT = re.compile(r"^\s+([A-Z]\w*)\s*(?:,|\(|\{|$)", re.MULTILINE)
GHOST = re.compile(r"\bghost\s+(\w+)\s*=")
COMMENT = re.compile(r"//.*")
QUOTED = re.compile(r'"((?:[^"\\\n]|\\.)*)"')
DEFINED = re.compile(r"^\s*(?:pub\s+)?([\w'-]+)\s*:", re.MULTILINE)
HEAD = re.compile(r"^\s*(?:(?:pub|abbrev|unfoldable|data|record|mod)\s+)+([\w'-]+)", re.MULTILINE)
FLAG = re.compile(r"(?<![\w-])--[a-z][a-z-]*")
FLAG_WORD = re.compile(r'"([a-z][a-z-]*)"')
TAG = re.compile(r"<field number=['\"](\d+)['\"]")

TEXTS = {
    ".rt",
    ".antt",
    ".py",
    ".cpp",
    ".h",
    ".c",
    ".sh",
    ".toml",
    ".sql",
    ".yml",
    ".cases",
    ".txt",
    ".xml",
    ".due",
    ".venue",
    ".steps",
    ".lines",
    ".cfg",
    ".service",
    ".html",
    ".css",
    ".edits",
    ".suppressions",
    ".in",
    "",
}
ENDINGS = ["", ".rt", ".antt", ".cases", ".h", ".cpp", ".py"]


@dataclass
class Vocabulary:
    """What exists: files with their folders, names, and tags of the FIX dictionaries."""

    paths: list[str]
    ends: set[str]
    names: set[str]
    texts: str
    flags: set[str]
    tags: set[str]
    crates: dict[str, set[str]]
    of_file: dict[str, set[str]]
    listed: str = ""

    def __post_init__(self) -> None:
        self.listed = "\n".join(self.paths)

    def has_path(self, path: str, crate: str) -> bool:
        """Whether the path of a file or a folder ends so; of a crate's own where one is named.

        What stands in out/ is made and not stored."""
        path = crate + path.rstrip("/").removeprefix("./")
        if "out" in path.split("/"):
            return True
        patterns = [path + ending for ending in ENDINGS]
        if "*" in path:
            shape = re.escape(path).replace(r"\*", "[^\n]*")
            return re.search(rf"(?:^|/){shape}(?:\.\w+)?$", self.listed, re.MULTILINE) is not None
        return any(pattern in self.ends for pattern in patterns)

    def has_name(self, name: str) -> bool:
        """Whether something has this name, or one that begins so where it ends in an underscore."""
        if name in self.names:
            return True
        return name.endswith("_") and any(one.startswith(name) for one in self.names)

    def has_flag(self, flag: str) -> bool:
        """Whether a program has it, with its dashes or, in a table of flags, without."""
        return flag in self.flags

    def has_qualified(self, name: str) -> bool:
        """Whether `CRATE::ITEM` is of that crate, `TYPE::ITEM` of one crate, or both stand elsewhere."""
        first, last = name.split("::")[0], name.split("::")[-1]
        if first in self.crates:
            return last in self.crates[first]
        if any(first in names for names in self.crates.values()):
            return any({first, last} <= names for names in self.crates.values())
        return self.has_name(first) and self.has_name(last)

    def stands_in(self, name: str, path: str) -> bool:
        """Whether a file whose path ends so has the name; so too where no file of names has that path."""
        files = [one for one in self.of_file if ("/" + one).endswith("/" + path)]
        return not files or any(name.split("::")[-1] in self.of_file[one] for one in files)


def rust_names(text: str) -> set[str]:
    """What a file of Rattle's code declares, and the words in its quotes."""
    text = COMMENT.sub("", text)
    names: set[str] = set()
    for pattern in (ITEM, CLAUSE, FIELD, VARIANT, GHOST):
        names.update(pattern.findall(text))
    for quoted in QUOTED.findall(text):
        names.update(WORD.findall(quoted))
        names.update(PARTS.findall(quoted))
    return names


def other_names(text: str) -> set[str]:
    """Each word of a file of another kind."""
    return set(WORD.findall(text)) | set(PARTS.findall(text))


def with_folders(files: list[str]) -> list[str]:
    """The files, and each folder that one of them stands in."""
    folders = {str(parent) for path in files for parent in Path(path).parents if str(parent) != "."}
    return sorted(folders | set(files))


def ends_of(paths: list[str]) -> set[str]:
    """Each end of each path, cut at slashes."""
    ends: set[str] = set()
    for path in paths:
        parts = path.split("/")
        ends.update("/".join(parts[start:]) for start in range(len(parts)))
    return ends


def crates_of(root: Path) -> set[str]:
    """The crates of the repository, and the kit's libraries on which they stand."""
    lines = (root / "crates.txt").read_text(encoding="utf-8").split("\n")
    return {word.rstrip(":") for line in lines if not line.startswith("#") for word in line.split()}


def names_in(path: str, text: str) -> set[str]:
    """The names of a file, by its kind."""
    if path.endswith(".rt"):
        return rust_names(text)
    if path.endswith(".antt"):
        return set(DEFINED.findall(text) + HEAD.findall(text))
    return other_names(text)


def flags_in(text: str) -> set[str]:
    """The flags that a text has, with their dashes or as words in quotes."""
    return set(FLAG.findall(text)) | {f"--{word}" for word in FLAG_WORD.findall(text)}


def vocabulary_of(root: Path, files: list[str]) -> Vocabulary:
    """Reads every file but the pages."""
    paths = with_folders(files)
    words = Vocabulary(paths, ends_of(paths), crates_of(root), "", set(), set(), {}, {})
    texts: list[str] = []
    for path in files:
        words.names |= {Path(path).stem, Path(path).name}
        if Path(path).suffix not in TEXTS:
            continue
        text = (root / path).read_text(encoding="utf-8", errors="replace")
        names = names_in(path, text)
        words.names |= names
        words.of_file[path] = names
        if path.startswith("crates/") and path.endswith((".rt", ".antt")):
            words.crates.setdefault(path.split("/")[1], set()).update(names)
        if path.endswith(".xml"):
            words.tags.update(TAG.findall(text))
        if not path.endswith(".antt"):
            texts.append(text)
    words.texts = "\n".join(texts)
    words.flags = flags_in(words.texts)
    return words
