#!/usr/bin/env python3
"""Compares what is built of the proved crates with the sums in crates/proved.sha256.

    tools/proved.py                  says of the venue's program and of the libraries of its sessions and of
                                     their recovery whether they are the bytes that the file has for these
                                     sources
    tools/proved.py --write          writes the file anew, from the sources and from what is built: what is not
                                     built keeps its sums
    tools/proved.py --sources NAME   prints the sources of `rfq_venue` or of a library, a path a line:
                                     `| xargs sha256sum | sha256sum` after it gives the sum in the file

The sources are src/ and specs/ of the crate and of all below it: what runs, and what is said of it. A
proof changes neither. If the bytes differ and the sources are the same, that is a fault. If the sources
differ, it is none until a release: then CHANGELOG.md begins with the version's own changes, and the file
has to have all sums. `sha256sum -c --ignore-missing crates/proved.sha256` looks at the bytes alone.
"""

from __future__ import annotations

import argparse
import hashlib
import re
import subprocess
import sys
from dataclasses import dataclass
from pathlib import Path

ROOT = Path(__file__).resolve().parent.parent
FILE = "crates/proved.sha256"
LIBRARIES = ("fix_sessions_c", "session_recovery_c")  # with which the gateway is linked
MADE = {"rfq_venue": "rfq_venue"} | {it: f"lib{it}.a" for it in LIBRARIES}  # by crate, in its out/
HEAD = """\
# What rt builds of the proved crates, and the sources of which it is built. `tools/proved.py` compares them, and
# with --write writes this file; docs/PROOFS.md says what it shows. By version %s of the venue and %s.
"""


def crates_of(text: str) -> dict[str, list[str]]:
    """Each crate of crates.txt, and those of the repository that it names."""
    named = {}
    for line in text.splitlines():
        head, colon, below = line.partition("#")[0].partition(":")
        if colon:
            named[head.split()[0]] = below.split()
    return {name: [each for each in below if each in named] for name, below in named.items()}


def below(crates: dict[str, list[str]], top: str) -> list[str]:
    """All crates below one, each behind those below it."""
    found: list[str] = []
    for name in crates[top]:
        found += [each for each in [*below(crates, name), name] if each not in found]
    return found


def made_of(name: str, root: Path = ROOT) -> Path:
    """The program or the library that a crate is built into."""
    return root / "crates" / name / "out" / MADE[name]


def sources_of(top: str, root: Path = ROOT) -> list[str]:
    """The sources of a crate and of all below it, by their paths, in the order of their bytes."""
    crates = crates_of((root / "crates.txt").read_text(encoding="utf-8"))
    files: list[Path] = []
    for name in [*below(crates, top), top]:
        files += (root / "crates" / name / "src").rglob("*.rt")
        files += (root / "crates" / name / "specs").rglob("*.antt")
    return sorted(str(file.relative_to(root)) for file in files)


def sum_of(file: Path) -> str:
    """The SHA-256 of a file."""
    return hashlib.sha256(file.read_bytes()).hexdigest()


def sum_of_sources(top: str, root: Path = ROOT) -> str:
    """The SHA-256 of the lines that sha256sum prints of the sources."""
    lines = [f"{sum_of(root / path)}  {path}\n" for path in sources_of(top, root)]
    return hashlib.sha256("".join(lines).encode()).hexdigest()


@dataclass(frozen=True)
class Sums:
    """The sum of a crate's sources, and that of what is built of them, each empty where it is unknown."""

    sources: str
    built: str


def sums_here(top: str, root: Path) -> Sums:
    """The sums of what stands here."""
    made = made_of(top, root)
    return Sums(sum_of_sources(top, root), sum_of(made) if made.is_file() else "")


def name_of_sources(top: str) -> str:
    """How the file names the sources of a crate."""
    return f"sources of {top}"


def name_of_made(top: str) -> str:
    """How the file names what is built of a crate."""
    return f"crates/{top}/out/{MADE[top]}"


def sums_noted(root: Path) -> dict[str, Sums]:
    """The sums in the file."""
    file = root / FILE
    text = file.read_text(encoding="utf-8") if file.is_file() else ""
    noted = {name: one for one, name in re.findall(r"^([0-9a-f]{64})  (.+)$", text, re.MULTILINE)}
    return {
        top: Sums(noted.get(name_of_sources(top), ""), noted.get(name_of_made(top), ""))
        for top in MADE
    }


def is_release(root: Path) -> bool:
    """Whether the changes begin with those of this version, so that nothing came behind it."""
    version = (root / "VERSION").read_text(encoding="utf-8").strip()
    first = re.search(
        r"^## (.*)$", (root / "CHANGELOG.md").read_text(encoding="utf-8"), re.MULTILINE
    )
    return first is not None and first[1].split()[:1] == [version]


def told(top: str, here: Sums, noted: Sums) -> tuple[bool, str]:
    """Whether what is built is a fault, and what is said of it."""
    made = name_of_made(top)
    if not here.built:
        return False, f"{made} is not built"
    if here == noted:
        return False, f"{made} is the one that {FILE} has for these sources"
    both = f"{made}: {here.built} here, {noted.built or 'none'} in {FILE}"
    if here.sources == noted.sources:
        return True, f"the sources of {top} are those of {FILE}, and what is built is not:\n{both}"
    other = f"the {name_of_sources(top)} are others: {here.sources} here, {noted.sources or 'none'}"
    return False, f"{other} in {FILE};\n{both}"


def compare(root: Path = ROOT) -> bool:
    """Says of each whether it is as the file has it. True where none is a fault."""
    noted, is_right = sums_noted(root), True
    for top in MADE:
        here = sums_here(top, root)
        is_fault, words = told(top, here, noted[top])
        print(words)
        if here != noted[top] and is_release(root):
            is_fault = True
            print(f"this is a release: `tools/proved.py --write` has to write {FILE}")
        is_right = is_right and not is_fault
    return is_right


def kit() -> str:
    """The kit that builds, by its own words."""
    said = subprocess.run(["rt", "version"], capture_output=True, text=True, check=False)
    return said.stdout.strip().split(" ")[0]


def lines_of(top: str, sums: Sums) -> str:
    """The lines of the file on a crate: none where nothing is known of it."""
    lines = ((sums.sources, name_of_sources(top)), (sums.built, name_of_made(top)))
    return "".join(f"{one}  {name}\n" for one, name in lines if one)


def write(root: Path = ROOT) -> None:
    """Writes the file anew. What is not built keeps the sums that the file has."""
    noted = sums_noted(root)
    lines = [HEAD % ((root / "VERSION").read_text(encoding="utf-8").strip(), kit())]
    for top in MADE:
        here = sums_here(top, root)
        if not here.built:
            print(f"{name_of_made(top)} is not built: its sums stay")
            here = noted[top]
        lines.append(lines_of(top, here))
    (root / FILE).write_text("".join(lines), encoding="utf-8")


def main() -> int:
    parser = argparse.ArgumentParser()
    parser.add_argument("--write", action="store_true")
    parser.add_argument("--sources", choices=list(MADE))
    given = parser.parse_args()
    if given.sources:
        print("\n".join(sources_of(given.sources)))
    elif given.write:
        write()
    return 0 if given.sources or given.write or compare() else 1


if __name__ == "__main__":
    sys.exit(main())
