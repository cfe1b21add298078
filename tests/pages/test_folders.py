"""The folders of gateway/src: each includes only itself and those below it, and no two parts include
each other in a circle. FOLDERS in gateway/CMakeLists.txt has the order."""

import re
import subprocess
from pathlib import Path

import pytest

ROOT = Path(__file__).resolve().parents[2]
GATEWAY = ROOT / "gateway"
BESIDE = ("common", "session_model")  # which have nothing of the folders
INCLUDE = re.compile(r'^#include "([^"]+)"', re.MULTILINE)


def folders_of(cmake: str) -> list[str]:
    """The folders in their order, the lowest first."""
    found = re.search(r"^set\(FOLDERS ([a-z_\s]+)\)", cmake, re.MULTILINE)
    assert found, "gateway/CMakeLists.txt has no FOLDERS"
    return found[1].split()


def files_of(source: Path) -> list[Path]:
    """All headers and sources, and what sources are made from."""
    found = (file for file in source.rglob("*") if file.suffix in (".h", ".cpp", ".in"))
    return sorted(file for file in found if file.is_file())


def includes_of(file: Path) -> list[str]:
    return INCLUDE.findall(file.read_text(encoding="utf-8"))


def fault_of(source: Path, folders: list[str], file: Path, included: str) -> str | None:
    """What is wrong with an include, or nothing."""
    folder = file.relative_to(source).parts[0]
    of = included.split("/")[0]
    if of in BESIDE:
        return None
    if not (source / included).is_file():
        return "is in no folder of src and not in common"
    if folder in folders and folders.index(of) > folders.index(folder):
        return "points up: %s is below %s" % (folder, of)
    return None


def upward(source: Path, folders: list[str]) -> list[str]:
    """The includes that are at fault, a line each."""
    found = []
    for file in files_of(source):
        for included in includes_of(file):
            fault = fault_of(source, folders, file, included)
            if fault:
                found.append('%s: "%s" %s' % (file.relative_to(source), included, fault))
    return found


def part_of(file: Path) -> str:
    """A header with its sources: `log/log_append.cpp` is of the part of `log/log.h`."""
    name = file.name.split(".")[0]
    words = name.split("_")
    shorter = ("_".join(words[:count]) for count in range(len(words), 0, -1))
    header = next((each for each in shorter if (file.parent / (each + ".h")).is_file()), name)
    return "%s/%s" % (file.parent.name, header)


def parts_below(source: Path) -> dict[str, set[str]]:
    """Of each part those that it includes."""
    below: dict[str, set[str]] = {}
    for file in files_of(source):
        own = below.setdefault(part_of(file), set())
        own.update(
            part_of(source / each) for each in includes_of(file) if (source / each).is_file()
        )
        own.discard(part_of(file))
    return below


def without_ends(below: dict[str, set[str]]) -> dict[str, set[str]]:
    """What is left when those are taken away, again and again, that include none that is left."""
    left = dict(below)
    while lowest := [part for part, own in left.items() if not own & left.keys()]:
        for part in lowest:
            del left[part]
    return left


def in_circles(below: dict[str, set[str]]) -> list[str]:
    """The parts that are in a circle, or between two."""
    left = without_ends(below)
    above = {part: {each for each in left if part in left[each]} for part in left}
    return sorted(without_ends(above))


def test_the_folders_are_those_of_the_order() -> None:
    folders = folders_of((GATEWAY / "CMakeLists.txt").read_text(encoding="utf-8"))
    there = [each.name for each in (GATEWAY / "src").iterdir() if each.is_dir()]
    assert sorted(folders) == sorted(there)


def test_no_include_points_up() -> None:
    folders = folders_of((GATEWAY / "CMakeLists.txt").read_text(encoding="utf-8"))
    assert upward(GATEWAY / "src", folders) == []


def test_no_part_is_in_a_circle() -> None:
    below = parts_below(GATEWAY / "src")
    assert len(below) > 100, "the parts were not found"
    assert in_circles(below) == []


def test_common_includes_itself_alone() -> None:
    common = ROOT / "common"
    others = [
        "%s: %s" % (file.name, included)
        for file in files_of(common)
        for included in includes_of(file)
        if not included.startswith("common/") and not (file.parent / included).is_file()
    ]
    assert others == []


@pytest.fixture
def source(tmp_path: Path) -> Path:
    texts = {
        "low/a.h": '#include "common/rate.h"\n',
        "low/a.cpp": '#include "low/a.h"\n',
        "high/b.h": '#include "low/a.h"\n#include <vector>\n',
        "high/c.h": '#include "high/b.h"\n',
        "main.cpp": '#include "high/c.h"\n',
    }
    for name, text in texts.items():
        (tmp_path / name).parent.mkdir(exist_ok=True)
        (tmp_path / name).write_text(text, encoding="utf-8")
    return tmp_path


def test_an_order_that_is_kept(source: Path) -> None:
    assert upward(source, ["low", "high"]) == []
    assert in_circles(parts_below(source)) == []


UPWARD = [
    ("low/a.h", "high/b.h", 'low/a.h: "high/b.h" points up: low is below high'),
    ("low/a.cpp", "high/c.h", 'low/a.cpp: "high/c.h" points up: low is below high'),
    ("high/b.h", "c.h", 'high/b.h: "c.h" is in no folder of src and not in common'),
]


@pytest.mark.parametrize("file, included, fault", UPWARD)
def test_what_points_up_is_found(source: Path, file: str, included: str, fault: str) -> None:
    (source / file).write_text('#include "%s"\n' % included, encoding="utf-8")
    assert upward(source, ["low", "high"]) == [fault]


def test_a_circle_through_a_source_is_found(source: Path) -> None:
    (source / "high" / "b_more.cpp").write_text('#include "high/c.h"\n', encoding="utf-8")
    assert in_circles(parts_below(source)) == ["high/b", "high/c"]


def test_no_file_is_a_link() -> None:
    """`rt ci` refuses a tree that has one, before it proves anything."""
    listed = subprocess.run(
        ["git", "ls-files", "-s"], cwd=ROOT, capture_output=True, text=True, check=True
    )
    lines = listed.stdout.splitlines()
    assert lines
    assert [line for line in lines if line.startswith("120000 ")] == []
