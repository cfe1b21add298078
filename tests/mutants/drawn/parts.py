"""The parts of the tree in which mistakes are made, and the tests that may see them."""

import json
import shlex
from dataclasses import dataclass
from pathlib import Path

from tests.harness.options import ROOT
from tests.mutants.drawn.change import Change
from tests.mutants.drawn.cpp_changes import compiled_headers, cpp_changes
from tests.mutants.drawn.javascript_changes import javascript_changes
from tests.mutants.drawn.python_changes import python_changes
from tests.mutants.drawn.shell_changes import shell_changes


@dataclass(frozen=True)
class Part:
    """Files that are read in one language, and what is run where nothing is known of lines."""

    name: str
    files: tuple[str, ...]  # globs from the top of the tree
    tests: tuple[str, ...]  # globs of folders or files of pytest
    builds: tuple[str, ...] = ()  # the folders that cmake builds of these files

    def paths(self, root: Path = ROOT) -> list[str]:
        found = {path for glob in self.files for path in root.glob(glob) if path.is_file()}
        return sorted(str(path.relative_to(root)) for path in found)

    def modules(self, root: Path = ROOT) -> list[str]:
        """The files of tests, by name."""
        return modules_of(self.tests, root)


def modules_of(globs: tuple[str, ...], root: Path = ROOT) -> list[str]:
    found = {path for glob in globs for path in root.glob(glob)}
    return sorted(str(path.relative_to(root)) for path in found)


IN_GATEWAY = (
    "tests/gateway/test_*.py",
    "tests/admin/test_*.py",
    "tests/limits/test_*.py",
    "tests/operating/test_*.py",
    "tests/conformance/test_*.py",
)
IN_DESK = ("tests/desk/test_*.py",)
OF_BUILD = {"gateway": IN_GATEWAY, "desk": IN_DESK}
PARTS = (
    Part("gateway", ("gateway/src/**/*.cpp",), IN_GATEWAY, ("gateway",)),
    Part("session_model", ("gateway/session_model/*.cpp",), IN_GATEWAY, ("gateway",)),
    Part("desk", ("desk/src/*.cpp",), IN_DESK, ("desk",)),
    Part("page", ("desk/page/*.js",), ("tests/desk/test_*.py",)),
    Part(
        "common",
        ("common/*.cpp", "common/web/*.cpp"),
        (*IN_GATEWAY, *IN_DESK),
        ("gateway", "desk"),
    ),
    Part("audit", ("audit/**/*.py",), ("tests/audit/test_*.py", "tests/supervisor/test_*.py")),
    Part(
        "keeper",
        ("keeper/**/*.py",),
        (
            "tests/operating/test_keeper*.py",
            "tests/operating/test_sealed_copies.py",
            "tests/operating/test_monitoring.py",
            "tests/gateway/test_readers.py",
        ),
    ),
    Part("certify", ("certify/**/*.py",), ("tests/certify/test_*.py",)),
    Part(
        "install",
        ("install/**/*.py", "install/packages/sbin/*"),
        (
            "tests/gateway/test_configuration.py",
            "tests/gateway/test_database_roles.py",
            "tests/gateway/test_readers.py",
            "tests/operating/test_*.py",
        ),
    ),
    Part("repository", ("install/*.sh",), ("tests/operating/test_repository.py",)),
    Part(
        "scripts",
        ("debian/*.p*inst", "debian/*.p*rm", "debian/*.sh"),
        (
            "tests/operating/test_maintainer_scripts.py",
            "tests/operating/test_package_parts.py",
            "tests/operating/test_packages.py",
            "tests/operating/test_removal.py",
            "tests/operating/test_source_package.py",
            "tests/operating/test_upgrade_checks.py",
        ),
    ),
)


def changes_of(file: str, out: Path | None) -> list[Change]:
    """All changes of a file; one in C++ is read as it is compiled in `out`, a folder that a copy of the tree builds."""
    path = ROOT / file
    text = path.read_bytes()
    if path.suffix == ".cpp":
        assert out is not None
        return cpp_changes(file, str(path), compiled_with(file, out))
    if path.suffix == ".js":
        return javascript_changes(file, str(path))
    if path.suffix == ".py" or text.startswith(b"#!/usr/bin/python3"):
        return python_changes(file, text)
    return shell_changes(file, text)


# What clang does not know of the words for another compiler, or does not need.
WITH_VALUE = {"-o", "-include"}
UNKNOWN = (
    "-Winvalid-pch",
    "-Werror",
    "-fcf-protection",
    "-fstack-clash",
    "-fprofile",
    "--coverage",
)


def compiled_with(file: str, out: Path) -> list[str]:
    """The words with which a file is compiled, but for the compiler's own ones, and with the tree in the copy's place."""
    copy = out.parents[1]
    for entry in json.loads((out / "compile_commands.json").read_text()):
        if entry["file"] == str(copy / file):
            said = shlex.split(entry["command"])[1:]
            words = list(words_for_clang(said, str(copy / file)))
            words = [word.replace(str(copy), str(ROOT)) for word in words]
            return words + read_once(said, words)
    raise KeyError("%s is compiled by nothing in %s" % (file, out))


def read_once(said: list[str], words: list[str]) -> list[str]:
    """The words by which clang takes the headers that cmake compiles once, which it reads once, too."""
    headers = [Path(word) for before, word in zip(said, said[1:]) if before == "-include"]
    for header in headers:
        ready = header.with_suffix(".clang")
        if not ready.exists():
            compiled_headers(header, words, ready)
        return ["-include-pch", str(ready)]
    return []


def words_for_clang(words: list[str], path: str) -> list[str]:
    kept: list[str] = []
    rest = iter(words)
    for word in rest:
        if word in WITH_VALUE:
            next(rest)
        elif word not in ("-c", path) and not word.startswith(UNKNOWN):
            kept.append(word)
    return kept
