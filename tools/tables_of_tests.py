#!/usr/bin/env python3
"""Makes the tables of tests/README.md: the options and the fixtures of all tests, by their own words.

    tools/tables_of_tests.py            writes them
    tools/tables_of_tests.py --check    says whether they are not as it would write them, and ends with 1 then
"""

from __future__ import annotations

import argparse
import ast
import sys
from collections.abc import Iterator
from pathlib import Path

from made import filled, write

ROOT = Path(__file__).resolve().parent.parent
SCRIPT = "tools/tables_of_tests.py"
PAGE = "tests/README.md"
OPTIONS = "tests/harness/options.py"
FIXTURES = "tests/harness/fixtures.py"


def parsed(root: Path, file: str) -> ast.Module:
    return ast.parse((root / file).read_text(encoding="utf-8"))


def options(root: Path) -> Iterator[tuple[str, str]]:
    """Each option of a run, with its help."""
    for node in ast.walk(parsed(root, OPTIONS)):
        if isinstance(node, ast.Call) and ast.unparse(node.func).endswith(".addoption"):
            said = {word.arg: word.value for word in node.keywords}
            yield ast.literal_eval(node.args[0]), ast.literal_eval(said["help"])


def fixtures(root: Path) -> Iterator[tuple[str, str]]:
    """Each fixture, with what it says of itself."""
    for node in parsed(root, FIXTURES).body:
        if isinstance(node, ast.FunctionDef):
            marks = " ".join(map(ast.unparse, node.decorator_list))
            said = ast.get_docstring(node)
            if "pytest.fixture" in marks and said:
                yield node.name, said.split("\n")[0].rstrip(".")


def table(root: Path, name: str) -> str:
    """A table of the page, by what its mark says."""
    head, lines = {
        "options": ("option | chooses", options),
        "fixtures": ("fixture | gives", fixtures),
    }[name]
    rows = "".join(f"| `{word}` | {said} |\n" for word, said in lines(root))
    return f"| {head} |\n|---|---|\n{rows}"


def made(root: Path = ROOT) -> dict[str, str]:
    """The page, with its text."""
    text = (root / PAGE).read_text(encoding="utf-8")
    return {PAGE: filled(text, SCRIPT, lambda name: table(root, name))}


def main() -> int:
    parser = argparse.ArgumentParser(
        description=__doc__, formatter_class=argparse.RawTextHelpFormatter
    )
    parser.add_argument("--check", action="store_true")
    return write(ROOT, made(), parser.parse_args().check)


if __name__ == "__main__":
    sys.exit(main())
