"""Runs pytest, and then runs once more, alone, the few tests that failed.

usage: twice.py WORDS ..    pytest's words, `--junitxml FILE` among them

A test that fails among others and passes alone depends on what else the machine does. It is a defect, of the test or of
what it tests, and is named so; but a change that has nothing to do with it can land. One bad moment of the machine
breaks the test that each worker runs then: so as many may fail as there are workers. If more fail, or one fails twice,
the first report stands.
"""

import subprocess
import sys
import xml.etree.ElementTree as xml
from pathlib import Path

from tests.harness.reports import FAULTS, UNSTEADY, counted, is_failed, without_group

FEW = 3  # failed tests that are tried again, whatever the number of workers
ALONE = ("-n", "0")


def pytest(words: list[str]) -> int:
    return subprocess.run([sys.executable, "-m", "pytest", *words], check=False).returncode


def place_of(case: xml.Element) -> str:
    """The test as pytest takes it from its command line; reports in the form xunit1 have the file, and the class behind its module."""
    file = case.get("file", "")
    module = file.removesuffix(".py").replace("/", ".")
    classes = case.get("classname", "").removeprefix(module).split(".")
    return "::".join([file, *filter(None, classes), without_group(case.get("name", ""))])


def options_of(words: list[str]) -> list[str]:
    """The words without the folders and files, which stand before the options."""
    first = next((at for at, word in enumerate(words) if word.startswith("-")), len(words))
    return words[first:]


def few_of(words: list[str]) -> int:
    """How many tests may fail at one moment; with more, something is broken. Of several `-n` pytest takes the last."""
    workers = [int(count) for word, count in zip(words, words[1:]) if word == "-n"]
    return max([FEW, *workers[-1:]])


def named_unsteady(case: xml.Element) -> None:
    """What the first run said of the test stays in the report."""
    for fault in FAULTS:
        for found in case.findall(fault):
            found.tag = UNSTEADY


def main(words: list[str]) -> int:
    report = Path(words[words.index("--junitxml") + 1])
    status = pytest(words)
    if not report.is_file():
        return status
    tree = xml.parse(report)
    failed = [case for case in tree.getroot().iter("testcase") if is_failed(case)]
    if not 0 < len(failed) <= few_of(words):
        return status
    again = report.with_suffix(".again.xml")
    options = options_of(words)
    options[options.index("--junitxml") + 1] = str(again)
    places = [place_of(case) for case in failed]
    print("once more, alone: %s" % " ".join(places), flush=True)
    second = pytest([*places, *options, *ALONE])
    if second != 0 or counted([again]).passed != len(failed):
        return status
    for case in failed:
        named_unsteady(case)
    tree.write(report)
    return 0


if __name__ == "__main__":
    sys.exit(main(sys.argv[1:]))
