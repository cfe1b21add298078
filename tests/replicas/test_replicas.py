"""Three database hosts and two gateways in namespaces of this machine: README.md says what each part tries."""

import re
import shutil
import subprocess
import sys
import tempfile
from collections.abc import Callable, Iterator
from pathlib import Path

import pytest

from tests.gateway.stage import Tools
from tests.harness import lab
from tests.harness.options import Options
from tests.replicas.appends import TESTS

LIMIT = 14_400  # seconds of one part: each has its own limits, and ends by them
DAYS = 3  # of the long form
ROOM = 1_500_000_000  # bytes of memory in which the disks of hosts may be
# However it ends, so does all that it started, and what it mounted is gone, its hosts' network namespaces too. And nobody else
# has a disk of its hosts mounted, which then would not lose its power. The shell stays, as the first process, which takes the
# status of whatever has lost its parent: a server that was killed and whose end nobody takes is one that runs, to Patroni.
APART = [
    "unshare",
    "--pid",
    "--mount-proc",
    "--fork",
    "--kill-child",
    "sh",
    "-c",
    'mkdir -p /run/netns && mount -t tmpfs tmpfs /run/netns || exit; "$@"; exit $?',
    "sh",
]
PASSED = re.compile(r"^(\d+) passed, (\d+) failed$", re.MULTILINE)
Part = Callable[..., tuple[int, int, str]]

pytestmark = pytest.mark.root


@pytest.fixture(scope="module")
def hosts() -> None:
    lacking = lab.lacks()
    if lacking:
        pytest.skip(lacking)


@pytest.fixture
def images(options: Options) -> Iterator[Path]:
    """Where the disks are: in memory where there is room."""
    free = shutil.disk_usage(options.images).free
    with tempfile.TemporaryDirectory(
        prefix="mireseason", dir=options.images if free > ROOM else None
    ) as name:
        yield Path(name)


@pytest.fixture
def part(hosts: None, images: Path) -> Part:
    """part(module, words ..) runs a part; how many passed, how many failed, and what it said."""

    def run(module: str, *words: object) -> tuple[int, int, str]:
        command = [
            *APART,
            sys.executable,
            "-m",
            "tests.replicas." + module,
            "--images",
            str(images),
            *map(str, words),
        ]
        done = subprocess.run(
            command,
            stdout=subprocess.PIPE,
            stderr=subprocess.STDOUT,
            text=True,
            timeout=LIMIT,
            check=False,
        )
        print(done.stdout)
        found = PASSED.findall(done.stdout)
        assert found, done.stdout[-4000:]
        return int(found[-1][0]), int(found[-1][1]), done.stdout[-4000:]

    return run


def programs(tools: Tools) -> list[object]:
    return [tools.programs.gateway, tools.player]


def venue(tools: Tools) -> list[object]:
    return ["--", *tools.programs.venue]


def test_a_cut_of_power_leaves_what_was_synchronised(part: Part) -> None:
    passed, failed, told = part("disks")
    assert (passed, failed) == (4, 0), told


def test_two_venues_behind_one_gateway(hosts: None, tools: Tools) -> None:
    """On SQLite, with firms in both."""
    command = [
        *APART,
        sys.executable,
        "-m",
        "tests.replicas.venues",
        *map(str, programs(tools) + venue(tools)),
    ]
    done = subprocess.run(
        command,
        stdout=subprocess.PIPE,
        stderr=subprocess.STDOUT,
        text=True,
        timeout=LIMIT,
        check=False,
    )
    assert done.returncode == 0, done.stdout[-4000:]


def day_words(options: Options, days: int, seed: int) -> list[object]:
    """Of so many days, the first with this seed."""
    length = ["--messages", 200, "--faults", 4]
    if not options.is_short:
        length = ["--messages", 2000, "--faults", 30]
    return [*length, "--days", days, "--seed", seed]


def test_days_with_faults(part: Part, tools: Tools, options: Options) -> None:
    """Hosts are killed, cut off, left without power and without room: each firm has the venue's messages for the log."""
    words = day_words(options, 1 if options.is_short else DAYS, options.seed)
    passed, failed, told = part("replicas", *programs(tools), *words, *venue(tools))
    assert passed > 0 and failed == 0, told


@pytest.mark.long
def test_two_venues_on_three_databases(part: Part, tools: Tools) -> None:
    words = ["--venues", 2, "--days", 1, "--messages", 600, "--faults", 18, "--seed", 101]
    passed, failed, told = part("replicas", *programs(tools), *words, *venue(tools))
    assert (passed, failed) == (1, 0), told


@pytest.mark.long
def test_what_an_operator_does(part: Part, tools: Tools) -> None:
    """Database hosts are taken out and in, and replaced by empty ones."""
    words = ["--upkeep", "--days", 1, "--messages", 200, "--faults", 4, "--seed", 201]
    passed, failed, told = part("replicas", *programs(tools), *words, *venue(tools))
    assert (passed, failed) == (1, 0), told


@pytest.mark.long
@pytest.mark.parametrize("wrong", ["local", "terms"])
def test_a_wrong_set_up_fails(part: Part, tools: Tools, options: Options, wrong: str) -> None:
    """Commits that do not wait for a standby, and a log without terms: one of the days fails, or they would show nothing."""
    found = []
    for seed in range(options.seed, options.seed + DAYS):
        words = [*day_words(options, 1, seed), "--wrong", wrong]
        _, failed, told = part("replicas", *programs(tools), *words, *venue(tools))
        if failed:
            found.append(told)
            break
    assert found


@pytest.mark.long
def test_terms_and_logs_on_the_primary(part: Part, tools: Tools) -> None:
    """And how fast logs take messages there. test_closed_doors.py::test_a_gateway is its short form, on hosts that are up."""
    passed, failed, told = part("appends", tools.programs.gateway.parent, "--seconds", 5)
    assert (passed, failed) == (len(TESTS), 0), told
