"""The options of the command line, and what they choose."""

import os
import shlex
import shutil
import sys
from dataclasses import dataclass
from enum import Enum
from pathlib import Path

import hypothesis
import hypothesis.core
import pytest

ROOT = Path(__file__).resolve().parents[2]
PROVED = ROOT / "crates" / "rfq_venue" / "out" / "rfq_venue"
SECOND = ("/usr/bin/python3", str(ROOT / "tests" / "model" / "program.py"))
SHORT_EXAMPLES, LONG_EXAMPLES = 100, 5000
TREE = (
    str(ROOT),
    str(ROOT / "audit"),
    str(ROOT / "common"),
    str(ROOT / "tools"),
    str(ROOT / "keeper"),
    str(ROOT / "install" / "hosts"),
)  # where the tree's modules are found


class Form(Enum):
    """How much is drawn and played: minutes, or hours."""

    SHORT = "short"
    LONG = "long"


@dataclass(frozen=True)
class Options:
    """What the command line chose."""

    venue: tuple[str, ...]  # the words of the venue's program, with whole paths
    gateway: Path | None  # a program that is built already
    form: Form
    seed: int
    keep: Path | None  # where the folders of tests that fail are put
    images: Path  # where the disks of hosts are
    measures: bool  # the gateway's memory and work are its own, and not those of a sanitizer

    @property
    def is_short(self) -> bool:
        return self.form is Form.SHORT


OPTIONS = pytest.StashKey[Options]()


def venue_words(text: str) -> tuple[str, ...]:
    """The words of a venue's program: `proved`, `second`, or a command."""
    if text == "proved":
        return (str(PROVED),)
    if text == "second":
        return SECOND
    words = [text] if os.path.isfile(text) else shlex.split(text)
    return tuple(str(Path(word).resolve()) if os.path.isfile(word) else word for word in words)


def usual_venue() -> str:
    """What VENUE says; else the proved program where it stands, or else the second."""
    return os.environ.get("VENUE") or ("proved" if PROVED.exists() else "second")


def pytest_addoption(parser: pytest.Parser) -> None:
    group = parser.getgroup("mireseason")
    group.addoption(
        "--venue",
        help="proved, second, or the words of a program; VENUE, or else proved if built, or second",
    )
    group.addoption(
        "--gateway", help="a gateway that is built; GATEWAY, or else it is built in gateway/out"
    )
    group.addoption(
        "--form",
        choices=[form.value for form in Form],
        default=Form.SHORT.value,
        help="short: minutes; long: hours",
    )
    group.addoption(
        "--seed",
        type=int,
        default=int(os.environ.get("SEED", "1")),
        help="what is drawn is drawn by this number",
    )
    group.addoption("--keep", type=Path, help="a folder for the files of tests that fail")
    group.addoption(
        "--sanitized",
        action="store_true",
        help="the gateway has a sanitizer: its memory and work are not measured",
    )
    group.addoption(
        "--images",
        type=Path,
        help="a folder for the disks of hosts; in /dev/shm where there is room",
    )


def pytest_configure(config: pytest.Config) -> None:
    words = config.option
    gateway, keep = words.gateway or os.environ.get("GATEWAY"), words.keep or os.environ.get("KEEP")
    config.stash[OPTIONS] = Options(
        venue=venue_words(words.venue or usual_venue()),
        gateway=Path(gateway).resolve() if gateway else None,
        form=Form(words.form),
        seed=words.seed,
        keep=Path(keep).resolve() if keep else None,
        images=(words.images or Path("/dev/shm")).resolve(),
        measures=not words.sanitized,
    )
    hypothesis_draws(config.stash[OPTIONS])
    os.environ.update(environment(config.stash[OPTIONS]))
    if shutil.which(config.stash[OPTIONS].venue[0]) is None:
        raise pytest.UsageError("there is no venue %s" % shlex.join(config.stash[OPTIONS].venue))


def environment(chosen: Options) -> dict[str, str]:
    """What programs that tests start are told of it."""
    told = {"VENUE": shlex.join(chosen.venue), "FORM": chosen.form.value, "SEED": str(chosen.seed)}
    return told | {"PYTHONPATH": os.pathsep.join(TREE)}


def hypothesis_draws(chosen: Options) -> None:
    """What hypothesis draws is drawn by the seed, too, and as much of it as the form says."""
    setattr(hypothesis.core, "global_force_seed", chosen.seed)
    for form, count in ((Form.SHORT, SHORT_EXAMPLES), (Form.LONG, LONG_EXAMPLES)):
        hypothesis.settings.register_profile(
            form.value,
            max_examples=count,
            deadline=None,  # a busy machine is no fault
            database=None,
            suppress_health_check=list(hypothesis.HealthCheck),
            print_blob=True,
        )
    hypothesis.settings.load_profile(chosen.form.value)


def pytest_report_header(config: pytest.Config) -> list[str]:
    chosen = config.stash[OPTIONS]
    lines = [
        "venue: %s" % shlex.join(chosen.venue),
        "form: %s, seed %d" % (chosen.form.value, chosen.seed),
    ]
    if not is_debians_python():
        lines.append(
            "python: %s is not Debian's, which the tests are written for: /usr/bin/python3 -m pytest"
            % sys.executable
        )
    return lines


def is_debians_python() -> bool:
    return Path(sys.executable).resolve() == Path("/usr/bin/python3").resolve()


def pytest_generate_tests(metafunc: pytest.Metafunc) -> None:
    """`drawn` is a seed: a test that takes it is one test for each, as many as its mark `draws` says."""
    mark = metafunc.definition.get_closest_marker("draws")
    if "drawn" not in metafunc.fixturenames or mark is None:
        return
    chosen = metafunc.config.stash[OPTIONS]
    count = mark.kwargs["short"] if chosen.is_short else mark.kwargs["long"]
    metafunc.parametrize("drawn", range(chosen.seed, chosen.seed + count))


def pytest_collection_modifyitems(config: pytest.Config, items: list[pytest.Item]) -> None:
    """What belongs to the long form is skipped in the short one, by that name."""
    if not config.stash[OPTIONS].is_short:
        return
    for item in items:
        if item.get_closest_marker("long"):
            item.add_marker(pytest.mark.skip(reason="of the long form alone"))
