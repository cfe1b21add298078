"""The fixtures of all tests. tests/README.md has a line for each."""

import os
import shutil
import tempfile
from collections.abc import Callable, Iterator
from dataclasses import dataclass
from pathlib import Path

import pytest

from tests.gateway.door import Door, Programs, today
from tests.gateway.firm import Identity
from tests.gateway.ledger import PostgresLog
from tests.gateway.midnight import wait_for_room
from tests.gateway.stage import Stage, Tools
from tests.gateway.wire import Wire
from tests.harness import build, lab, postgres
from tests.harness.browser import Browser
from tests.harness.clock import Clock
from tests.harness.options import OPTIONS, ROOT, SECOND, Form, Options
from tests.harness.side_by_side import is_worker
from tests.lab.machine import Machine

DICTIONARIES = (ROOT / "fix" / "FIXT11.xml", ROOT / "fix" / "MIRESEASON.xml")
OpenWire = Callable[..., Wire]
MakeGateway = Callable[..., Door]


# ------------------------------------------------------------ what was chosen


@pytest.fixture(scope="session")
def options(pytestconfig: pytest.Config) -> Options:
    """What the command line chose."""
    return pytestconfig.stash[OPTIONS]


@pytest.fixture(scope="session")
def form(options: Options) -> Form:
    """Form.SHORT or Form.LONG."""
    return options.form


@pytest.fixture(scope="session")
def seed(options: Options) -> int:
    """The number by which all that is drawn is drawn."""
    return options.seed


@pytest.fixture(scope="session")
def venue(options: Options) -> tuple[str, ...]:
    """The words of the venue's program: the proved one, the second implementation, or another."""
    return options.venue


@pytest.fixture(scope="session")
def first_program(venue: tuple[str, ...]) -> list[str]:
    """The words of a program that is held against the second implementation."""
    if venue == SECOND:
        pytest.skip("the second implementation is not held against itself")
    return list(venue)


# ------------------------------------------------------------ programs


@pytest.fixture(scope="session")
def gateway_program(options: Options) -> Path:
    """The gateway's program, built where --gateway names none."""
    program = options.gateway or build.built_gateway()
    assert program.exists(), "there is no gateway %s" % program
    return program


@pytest.fixture(scope="session")
def tools(gateway_program: Path, venue: tuple[str, ...], options: Options) -> Tools:
    """All programs of a stage."""
    return Tools(
        Programs(gateway_program, venue),
        build.player(),
        DICTIONARIES,
        build.shim(),
        options.measures,
    )


# ------------------------------------------------------------ a folder, a database


@pytest.fixture(scope="session")
def shared(tmp_path_factory: pytest.TempPathFactory, pytestconfig: pytest.Config) -> Path:
    """A folder of all workers of this run together: `build.made_once` makes there what each would make for itself."""
    own = tmp_path_factory.getbasetemp()
    folder = (own.parent if is_worker(pytestconfig) else own) / "shared"
    folder.mkdir(exist_ok=True)
    return folder


@pytest.fixture
def place(request: pytest.FixtureRequest, options: Options) -> Iterator[Path]:
    """A folder of the test's own, with a short path; --keep keeps that of a test that fails."""
    folder, failed = Path(tempfile.mkdtemp(prefix="mrt")), request.session.testsfailed
    folder.chmod(0o755)  # a database reads there as another user
    yield folder
    if options.keep and request.session.testsfailed > failed:
        shutil.copytree(
            folder, options.keep / request.node.name.replace("/", "_"), dirs_exist_ok=True
        )
    shutil.rmtree(folder, ignore_errors=True)


@pytest.fixture(scope="session")
def postgres_server() -> Iterator[postgres.Server]:
    """A PostgreSQL server of these tests alone."""
    programs = postgres.programs()
    if programs is None:
        pytest.skip("PostgreSQL is not installed")
    with tempfile.TemporaryDirectory(prefix="mrp") as name:
        Path(name).chmod(0o755)
        with postgres.running(programs, Path(name) / "server") as server:
            yield server


@pytest.fixture
def postgres_database(postgres_server: postgres.Server) -> str:
    """The connection string (libpq) of an empty database of the test's own."""
    return postgres_server.fresh()


@pytest.fixture(params=["sqlite", "postgres"])
def log_place(request: pytest.FixtureRequest) -> PostgresLog | None:
    """Where a gateway's log is: a test that takes this runs twice, in SQLite (None) and in PostgreSQL."""
    if request.param == "sqlite":
        return None
    return PostgresLog(request.getfixturevalue("postgres_database"), "day_" + today())


# ------------------------------------------------------------ a gateway


@dataclass(frozen=True)
class _Opened:
    """What a test has started, which ends with it."""

    doors: list[Door]
    wires: list[Wire]


@pytest.fixture
def make_gateway(
    tools: Tools, place: Path, request: pytest.FixtureRequest
) -> Iterator[MakeGateway]:
    """make_gateway(dealers, investors, limits=.., postgres=..) gives a gateway that is not started yet."""
    wait_for_room(request.node.name)
    opened = _Opened([], [])

    def make(
        dealers: list[Identity],
        investors: list[Identity],
        limits: dict[str, int] | None = None,
        log: PostgresLog | None = None,
    ) -> Door:
        folder = place / ("gateway%d" % len(opened.doors))
        folder.mkdir()
        opened.doors.append(
            Door(tools.programs, folder, dealers, investors, limits=limits or {}, postgres=log)
        )
        return opened.doors[-1]

    yield make
    for door in opened.doors:
        door.close()


@pytest.fixture
def stage(tools: Tools, place: Path, request: pytest.FixtureRequest) -> Iterator[Stage]:
    """A gateway, two dealers and an investor (stock QuickFIX initiators), none of which is started yet."""
    wait_for_room(request.node.name)
    made = Stage(tools, place)
    yield made
    made.close()


@pytest.fixture
def stage_of_log(
    tools: Tools, place: Path, log_place: PostgresLog | None, request: pytest.FixtureRequest
) -> Iterator[Stage]:
    """The same in SQLite and in PostgreSQL: such a test runs twice."""
    wait_for_room(request.node.name)
    made = Stage(tools, place, log_place)
    yield made
    made.close()


@pytest.fixture
def wire(stage: Stage) -> Iterator[OpenWire]:
    """wire() is a connection to the stage's gateway that says what a stock engine would not."""
    opened: list[Wire] = []

    def connect(**words: object) -> Wire:
        opened.append(Wire(stage.door.port, **words))  # type: ignore[arg-type]
        return opened[-1]

    yield connect
    for each in opened:
        each.socket.close()


@pytest.fixture
def clock(stage: Stage, tools: Tools) -> Clock:
    """The clock of the stage's gateway, which has to be taken before that is started."""
    made = Clock(tools.shim, stage.folder)
    stage.door.environment.update(made.environment)
    return made


# ------------------------------------------------------------ hosts, a browser


@pytest.fixture
def machine(tools: Tools, place: Path, options: Options) -> Iterator[Machine]:
    """Three database hosts, two gateways and a host of firms, which `machine.up(..)` starts. Needs root."""
    lacking = lab.lacks()
    if lacking:
        pytest.skip(lacking)
    name = "mrt%d" % os.getpid()
    images = Path(tempfile.mkdtemp(prefix=name, dir=options.images))
    made = lab.machine(place / "hosts", images, tools.programs.gateway, tools.programs.venue, name)
    yield made
    made.down()
    shutil.rmtree(images, ignore_errors=True)


@pytest.fixture
def browser(place: Path) -> Browser:
    """Debian's chromium, with a profile of the test's own."""
    if not Browser.is_installed():
        pytest.skip("chromium is not installed")
    return Browser(place / "profile")
