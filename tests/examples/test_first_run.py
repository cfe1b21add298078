"""What a first run proves and builds, in which order, and what it does if it can't get that."""

import os
from pathlib import Path

import pytest

from tests.examples.small_repository import LIBRARY, PROGRAM, RECOVERY, SmallRepository

PROVE = ("python3", "examples/prove_venue.py", "--jobs", "2")


@pytest.fixture
def repository(tmp_path: Path) -> SmallRepository:
    return SmallRepository(tmp_path)


def test_the_program_and_the_libraries_are_proved(repository: SmallRepository) -> None:
    """Each crate behind those below it, none that none needs; then the whole, and the libraries."""
    told = repository.run(*PROVE)
    assert told.returncode == 0, told.stdout
    assert (repository.top / PROGRAM).read_text() == "venue\n"
    for library in (LIBRARY, RECOVERY):
        assert (repository.top / library).read_text() == "library\n"
    proved = [
        call.split()[2]
        for call in repository.calls
        if call.startswith("rt ci") and "ci in" not in call
    ]
    above = ["fix_sessions_c", "session_recovery_c"]
    assert sorted(proved) == sorted(["fields", "market", "sessions", *above])
    assert proved[0] == "fields"
    assert all(proved.index("sessions") < proved.index(library) for library in above)
    (whole,) = [at for at, call in enumerate(repository.calls) if call.startswith("rt ci in ")]
    made = [call for call in repository.calls[whole:] if not call.startswith("rt doc")]
    assert made[0].startswith("rt ci in mireseason-")
    # Not by `rt lib`, which would prove what is below once more.
    assert made[1:] == [f"rattle build in {library}" for library in above]


def test_what_is_made_is_compared(repository: SmallRepository) -> None:
    """With what crates/proved.sha256 has for these sources."""
    told = repository.run(*PROVE)
    assert "the sources of rfq_venue are others" in told.stdout
    assert repository.run("python3", "tools/proved.py", "--write").returncode == 0
    told = repository.run(*PROVE)
    for made in (PROGRAM, LIBRARY, RECOVERY):
        assert f"{made} is the one that crates/proved.sha256 has" in told.stdout


def test_what_stands_is_taken(repository: SmallRepository) -> None:
    """Where nothing changed nothing is proved; where one crate did, what is above it alone."""
    assert repository.run(*PROVE).returncode == 0
    before = len(repository.calls)
    again = repository.run(*PROVE)
    assert again.returncode == 0 and len(repository.calls) == before
    assert again.stdout.count("stands, and is newer than its sources") == 3
    made = (repository.top / LIBRARY).stat().st_mtime
    os.utime(repository.top / "crates" / "market" / "src" / "lib.rt", (made + 60, made + 60))
    assert repository.run(*PROVE).returncode == 0
    later = repository.calls[before:]
    assert any(call.startswith("rt ci market") for call in later)
    assert not any("sessions" in call for call in later)


def test_a_crate_that_is_not_proved_is_told(repository: SmallRepository) -> None:
    """Its name and its fault; neither program nor library is left behind."""
    told = repository.run(*PROVE, more={"FAILS": "sessions"})
    assert told.returncode == 1
    assert "sessions was not proved:\nsrc/lib.rt:1: error: not proved" in told.stdout
    assert not (repository.top / PROGRAM).exists() and not (repository.top / LIBRARY).exists()


def test_a_library_that_is_not_made_is_told(repository: SmallRepository) -> None:
    told = repository.run(*PROVE, more={"NO_LIBRARY": "1"})
    assert told.returncode == 1
    assert "fix_sessions_c gives no library:\nrattle: no memory for a library" in told.stdout
    assert not (repository.top / LIBRARY).exists()


def test_the_first_run_links_the_proved_sessions(repository: SmallRepository) -> None:
    """The gateway is begun before the library stands, and is linked with it once it does."""
    told = repository.run("examples/first-run.sh")
    assert told.returncode == 0, told.stdout
    builds = [call for call in repository.calls if call.startswith("cmake --build")]
    assert builds[-1].endswith("with the library"), builds
    chosen = [call for call in repository.calls if call.startswith("cmake -U SESSION*")]
    assert len(chosen) == 2, "which sessions it is linked with was not chosen anew"
    assert repository.calls[-1] == "an auction of %s" % (repository.top / PROGRAM)
    assert "gateway with the library" in told.stdout and "== Done" in told.stdout


def test_the_first_run_without_a_proof(repository: SmallRepository) -> None:
    """Second implementations, in one build; nothing is proved."""
    (repository.top / "examples" / "auction.venue").write_text("")
    told = repository.run("examples/first-run.sh", "--unproved")
    assert told.returncode == 0, told.stdout
    assert not any(call.startswith(("rt ci", "rattle")) for call in repository.calls)
    assert (
        repository.calls[-1] == "an auction of python3 %s/tests/model/program.py" % repository.top
    )
    assert "gateway with the library" not in told.stdout
