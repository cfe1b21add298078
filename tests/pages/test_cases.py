"""Cases that two programs have to pass: both files have the same ones."""

from tests.harness.options import ROOT


def lines_of(path: str) -> list[str]:
    """The lines of a file that say something, but for where they are driven."""
    lines = (ROOT / path).read_text(encoding="utf-8").splitlines()
    return [line for line in lines if line and not line.startswith(("#", "place "))]


def test_the_days_of_a_recovery_are_the_models() -> None:
    """The proved functions and the second implementation are held against the same days."""
    days = [
        line for line in lines_of("crates/session_cases/data/recovered.cases") if line != "session"
    ]
    model = lines_of("gateway/unit/recovered.cases")
    assert [line.removeprefix("> ") for line in days] == model
    assert len([line for line in model if line.startswith("case ")]) == 97
