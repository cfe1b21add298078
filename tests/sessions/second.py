"""The sources of the second implementation of a session."""

from pathlib import Path

from tests.harness.options import ROOT

HEADER = ROOT / "gateway" / "src" / "session"
MODEL = ROOT / "gateway" / "session_model"


def model_sources() -> list[Path]:
    """Without its recovery, which is a library of its own, held against the model's days by a unit test."""
    return sorted(path for path in MODEL.glob("*.cpp") if not path.stem.startswith("recover"))
