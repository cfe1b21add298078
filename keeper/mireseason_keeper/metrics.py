"""Writes the keeper's metrics into a file that Prometheus' node exporter reads (--collector.textfile.directory)."""

import os
from datetime import datetime
from pathlib import Path

from .keeper import Counts


def text_of(counts: Counts, now: datetime) -> str:
    """In Prometheus' format of text."""
    gauges = {
        "mireseason_days_without_copy": (
            "days that have ended and have no copy",
            counts.without_copy,
        ),
        "mireseason_copies_without_seal": (
            "copies in whose log the audit found what should not be there",
            counts.without_seal,
        ),
        "mireseason_keeper_faults": ("things that the last run could not do", counts.at_fault),
        "mireseason_days_without_tables": (
            "days that are next and have no tables",
            counts.without_tables,
        ),
        "mireseason_keeper_last_run_timestamp_seconds": (
            "when the keeper ran last",
            int(now.timestamp()),
        ),
    }
    return "".join(
        "# HELP %s %s\n# TYPE %s gauge\n%s %d\n" % (name, text, name, name, value)
        for name, (text, value) in gauges.items()
    )


def write_metrics(path: Path, counts: Counts, now: datetime) -> None:
    """Whole or not at all, for whoever reads meanwhile."""
    part = path.with_name(path.name + ".part")
    part.write_text(text_of(counts, now))
    part.chmod(0o644)
    os.replace(part, path)
