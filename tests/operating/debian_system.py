"""Makes a fresh Debian 12 in a folder, with what the packages depend on, and nothing that builds anything."""

import os
import re
import subprocess
from pathlib import Path

import pytest

from tests.operating.built_packages import needs

# A fresh system has these from the mirror, and the packages from the test alone.
BELOW = (
    "init-system-helpers systemd systemd-sysv dbus tzdata openssl sqlite3 curl iproute2 prometheus-node-exporter"
    " python3 python3-jinja2 python3-cryptography python3-psycopg2 python3-tomlkit"
    " libsqlite3-0 libpqxx-6.4 libprometheus-cpp-core1.0 libspdlog1.10 libdate-tz3 libssl3 libcrypt1"
)
MINUTES = 15  # for a fresh system, from a mirror that may be slow
LINE = r'(?m)^%s = ("[^"]*"|\[[^]]*\])'  # of a key, and its value
ALL_DAY = {
    "opens": '"00:00"',
    "ends": '"24:00"',
    "weekdays": '["Mon", "Tue", "Wed", "Thu", "Fri", "Sat", "Sun"]',
}


def fresh_debian(root: Path) -> None:
    """By mmdebstrap; or a copy of one that stands in the folder FRESH_SYSTEM, for whoever tries such a test often."""
    needs("mmdebstrap")
    if os.geteuid() != 0:
        pytest.skip("only root makes a system")
    if "FRESH_SYSTEM" in os.environ:
        subprocess.run(["cp", "-a", os.environ["FRESH_SYSTEM"], root], check=True)
        return
    words = [
        "mmdebstrap",
        "--mode=root",
        "--variant=minbase",
        "--include=" + BELOW.replace(" ", ","),
    ]
    try:
        made = subprocess.run(
            [*words, "bookworm", str(root)],
            capture_output=True,
            text=True,
            timeout=60 * MINUTES,
            check=False,
        )
    except subprocess.TimeoutExpired:
        pytest.skip("mmdebstrap: not done in %d minutes" % MINUTES)
    if made.returncode != 0:
        last = made.stderr.strip().splitlines() or ["it says nothing"]
        pytest.skip("mmdebstrap: %s" % last[-1])


def set_hours(root: Path, hours: dict[str, str] = ALL_DAY) -> None:
    """What a new installation asks for, in the keeper's configuration too."""
    for name in ("mireseason/gateway.toml", "mireseason-keeper/keeper.toml"):
        file = root / "etc" / name
        text = file.read_text()
        for key, value in hours.items():
            text, count = re.subn(LINE % key, "%s = %s" % (key, value), text)
            assert count == 1, (name, key)
        file.write_text(text)
