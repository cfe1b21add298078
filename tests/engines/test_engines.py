"""QuickFIX with the dictionary of fix/, and Wireshark: what they make of each frame that the venue prints."""

import re
import shutil
import subprocess
from pathlib import Path

import pytest

from tests.engines.conftest import VENUE, Printed
from tests.harness.options import ROOT

DICTIONARY = ROOT / "fix" / "MIRESEASON.xml"
PORT = 9878
WELL = "fix.checksum_good == 1 && !_ws.malformed && !fix.tag.invalid && !fix.invalid_integer_string"
SHOWN = re.compile(rb"(?m)^    (8=FIXT.*)$")
GIVEN = re.compile(rb"(?m)^in [A-Z0-9]* [0-9:.]* (8=.*)$")
LIMIT = 1800  # seconds


def test_quickfix(printed: Printed, engines: Path) -> None:
    """Reading, building, session checks and planted faults: tests/engines/README.md says what each is."""
    words = [engines, DICTIONARY, printed.program, VENUE, printed.folder, *printed.frames]
    done = subprocess.run(words, capture_output=True, text=True, timeout=LIMIT, check=False)
    print(done.stdout)
    assert done.returncode == 0, done.stdout[-2000:] + done.stderr[-2000:]


def lines_of(printed: Printed) -> list[bytes]:
    """Each frame that was printed, with bars."""
    return [
        line.split(b" ", 1)[1] for file in printed.frames for line in file.read_bytes().splitlines()
    ]


def test_frames_of_the_formats(printed: Printed) -> None:
    """Each example frame of docs/FORMATS.md is one that was sent, or printed, in some day."""
    page = (ROOT / "docs" / "FORMATS.md").read_bytes()
    shown = set(SHOWN.findall(page.split(b"\n### As frames\n")[1]))
    known = {frame for each in printed.inputs for frame in GIVEN.findall(each.text)} | set(
        lines_of(printed)
    )
    assert shown
    assert shown - known == set()


# ------------------------------------------------------------ Wireshark


def hex_of(frame: bytes) -> str:
    """A frame as text2pcap reads a packet."""
    data = frame.replace(b"|", b"\x01")
    rows = [data[at : at + 16] for at in range(0, len(data), 16)]
    return "".join("%06x %s\n" % (16 * at, row.hex(" ")) for at, row in enumerate(rows))


def well_formed(frames: list[bytes], folder: Path, name: str) -> int:
    """How many of these frames, a packet each, Wireshark finds nothing wrong with."""
    text, capture = folder / (name + ".hex"), folder / (name + ".pcap")
    text.write_text("".join(map(hex_of, frames)))
    subprocess.run(
        ["text2pcap", "-q", "-T", "40000,%d" % PORT, text, capture],
        check=True,
        capture_output=True,
        timeout=LIMIT,
    )
    words = ["tshark", "-r", str(capture), "-d", "tcp.port==%d,fix" % PORT, "-Y", WELL]
    return len(
        subprocess.run(words, check=True, capture_output=True, timeout=LIMIT).stdout.splitlines()
    )


@pytest.fixture
def wireshark() -> None:
    if shutil.which("tshark") is None or shutil.which("text2pcap") is None:
        pytest.skip("tshark is not installed")


def test_wireshark_reads_each_frame(wireshark: None, printed: Printed, place: Path) -> None:
    frames = lines_of(printed)
    assert well_formed(frames, place, "all") == len(frames) > 0


def test_wireshark_finds_planted_faults(wireshark: None, printed: Printed, place: Path) -> None:
    """A wrong sum, and a word for a number."""
    first, second, *others = lines_of(printed)
    planted = [
        first.replace(b"|131=", b"|131=x", 1),
        re.sub(rb"\|34=\d*\|", b"|34=x|", second, count=1),
    ]
    assert planted != [first, second]
    assert well_formed([*planted, *others], place, "planted") == len(others)
