"""Writes the report of a run as JSON and as a page. The venue's host signs a report; one that a developer makes is not signed.
"""

from __future__ import annotations

import hashlib
import json
import platform
from collections.abc import Mapping, Sequence
from dataclasses import asdict, dataclass
from datetime import date
from pathlib import Path

import jinja2
from cryptography.exceptions import InvalidSignature, UnsupportedAlgorithm
from cryptography.hazmat.primitives.asymmetric.ed25519 import Ed25519PrivateKey, Ed25519PublicKey
from cryptography.hazmat.primitives.serialization import load_pem_private_key, load_pem_public_key

from .own_venue import NoVenue, Programs
from .run import PASSED, Outcome

HERE = Path(__file__).resolve().parent
ROOT = HERE.parent.parent
DICTIONARIES = ("FIXT11.xml", "MIRESEASON.xml")
MOST_BYTES = 64 << 20  # of a report
MOST_KEY = 1 << 16
FORM = 1  # of the file
LINE = "mireseason-report 1"  # how what is signed begins


@dataclass(frozen=True)
class Report:
    """All that a run showed."""

    firm: str
    role: str
    seed: int
    date: str
    valid_until: str
    is_whole: bool  # whether every case was asked for
    versions: Mapping[str, str]
    outcomes: Sequence[Outcome]
    not_tried: Mapping[str, str]

    @property
    def has_passed(self) -> bool:
        return self.is_whole and all(one.outcome == PASSED for one in self.outcomes)

    def text(self) -> str:
        """JSON with sorted keys."""
        values = {**asdict(self), "form": FORM, "passed": self.has_passed}
        return json.dumps(values, sort_keys=True, ensure_ascii=False, indent=1)

    def line(self, text: str) -> str:
        """What is signed: all that a gateway asks of a report, with the SHA-256 of its file."""
        return "%s %s %s %s %s %s %s" % (
            LINE,
            self.firm,
            self.role,
            "passed" if self.has_passed else "failed",
            self.valid_until.replace("-", ""),
            self.versions["formats"],
            hashlib.sha256(text.encode()).hexdigest(),
        )

    def write(self, folder: Path, key: Ed25519PrivateKey | None) -> None:
        """`certified-FIRM.json`, the page beside it, and with a key its signature."""
        folder.mkdir(parents=True, exist_ok=True)
        text = self.text()
        path = folder / ("certified-%s.json" % self.firm)
        path.write_text(text, encoding="utf-8")
        signature = path.with_suffix(".signature")
        if key:
            line = self.line(text)
            signature.write_text("%s %s\n" % (line, key.sign(line.encode()).hex()))
        else:
            signature.unlink(missing_ok=True)  # of a run before
        path.with_suffix(".html").write_text(self._page(is_signed=key is not None), "utf-8")

    def _page(self, is_signed: bool) -> str:
        loader = jinja2.FileSystemLoader(HERE / "templates")
        pages = jinja2.Environment(loader=loader, autoescape=True, undefined=jinja2.StrictUndefined)
        return pages.get_template("report.html").render(report=self, is_signed=is_signed)


def versions_of(programs: Programs) -> dict[str, str]:
    """Of all that took part; `formats` changes with each change of what firms read and write."""
    version = ROOT / "VERSION"
    return {
        **programs.versions(),
        "certify": version.read_text().strip() if version.exists() else "unknown",
        "python": platform.python_version(),
        "formats": formats_of(ROOT / "fix"),
    }


def formats_of(folder: Path) -> str:
    """The SHA-256 of the dictionaries; `unknown` where they are not there."""
    files = [folder / name for name in DICTIONARIES]
    if not all(file.exists() for file in files):
        return "unknown"
    return hashlib.sha256(b"".join(file.read_bytes() for file in files)).hexdigest()


def read_key(path: Path) -> Ed25519PrivateKey:
    """The private key of the venue's host."""
    try:
        key = load_pem_private_key(bounded(path, MOST_KEY), password=None)
    except (TypeError, ValueError, UnsupportedAlgorithm):
        raise NoVenue("%s is no private key" % path) from None
    if not isinstance(key, Ed25519PrivateKey):
        raise NoVenue("%s is no private key of Ed25519" % path)
    return key


def read_public_key(path: Path) -> Ed25519PublicKey:
    try:
        key = load_pem_public_key(bounded(path, MOST_KEY))
    except (TypeError, ValueError, UnsupportedAlgorithm):
        raise NoVenue("%s is no public key" % path) from None
    if not isinstance(key, Ed25519PublicKey):
        raise NoVenue("%s is no public key of Ed25519" % path)
    return key


def bounded(path: Path, most: int) -> bytes:
    """A file that somebody hands over."""
    with path.open("rb") as file:
        data = file.read(most + 1)
    if len(data) > most:
        raise NoVenue("%s has more than %d bytes" % (path, most))
    return data


def verified(path: Path, key: Path | None) -> int:
    """Says what a report is worth: 0 where it is signed, passed and in time."""
    try:
        data = bounded(path, MOST_BYTES)
        faults = faults_of(path, data, key)
    except (NoVenue, OSError, ValueError, KeyError, TypeError) as why:
        faults = [str(why)]
    for fault in faults:
        print("%s: %s" % (path, fault))
    if not faults:
        print("%s: signed, passed, and in time" % path)
    return 1 if faults else 0


def faults_of(path: Path, data: bytes, key: Path | None) -> list[str]:
    """What speaks against a report."""
    faults = []
    if key is None:
        faults.append("no public key is given, so nothing says who made it")
    elif not is_signed(path.with_suffix(".signature"), data, read_public_key(key)):
        faults.append("it is not signed with this key")
    values = json.loads(data)
    if values["form"] != FORM:
        faults.append("its form is %s, not %d" % (values["form"], FORM))
    if values["passed"] is not True:
        faults.append("not every case has passed")
    if date.fromisoformat(values["valid_until"]) < date.today():
        faults.append("it held until %s" % values["valid_until"])
    if values["versions"]["formats"] != formats_of(ROOT / "fix"):
        faults.append("the venue's formats have changed since")
    return faults


def is_signed(signature: Path, data: bytes, key: Ed25519PublicKey) -> bool:
    """Whether the line beside a report names it, and bears the signature of this key."""
    try:
        line, _, signed = bounded(signature, MOST_KEY).decode().strip().rpartition(" ")
        key.verify(bytes.fromhex(signed), line.encode())
    except (OSError, ValueError, InvalidSignature):
        return False
    return line.startswith(LINE) and line.endswith(" " + hashlib.sha256(data).hexdigest())
