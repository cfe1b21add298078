"""Firms that need a report of mireseason-certify: who may log on, which reports count, and how long one holds."""

import os
import stat
from collections.abc import Callable
from dataclasses import dataclass, replace
from datetime import datetime, timedelta, timezone
from pathlib import Path

import pytest
from cryptography.hazmat.primitives.asymmetric.ed25519 import Ed25519PrivateKey
from cryptography.hazmat.primitives.serialization import Encoding, PublicFormat
from mireseason_certify.report import Report, formats_of
from mireseason_certify.run import FAILED, PASSED, Outcome

from tests.admin.operator import Said, acts, admin, audit, did, firm_row, rows, wait_open
from tests.admin.test_orders import check, is_refused, started_again
from tests.gateway.stage import DEALER, Stage
from tests.gateway.test_configuration import checked
from tests.gateway.wait import LONG, until
from tests.harness.options import ROOT
from tests.limits.flood import logged_on

REFUSED = 'refused what="no admitted report" firm=DLR1'
NONE_ADMITTED = "no report of it was admitted"


@dataclass(frozen=True)
class Host:
    """The venue's host, which signs reports, and an operator of its gateway."""

    stage: Stage
    key: Ed25519PrivateKey

    @property
    def credentials(self) -> Path:
        return self.stage.folder / "credentials.toml"

    def report(self, made: Report, key: Ed25519PrivateKey | None = None) -> Path:
        """The file of a report that this key has signed, or the host's."""
        folder = self.stage.folder / "reports"
        made.write(folder, key or self.key)
        return folder / ("certified-%s.json" % made.firm)

    def admit(self, report: Path, *words: str, kept: Path | None = None) -> Said:
        file = str(kept or self.credentials)
        return admin(self.stage, "--credentials", file, "admit", "DLR1", str(report), *words)

    def write(self, *lines: str) -> None:
        """The gateway's files, with these lines in the part [fix]."""
        door = self.stage.door
        door.operators = ""
        door.write()
        pem = self.key.public_key().public_bytes(Encoding.PEM, PublicFormat.SubjectPublicKeyInfo)
        (self.stage.folder / "certify.pub").write_bytes(pem)
        file = self.stage.folder / "gateway.toml"
        file.write_text(file.read_text().replace("[fix]\n", "[fix]\n" + "".join(lines)))

    def open(self) -> None:
        self.write("certified = true\n", 'report_key = "certify.pub"\n')
        self.stage.door.start()
        wait_open(self.stage)


def passed(until_days: int = 10) -> Report:
    """A report of the dealer that holds for so many days from today on."""
    today = datetime.now(timezone.utc).date()
    ends = (today + timedelta(days=until_days)).isoformat()
    return Report(
        firm="DLR1",
        role="dealer",
        seed=7,
        date=today.isoformat(),
        valid_until=ends,
        is_whole=True,
        versions={"formats": formats_of(ROOT / "fix")},
        outcomes=[Outcome("logon", "Logs on", PASSED)],
        not_tried={},
    )


def host_of(stage: Stage, monkeypatch: pytest.MonkeyPatch) -> Host:
    sbin = ROOT / "install" / "packages" / "sbin"
    monkeypatch.setenv("PATH", "%s:%s" % (sbin, os.environ["PATH"]))
    return Host(stage, Ed25519PrivateKey.generate())


@pytest.fixture
def host(stage: Stage, monkeypatch: pytest.MonkeyPatch) -> Host:
    return host_of(stage, monkeypatch)


@pytest.fixture
def host_of_log(stage_of_log: Stage, monkeypatch: pytest.MonkeyPatch) -> Host:
    """On each kind of database."""
    return host_of(stage_of_log, monkeypatch)


def is_let_in(stage: Stage, number: int = 1) -> int:
    """The dealer logs on and asks for nothing; the number of its next message."""
    with logged_on(stage, DEALER, number=number) as wire:
        wire.ask()
        return wire.number


def uncertified(stage: Stage) -> str:
    return str(rows(stage, "status")[0]["uncertified"])


def test_a_firm_whose_desk_was_certified(host_of_log: Host) -> None:
    """It is refused without a word until its report is admitted, and let in from then on, also by a gateway that was killed."""
    host, stage = host_of_log, host_of_log.stage
    host.open()
    is_refused(stage, 1)
    until("the operator is told", LONG, lambda: REFUSED in stage.door.told.read_text())
    check(uncertified(stage) == "DLR1 DLR2 INV1", uncertified(stage))
    check(firm_row(stage, "DLR1")["set"] == "uncertified", firm_row(stage, "DLR1"))
    report = host.report(passed())
    said = host.admit(report, "--because", "tried here")
    check(said.status == 0 and "DLR1 is admitted for this day" in said.out, said.text)
    digest = report.with_suffix(".signature").read_text().split()[-2]
    ends = passed().valid_until.replace("-", "")
    line = ' admit DLR1 %s %s because="tried here"' % (ends, digest)
    check(acts(stage)[-1].endswith(line.encode()), acts(stage))
    number = is_let_in(stage)
    check(uncertified(stage) == "DLR2 INV1", uncertified(stage))
    started_again(stage)
    wait_open(stage)
    is_let_in(stage, number)
    check(audit(stage, "check").status == 0, audit(stage, "check").text)
    listed = audit(stage, "acts")
    check("admit DLR1 %s %s" % (ends, digest) in listed.out and listed.status == 0, listed.text)


def test_what_is_kept(host: Host) -> None:
    """The line that signs the report stands in the firm's credentials, beside what stood there; a log without the act has the firm
    let in by it, and --check says who is left."""
    stage = host.stage
    host.open()
    file = host.credentials
    file.write_text("# Who may.\n" + file.read_text())
    before = file.read_text()
    report = host.report(passed())
    check(host.admit(report).status == 0, "it is not admitted")
    line = report.with_suffix(".signature").read_text().strip()
    now = file.read_text()
    check('report = "%s"\n' % line in now, now)
    check(now.replace('report = "%s"\n' % line, "") == before, now)
    check(stat.S_IMODE(file.stat().st_mode) == 0o600, oct(file.stat().st_mode))
    told = checked(stage).stdout
    for name in ("DLR2", "INV1"):
        words = "%s can't log on unless an act of the day admits it: %s" % (name, NONE_ADMITTED)
        check(words in told, told)
    check("DLR1 can't log on" not in told, told)
    stage.door.stop()
    for left in (*stage.folder.glob("day.db*"), *(stage.folder / "checkpoints").iterdir()):
        left.unlink()
    stage.door.start()
    wait_open(stage)
    is_let_in(stage)
    check(acts(stage) == [], acts(stage))


@pytest.mark.parametrize(
    "change, why",
    [
        (lambda report: replace(report, is_whole=False), "not every case has passed"),
        (
            lambda report: replace(report, outcomes=[Outcome("logon", "", FAILED)]),
            "not every case has passed",
        ),
        (lambda report: replace(report, role="investor"), "its report is of an investor"),
        (lambda report: replace(report, versions={"formats": "0" * 64}), "of other formats"),
        (lambda report: passed(until_days=-1), "its report held to "),
        (lambda report: replace(report, versions={"formats": "unknown"}), "no line that signs"),
    ],
    ids=["a part", "failed", "role", "formats", "ended", "no formats"],
)
def test_a_report_that_is_not_taken(
    host: Host, change: Callable[[Report], Report], why: str
) -> None:
    host.open()
    before = host.credentials.read_text()
    said = host.admit(host.report(change(passed())))
    check(said.status == 1 and why in said.err, said.text)
    check(acts(host.stage) == [] and host.credentials.read_text() == before, "it is admitted")
    is_refused(host.stage, 1)


def test_a_report_of_somebody_else(host: Host) -> None:
    """Signed with another key, changed behind its signature, with another one's signature, or of another firm."""
    host.open()
    said = host.admit(host.report(passed(), Ed25519PrivateKey.generate()))
    check(said.status == 1 and "not signed with the key" in said.err, said.text)
    report = host.report(passed(-1))
    signature = report.with_suffix(".signature")
    right = signature.read_text()
    signature.write_text(right.replace(right.split()[5], "20991231"))
    said = host.admit(report)
    check(said.status == 1 and "not signed with the key" in said.err, said.text)
    signature.write_text(right)
    report.write_text(report.read_text() + " ")
    said = host.admit(report)
    check(said.status == 1 and "signs another report" in said.err, said.text)
    other = host.report(replace(passed(), firm="DLR2"))
    said = host.admit(other)
    check(said.status == 1 and "its report is of the firm DLR2" in said.err, said.text)
    said = host.admit(host.stage.folder / "none.json")
    check(said.status == 1 and "none.signature: can't be read" in said.err, said.text)
    check(acts(host.stage) == [], acts(host.stage))
    is_refused(host.stage, 1)


def test_the_last_day(host: Host) -> None:
    """A report holds for the whole of the day that is its last one."""
    host.open()
    check(host.admit(host.report(passed(until_days=0))).status == 0, "it is not admitted")
    is_let_in(host.stage)


def test_a_file_that_can_not_be_written(host: Host) -> None:
    """The act holds for its day, and the operator is told that nothing else does."""
    host.open()
    said = host.admit(host.report(passed()), kept=host.stage.folder / "none" / "credentials.toml")
    check(said.status == 1 and "for this day alone" in said.err, said.text)
    check(len(acts(host.stage)) == 1 and "report" not in host.credentials.read_text(), said.text)
    is_let_in(host.stage)


def test_credentials_that_somebody_wrote(host: Host) -> None:
    """A line of another key admits nobody, one that is none is a fault, and one that is taken away ends the session."""
    stage = host.stage
    host.write("certified = true\n", 'report_key = "certify.pub"\n')
    right = host.credentials.read_text()
    with_line = right.replace("[DLR1]\n", '[DLR1]\nreport = "%s"\n')
    signature = host.report(passed(), Ed25519PrivateKey.generate()).with_suffix(".signature")
    host.credentials.write_text(with_line % signature.read_text().strip())
    check("not signed with the key" in checked(stage).stdout, checked(stage))
    host.report(passed())
    host.credentials.write_text(with_line % signature.read_text().strip())
    stage.door.start()
    wait_open(stage)
    with logged_on(stage, DEALER) as wire:
        host.credentials.write_text(with_line % "a report")
        said = admin(stage, "reload")
        check(said.status == 1 and "report is no line of a report" in said.err, said.text)
        host.credentials.write_text(right)
        did(stage, "reload")
        check(wire.got(b"5").value(35) == b"5", "its session does not end")
        number = wire.number
    is_refused(stage, number)


def test_a_rule_without_a_key(host: Host) -> None:
    """Nobody could check a report: the start is refused. A key without the rule lets reports be admitted before they are needed."""
    host.write("certified = true\n")
    host.stage.refused("certified needs report_key")
    host.write('report_key = "gone.pub"\n')
    host.stage.refused(r'line [0-9]+: \[fix\] report_key = "gone.pub": No such file')
    host.write('report_key = "venue.toml"\n')
    host.stage.refused("venue.toml: is no public key of Ed25519")
    host.write('report_key = "certify.pub"\n')
    host.stage.door.start()
    wait_open(host.stage)
    check(uncertified(host.stage) == "", uncertified(host.stage))
    number = is_let_in(host.stage)
    check(host.admit(host.report(passed())).status == 0, "it is not admitted")
    is_let_in(host.stage, number)


def test_no_key(host: Host) -> None:
    host.write()
    host.stage.door.start()
    wait_open(host.stage)
    said = host.admit(host.report(passed()))
    check(said.status == 1 and "names no key" in said.err, said.text)
    check(acts(host.stage) == [], acts(host.stage))
