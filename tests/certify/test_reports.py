"""What a run leaves: a report, signed or not, and what makes one invalid."""

import hashlib
import json
import os
import signal
import subprocess
import sys
from collections.abc import Callable
from dataclasses import replace
from datetime import date, timedelta
from functools import partial
from pathlib import Path

import pytest
from cryptography.hazmat.primitives.asymmetric.ec import (
    SECP256R1,
    EllipticCurvePrivateKey,
    generate_private_key,
)
from cryptography.hazmat.primitives.asymmetric.ed25519 import Ed25519PrivateKey
from cryptography.hazmat.primitives.serialization import Encoding, NoEncryption, PrivateFormat
from cryptography.hazmat.primitives.serialization import PublicFormat
from mireseason_certify.own_venue import NoVenue
from mireseason_certify.report import Report, formats_of, read_key, read_public_key, verified
from mireseason_certify.run import FAILED, PASSED, Outcome

from tests.harness.options import ROOT

COMMAND = [sys.executable, str(ROOT / "certify" / "mireseason-certify")]


def report(outcome: str = PASSED, days: int = 10, is_whole: bool = True) -> Report:
    """One of today, which holds for so many days."""
    today = date.today()
    outcomes = [Outcome("logon", "Logs on <b>&", outcome, "", 1.0, ["desk 8=FIXT.1.1|<i>|"])]
    versions = {"formats": formats_of(ROOT / "fix")}
    until = (today + timedelta(days=days)).isoformat()
    return Report("DLR1", "dealer", 7, today.isoformat(), until, is_whole, versions, outcomes, {})


@pytest.fixture
def key() -> Ed25519PrivateKey:
    return Ed25519PrivateKey.generate()


def public_file(key: Ed25519PrivateKey, folder: Path) -> Path:
    path = folder / "host.pub"
    pem = key.public_key().public_bytes(Encoding.PEM, PublicFormat.SubjectPublicKeyInfo)
    path.write_bytes(pem)
    return path


def told(
    written: Report, key: Ed25519PrivateKey, folder: Path, capsys: pytest.CaptureFixture[str]
) -> str:
    """What is said of a report that this key has signed."""
    written.write(folder, key)
    verified(folder / "certified-DLR1.json", public_file(key, folder))
    return capsys.readouterr().out


def test_one_that_holds(
    key: Ed25519PrivateKey, tmp_path: Path, capsys: pytest.CaptureFixture[str]
) -> None:
    assert "signed, passed, and in time" in told(report(), key, tmp_path, capsys)


@pytest.mark.parametrize("outcome, word", [(PASSED, "passed"), (FAILED, "failed")])
def test_what_is_signed(outcome: str, word: str, key: Ed25519PrivateKey, tmp_path: Path) -> None:
    """What a gateway asks of a report: whose it is, as what, what came of it, until when, by which formats; and its sum."""
    made = report(outcome)
    made.write(tmp_path, key)
    data = (tmp_path / "certified-DLR1.json").read_bytes()
    signature = (tmp_path / "certified-DLR1.signature").read_text()
    line, signed = signature.removesuffix("\n").rsplit(" ", 1)
    assert line.split(" ") == [
        *("mireseason-report", "1", "DLR1", "dealer", word),
        (date.fromisoformat(made.date) + timedelta(days=10)).strftime("%Y%m%d"),
        made.versions["formats"],
        hashlib.sha256(data).hexdigest(),
    ]
    key.public_key().verify(bytes.fromhex(signed), line.encode())


@pytest.mark.parametrize(
    "made, fault",
    [
        (partial(report, outcome=FAILED), "not every case has passed"),
        (partial(report, is_whole=False), "not every case has passed"),
        (partial(report, days=-1), "it held until"),
    ],
)
def test_one_that_does_not_hold(
    made: Callable[[], Report],
    fault: str,
    key: Ed25519PrivateKey,
    tmp_path: Path,
    capsys: pytest.CaptureFixture[str],
) -> None:
    assert fault in told(made(), key, tmp_path, capsys)


def test_one_that_was_changed(
    key: Ed25519PrivateKey, tmp_path: Path, capsys: pytest.CaptureFixture[str]
) -> None:
    report(outcome=FAILED).write(tmp_path, key)
    path = tmp_path / "certified-DLR1.json"
    path.write_text(path.read_text().replace('"passed": false', '"passed": true'))
    assert verified(path, public_file(key, tmp_path)) == 1
    assert "not signed with this key" in capsys.readouterr().out


def test_one_of_another_host(
    key: Ed25519PrivateKey, tmp_path: Path, capsys: pytest.CaptureFixture[str]
) -> None:
    """It is told, as is a signature that is none."""
    report().write(tmp_path, key)
    path = tmp_path / "certified-DLR1.json"
    other = public_file(Ed25519PrivateKey.generate(), tmp_path)
    assert verified(path, other) == 1
    assert capsys.readouterr().out == "%s: it is not signed with this key\n" % path
    signature = path.with_suffix(".signature")
    line = signature.read_text()
    for text in (line[:-3], line[:-2] + "x\n", "", line.rpartition(" ")[2]):
        signature.write_text(text)
        assert verified(path, public_file(key, tmp_path)) == 1
        assert capsys.readouterr().out == "%s: it is not signed with this key\n" % path
    signature.write_text(line)
    assert verified(path, public_file(key, tmp_path)) == 0


def test_formats_that_have_changed(
    key: Ed25519PrivateKey, tmp_path: Path, capsys: pytest.CaptureFixture[str]
) -> None:
    values = {**report().versions, "formats": "0" * 64}
    other = replace(report(), versions=values)
    assert "formats have changed" in told(other, key, tmp_path, capsys)


def test_a_developers_own(tmp_path: Path, capsys: pytest.CaptureFixture[str]) -> None:
    (tmp_path / "certified-DLR1.signature").write_text("of a run before")
    report().write(tmp_path, None)
    assert not (tmp_path / "certified-DLR1.signature").exists()
    assert verified(tmp_path / "certified-DLR1.json", None) == 1
    assert "nothing says who made it" in capsys.readouterr().out
    page = (tmp_path / "certified-DLR1.html").read_text()
    assert "nobody has signed it" in page and "Logs on &lt;b&gt;&amp;" in page
    assert "<i>" not in page and "<b>" not in page


@pytest.mark.parametrize("text", ["", "{}", "[]", '{"form": 1}', "\0" * 100, '{"form": 2}'])
def test_what_is_no_report(
    text: str, key: Ed25519PrivateKey, tmp_path: Path, capsys: pytest.CaptureFixture[str]
) -> None:
    path = tmp_path / "certified-DLR1.json"
    path.write_text(text)
    assert verified(path, public_file(key, tmp_path)) == 1
    assert str(path) in capsys.readouterr().out


def test_a_report_that_is_too_long(
    key: Ed25519PrivateKey, tmp_path: Path, capsys: pytest.CaptureFixture[str]
) -> None:
    path = tmp_path / "certified-DLR1.json"
    path.touch()
    os.truncate(path, (64 << 20) + 1)
    assert verified(path, public_file(key, tmp_path)) == 1
    assert "has more than 67108864 bytes" in capsys.readouterr().out


@pytest.mark.parametrize("is_private", [True, False])
def test_a_key_that_is_none(is_private: bool, key: Ed25519PrivateKey, tmp_path: Path) -> None:
    """One of Ed25519 alone, and nothing that is larger than a key."""
    file, kind = tmp_path / "key.pem", "private" if is_private else "public"
    read = read_key if is_private else read_public_key

    def put(made: Ed25519PrivateKey | EllipticCurvePrivateKey) -> None:
        if is_private:
            text = made.private_bytes(Encoding.PEM, PrivateFormat.PKCS8, NoEncryption())
        else:
            text = made.public_key().public_bytes(Encoding.PEM, PublicFormat.SubjectPublicKeyInfo)
        file.write_bytes(text)

    put(key)
    assert read(file)
    put(generate_private_key(SECP256R1()))
    with pytest.raises(NoVenue, match="key.pem is no %s key of Ed25519$" % kind):
        read(file)
    for text in ("", "x" * (1 << 16)):
        file.write_text(text)
        with pytest.raises(NoVenue, match="key.pem is no %s key$" % kind):
            read(file)
    file.write_text("x" * ((1 << 16) + 1))
    with pytest.raises(NoVenue, match="key.pem has more than 65536 bytes"):
        read(file)


def test_the_command_lists_its_cases() -> None:
    for role, case in (("dealer", "hit-in-the-race"), ("investor", "hit-one-of-three")):
        run = subprocess.run([*COMMAND, "--list", "--role", role], capture_output=True, text=True)
        assert run.returncode == 0 and case in run.stdout and "lost-store" in run.stdout


def test_the_command_runs_the_cases_that_are_named(
    gateway_program: Path, venue: tuple[str, ...], tmp_path: Path, key: Ed25519PrivateKey
) -> None:
    """Without a desk: the Logon fails, and the report says so, signed."""
    pem = tmp_path / "host.pem"
    pem.write_bytes(key.private_bytes(Encoding.PEM, PrivateFormat.PKCS8, NoEncryption()))
    words = [
        "DLR1",
        "--only",
        "won",
        "--patience",
        "0.5",
        "--out",
        str(tmp_path),
        "--key",
        str(pem),
    ]
    words += ["--gateway", str(gateway_program.parent), "--venue", *venue]
    run = subprocess.run(
        [*COMMAND, *words], capture_output=True, text=True, stdin=subprocess.DEVNULL, timeout=120
    )
    assert run.returncode == 1, run.stderr
    assert "0 passed, 1 failed, 3 could not be tried" in run.stdout
    values = json.loads((tmp_path / "certified-DLR1.json").read_text())
    assert [one["name"] for one in values["outcomes"]][0] == "logon"
    assert not values["passed"] and not values["is_whole"]
    assert verified(tmp_path / "certified-DLR1.json", public_file(key, tmp_path)) == 1


def test_a_case_that_is_none() -> None:
    run = subprocess.run([*COMMAND, "DLR1", "--only", "wins"], capture_output=True, text=True)
    assert run.returncode == 2 and "has no case wins" in run.stderr


def processes_of(folder: Path) -> list[str]:
    """Those that were started with a file of this folder."""
    found = []
    for file in Path("/proc").glob("[0-9]*/cmdline"):
        try:
            words = file.read_bytes().decode(errors="replace")
        except OSError:
            continue  # it has ended
        if "%s/mireseason-certify-" % folder in words:
            found.append(words)
    return found


@pytest.mark.parametrize("number", [signal.SIGTERM, signal.SIGHUP])
def test_a_signal_leaves_nothing_behind(
    gateway_program: Path, venue: tuple[str, ...], place: Path, number: signal.Signals
) -> None:
    """Neither the gateway, nor its folder."""
    words = ["DLR1", "--out", str(place), "--gateway", str(gateway_program.parent)]
    with subprocess.Popen(
        [*COMMAND, *words, "--venue", *venue],
        env={**os.environ, "TMPDIR": str(place)},
        stdin=subprocess.DEVNULL,
        stdout=subprocess.PIPE,
        text=True,
    ) as process:
        assert process.stdout
        assert any("Start your desk" in line for line in process.stdout)
        assert processes_of(place)
        process.send_signal(number)
        assert process.wait(120) == 128 + number
    assert processes_of(place) == []
    assert list(place.glob("mireseason-certify-*")) == []
