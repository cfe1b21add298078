"""What the gateway counts of each firm, the alerts, and the page."""

import json
import re
import shutil
import signal
import socket
import ssl
import subprocess
import time
import urllib.request
from collections.abc import Iterator
from contextlib import contextmanager
from datetime import datetime, timezone
from pathlib import Path

import pytest
from mireseason_keeper.keeper import Counts
from mireseason_keeper.metrics import text_of

from tests.gateway.door import Port
from tests.gateway.market import BOND
from tests.gateway.stage import DEALER, INVESTOR, OTHER, Stage
from tests.gateway.test_logon import certificate, with_tls
from tests.gateway.test_messages import cancel, on_a_wire
from tests.gateway.wait import LONG, until
from tests.gateway.wire import Fields
from tests.harness.browser import Browser
from tests.harness.options import ROOT
from tests.operating.test_service import asked, hanging_venue

RULES = ROOT / "install" / "prometheus" / "mireseason.rules.yml"
CASES = ROOT / "install" / "prometheus" / "mireseason.rules.test.yml"
TAKEN, TIMES = 1000, 100  # answers that are asked for again so often: more than sockets hold


def counts(stage: Stage, name: str, wanted: float) -> None:
    """A metric comes to this value."""
    full = "mireseason_" + name
    until("%s is %g" % (full, wanted), LONG, lambda: stage.counters().get(full) == wanted)


# ------------------------------------------------------------ what is counted


def test_each_firm_is_counted(stage: Stage) -> None:
    """An auction, a quote that is refused and a request that is: each at its firm, and at no other."""
    stage.open(*stage.firms)
    stage.auction()
    name = stage.name("q")
    stage.say(
        stage.other, "S", [(117, name), (131, b"R99"), (48, BOND), (22, b"4"), (133, b"99.5")]
    )
    refused = stage.answer(
        stage.other, "what became of a quote", lambda message: message.value(117) == name
    )
    assert refused.value(297) == b"5", refused.raw
    for firm, expected in (
        (DEALER, {"messages": 1, "requests": 0, "quotes": 1, "hits": 0, "refusals": 0}),
        (OTHER, {"messages": 2, "requests": 0, "quotes": 2, "hits": 0, "refusals": 1}),
        (INVESTOR, {"messages": 2, "requests": 1, "quotes": 0, "hits": 1, "refusals": 0}),
    ):
        for what, number in expected.items():
            counts(stage, 'firm_%s_total{firm="%s"}' % (what, firm.name), number)
        counts(stage, 'firm_logged_on{firm="%s"}' % firm.name, 1)
        counts(stage, 'firm_waiting_bytes{firm="%s"}' % firm.name, 0)
    stage.log_off(stage.other)
    counts(stage, 'firm_logged_on{firm="DLR2"}', 0)
    counts(stage, "venue_backlog_entries", 0)
    counts(stage, "log_backlog_messages", 0)


def test_what_the_venue_has_not_answered(stage: Stage) -> None:
    stage.limits["venue_seconds"] = 600
    stage.open(stage.dealer)
    counts(stage, "venue_backlog_entries", 0)
    with hanging_venue(stage):
        counts(stage, "venue_backlog_entries", 1)
    counts(stage, "venue_backlog_entries", 0)


def wait_for(stage: Stage) -> set[str]:
    """The firms that have not taken all of what is written to them."""
    start, counters = "mireseason_firm_waiting_bytes{", stage.counters()
    return {
        name.split('"')[1]
        for name, count in counters.items()
        if name.startswith(start) and count > 0
    }


def test_bytes_that_a_firm_does_not_take(stage: Stage) -> None:
    """They are counted at this firm and at no other, as long as its connection stands."""
    stage.limits["send_seconds"] = 600
    stage.open(stage.other, stage.investor)
    with on_a_wire(stage, heartbeat=b"300") as wire:
        last = b"c%d" % TAKEN
        wire.raw(
            b"".join(
                wire.message(b"Z", b"DLR1", cancel(b"c%d" % each)) for each in range(1, TAKEN + 1)
            )
        )
        assert wire.read_until(
            lambda message: message.value(117) == last
        ), "the last is not answered"
        wire.socket.setsockopt(socket.SOL_SOCKET, socket.SO_RCVBUF, 2048)
        again: Fields = [(7, b"1"), (16, b"0")]

        def waits() -> bool:
            """Requests that come during a resend are one with it: so the firm goes on asking until sockets hold no more."""
            wire.raw(b"".join(wire.message(b"2", b"DLR1", again) for _ in range(TIMES)))
            return wait_for(stage) == {"DLR1"}

        until("bytes wait for it alone", LONG, waits)
    counts(stage, 'firm_waiting_bytes{firm="DLR1"}', 0)


def test_versions(stage: Stage) -> None:
    """The gateway's, as --version says it, and the venue's, as its program says it."""
    stage.open()
    told = subprocess.run(
        [stage.door.programs.gateway, "--version"], capture_output=True, text=True, check=True
    ).stdout.strip()
    version = (ROOT / "VERSION").read_text().strip()
    # A gateway whose sessions are not the proved ones says so behind its commit.
    named = r"mireseason-gateway %s \((unknown|[0-9a-f]{12,40}\+?)\)(, sessions not proved: \w+)?"
    assert re.fullmatch(named % re.escape(version), told), told
    assert stage.counters()['mireseason_build_info{version="%s"}' % told] == 1
    assert any(name.startswith("mireseason_venue_info{version=") for name in stage.counters())


def end_of(file: Path) -> float:
    """When a certificate ends, as openssl says it."""
    words = ["openssl", "x509", "-in", str(file), "-noout", "-enddate"]
    told = (
        subprocess.run(words, capture_output=True, text=True, check=True)
        .stdout.strip()
        .partition("=")[2]
    )
    return ssl.cert_time_to_seconds(told)


def test_certificates_that_end(stage: Stage) -> None:
    """When each ends, and anew once it was renewed."""
    with_tls(stage)
    stage.door.write()
    stage.door.start()
    until("it takes connections", LONG, stage.door.is_open)
    for name in ("venue.pem", "authority.pem"):
        file = stage.folder / name
        counts(stage, 'certificate_expiry_timestamp_seconds{file="%s"}' % file, end_of(file))
    until(
        "a second has gone by",
        LONG,
        lambda: time.time() > end_of(stage.folder / "venue.pem") - 2 * 86400 + 2,
    )
    certificate(stage.folder, "venue", "localhost", "authority")
    stage.door.running.send_signal(signal.SIGHUP)
    counts(
        stage,
        'certificate_expiry_timestamp_seconds{file="%s"}' % (stage.folder / "venue.pem"),
        end_of(stage.folder / "venue.pem"),
    )


# ------------------------------------------------------------ the alerts


def test_each_alert_has_a_case() -> None:
    """promtool's own tests pass, and of each alert there is one in which it fires."""
    if not shutil.which("promtool"):
        pytest.skip("promtool is not installed (prometheus)")
    done = subprocess.run(
        ["promtool", "test", "rules", CASES.name],
        cwd=CASES.parent,
        capture_output=True,
        text=True,
        timeout=LONG,
        check=False,
    )
    assert done.returncode == 0, done.stdout + done.stderr
    alerts = re.findall(r"- alert: (\w+)", RULES.read_text())
    assert alerts
    fires = re.findall(
        r"- alertname: (\w+)\n\s+eval_time: \w+\n\s+exp_alerts:\n\s+- exp_labels", CASES.read_text()
    )
    assert sorted(set(alerts)) == sorted(set(fires))


def test_rules_know_the_metrics(stage: Stage) -> None:
    """Each metric that a rule names is one of the keeper's, or one that the gateway has, once it has looked at what waits."""
    stage.open(stage.dealer)
    keepers = set(re.findall(r"(?m)^mireseason_\w+", text_of(Counts(), datetime.now(timezone.utc))))
    of_tls = {
        "mireseason_certificate_expiry_timestamp_seconds",
        "mireseason_revoked_expiry_timestamp_seconds",
        "mireseason_wrong_passwords_total",
    }  # not here
    text = "".join(line for line in RULES.read_text().splitlines(True) if "action" not in line)
    named = set(re.findall(r"\bmireseason_\w+", text))
    assert len(named) > len(of_tls)

    def unknown() -> set[str]:
        return named - of_tls - keepers - {name.split("{")[0] for name in stage.counters()}

    until("the gateway has each metric that a rule names", LONG, lambda: not unknown())


@contextmanager
def prometheus(stage: Stage) -> Iterator[int]:
    """Debian's, which looks at the gateway each second, with the rules of this repository; its port."""
    port, folder = Port(), stage.folder
    (folder / "prometheus.yml").write_text(
        "global: {scrape_interval: 1s, evaluation_interval: 1s}\nrule_files: [%s]\n"
        % json.dumps(str(RULES))
        + 'scrape_configs: [{job_name: mireseason, static_configs: [{targets: ["127.0.0.1:%d"]}]}]\n'
        % stage.door.metrics
    )
    words = [
        "prometheus",
        "--config.file=prometheus.yml",
        "--storage.tsdb.path=prometheus",
        "--web.listen-address=127.0.0.1:%d" % port.number,
    ]
    with (folder / "prometheus.told").open("wb") as told:
        process = subprocess.Popen(words, cwd=folder, stdout=told, stderr=subprocess.STDOUT)
    try:
        yield port.number
    finally:
        process.terminate()
        process.wait()
        port.close()


def firing(port: int) -> set[str]:
    """The alerts that prometheus has firing now."""
    try:
        with urllib.request.urlopen(
            "http://127.0.0.1:%d/api/v1/alerts" % port, timeout=LONG
        ) as answer:
            alerts = json.load(answer)["data"]["alerts"]
    except OSError:
        return set()
    return {alert["labels"]["alertname"] for alert in alerts if alert["state"] == "firing"}


def test_an_alert_fires(stage: Stage) -> None:
    """A certificate that ends in two days, at a gateway with TLS; and the gateway that is killed behind it."""
    if not shutil.which("prometheus"):
        pytest.skip("prometheus is not installed")
    with_tls(stage)
    stage.door.write()
    stage.door.start()
    until("it takes connections", LONG, stage.door.is_open)
    with prometheus(stage) as port:
        until("the alert fires", LONG, lambda: "MireseasonCertificateEnds" in firing(port))
        assert "MireseasonGatewayDown" not in firing(port)
        stage.door.kill()
        until("the gateway is missed", LONG, lambda: "MireseasonGatewayDown" in firing(port))


# ------------------------------------------------------------ the page


def test_the_page(stage: Stage, browser: Browser, place: Path) -> None:
    """Day, firms, open requests, queues and last events, as text, at 400 and 1280 pixels, light and dark."""
    stage.open(*stage.firms)
    stage.auction()
    stage.ask()
    address = "http://127.0.0.1:%d/" % stage.door.metrics
    until(
        "the request is on the page", LONG, lambda: "Open requests: 1<" in asked(stage.door, "/")[1]
    )
    for width in (400, 1280):
        for scheme in ("light", "dark"):
            words = (
                ["--force-dark-mode", "--blink-settings=preferredColorScheme=0"]
                if scheme == "dark"
                else []
            )
            shown = browser.show(address, *words, width=width)
            assert not shown.complaints, shown.complaints
            text = re.sub(r"<[^>]*>", " ", shown.dom)
            for words_of in (
                "ready: ",
                "DLR1",
                "DLR2",
                "INV1",
                "Open requests: 1",
                "Queues",
                "Last events",
                "logged on firm=INV1",
            ):
                assert words_of in text, (words_of, width, scheme)
            browser.picture(address, place / ("page-%d-%s.png" % (width, scheme)), width=width)


def test_what_strangers_say_is_text_there(stage: Stage) -> None:
    """Whoever connects may have words put among the events: they make no element of the page."""
    from tests.gateway.wire import Wire

    stage.open()
    with Wire(stage.door.port) as wire:
        wire.logon(b"<script>alert(1)</script>", b"x")
        assert wire.closed_within(LONG)
    until("the stranger is told", LONG, lambda: "unknown name" in asked(stage.door, "/")[1])
    page = asked(stage.door, "/")[1]
    assert "<script>alert" not in page
    assert page.count("<script") == 1
