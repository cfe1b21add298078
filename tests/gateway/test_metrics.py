"""Each metric counts what its line of help says. A metric that nothing moves is a fault, and so is one that no test knows."""

import socket
from contextlib import ExitStack
from http.client import HTTPConnection

from tests.gateway.stage import DEALER, Stage, check
from tests.gateway.wait import LONG, until
from tests.gateway.wire import Wire

COUNTERS = ("commits", "entries", "sent", "delivered", "connections", "logons", "venue_starts")
GAUGES = ("connections", "sessions", "speaks", "next_configuration_faulty")
HISTOGRAMS = ("seal", "commit", "logged", "answered", "handed_over")
BY_REASON = ("refused", "dropped")
IN_OTHER_FILES = {  # tests/limits: test_clock.py, test_renewal.py; tests/operating: test_service.py, test_monitoring.py
    *(
        "mireseason_firm_%s_total" % name
        for name in ("messages", "requests", "quotes", "hits", "refusals")
    ),
    "mireseason_firm_logged_on",
    "mireseason_firm_waiting_bytes",
    "mireseason_ready",
    "mireseason_healthy",
    "mireseason_day_opens_timestamp_seconds",
    "mireseason_day_ends_timestamp_seconds",
    "mireseason_certificate_expiry_timestamp_seconds",
    "mireseason_revoked_expiry_timestamp_seconds",
    "mireseason_venue_backlog_entries",
    "mireseason_log_backlog_messages",
    "mireseason_build_info",
    "mireseason_days_without_copy",
    "mireseason_firm_suspended",
    "mireseason_halted",
    "mireseason_halted_bonds",
    "mireseason_log_disk_free_bytes",
    "mireseason_log_disk_reserve_bytes",
    "mireseason_log_disk_reserve_reached",
    "mireseason_venue_info",
    "mireseason_clock_doubtful",
    "mireseason_clock_steps_total",
    "mireseason_clock_synchronised",
    "mireseason_clock_greatest_error_seconds",
    "mireseason_wrong_passwords_total",
}
NAMES = {
    *IN_OTHER_FILES,
    *("mireseason_%s_total" % name for name in (*COUNTERS, *BY_REASON)),
    *("mireseason_" + name for name in GAUGES),
    *(
        "mireseason_%s_seconds_%s" % (name, part)
        for name in HISTOGRAMS
        for part in ("count", "sum", "bucket")
    ),
}


def metric(stage: Stage, name: str) -> float:
    return stage.counters().get("mireseason_" + name, 0)


def sent_in_log(stage: Stage) -> int:
    """How many messages of the venue the log has now: the last ones may still come."""
    return sum(len(each) for each in stage.door.ledger().sent.values())


def in_log(stage: Stage) -> int:
    """How many entries the log has now behind entry 0: messages, and what the gateway notes of its clock."""
    return len(stage.door.ledger().entries) - 1


def counts(stage: Stage, name: str, wanted: float) -> None:
    """A metric comes to this value, and to no other."""
    until(
        "%s is %g, and not %g" % (name, wanted, metric(stage, name)),
        LONG,
        lambda: metric(stage, name) == wanted,
    )


def test_what_a_day_counts(stage: Stage) -> None:
    """Against the log: entries, the venue's messages, messages that were handed over, commits, and times of each message."""
    stage.open(*stage.firms)
    stage.auction()
    stage.ping(stage.dealer)
    messages = sum(entry.number is not None for entry in stage.door.ledger().entries)
    check(messages == 5 and sent_in_log(stage) > 5, "the day is another: %d messages" % messages)
    for name in ("entries_total", "logged_seconds_count", "answered_seconds_count"):
        until(
            "%s is %g, and %d are in the log" % (name, metric(stage, name), in_log(stage)),
            LONG,
            lambda: metric(stage, name) == in_log(stage),
        )
    for name in ("delivered_total", "sent_total"):
        until(
            "%s is %g, and %d are in the log" % (name, metric(stage, name), sent_in_log(stage)),
            LONG,
            lambda: metric(stage, name) == sent_in_log(stage),
        )
    commits = metric(stage, "commits_total")
    check(
        commits >= messages, "%g commits of %d messages that came one by one" % (commits, messages)
    )
    until("each commit is timed", LONG, lambda: each_commit_is_timed(stage))
    for name in HISTOGRAMS:
        took = metric(stage, name + "_seconds_sum")
        check(0 < took < LONG, "%s: %g s in all" % (name, took))


def each_commit_is_timed(stage: Stage) -> bool:
    counters = stage.counters()  # of one moment: a session's own messages are committed too
    return counters["mireseason_commit_seconds_count"] == counters["mireseason_commits_total"]


def test_what_connections_count(stage: Stage) -> None:
    """Connections and sessions that stand, and those that were."""
    stage.open()
    counts(stage, "speaks", 1)
    looks = 1  # whether it listens
    counts(stage, "connections_total", looks)
    counts(stage, "connections", 0)
    stage.log_on(*stage.firms)
    counts(stage, "connections_total", looks + 3)
    counts(stage, "connections", 3)
    counts(stage, "logons_total", 3)
    counts(stage, "sessions", 3)
    stage.log_off(stage.other)
    counts(stage, "sessions", 2)
    counts(stage, "connections", 2)
    stage.log_on(stage.other)
    counts(stage, "logons_total", 4)
    counts(stage, "connections_total", looks + 4)
    counts(stage, "sessions", 3)


def test_what_is_refused_and_dropped(stage: Stage) -> None:
    """By its reason: a wrong password, an unknown name, a message ahead of a gap."""
    stage.open(stage.other)
    with Wire(stage.door.port) as wire:
        wire.logon(b"NOBODY", b"secret")
        check(wire.closed_within(LONG), "it stays")
    with Wire(stage.door.port) as wire:
        wire.logon(DEALER.name.encode(), b"wrong")
        check(wire.closed_within(LONG), "it stays")
    counts(stage, 'refused_total{reason="unknown name"}', 1)
    counts(stage, 'refused_total{reason="wrong password"}', 1)
    with Wire(stage.door.port) as wire:
        wire.logon(DEALER.name.encode(), DEALER.password.encode())
        check(wire.read_kind(b"A") is not None, "it is not let in")
        wire.number += 1
        wire.raw(wire.message(b"0", DEALER.name.encode(), []))
        counts(stage, 'dropped_total{reason="gap"}', 1)


def test_starts_of_the_venue(stage: Stage) -> None:
    stage.open(stage.dealer)
    counts(stage, "venue_starts_total", 1)
    check(stage.door.kill_venue(), "there is no venue")
    counts(stage, "venue_starts_total", 2)
    stage.ping(stage.dealer)


def test_a_faulty_configuration_of_the_next_day(stage: Stage) -> None:
    """It is tried as soon as it changes, where the venue has a next day: its configuration has no date of its own."""
    stage.door.write()
    file = stage.folder / "venue.toml"
    lines = file.read_text().splitlines(keepends=True)
    file.write_text("".join(line for line in lines if not line.startswith("date")))
    stage.door.write()
    stage.open()
    counts(stage, "next_configuration_faulty", 0)
    file.write_text(file.read_text().replace("exposure", "exposre", 1))
    counts(stage, "next_configuration_faulty", 1)


def test_no_metric_is_unknown(stage: Stage) -> None:
    """A new metric needs a test here that moves it."""
    stage.open(stage.dealer)
    with Wire(stage.door.port) as wire:
        wire.logon(b"NOBODY", b"secret")
        check(wire.closed_within(LONG), "it stays")
    until(
        "a refusal is counted",
        LONG,
        lambda: any("refused_total" in name for name in stage.counters()),
    )
    none = {
        "mireseason_dropped_total",
        "mireseason_certificate_expiry_timestamp_seconds",
        "mireseason_revoked_expiry_timestamp_seconds",
    }
    # Some are told a second after the start.
    until("each but %s is told" % none, LONG, lambda: NAMES - told_names(stage) <= none)
    assert told_names(stage) - NAMES == set()
    # An alert for the first wrong password needs a zero before it.
    assert stage.counters()['mireseason_wrong_passwords_total{firm="INV1"}'] == 0


def told_names(stage: Stage) -> set[str]:
    return {name.split("{")[0] for name in stage.counters() if name.startswith("mireseason_")}


def test_slow_readers_blind_nobody(stage: Stage) -> None:
    """Forty connections take every place that there is, with half a request each, or with a whole one whose answer they do not read:
    each who comes after them is answered."""
    stage.open()
    whole = b"GET /metrics HTTP/1.1\r\nHost: 127.0.0.1:%d\r\n\r\n" % stage.door.metrics
    with ExitStack() as slow:
        for at in range(40):
            connection = socket.create_connection(("127.0.0.1", stage.door.metrics), timeout=LONG)
            slow.enter_context(connection)
            connection.sendall(whole if at % 2 else whole[:20])
        for _ in range(36):
            page = HTTPConnection("127.0.0.1", stage.door.metrics, timeout=LONG)
            page.request("GET", "/health")
            check(page.getresponse().status == 200, "/health is not answered")
            page.close()
