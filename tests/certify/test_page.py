"""The page of a run: it serves this machine's developer alone, and takes an answer once it is asked for."""

import http.client
import json
import subprocess
import sys
from collections.abc import Iterator
from contextlib import closing
from pathlib import Path

import pytest
from mireseason_certify.page import MOST_BODY, Page
from mireseason_certify.ports import HOST, Port
from mireseason_certify.telling import Line, Telling

from tests.gateway.wait import LONG, until
from tests.harness.options import ROOT

FORM = "application/x-www-form-urlencoded"
SETTINGS = {"SenderCompID (49)": "DLR1"}
MARKET = "version = 2\n"


@pytest.fixture
def telling() -> Telling:
    """Of a venue that has started."""
    made = Telling(heading="DLR1 <script>", quiet=True)
    lines = [Line("won", "Books a trade", "failed", "the desk's position is <b>0</b>")]
    made.begin(lines, SETTINGS, MARKET)
    return made


@pytest.fixture
def page(telling: Telling) -> Iterator[Page]:
    made = Page(0, telling)
    yield made
    made.close()


def asked(
    page: Page, method: str, path: str, body: str = "", **headers: str
) -> tuple[int, dict[str, str], str]:
    """The status, the headers and the text of an answer."""
    return asked_at(page.port, method, path, body, **headers)


def asked_at(
    port: int, method: str, path: str, body: str = "", **headers: str
) -> tuple[int, dict[str, str], str]:
    connection = http.client.HTTPConnection(HOST, port, timeout=LONG)
    try:
        connection.request(method, path, body, {"Content-Type": FORM, **headers})
        answer = connection.getresponse()
        return answer.status, dict(answer.getheaders()), answer.read().decode()
    finally:
        connection.close()


def test_what_it_shows(page: Page, telling: Telling) -> None:
    telling.say("won", "Enter <your> position.", {"do": "position"}, asks=True)
    status, headers, text = asked(page, "GET", "/")
    assert status == 200 and "Enter &lt;your&gt; position." in text
    assert "<script>" not in text and "<b>0</b>" not in text
    assert "default-src 'none'" in headers["Content-Security-Policy"]
    # Else nobody could tell a page that was cut off.
    assert headers["Content-Length"] == "%d" % len(text.encode())
    now = json.loads(asked(page, "GET", "/now.json")[2])
    assert now["task"]["act"] == {"do": "position"} and now["task"]["number"] == 1
    assert now["cases"][0]["outcome"] == "failed"


@pytest.mark.parametrize("path", ["/now.json", "/market.toml"])
def test_a_venue_that_is_starting(path: str) -> None:
    """Nothing is there that a program could take for settings, nor for what the operator hands out."""
    telling = Telling(heading="DLR1", quiet=True)
    with closing(Page(0, telling)) as page:
        status, headers, text = asked(page, "GET", path)
        assert (status, headers["Retry-After"]) == (503, "1")
        assert set(json.loads(text)) == {"starting"}
        assert asked(page, "GET", "/")[0] == 200
        telling.begin([], SETTINGS, MARKET)
        assert asked(page, "GET", path)[0] == 200
        assert json.loads(asked(page, "GET", "/now.json")[2])["settings"] == SETTINGS
        assert asked(page, "GET", "/market.toml")[2] == MARKET


def test_what_is_asked_while_the_venue_starts(
    gateway_program: Path, venue: tuple[str, ...], tmp_path: Path
) -> None:
    """Of the command itself, from its first breath on: never settings that are not all there."""
    command = [sys.executable, str(ROOT / "certify" / "mireseason-certify"), "DLR1"]
    with closing(Port()) as port:
        words = ["--page", str(port.number), "--out", str(tmp_path), "--only", "logon"]
        words += ["--gateway", str(gateway_program.parent), "--venue", *venue]
        with subprocess.Popen(
            [*command, *words], stdin=subprocess.DEVNULL, stdout=subprocess.DEVNULL
        ) as process:
            try:
                found = answers_until_settings(port.number)
            finally:
                process.terminate()
    assert set(found[:-1]) <= {(503, ("starting",))}
    status, keys = found[-1]
    assert status == 200 and {"SenderCompID (49)", "Password (554)", "SocketConnectPort"} <= {*keys}


def answers_until_settings(port: int) -> list[tuple[int, tuple[str, ...]]]:
    """Of `/now.json`: each status with the keys of its settings, or of what it has instead."""
    found: list[tuple[int, tuple[str, ...]]] = []

    def is_there() -> bool:
        try:
            status, _, text = asked_at(port, "GET", "/now.json")
        except OSError:
            return False  # it has no page yet
        said = json.loads(text)
        found.append((status, tuple(said.get("settings", said))))
        return status == 200

    until("settings are there", LONG, is_there)
    return found


def test_an_answer(page: Page, telling: Telling) -> None:
    telling.say("won", "Enter your position.", {"do": "position"}, asks=True)
    status, headers, _ = asked(page, "POST", "/answer", "number=1&text=+1500000")
    assert (status, headers["Location"]) == (303, "/")
    assert telling.answer(0) == "1500000"


@pytest.mark.parametrize(
    "body, headers, status",
    [
        ("number=2&text=1", {}, 409),
        ("number=&text=1", {}, 409),
        ("number=%C2%B9&text=1", {}, 409),
        ("number=1&text=1", {"Content-Length": "\u00b9"}, 413),
        ("", {}, 409),
        ("number=1&text=" + "1" * MOST_BODY, {}, 413),
        ("number=1&text=1", {"Origin": "http://elsewhere.example"}, 403),
        ("number=1&text=1", {"Host": "elsewhere.example"}, 403),
    ],
)
def test_what_is_no_answer(
    page: Page, telling: Telling, body: str, headers: dict[str, str], status: int
) -> None:
    telling.say("won", "Enter your position.", {"do": "position"}, asks=True)
    assert asked(page, "POST", "/answer", body, **headers)[0] == status
    assert telling.answer(0) is None


def test_a_desk_that_refuses_by_itself(page: Page, telling: Telling) -> None:
    telling.say("late", "Quote, though it has expired.", {"do": "quote"}, may_refuse=True)
    assert asked(page, "POST", "/answer", "number=1&text=no")[0] == 409
    assert asked(page, "POST", "/answer", "number=1&text=refused")[0] == 303
    assert telling.has_refused()


def test_an_answer_that_nobody_asked_for(page: Page, telling: Telling) -> None:
    telling.say("won", "Do nothing.", {"do": "nothing"})
    assert asked(page, "POST", "/answer", "number=1&text=1")[0] == 409


def test_who_reads_it_by_another_name(page: Page) -> None:
    """A name of somebody's that leads to this machine is not asked for here."""
    assert asked(page, "GET", "/now.json", Host="rebound.example:%d" % page.port)[0] == 403
    assert asked(page, "GET", "/elsewhere")[0] == 404
