"""Serves the page that the developer has open while the cases run, to this machine alone."""

from __future__ import annotations

import json
import threading
from collections.abc import Mapping
from http.server import BaseHTTPRequestHandler, ThreadingHTTPServer
from pathlib import Path
from urllib.parse import parse_qs, urlsplit

import jinja2

from .frames import number_of
from .ports import HOST, Port
from .telling import Telling

TEMPLATES = Path(__file__).resolve().parent / "templates"
MOST_BODY = 4096  # bytes of an answer
SECONDS = 10.0  # that a request may take to come
OF_VENUE = ("/now.json", "/market.toml")  # there once the venue has started
STARTING = {"starting": "the venue is starting: ask again in a second"}
HEADERS = {
    "Content-Security-Policy": "default-src 'none'; style-src 'unsafe-inline'; form-action 'self'",
    "X-Content-Type-Options": "nosniff",
    "Referrer-Policy": "no-referrer",
    "Cache-Control": "no-store",
}
RETRIED = {**HEADERS, "Retry-After": "1"}


class Page:
    """A server of `/`, `/now.json` and `/market.toml`; `/answer` takes what is entered."""

    def __init__(self, port: int, telling: Telling) -> None:
        loader = jinja2.FileSystemLoader(TEMPLATES)
        pages = jinja2.Environment(loader=loader, autoescape=True, undefined=jinja2.StrictUndefined)
        template = pages.get_template("now.html")

        class Handler(Answers):
            shown = telling
            page = template

        self._port = Port(port)
        self._server = ThreadingHTTPServer((HOST, self._port.number), Handler)
        self._server.daemon_threads = True
        Handler.port = self.port
        threading.Thread(target=self._server.serve_forever, daemon=True).start()

    @property
    def port(self) -> int:
        return self._port.number

    def close(self) -> None:
        self._server.shutdown()
        self._server.server_close()
        self._port.close()


class Answers(BaseHTTPRequestHandler):
    """One request. A page of somebody else's, open in the same browser, can neither read nor answer."""

    shown: Telling
    page: jinja2.Template
    port: int
    timeout = SECONDS
    server_version = "mireseason-certify"
    sys_version = ""

    def do_GET(self) -> None:
        if not self._is_asked_here():
            return
        now = self.shown.now()
        if self.path == "/":
            self._give(200, "text/html", self.page.render(now=now))
        elif self.path in OF_VENUE and not now["settings"]:
            self._give(503, "application/json", json.dumps(STARTING), RETRIED)
        elif self.path == "/now.json":
            self._give(200, "application/json", json.dumps(now))
        elif self.path == "/market.toml":
            self._give(200, "text/plain", self.shown.market)
        else:
            self._give(404, "text/plain", "there is no such page\n")

    def do_POST(self) -> None:
        if not self._is_asked_here() or not self._is_own_origin():
            return
        length = number_of(self.headers.get("Content-Length", ""))
        if length is None or length > MOST_BODY:
            self._give(413, "text/plain", "the answer is too long\n")
            return
        values = parse_qs(self.rfile.read(length).decode("utf-8", "replace"))
        number = number_of(values.get("number", [""])[0])
        is_taken = (
            self.path == "/answer"
            and number is not None
            and self.shown.enter(number, values.get("text", [""])[0])
        )
        if is_taken:
            self.send_response(303)
            self.send_header("Location", "/")
            self.send_header("Content-Length", "0")
            self.end_headers()
        else:
            self._give(409, "text/plain", "nothing waits for this answer\n")

    def log_message(self, format: str, *args: object) -> None:
        """Says nothing: the terminal has the cases."""

    def _is_asked_here(self) -> bool:
        """Whether the request names this server: a name that leads here by DNS is another one's."""
        own = ("127.0.0.1:%d" % self.port, "localhost:%d" % self.port)
        if self.headers.get("Host", "") in own:
            return True
        self._give(403, "text/plain", "ask 127.0.0.1\n")
        return False

    def _is_own_origin(self) -> bool:
        origin = self.headers.get("Origin")
        if origin is None or urlsplit(origin).netloc == self.headers.get("Host"):
            return True
        self._give(403, "text/plain", "another page has no answer\n")
        return False

    def _give(
        self, status: int, kind: str, text: str, headers: Mapping[str, str] = HEADERS
    ) -> None:
        data = text.encode()
        self.send_response(status)
        self.send_header("Content-Type", kind + "; charset=utf-8")
        self.send_header("Content-Length", str(len(data)))
        for name, value in headers.items():
            self.send_header(name, value)
        self.end_headers()
        self.wfile.write(data)
