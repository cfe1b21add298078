"""Starts programs again if they end, as systemd does with Restart=always."""

import os
import signal
import subprocess
import threading
import time
from collections.abc import Callable
from dataclasses import dataclass, field
from pathlib import Path

STEP = 0.05
RESTART_SECONDS = 0.5


@dataclass
class Service:
    name: str
    words: list[str]
    log: Path
    environment: dict[str, str] = field(default_factory=dict)
    wanted: bool = False
    starts: int = 0
    _process: subprocess.Popen[bytes] | None = None
    _ended: float = 0.0

    def start(self) -> None:
        self.wanted = True
        self._spawn()

    def _spawn(self) -> None:
        self.starts += 1
        with self.log.open("ab") as log:
            self._process = subprocess.Popen(
                self.words,
                stdin=subprocess.DEVNULL,
                stdout=log,
                stderr=subprocess.STDOUT,
                env={**os.environ, **self.environment},
                start_new_session=True,
            )

    def look(self) -> None:
        """Starts it again a little after its end."""
        if not self.wanted or self.is_running():
            self._ended = 0.0
            return
        now = time.monotonic()
        self._ended = self._ended or now
        if now - self._ended >= RESTART_SECONDS:
            self._ended = 0.0
            self._spawn()

    def _running(self) -> subprocess.Popen[bytes] | None:
        process = self._process
        return process if process is not None and process.poll() is None else None

    def is_running(self) -> bool:
        return self._running() is not None

    def kill(self) -> None:
        """It is started again."""
        process = self._running()
        if process is not None:
            process.send_signal(signal.SIGKILL)

    def wait_end(self) -> None:
        """Waits for a process that somebody has ended."""
        if self._process is not None:
            self._process.wait()

    def stop(self, limit: float = 10) -> None:
        """It is not started again. SIGTERM, and SIGKILL where that does not end it."""
        self.wanted = False
        process = self._running()
        if process is None:
            return
        process.terminate()
        try:
            process.wait(limit)
        except subprocess.TimeoutExpired:
            process.kill()
            process.wait()


class Supervisor:
    """Looks after services on a thread of its own, from the first one on."""

    def __init__(self) -> None:
        self.services: dict[str, Service] = {}
        self._lock = threading.Lock()
        self._ending = threading.Event()
        self._thread: threading.Thread | None = None

    def add(self, service: Service) -> None:
        with self._lock:
            self.services[service.name] = service
            service.start()
            if self._thread is None:
                self._thread = threading.Thread(target=self._run, daemon=True)
                self._thread.start()

    def locked(self, work: Callable[[], None]) -> None:
        """Work during which nothing is started."""
        with self._lock:
            work()

    def _run(self) -> None:
        while not self._ending.wait(STEP):
            with self._lock:
                for service in self.services.values():
                    service.look()

    def end(self) -> None:
        """No service is started any more."""
        self._ending.set()
        if self._thread is not None:
            self._thread.join()
        for service in self.services.values():
            service.wanted = False
