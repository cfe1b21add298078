#!/usr/bin/python3
"""Has two firms trade at the installed venue, by the commands of OPERATING.md; then the audit finds the day whole.

It speaks FIX by itself, so that it needs nothing beside the packages. Neither firm may have credentials before.
"""

import json
import re
import socket
import subprocess
from dataclasses import dataclass, field
from datetime import datetime, timedelta, timezone
from pathlib import Path

PORT = 9878
BOND = "BONDA0000001"
LIMIT = 120  # seconds in which an answer has to come
DAYS = ("Mon", "Tue", "Wed", "Thu", "Fri", "Sat", "Sun")
MOMENT = "%Y%m%d-%H:%M:%S.%f"
Message = dict[int, str]


def run(*words: str) -> str:
    done = subprocess.run(words, capture_output=True, text=True, check=False)
    assert done.returncode == 0, "%s: %s%s" % (" ".join(words), done.stdout, done.stderr)
    return done.stdout


def moment(seconds: float = 0) -> str:
    return (datetime.now(timezone.utc) + timedelta(seconds=seconds)).strftime(MOMENT)[:-3]


@dataclass
class Firm:
    """One firm's session."""

    name: str
    trader: str
    number: int = 0
    waiting: bytes = b""
    line: socket.socket = field(init=False)

    def log_on(self) -> None:
        told = run("mireseason-credentials", self.name)
        password = re.search(r"(?m)^Password=(.+)$", told)
        assert password, told
        self.line = socket.create_connection(("127.0.0.1", PORT), LIMIT)
        login = [(98, "0"), (108, "30"), (553, self.name), (554, password[1]), (1137, "9")]
        run("mireseason-admin", "reload")
        self.send("A", login)
        assert self.read()[35] == "A", "%s is not let in" % self.name

    def send(self, kind: str, fields: list[tuple[int, str]]) -> None:
        self.number += 1
        head = [(35, kind), (49, self.name), (56, "VENUE"), (34, str(self.number)), (52, moment())]
        trader = [] if kind == "A" else [(50, self.trader)]
        body = "".join("%d=%s\x01" % item for item in [*head, *trader, *fields])
        text = ("8=FIXT.1.1\x019=%d\x01" % len(body) + body).encode()
        self.line.sendall(text + b"10=%03d\x01" % (sum(text) % 256))

    def read(self) -> Message:
        """The next message; of a field that comes again the last."""
        while not (end := re.search(rb"\x0110=[0-9]{3}\x01", self.waiting)):
            data = self.line.recv(4096)
            assert data, "%s: the venue ended the connection" % self.name
            self.waiting += data
        text, self.waiting = self.waiting[: end.end()], self.waiting[end.end() :]
        parts = (part.partition("=") for part in text.decode().rstrip("\x01").split("\x01"))
        return {int(tag): value for tag, _, value in parts}

    def wait(self, kind: str, **wanted: str) -> Message:
        """The next message of a type whose fields, as `f297`, have these values."""
        while True:
            message = self.read()
            fits = all(message.get(int(tag[1:])) == value for tag, value in wanted.items())
            if message[35] == kind and fits:
                return message


def begin() -> None:
    """The venue opens, and trades all day long."""
    file = Path("/etc/mireseason/gateway.toml")
    hours = {"opens": '"00:00"', "ends": '"24:00"', "weekdays": json.dumps(DAYS)}
    text = file.read_text()
    for key, value in hours.items():
        text = re.sub(r"(?m)^%s = (\"[^\"]*\"|\[[^]]*\])" % key, "%s = %s" % (key, value), text)
    file.write_text(text)
    run("systemctl", "start", "mireseason-gateway")


def trade(dealer: Firm, investor: Firm) -> None:
    bond = [(48, BOND), (22, "4")]
    asked = [(131, "A1"), (146, "1"), (55, "[N/A]"), *bond, (54, "1"), (38, "2000000")]
    asked += [(126, moment(600)), (453, "1"), (448, dealer.name), (447, "D"), (452, "35")]
    investor.send("R", asked)
    request = dealer.wait("R")[131]
    dealer.send("S", [(117, "q1"), (131, request), *bond, (133, "99.5")])
    dealer.wait("AI", f117="q1", f297="0")
    quote = investor.wait("S", f131="A1")[117]
    investor.send("AJ", [(693, "h1"), (694, "1"), (117, quote)])
    investor.wait("AI", f693="h1", f297="0")
    dealer.wait("AJ", f131=request)


def main() -> None:
    begin()
    dealer, investor = Firm("DLR1", "T1"), Firm("INV1", "T8")
    for firm in (dealer, investor):
        firm.log_on()
    trade(dealer, investor)
    run("systemctl", "stop", "mireseason-gateway")
    (log,) = Path("/var/lib/mireseason").glob("day-*.db")
    key = "/etc/mireseason/keys/gateway.pub"
    print(run("mireseason-audit", "check", "--gateway-key", key, str(log)))


if __name__ == "__main__":
    main()
