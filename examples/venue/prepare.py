"""Writes what the venue of examples/venue.sh needs for today into a folder: prepare.py FOLDER GATEWAY VENUE

VENUE is the command line of the venue's program. It keeps what is in the folder and can be kept, so that a
venue that was stopped goes on with its day.
"""

import itertools
import json
import os
import random
import re
import secrets
import shlex
import socket
import subprocess
import sys
import tomllib
from collections.abc import Iterable
from pathlib import Path
from typing import Any

HERE = Path(__file__).resolve().parent
ROOT = HERE.parent.parent

Row = dict[str, Any]

# The firms that have a desk: firm, login, password, the page's port if it is free.
DESKS = [("INV1", "ines", "investor-1", 8101), ("DLR3", "dora", "dealer-3", 8102)]
OPERATORS_PAGE = 8103  # its port if it is free
TRIES = 1000  # of a port
LONGEST_SOCKET = 107  # bytes of the name of a socket
SAMPLES = ["DLR1", "DLR2", "INV2"]  # those that trade by themselves


def toml(row: Row) -> Iterable[str]:
    """The lines of a table, whose values are texts, numbers and lists of texts."""
    return (f"{key} = {json.dumps(value)}" for key, value in row.items())


def write(path: Path, text: str) -> None:
    path.write_text(text)
    path.chmod(0o600)


def free_port(*usual: int) -> int:
    """This port of the loopback, or another one where it is taken: below those that the kernel gives to each connection,
    of which one may be somebody else's again when the gateway begins.
    """
    drawn = (random.SystemRandom().randrange(10_000, 32_768) for _ in range(TRIES))
    for port in itertools.chain(usual, drawn):
        with socket.socket() as probe:
            probe.setsockopt(socket.SOL_SOCKET, socket.SO_REUSEADDR, 1)
            try:
                probe.bind(("127.0.0.1", port))
            except OSError:
                continue
            return port
    raise SystemExit("there is no free port")


def ports() -> list[int]:
    """Of the gateway, of the page of each desk, and of the operator's page: those that PORTS names, or free ones."""
    usual = [desk[3] for desk in DESKS] + [OPERATORS_PAGE]
    named = [int(word) for word in os.environ.get("PORTS", "").split()]
    if len(named) not in (0, 1 + len(usual)):
        raise SystemExit(f"PORTS has {len(named)} ports, and {1 + len(usual)} are needed")
    return named or [free_port(), *map(free_port, usual)]


def role_of(venue: Row, firm: str) -> str:
    return "dealer" if any(row["name"] == firm for row in venue["dealer"]) else "investor"


def row_of(venue: Row, firm: str) -> Row:
    return next(row for row in venue["dealer"] + venue["investor"] if row["name"] == firm)


def market_of(venue: Row, firm: str) -> str:
    """What the operator hands a firm: the bonds, the names of the dealers, and the firm's own row."""
    lines = [f"version = {venue['version']}"]
    for bond in venue["bond"]:
        lines += ["[[bond]]", *toml(bond)]
    for dealer in venue["dealer"]:
        lines += [
            "[[dealer]]",
            *toml(dealer if dealer["name"] == firm else {"name": dealer["name"]}),
        ]
    if role_of(venue, firm) == "investor":
        lines += ["[[investor]]", *toml(row_of(venue, firm))]
    return "\n".join(lines) + "\n"


def hash_of(gateway: str, password: str) -> str:
    told = subprocess.run(
        [gateway, "--hash"], input=password + "\n", capture_output=True, text=True, check=True
    )
    return told.stdout.strip()


def fix_part(folder: Path, firm: str, port: int) -> list[str]:
    return [
        "[fix]",
        *toml(
            {
                "addresses": [f"127.0.0.1:{port}"],
                "username": f"{firm.lower()}-user",
                "password_file": f"{firm}.password",
                "dictionaries": str(ROOT / "fix"),
            }
        ),
    ]


def operator_part(folder: Path, page: int) -> list[str]:
    """The operator's socket, where the kernel can name it; and the page, which is told to whoever starts the venue."""
    write(folder / "page", f"http://127.0.0.1:{page}/\n")
    has_room = len(os.fsencode(folder.resolve() / "admin.sock")) <= LONGEST_SOCKET
    socket_lines = ["[operator]", *toml({"socket": "admin.sock"})] if has_room else []
    return [*socket_lines, "[metrics]", *toml({"port": page})]


def write_admin(folder: Path, gateway: str) -> None:
    """A command by which whoever tries the venue is its operator."""
    program = shlex.quote(str(Path(gateway).resolve().parent / "mireseason-admin"))
    path = shlex.quote(str(folder.resolve() / "admin.sock"))
    write(folder / "admin", f'#!/bin/sh\nexec {program} --socket {path} "$@"\n')
    (folder / "admin").chmod(0o700)


def write_gateway(folder: Path, port: int, page: int, command: list[str]) -> None:
    words = [str(Path(word).resolve()) if Path(word).is_file() else word for word in command]
    lines = [
        "[venue]",
        *toml({"command": [*words, "live", "--frames", "--marks"], "configuration": "venue.toml"}),
        "[log]",
        *toml({"sqlite": "day-{date}.db"}),
        "[fix]",
        *toml({"listen": "127.0.0.1", "port": port, "credentials": "credentials.toml"}),
        "[seal]",
        *toml(
            {
                "key": "keys/seal.key",
                "signing_key": "keys/gateway.pem",
                "gateways": ["keys/gateway.pub"],
                "checkpoints": "checkpoints",
            }
        ),
        *operator_part(folder, page),
    ]
    write(folder / "gateway.toml", "\n".join(lines) + "\n")


def write_credentials(folder: Path, gateway: str, firms: list[str]) -> None:
    """New passwords of the sessions, but where the folder has them already."""
    if (folder / "credentials.toml").exists():
        return
    lines = []
    for firm in firms:
        password = secrets.token_hex(16)
        write(folder / f"{firm}.password", password + "\n")
        lines += [
            f"[{firm}]",
            *toml({"username": f"{firm.lower()}-user", "password": hash_of(gateway, password)}),
        ]
    write(folder / "credentials.toml", "\n".join(lines) + "\n")


def write_desk(
    folder: Path, venue: Row, firm: str, fix_port: int, port: int, gateway: str, banner: str
) -> str:
    """The desk's configuration; the line that tells a person where it is."""
    _, login, password, _ = next(desk for desk in DESKS if desk[0] == firm)
    role = role_of(venue, firm)
    row = {"firm": firm, "role": role, "market": f"{firm}.market.toml", "data": f"{firm}.data"}
    row["bonds"] = str(HERE / "bonds.toml")
    if banner:
        row["banner"] = banner
    may = "quote" if role == "dealer" else "ask"
    trader = {
        "login": login,
        "password": hash_of(gateway, password),
        "name": row_of(venue, firm)["traders"][0],
        "may": [may],
    }
    lines = [
        *toml(row),
        *fix_part(folder, firm, fix_port),
        "[page]",
        *toml({"port": port}),
        "[[trader]]",
        *toml(trader),
    ]
    write(folder / f"{firm}.toml", "\n".join(lines) + "\n")
    return f"  {firm}, {'a dealer  ' if role == 'dealer' else 'an investor'}  http://127.0.0.1:{port}/   login {login}   password {password}"


def banner_of(gateway: str, command: list[str]) -> str:
    """What every page says: that it is no market, and what a second implementation stands for."""
    told = subprocess.run([gateway, "--version"], capture_output=True, text=True, check=True).stdout
    parts = []
    if any("tests/model" in word for word in command):
        parts.append("its program (the second implementation, in Python)")
    if "sessions not proved" in told:
        parts.append("its sessions (the second implementation, in C++)")
    rest = " Tested, but not proved: %s." % " and ".join(parts) if parts else ""
    return "A venue to try: no trade here is real." + rest


def write_sample(folder: Path, venue: Row, firm: str, fix_port: int) -> None:
    row = {
        "firm": firm,
        "role": role_of(venue, firm),
        "market": f"{firm}.market.toml",
        "data": f"{firm}.data",
        "trader": row_of(venue, firm)["traders"][0],
    }
    write(
        folder / f"{firm}.toml", "\n".join([*toml(row), *fix_part(folder, firm, fix_port)]) + "\n"
    )


def main() -> None:
    folder, gateway, command = Path(sys.argv[1]), sys.argv[2], shlex.split(sys.argv[3])
    os.umask(0o077)
    # Without a date it is of each day, and the next one begins by itself.
    text = re.sub(r"(?m)^date = .*\n", "", (HERE / "venue.toml").read_text())
    venue = tomllib.loads(text)
    write(folder / "venue.toml", text)
    fix_port, *page_ports, operators_page = ports()
    firms = [row["name"] for row in venue["dealer"] + venue["investor"]]
    for firm in firms:
        write(folder / f"{firm}.market.toml", market_of(venue, firm))
    if not (folder / "keys").exists():
        subprocess.run(
            [gateway, "--make-keys", folder / "keys"], stdout=subprocess.DEVNULL, check=True
        )
    write_gateway(folder, fix_port, operators_page, command)
    write_admin(folder, gateway)
    write_credentials(folder, gateway, firms)
    for firm in SAMPLES:
        write_sample(folder, venue, firm, fix_port)
    banner = banner_of(gateway, command)
    lines = [
        write_desk(folder, venue, desk[0], fix_port, port, gateway, banner)
        for desk, port in zip(DESKS, page_ports)
    ]
    write(folder / "addresses", "\n".join(lines) + "\n")


main()
