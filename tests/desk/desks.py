"""The desk of one firm: its configuration, and its process, which can be ended and started again."""

import json
import os
import ssl
import subprocess
import urllib.request
from dataclasses import dataclass, field
from pathlib import Path

from tests.gateway.door import Port
from tests.gateway.wait import LONG, until

ROOT = Path(__file__).resolve().parent.parent.parent
PASSWORD = "a trader's password"

# Texts of the market may be anything: the second bond's name would be markup, if a page took it so.
MARKUP = "<img src=x onerror=alert(1)>&amp;"
BONDS = (
    ("BONDA0000001", 256, "Alder 4.125 03/29"),
    ("BONDB0000002", 128, MARKUP),
    ("BONDC0000003", 32, "Cedar 4.75 02/34"),
)
BANDS = {"BONDC0000003": ("80", "120")}


@dataclass(frozen=True)
class FirmOf:
    """A firm of the tests: what its row of the venue's configuration says."""

    name: str
    role: str
    trader: str
    password: str  # of its FIX session
    limits: dict[str, int]


INVESTOR = FirmOf(
    "INV1", "investor", "T8", "fix-inv1", {"requests": 1024, "open": 256, "quantity": 5_000_000}
)
DEALER = FirmOf("DLR1", "dealer", "T1", "fix-dlr1", {"quotes": 4096, "exposure": 1_000_000_000})
OTHER = FirmOf("DLR2", "dealer", "T2", "fix-dlr2", {"quotes": 4096, "exposure": 10_000_000})
FIRMS = (INVESTOR, DEALER, OTHER)


def bonds_text() -> str:
    return "".join(
        '[[bond]]\nid = "%s"\ngrid = %d\n%sname = %s\n'
        % (bond, grid, band_text(bond), json.dumps(name))
        for bond, grid, name in BONDS
    )


def band_text(bond: str) -> str:
    return 'low = "%s"\nhigh = "%s"\n' % BANDS[bond] if bond in BANDS else ""


def row_text(firm: FirmOf) -> str:
    rows = "".join("%s = %d\n" % item for item in firm.limits.items())
    return '[[%s]]\nname = "%s"\ntraders = ["%s", "T4", "P1"]\n%s' % (
        firm.role,
        firm.name,
        firm.trader,
        rows,
    )


def market_text(firm: FirmOf) -> str:
    """What the operator hands out to a firm."""
    dealers = "".join(
        '[[dealer]]\nname = "%s"\n' % one.name
        for one in FIRMS
        if one.role == "dealer" and one is not firm
    )
    return "version = 3\n" + bonds_text() + dealers + row_text(firm)


@dataclass(frozen=True)
class TraderOf:
    """One who uses a desk."""

    login: str
    name: str
    may: str
    limits: dict[str, int] = field(default_factory=dict)


@dataclass(frozen=True)
class ProgramOf:
    """A program of the firm's own, with the rights of the trader who has this login."""

    name: str
    login: str
    token: str


@dataclass
class Desk:
    program: Path
    folder: Path
    firm: FirmOf
    venue_port: int
    hashed: str  # the hash of PASSWORD
    page: dict[str, str] = field(default_factory=dict)  # more keys of [page], as TOML writes them
    programs: list[ProgramOf] = field(default_factory=list)
    bonds: str = ""  # bonds.toml: the static data of bonds
    environment: dict[str, str] = field(default_factory=dict)  # more of it, for its process
    trust: ssl.SSLContext | None = None  # of the page's certificate, if it has one
    process: "subprocess.Popen[bytes] | None" = None
    port: Port = field(default_factory=Port)

    def __post_init__(self) -> None:
        acts = "quote" if self.firm.role == "dealer" else "ask"
        small = {"quantity": 1_000_000}
        self.traders = [
            TraderOf("tess", self.firm.trader, acts),
            TraderOf("tom", "T4", acts, small),
            TraderOf("lou", "T4", "look"),
            TraderOf("ada", "T4", "admin"),
        ]

    @property
    def origin(self) -> str:
        return "%s://127.0.0.1:%d" % (
            "https" if "certificate" in self.page else "http",
            self.port.number,
        )

    @property
    def data(self) -> Path:
        return self.folder / self.firm.name

    @property
    def told(self) -> Path:
        return self.folder / ("%s.told" % self.firm.name)

    def write(self) -> None:
        name = self.firm.name
        (self.folder / ("%s.market.toml" % name)).write_text(market_text(self.firm))
        secret = self.folder / ("%s.password" % name)
        secret.write_text(self.firm.password + "\n")
        secret.chmod(0o600)
        text = 'firm = "%s"\nrole = "%s"\nmarket = "%s.market.toml"\ndata = "%s"\n' % (
            name,
            self.firm.role,
            name,
            name,
        )
        if self.bonds:
            (self.folder / ("%s.bonds.toml" % name)).write_text(self.bonds)
            text += 'bonds = "%s.bonds.toml"\n' % name
        if "DESK_PAGES" in os.environ:
            text += "pages = %s\n" % json.dumps(os.environ["DESK_PAGES"])
        text += (
            '[fix]\naddresses = ["127.0.0.1:%d"]\nusername = "%s"\npassword_file = "%s.password"\n'
            % (self.venue_port, name, name)
        )
        text += "dictionaries = %s\n[page]\nport = %d\n" % (
            json.dumps(str(ROOT / "fix")),
            self.port.number,
        )
        text += "".join("%s = %s\n" % item for item in self.page.items())
        for trader in self.traders:
            text += '[[trader]]\nlogin = "%s"\nname = "%s"\nmay = ["%s"]\npassword = "%s"\n' % (
                trader.login,
                trader.name,
                trader.may,
                self.hashed,
            )
            text += "".join("%s = %d\n" % item for item in trader.limits.items())
        text += "".join(map(self.program_text, self.programs))
        (self.folder / ("%s.toml" % name)).write_text(text)

    def program_text(self, program: ProgramOf) -> str:
        file = self.folder / ("%s.%s.token" % (self.firm.name, program.name))
        file.write_text(program.token + "\n")
        file.chmod(0o600)
        return '[[program]]\nname = "%s"\nlogin = "%s"\ntoken_file = "%s"\n' % (
            program.name,
            program.login,
            file.name,
        )

    def start(self) -> None:
        with self.told.open("ab") as told:
            self.process = subprocess.Popen(
                [self.program, self.folder / ("%s.toml" % self.firm.name)],
                stdin=subprocess.DEVNULL,
                stdout=subprocess.DEVNULL,
                stderr=told,
                env={**os.environ, **self.environment},
            )
        until("the desk of %s serves" % self.firm.name, LONG, self.serves)

    def serves(self) -> bool:
        assert self.process is not None and self.process.poll() is None, self.last_words()
        try:
            with urllib.request.urlopen(self.origin + "/", timeout=10, context=self.trust) as page:
                return int(page.status) == 200
        except OSError:
            return False

    def last_words(self) -> str:
        return self.told.read_text(errors="replace")[-2000:]

    def kill(self) -> None:
        assert self.process is not None
        self.process.kill()
        self.process.wait()

    def stop(self) -> None:
        """By SIGTERM; it has to end well."""
        assert self.process is not None
        self.process.terminate()
        assert self.process.wait(LONG) == 0, self.last_words()

    def close(self) -> None:
        if self.process and self.process.poll() is None:
            self.kill()
