"""A gateway host: the gateway, and the venues that it starts."""

import re
import shutil
import tomllib
from collections.abc import Iterable, Mapping
from dataclasses import dataclass
from pathlib import Path

from parts.certificates import put_certificate
from parts.site import ALONE, Folders, file_of

from tests.lab.place import Place
from tests.lab.run import run
from tests.lab.service import Service

PORT = 9878

# What a gateway tells of a venue's log: it reads it, its venue has answered all, it writes it.
STANDING = re.compile(r" info (follows|stands by|speaks)(?: venue=(\S+))? ")


@dataclass(frozen=True)
class Firm:
    """A firm that may log on, and as whom."""

    name: str
    username: str
    password: str


@dataclass
class GatewayHost(Place):
    program: Path

    @property
    def log(self) -> Path:
        """All that it told, of all its starts."""
        return self.logs / self.name

    def make(self, configurations: Mapping[str, str], credentials: str, keys: Path) -> None:
        """With the configurations of the venues by their names, these credentials, and the keys of
        all gateways.
        """
        self.make_known()
        (self.own / "keys").mkdir(exist_ok=True)
        for path in (keys / "seal.key", keys / (self.name + ".pem"), *keys.glob("*.pub")):
            shutil.copy(path, self.own / "keys")
        self.put({file_of(name): text for name, text in configurations.items()})
        self.put({"credentials.toml": credentials}, 0o600)

    def make_known(self) -> None:
        """With its certificate and what configure.py writes for it: the database lets it in by
        these.
        """
        self.own.mkdir(parents=True, exist_ok=True)
        tls = self.own / "site"
        put_certificate(self.folder / "certificates", self.name, tls, "root")
        folders = Folders(str(self.own), str(self.own), tls=str(tls))
        self.put(self.site.files(self.name, folders))
        (self.own / "pgpass").chmod(0o600)

    def put(self, files: Mapping[str, str], mode: int = 0o644) -> None:
        """Writes files of its folder, by their names."""
        for name, text in files.items():
            (self.own / name).write_text(text)
            (self.own / name).chmod(mode)

    @property
    def connection(self) -> str:
        """How its gateway connects to the database of the logs (libpq), by its configuration."""
        return str(tomllib.loads((self.own / "gateway.toml").read_text())["log"]["postgres"])

    def start(self) -> None:
        words = self.network.words(self.name)
        words += [str(self.program), str(self.own / "gateway.toml")]
        self.logs.mkdir(exist_ok=True)
        self.supervisor.add(Service(self.name, words, self.log))

    @property
    def service(self) -> Service:
        return self.supervisor.services[self.name]

    def told(self) -> list[str]:
        """What it told, of all its starts."""
        return self.log.read_text(errors="replace").splitlines() if self.log.exists() else []

    def stands_by(self) -> bool:
        """Whether it follows with venues that have answered all."""
        last: dict[str, str] = {}
        for found in filter(None, map(STANDING.search, self.told())):
            last[found[2] or ALONE] = found[1]
        wanted = dict.fromkeys(self.site.venues, "stands by")
        return last == wanted and self.service.is_running()

    def last_words(self) -> str:
        return "\n".join(self.told()[-6:])


def make_keys(gateway: Path, names: Iterable[str], folder: Path) -> Path:
    """The folder with the keys of the gateways of these names."""
    shutil.rmtree(folder, ignore_errors=True)
    run(str(gateway), "--make-keys", str(folder), *names)
    return folder


def credentials_of(gateway: Path, firms: Iterable[Firm]) -> str:
    """The text of the gateways' credentials."""
    text = ""
    for firm in firms:
        hashed = run(str(gateway), "--hash", text=firm.password + "\n").strip()
        text += '[%s]\nusername = "%s"\npassword = "%s"\n' % (firm.name, firm.username, hashed)
    return text
