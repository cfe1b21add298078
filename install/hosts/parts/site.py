"""Reads a whole installation from its file, its hosts and addresses, its passwords and its venues, and
derives each host's configurations from it.
"""

import json
import re
import tomllib
from collections.abc import Mapping
from dataclasses import dataclass, field
from pathlib import Path
from typing import Any

from .fault import Fault

CONFIG = Path(__file__).resolve().parent.parent / "config"
GATEWAY = CONFIG.parents[2] / "gateway"
DATABASE_FILES = ("etcd.yml", "patroni.yml", "make_database.sh", "database.sql")
TABLES = {"SCHEMA_SQL": "schema.sql", "TERMS_SQL": "terms.sql"}  # of the gateway
WORDS = ("GATEWAY", "REPLICATION", "REWIND", "REST")  # what has a password
FORMER = "READER"  # had one: a reader has a certificate now
KEEPER = "KEEPER"  # and what has one where there is a host for copies
ALONE = ""  # the name of a venue that is the only one
# A host for readers never becomes the primary, and no commit waits for it. It waits with what the primary has changed for as
# long as somebody reads what was there before: else it would end a reader of a long day.
TAGS = "tags: {nofailover: true, nosync: true, noloadbalance: true, clonefrom: false}\n"
STANDBY = '    max_standby_streaming_delay: "15min"\n    hot_standby_feedback: "off"\n'
READER = "    - hostssl  mireseason   reader      %s   cert\n"
READERS = '''readers = """host=%s port=5432 dbname=mireseason user=keeper \\
    passfile=%s/pgpass sslmode=verify-full sslrootcert=%s/authority.pem \\
    sslcert=%s/host.pem sslkey=%s/host.key connect_timeout=5"""
'''
LEFT = re.compile(r"@[A-Z0-9_]+@")
# They stand in YAML, in SQL within a command of a shell, and in a pgpass: no other character is the
# same in all of them.
PASSWORD = re.compile(r"[A-Za-z0-9._~+-]+")


@dataclass(frozen=True)
class Folders:
    """Where the files of a host are."""

    config: str
    data: str = ""  # of etcd and PostgreSQL; of a gateway what it keeps from day to day
    run: str = ""  # sockets
    tls: str = (
        ""  # host.pem, host.key and authority.pem; of Patroni and PostgreSQL, or of a gateway
    )
    etcd_tls: str = ""  # the same of etcd


@dataclass(frozen=True)
class Site:
    network: str  # of database and gateway hosts
    databases: Mapping[str, str]  # host to address
    gateways: Mapping[str, str]
    passwords: Mapping[str, str]
    command: tuple[str, ...]  # the words of the venue's program
    security: str  # the part [tls] of a gateway, or what stands for it
    venues: tuple[str, ...] = (ALONE,)
    synchronous: str = "on"
    keepers: Mapping[str, str] = field(default_factory=dict)  # hosts of copies
    readers: Mapping[str, str] = field(default_factory=dict)  # hosts that supervisors read from

    @property
    def hosts(self) -> dict[str, str]:
        """All of them, with their addresses."""
        return {**self.databases, **self.gateways, **self.keepers, **self.readers}

    def files(self, host: str, folders: Folders) -> dict[str, str]:
        """The configurations of a host, by their names."""
        if host in self.databases:
            return self._database_files(host, folders)
        if host in self.gateways:
            return self._gateway_files(host, folders)
        if host in self.readers:
            files = self._database_files(host, folders)
            return {"patroni.yml": files["patroni.yml"]}
        if host in self.keepers:
            return self._keeper_files(folders)
        raise Fault("there is no host %s" % host)

    def _database_files(self, host: str, folders: Folders) -> dict[str, str]:
        words = {
            "NAME": host,
            "ADDRESS": self.hosts[host],
            "NETWORK": self.network,
            **self._words_of_readers(host),
            "DATA": folders.data,
            "RUN": folders.run,
            "CONFIG": folders.config,
            "TLS": folders.tls,
            "ETCD_TLS": folders.etcd_tls,
            KEEPER: "'%s'" % self.passwords[KEEPER] if KEEPER in self.passwords else "NULL",
        }
        words |= {word: (GATEWAY / name).read_text() for word, name in TABLES.items()}
        return {name: self._filled(name, words) for name in DATABASE_FILES}

    def _words_of_readers(self, host: str) -> dict[str, str]:
        """What is another at a host for readers than at one of the three."""
        is_one = host in self.readers
        return {
            "TAGS": TAGS if is_one else "",
            "STANDBY": STANDBY if is_one else "",
            "READER": READER % self.network if is_one else "",
            "CLIENT_AUTHORITIES": "authorities.pem" if is_one else "authority.pem",
        }

    def _gateway_files(self, host: str, folders: Folders) -> dict[str, str]:
        words = {
            "NAME": host,
            "ADDRESS": self.gateways[host],
            "CONFIG": folders.config,
            "STATE": folders.data,
            "TLS": folders.tls,
            "GATEWAY_KEYS": self._gateway_keys(),
            "OPERATOR": operator_text(folders),
            "SYNCHRONOUS": self.synchronous,
            "SCHEMA": self.schema,
            "VENUES": self._venues(),
            "SECURITY": self.security,
        }
        return {
            "gateway.toml": self._filled("gateway.toml", words),
            "pgpass": "*:*:*:gateway:%s\n" % self.passwords["GATEWAY"],
        }

    def _keeper_files(self, folders: Folders) -> dict[str, str]:
        if KEEPER not in self.passwords:
            raise Fault("the keeper has no password")
        words = {
            "CONFIG": folders.config,
            "TLS": folders.tls,
            "STATE": folders.data,
            "GATEWAY_KEYS": self._gateway_keys(),
            "SCHEMA": self.schema,
            "READERS": self._readers(folders),
            "PROGRAM": self.command[0],
            "NAMES": "" if self.venues == (ALONE,) else "names = %s\n" % json.dumps(self.venues),
        }
        return {
            "keeper.toml": self._filled("keeper.toml", words),
            "pgpass": "*:*:*:keeper:%s\n" % self.passwords[KEEPER],
        }

    def _readers(self, folders: Folders) -> str:
        """The key `readers` of keeper.toml."""
        places = folders.config, *[folders.tls] * 3
        return READERS % (",".join(self.readers.values()), *places) if self.readers else ""

    def _gateway_keys(self) -> str:
        """The public keys of all gateways, by which each knows what another has signed."""
        return json.dumps(["keys/%s.pub" % name for name in self.gateways])

    @property
    def schema(self) -> str:
        """That of a log, as gateway.toml names it."""
        return "day_{date}" if self.venues == (ALONE,) else "{venue}_{date}"

    def _venues(self) -> str:
        return venues_text(self.venues, self.command)

    def _filled(self, name: str, words: Mapping[str, str]) -> str:
        """A configuration with each @WORD@ of it replaced."""
        text = (CONFIG / name).read_text()
        hosts = {host.upper(): address for host, address in self.databases.items()}
        passwords = {word + "_PASSWORD": secret for word, secret in self.passwords.items()}
        for word, value in {**words, **hosts, **passwords}.items():
            text = text.replace("@%s@" % word, value)
        left = LEFT.search(text)
        if left:
            raise Fault("%s: nothing is said of %s" % (name, left[0]))
        return text


def operator_text(folders: Folders) -> str:
    """The part [operator] of gateway.toml, where the host has a folder for sockets."""
    if not folders.run:
        return ""
    return '[operator]\nsocket = "%s/admin.sock"\ngroup = "mireseason-operators"\n\n' % folders.run


def file_of(venue: str) -> str:
    """The name of a venue's configuration."""
    return "%s.toml" % (venue or "venue")


def venues_text(venues: tuple[str, ...], command: tuple[str, ...]) -> str:
    """The part [venue] of gateway.toml, or a part for each of several."""
    words = json.dumps([*command, "live", "--frames", "--marks"])  # is TOML, too
    return "\n".join(
        '[%s]\ncommand = %s\nconfiguration = "%s"\n'
        % ("venue." + name if name else "venue", words, file_of(name))
        for name in venues
    )


def read_site(path: Path) -> Site:
    """A site from its file; Fault with what is wrong with it."""
    try:
        table = tomllib.loads(path.read_text())
        passwords = {
            word.upper(): password(word, secret) for word, secret in table["passwords"].items()
        }
        keepers = texts(table.get("keepers", {}))
        wanted = {*WORDS, KEEPER} if keepers else set(WORDS)
        if not wanted <= set(passwords) <= {*WORDS, KEEPER, FORMER}:
            raise ValueError("the passwords are those of %s" % ", ".join(sorted(wanted)).lower())
        venue = table["venue"]
        return Site(
            text(table["network"]),
            texts(table["databases"]),
            texts(table["gateways"]),
            passwords,
            tuple(map(text, venue["command"])),
            text(table["security"]),
            tuple(map(text, venue.get("names", [ALONE]))),
            keepers=keepers,
            readers=texts(table.get("readers", {})),
        )
    except (OSError, ValueError, AttributeError, TypeError) as fault:
        raise Fault("%s: %s" % (path, fault)) from fault
    except KeyError as fault:
        raise Fault("%s: %s is missing" % (path, fault)) from fault


def text(value: object) -> str:
    if not isinstance(value, str):
        raise ValueError("%r is no text" % value)
    return value


def password(word: str, value: Any) -> str:
    if not PASSWORD.fullmatch(text(value)):
        raise ValueError("the password of %s may have only letters, digits and . _ ~ + -" % word)
    return text(value)


def texts(table: Any) -> dict[str, str]:
    return {name: text(value) for name, value in table.items()}
