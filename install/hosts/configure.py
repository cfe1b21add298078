#!/usr/bin/env python3
"""Writes the configurations of one host of an installation.

usage: configure.py SITE HOST FOLDER

SITE is a file like site.toml, which names all hosts. What it writes into FOLDER depends on the host:

    of databases    etcd.yml, patroni.yml, make_database.sh and database.sql
    for readers     patroni.yml
    of a gateway    gateway.toml and pgpass
    of copies       keeper.toml and pgpass

README.md says where each file goes.
"""

import argparse
import sys
from pathlib import Path

from parts.fault import Fault
from parts.site import Folders, read_site

DATABASE_HOST = Folders(
    "/etc/patroni", "/var/lib/mireseason", "/run/mireseason", "/etc/patroni/tls", "/etc/etcd/tls"
)
GATEWAY_HOST = Folders(
    "/etc/mireseason", "/var/lib/mireseason", "/run/mireseason", tls="/etc/mireseason/site"
)
KEEPER_HOST = Folders(
    "/etc/mireseason-keeper", "/var/lib/mireseason-keeper", tls="/etc/mireseason-keeper/site"
)
MODES = {"make_database.sh": 0o750}  # the others have passwords, too: 0640
SECRET = 0o640


def write(words: argparse.Namespace) -> None:
    site = read_site(words.site)
    is_database = words.host in {**site.databases, **site.readers}
    folders = DATABASE_HOST if is_database else GATEWAY_HOST
    if words.host in site.keepers:
        folders = KEEPER_HOST
    files = site.files(words.host, folders)
    words.folder.mkdir(parents=True, exist_ok=True)
    for name, text in files.items():
        path = words.folder / name
        path.touch(SECRET)
        path.write_text(text)
        path.chmod(MODES.get(name, SECRET))
        print(path)


def main() -> None:
    parser = argparse.ArgumentParser(usage=__doc__)
    parser.add_argument("site", type=Path)
    parser.add_argument("host")
    parser.add_argument("folder", type=Path)
    try:
        write(parser.parse_args())
    except (Fault, OSError) as fault:
        sys.exit("configure.py: %s" % fault)


if __name__ == "__main__":
    main()
