#!/usr/bin/env python3
"""Makes the certificates of an installation's hosts, and the authority that signs them.

usage: certificates.py SITE FOLDER

SITE is a file like site.toml. It writes authority.pem and authority.key into FOLDER, and for each host HOST.pem and HOST.key. If the
site has a host for readers, it also writes readers.pem and readers.key, an authority of their own, and reader.pem and reader.key, with
which a supervisor logs in. It leaves files that are there as they are: to add a host, run it again. README.md says where each file
goes. Keep authority.key away from all hosts: whoever has it can be any of them.
"""

import argparse
import sys
from pathlib import Path

from parts.certificates import make_certificates, make_reader
from parts.fault import Fault
from parts.site import read_site


def main() -> None:
    parser = argparse.ArgumentParser(usage=__doc__)
    parser.add_argument("site", type=Path)
    parser.add_argument("folder", type=Path)
    words = parser.parse_args()
    try:
        site = read_site(words.site)
        make_certificates(site.hosts, words.folder)
        if site.readers:
            make_reader(words.folder)
    except (Fault, OSError) as fault:
        sys.exit("certificates.py: %s" % fault)


if __name__ == "__main__":
    main()
