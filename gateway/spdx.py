#!/usr/bin/python3
"""Writes what a build of the gateway is made of, as SPDX 2.3 in JSON: each component with its version and licence.

usage: spdx.py PROGRAM CRATES OUT

PROGRAM is the gateway that was built, CRATES the repository's crates.txt. Components are the gateway, the libraries that it
loads and the packages that it was compiled with, as Debian has them; the venue's program, with its crates and the libraries
of the kit that they stand on; and the Debian packages of the audit. A licence is what Debian's copyright file declares: its
identifier where SPDX has one, and else a reference with the words of that file.
"""

import argparse
import hashlib
import json
import os
import re
import subprocess
import sys
from dataclasses import dataclass, field
from datetime import datetime, timezone
from pathlib import Path
from typing import Any

ROOT = Path(__file__).resolve().parent.parent
AUDIT = ("python3", "python3-jinja2", "python3-psycopg2", "python3-cryptography", "openssl")
NONE = "NOASSERTION"
# Debian's short names that are others in SPDX.
NAMES = {
    "Expat": "MIT",
    "Apache-2": "Apache-2.0",
    "Apache": "Apache-2.0",
    "BSD-3-clause": "BSD-3-Clause",
    "BSD-2-clause": "BSD-2-Clause",
    "BSD": "BSD-3-Clause",
    "ISC": "ISC",
    "Zlib": "Zlib",
    "zlib": "Zlib",
    "BSL-1.0": "BSL-1.0",
    "PostgreSQL": "PostgreSQL",
    "GPL-1+": "GPL-1.0-or-later",
    "GPL-2": "GPL-2.0-only",
    "GPL-2+": "GPL-2.0-or-later",
    "GPL-3": "GPL-3.0-only",
    "GPL-3+": "GPL-3.0-or-later",
    "LGPL-2": "LGPL-2.0-only",
    "LGPL-2+": "LGPL-2.0-or-later",
    "LGPL-2.1": "LGPL-2.1-only",
    "LGPL-2.1+": "LGPL-2.1-or-later",
    "LGPL-3": "LGPL-3.0-only",
    "LGPL-3+": "LGPL-3.0-or-later",
}
SPDX_NAMES = frozenset(NAMES.values()) | {
    "MIT",
    "Apache-2.0",
    "OpenSSL",
    "CC0-1.0",
    "OLDAP-2.8",
    "Unicode-DFS-2016",
}


def printed(*words: str) -> str:
    """What a command prints; nothing where it fails."""
    done = subprocess.run(words, capture_output=True, text=True, check=False)
    return done.stdout if done.returncode == 0 else ""


@dataclass(frozen=True)
class Component:
    """A part of the product, and how the gateway has it."""

    name: str
    version: str
    licence: str
    supplier: str
    relation: str  # to the gateway

    @property
    def identifier(self) -> str:
        return "SPDXRef-" + re.sub(r"[^A-Za-z0-9.-]", "-", "%s-%s" % (self.relation, self.name))


@dataclass
class Licences:
    """Licences that SPDX has no name for, with their words."""

    words: dict[str, str] = field(default_factory=dict)

    def of(self, package: str) -> str:
        """The licence of a Debian package, by its copyright file."""
        path = Path("/usr/share/doc") / package / "copyright"
        try:
            text = path.read_text(errors="replace")
        except OSError:
            return NONE
        found = sorted(set(re.findall(r"^License: *(\S.*)$", text, re.MULTILINE)))
        if not found:
            return self.reference(package, text)
        return " AND ".join(sorted({self.named(package, name.strip(), text) for name in found}))

    def named(self, package: str, name: str, text: str) -> str:
        """A licence by its name in Debian, which may be an expression."""
        parts = re.split(r"\s*,?\s+(and|or)\s+", name)
        if len(parts) > 1:
            named = [
                part.upper() if part in ("and", "or") else self.named(package, part, text)
                for part in parts
            ]
            return "(%s)" % " ".join(named)
        spdx = NAMES.get(name, name)
        return spdx if spdx in SPDX_NAMES else self.reference(package, text)

    def reference(self, name: str, text: str) -> str:
        made = "LicenseRef-" + re.sub(r"[^A-Za-z0-9.-]+", "-", name).strip("-")
        self.words[made] = text
        return made


def packages_of(files: list[str]) -> set[str]:
    """The Debian packages that files are of; a folder of the system may go by two names."""
    found = set()
    for file in files:
        real = os.path.realpath(file)
        for path in (file, real, real.removeprefix("/usr"), "/usr" + file):
            line = printed("dpkg-query", "-S", path)
            if line:
                found.add(line.split(":", 1)[0])
                break
        else:
            sys.exit("spdx.py: no Debian package has %s" % file)
    return found


def libraries_of(program: Path) -> list[str]:
    """The files that a program loads."""
    return re.findall(r"(?:=> )?(/\S+) \(0x", printed("ldd", str(program)))


def debian(names: set[str], relation: str, licences: Licences) -> list[Component]:
    """Debian's packages; one that is not installed is no part of this build."""
    made = []
    for name in sorted(names):
        version = printed("dpkg-query", "-W", "-f=${Version}", name)
        if version:
            made.append(
                Component(name, version, licences.of(name), "Organization: Debian", relation)
            )
    return made


def crates(path: Path, version: str) -> list[Component]:
    """The venue's program: its crates, and the libraries of the kit."""
    own, kit = set(), set()
    for line in path.read_text().splitlines():
        name, _, below = line.partition(":")
        if line and not line.startswith("#"):
            own.add(name.split()[0])
            kit.update(below.split())
    listed = [(name, version, "OTHER") for name in sorted(own)] + [
        (name, NONE, "OTHER") for name in sorted(kit - own)
    ]
    return [Component(name, one, NONE, NONE, relation) for name, one, relation in listed]


def package_of(one: Component) -> dict[str, Any]:
    return {
        "SPDXID": one.identifier,
        "name": one.name,
        "versionInfo": one.version,
        "supplier": one.supplier,
        "downloadLocation": NONE,
        "filesAnalyzed": False,
        "licenseConcluded": NONE,
        "licenseDeclared": one.licence,
        "copyrightText": NONE,
    }


RELATIONS = {
    "DYNAMIC_LINK": False,
    "BUILD_DEPENDENCY_OF": True,
    "OTHER": False,
    "DEPENDS_ON": False,
}  # whether turned round


def document(
    gateway: Component, parts: list[Component], licences: Licences, program: Path
) -> dict[str, Any]:
    digest = hashlib.sha256(program.read_bytes()).hexdigest()
    relations = [
        {
            "spdxElementId": "SPDXRef-DOCUMENT",
            "relationshipType": "DESCRIBES",
            "relatedSpdxElement": gateway.identifier,
        }
    ]
    for one in parts:
        ends = (
            (one.identifier, gateway.identifier)
            if RELATIONS[one.relation]
            else (gateway.identifier, one.identifier)
        )
        relations.append(
            {
                "spdxElementId": ends[0],
                "relationshipType": one.relation,
                "relatedSpdxElement": ends[1],
            }
        )
    own = {**package_of(gateway), "checksums": [{"algorithm": "SHA256", "checksumValue": digest}]}
    made = datetime.fromtimestamp(
        int(os.environ.get("SOURCE_DATE_EPOCH", program.stat().st_mtime)), timezone.utc
    )
    return {
        "spdxVersion": "SPDX-2.3",
        "dataLicense": "CC0-1.0",
        "SPDXID": "SPDXRef-DOCUMENT",
        "name": "mireseason",
        "documentNamespace": "https://mireseason.invalid/spdx/" + digest,
        "creationInfo": {
            "created": made.strftime("%Y-%m-%dT%H:%M:%SZ"),
            "creators": ["Tool: gateway/spdx.py"],
        },
        "packages": [own, *map(package_of, parts)],
        "hasExtractedLicensingInfos": [
            {"licenseId": name, "extractedText": text}
            for name, text in sorted(licences.words.items())
        ],
        "relationships": relations,
    }


def main() -> None:
    parser = argparse.ArgumentParser(usage=__doc__)
    for name in ("program", "crates", "out"):
        parser.add_argument(name, type=Path)
    words = parser.parse_args()
    licences = Licences()
    version = printed(str(words.program), "--version").split()
    gateway = Component(
        "mireseason-gateway", version[-1] if version else NONE, NONE, NONE, "program"
    )
    built = set(printed("sh", str(ROOT / "gateway" / "packages.sh")).split())
    parts = debian(packages_of(libraries_of(words.program)), "DYNAMIC_LINK", licences)
    parts += debian(built, "BUILD_DEPENDENCY_OF", licences)
    parts += crates(words.crates, gateway.version)
    parts += debian(set(AUDIT), "DEPENDS_ON", licences)
    words.out.write_text(
        json.dumps(document(gateway, parts, licences, words.program), indent=1) + "\n"
    )


if __name__ == "__main__":
    main()
