"""The list of components that a build writes (SPDX 2.3): whole, with versions and licences, and of this build."""

import hashlib
import json
import re
import subprocess
from pathlib import Path
from typing import Any

import pytest

ROOT = Path(__file__).resolve().parent.parent.parent
# Version 2.3 of the specification, clauses 6 to 11: what a document and each package has to have.
OF_DOCUMENT = {
    "spdxVersion",
    "dataLicense",
    "SPDXID",
    "name",
    "documentNamespace",
    "creationInfo",
    "packages",
    "relationships",
}
OF_PACKAGE = {"SPDXID", "name", "downloadLocation", "versionInfo", "licenseDeclared"}


@pytest.fixture(scope="module")
def document(gateway_program: Path, tmp_path_factory: pytest.TempPathFactory) -> dict[str, Any]:
    out = tmp_path_factory.mktemp("spdx") / "gateway.spdx.json"
    words = [
        "/usr/bin/python3",
        str(ROOT / "gateway" / "spdx.py"),
        str(gateway_program),
        str(ROOT / "crates.txt"),
        str(out),
    ]
    subprocess.run(words, check=True, capture_output=True)
    found: dict[str, Any] = json.loads(out.read_text())
    return found


def installed(package: str) -> str:
    words = ["dpkg-query", "-W", "-f=${Version}", package]
    return subprocess.run(words, capture_output=True, text=True, check=True).stdout


def test_it_is_a_document(document: dict[str, Any]) -> None:
    assert OF_DOCUMENT <= document.keys()
    assert (document["spdxVersion"], document["dataLicense"]) == ("SPDX-2.3", "CC0-1.0")
    names = [package["SPDXID"] for package in document["packages"]]
    assert len(names) == len(set(names)) and all(
        re.fullmatch(r"SPDXRef-[A-Za-z0-9.-]+", name) for name in names
    )
    assert all(OF_PACKAGE <= package.keys() for package in document["packages"])
    known = {*names, "SPDXRef-DOCUMENT"}
    for relation in document["relationships"]:
        assert {relation["spdxElementId"], relation["relatedSpdxElement"]} <= known, relation


def test_every_library_is_in_it(document: dict[str, Any], gateway_program: Path) -> None:
    """Whatever the program loads belongs to a package of the list, in the version that is installed."""
    versions = {package["name"]: package["versionInfo"] for package in document["packages"]}
    for name in ("libssl3", "libsqlite3-0", "libpq5", "libstdc++6", "libc6"):
        assert versions.get(name) == installed(name), name
    loaded = set(
        re.findall(
            r"^\s+(lib\S+?)\.so",
            subprocess.run(
                ["ldd", gateway_program], capture_output=True, text=True, check=True
            ).stdout,
            re.MULTILINE,
        )
    )
    linked = [one for one in document["relationships"] if one["relationshipType"] == "DYNAMIC_LINK"]
    assert len(linked) >= len(loaded) / 3, "%d packages for %d libraries" % (
        len(linked),
        len(loaded),
    )


def test_every_licence_is_named(document: dict[str, Any]) -> None:
    """By an identifier of SPDX, or by a reference whose words stand in the document; of Debian's packages none is missing."""
    extracted = {one["licenseId"] for one in document["hasExtractedLicensingInfos"]}
    for package in document["packages"]:
        words = set(re.findall(r"LicenseRef-[A-Za-z0-9.-]+", package["licenseDeclared"]))
        assert words <= extracted, package["name"]
        if package["supplier"] == "Organization: Debian":
            assert package["licenseDeclared"] != "NOASSERTION", package["name"]
    assert all(one["extractedText"].strip() for one in document["hasExtractedLicensingInfos"])


def test_it_is_of_this_build(document: dict[str, Any], gateway_program: Path) -> None:
    (own,) = [
        package for package in document["packages"] if package["name"] == "mireseason-gateway"
    ]
    assert (
        own["checksums"][0]["checksumValue"]
        == hashlib.sha256(gateway_program.read_bytes()).hexdigest()
    )
    crates = {
        line.split(":")[0].split()[0]
        for line in (ROOT / "crates.txt").read_text().splitlines()
        if line and line[0] != "#"
    }
    assert crates <= {package["name"] for package in document["packages"]}
