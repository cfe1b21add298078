"""What the Debian packages contain."""

import gzip
import hashlib
import re
import subprocess
from datetime import datetime, timezone
from pathlib import Path

import pytest
from mireseason_keeper.keeper import Counts
from mireseason_keeper.metrics import write_metrics
from mireseason_keeper.settings import read_settings
from page_checks.links import CODE, LINK, fault_of
from page_checks.page import Page

from tests.gateway.wait import LONG
from tests.harness.options import ROOT
from tests.operating.built_packages import (
    DESK,
    METAPACKAGE,
    PACKAGES,
    VERSION,
    Packages,
    desk_folder,
    needs,
    one_file,
    printed,
)


# The second implementation in the program's place is Python, on which the proved one does not depend.
OF_SECOND = "python3-script-but-no-python3-dep"
# Nor is it a program whose source is missing: the line that says why there is none of the proved one has nothing to do then.
UNUSED = "mismatched-override source-is-missing [debian/proved/rfq_venue]"


def test_lintian_finds_nothing(packages: Packages, venue: tuple[str, ...]) -> None:
    """Neither an error nor a warning, in the packages and in their source."""
    needs("lintian")
    is_second = len(venue) > 1
    words = ["lintian", "--allow-root"] + (["--suppress-tags", OF_SECOND] if is_second else [])
    words += [str(file) for file in [*packages.all_files, *packages.folder.glob("*.dsc")]]
    done = subprocess.run(words, capture_output=True, text=True, timeout=10 * LONG, check=False)
    found = [line for line in done.stdout.splitlines() if line.startswith(("E: ", "W: "))]
    assert [line for line in found if not (is_second and UNUSED in line)] == [], done.stdout
    assert done.returncode in (0, 2) and not done.stderr, done.stderr


def test_the_changelog_fits_a_terminal(packages: Packages, place: Path) -> None:
    """The part of CHANGELOG.md, as Debian's tools show it: 80 characters a line."""
    for name in PACKAGES:
        root = packages.unpacked(name, place / name)
        text = gzip.decompress(
            (root / "usr/share/doc" / name / "changelog.gz").read_bytes()
        ).decode()
        assert text.startswith("mireseason (%s) " % VERSION)
        changes = [line for line in text.splitlines() if line.startswith("  ")]
        assert changes and [line for line in changes if len(line) > 80] == []


def test_the_program_is_the_proved_one(
    packages: Packages, venue: tuple[str, ...], place: Path
) -> None:
    """Byte for byte; and the package says of which commit its SHA-256 is."""
    root = packages.unpacked("mireseason-venue", place / "root")
    program = root / "usr/bin/rfq_venue"
    given = one_file(venue, place)
    assert program.read_bytes() == given.read_bytes()
    lines = (root / "usr/share/mireseason/programs").read_text().splitlines()
    digest = hashlib.sha256(given.read_bytes()).hexdigest()
    assert lines[1] == digest + "  /usr/bin/rfq_venue"
    named = re.fullmatch(
        r"# (.*): the program of mireseason %s, proved from commit ([0-9a-f]{12,40}\+?|unknown)"
        % re.escape(VERSION),
        lines[0],
    )
    assert named, lines[0]
    assert named[1] == printed(program, "--version")


def test_the_programs_version() -> None:
    """The proved program has the version in its text: it may not stay behind."""
    text = (ROOT / "crates" / "command_arguments" / "src" / "help.rt").read_text()
    assert re.findall(r'const VERSION: &str = "(.*)";', text) == [VERSION]


def test_versions(packages: Packages, place: Path) -> None:
    """One version and one commit for all."""
    gateway = packages.unpacked("mireseason-gateway", place / "gateway")
    audit = packages.unpacked("mireseason-audit", place / "audit")
    venue = packages.unpacked("mireseason-venue", place / "venue")
    commit = (venue / "usr/share/mireseason/programs").read_text().split("commit ")[1].split()[0]
    assert printed(
        "/usr/bin/python3", audit / "usr/share/mireseason/audit/mireseason-audit", "--version"
    ) == "mireseason-audit %s (%s)" % (VERSION, commit)
    keeper = packages.unpacked("mireseason-keeper", place / "audit")
    assert printed(
        "/usr/bin/python3", keeper / "usr/share/mireseason/keeper/mireseason-keeper", "--version"
    ) == "mireseason-keeper %s (%s)" % (VERSION, commit)
    for place_of in (gateway / "usr/share/mireseason/common", audit / "usr/share/mireseason/audit"):
        module = place_of / "bounded_toml.py"  # by which their programs read TOML
        assert module.read_bytes() == (ROOT / "common" / "bounded_toml.py").read_bytes()
    told = printed(gateway / "usr/bin/mireseason-gateway", "--version")
    # A gateway whose sessions are not the proved ones says so behind its commit.
    named = r"mireseason-gateway %s \(\S+\)(, sessions not proved: \w+)?" % re.escape(VERSION)
    assert re.fullmatch(named, told), told
    for name in PACKAGES:
        assert printed("dpkg-deb", "-f", packages.file(name), "Version") == VERSION
    dated = r"^## %s \(\d{4}-\d\d-\d\d\)$" % re.escape(VERSION)
    assert re.search(dated, (ROOT / "CHANGELOG.md").read_text(), re.MULTILINE)


def test_the_metapackage_is_all(packages: Packages) -> None:
    """Of one version: so an upgrade of it leaves none behind."""
    wanted = {"%s (= %s)" % (name, VERSION) for name in PACKAGES if name != METAPACKAGE}
    assert (
        set(printed("dpkg-deb", "-f", packages.file(METAPACKAGE), "Depends").split(", ")) == wanted
    )


def test_the_keepers_metrics_are_where_prometheus_reads(packages: Packages, place: Path) -> None:
    """As installed: the alerts wait for what the keeper's own configuration has it write, where its unit lets it write."""
    root = packages.unpacked("mireseason-keeper", place / "keeper")
    file = read_settings(root / "etc/mireseason-keeper/keeper.toml").metrics
    assert file is not None and file.parts[:4] == ("/", "var", "lib", "mireseason-keeper")
    unit = (root / "lib/systemd/system/mireseason-keeper.service").read_text()
    assert "\nStateDirectory=mireseason-keeper\n" in unit
    made = (root / "usr/lib/tmpfiles.d/mireseason-keeper.conf").read_text()
    assert re.search(r"(?m)^d %s +0755 mireseason-keeper " % file.parent, made)
    written = root / file.relative_to("/")
    written.parent.mkdir(parents=True)
    write_metrics(written, Counts(without_seal=3), datetime.now(timezone.utc))
    read = root / "var/lib/prometheus/node-exporter/mireseason.prom"  # by Debian's node exporter
    assert "\nmireseason_copies_without_seal 3\n" in read.read_text()


UNITS = {
    "mireseason-gateway": "mireseason-gateway.service",
    "mireseason-keeper": "mireseason-keeper.timer",
    DESK: "mireseason-desk.service",
}


@pytest.mark.parametrize("name", UNITS)
def test_a_removal_ends_the_service(packages: Packages, place: Path, name: str) -> None:
    """Else it would go on without its files, until the watchdog ends it."""
    if name == DESK and desk_folder() is None:
        pytest.skip("the desk is not built")
    subprocess.run(["dpkg-deb", "-e", packages.file(name), place / "control"], check=True)
    script = place / "control" / "prerm"
    subprocess.run(["sh", "-n", script], check=True)
    assert "deb-systemd-invoke stop %s" % UNITS[name] in script.read_text()


@pytest.mark.parametrize("name", ["mireseason-gateway", "mireseason-keeper", DESK])
def test_what_an_operator_edits_stays(packages: Packages, name: str) -> None:
    """Each file below /etc is one that an upgrade asks about, and never writes over."""
    if name == DESK and desk_folder() is None:
        pytest.skip("the desk is not built")
    files = subprocess.run(
        ["dpkg-deb", "-c", packages.file(name)],
        capture_output=True,
        text=True,
        check=True,
    ).stdout
    below = {
        line.split()[5][1:]
        for line in files.splitlines()
        if line.split()[5].startswith("./etc/") and not line.endswith("/")
    }
    conffiles = set(printed("dpkg-deb", "-I", packages.file(name), "conffiles").splitlines())
    assert below == conffiles != set()


def test_links_lead_to_what_is_installed(packages: Packages, place: Path) -> None:
    """Who has the packages alone finds what one page says that stands in another, heading and all."""
    root = place / "root"
    for name in (*PACKAGES, *([DESK] if desk_folder() else [])):
        packages.unpacked(name, root)
    files = {"/" + str(file.relative_to(root)) for file in root.rglob("*")}
    pages = {
        path: Page(path, (root / path[1:]).read_text().splitlines())
        for path in files
        if path.endswith(".md")
    }
    links = [
        (page, link)
        for page in pages.values()
        for _, text in page.prose()
        for link in LINK.findall(CODE.sub("", text))
        if "://" not in link
    ]
    assert {page.path for page, _ in links} == set(pages)
    faults = [
        "%s: %s" % (page.path, fault)
        for page, link in links
        if (fault := fault_of(page, link, pages, files))
    ]
    assert not faults, "\n".join(faults)


def test_pages_and_completions(packages: Packages, place: Path) -> None:
    """A manual page that man reads without a complaint for each program, and completions that bash reads."""
    for name in PACKAGES:
        packages.unpacked(name, place / "root")
    root = place / "root"
    for program in [*root.glob("usr/bin/*"), *root.glob("usr/sbin/*")]:
        assert list(root.glob("usr/share/man/man*/%s.*.gz" % program.name)), (
            "%s has no manual page" % program.name
        )
    for file in root.glob("usr/share/bash-completion/completions/*"):
        subprocess.run(["bash", "-n", file], check=True)
    unit = root / "lib/systemd/system/mireseason-gateway.service"
    assert "Type=notify\n" in unit.read_text() and "WatchdogSec=" in unit.read_text()
