"""How the packages' scripts keep an upgrade from ending a service that could not start again: with stand-ins for what they
call.
"""

import os
import subprocess
from dataclasses import dataclass, field
from pathlib import Path

import pytest

from tests.gateway.wait import LONG
from tests.operating.built_packages import DESK, PACKAGES
from tests.operating.scripts import script_of

OLD, NEW = "1.0", "1.1"
SYSTEMCTL = """#!/bin/sh
case $1 in
show) echo "$PROCESS" ;;
*) echo "systemctl $*" >>"$PLACE/did" ;;
esac
"""
DPKG_QUERY = """#!/bin/sh
printf '%b' "$VERSIONS"
"""
RUNUSER = """#!/bin/sh
echo "runuser $*" >>"$PLACE/did"
shift 3
exec "$@"
"""
# As a gateway that finds a fault in a file with what a terminal would obey; its session is noted.
PROGRAM = """#!/bin/sh
env >"$PLACE/environment"
cut -d ' ' -f 6 /proc/$$/stat >"$PLACE/session"
[ "$FITS" = 0 ] || printf 'credentials.toml: line 7: \\033]0;no\\007 is none\\n' >&2
exit "$FITS"
"""
INVOKE = """#!/bin/sh
echo "$*" >>"$PLACE/did"
exit "$RESTARTS"
"""


@dataclass
class Scene:
    """A host on which a service runs, and what its commands say."""

    place: Path
    service: str
    running: str = ""  # what the process runs; the installed program, if nothing else is said
    told: dict[str, str] = field(default_factory=dict)  # to the stand-ins

    def __post_init__(self) -> None:
        (self.place / "bin").mkdir()
        (self.place / "system").mkdir()
        (self.place / "proc" / "1").mkdir(parents=True)
        stubs = {
            "systemctl": SYSTEMCTL,
            "dpkg-query": DPKG_QUERY,
            "runuser": RUNUSER,
            "deb-systemd-invoke": INVOKE,
            "chown": "#!/bin/sh\n",
            self.service: PROGRAM,
        }
        for name, text in stubs.items():
            for variable, value in self.values.items():
                text = text.replace("$" + variable, value)
            (self.place / "bin" / name).write_text(text)
            (self.place / "bin" / name).chmod(0o755)
        (self.place / "proc/1/exe").symlink_to(self.running or self.program)

    @property
    def values(self) -> dict[str, str]:
        """What the stand-ins say: they are given nothing of this process' environment."""
        usual = {"PROCESS": "1", "FITS": "1", "RESTARTS": "0", "VERSIONS": "1.0\\n1.0\\n"}
        return {"PLACE": str(self.place), **usual, **self.told}

    @property
    def program(self) -> str:
        return str(self.place / "bin" / self.service)

    def run(self, package: str, script: str, *words: str) -> "subprocess.CompletedProcess[str]":
        text = script_of(package, script)
        for old, new in (
            ("/run/systemd/system", str(self.place / "system")),
            ("/proc/", str(self.place / "proc") + "/"),
            ("/usr/bin/" + self.service, self.program),
            ("/etc/%s" % self.service.removesuffix("-gateway"), str(self.place / "etc")),
        ):
            text = text.replace(old, new)
        keys = self.place / "etc" / "keys"
        keys.mkdir(parents=True, exist_ok=True)
        for file in (keys / "seal.key", keys.parent / "gateway.toml"):
            file.touch()
        (self.place / "script").write_text(text)
        environment = {
            "PATH": "%s:%s" % (self.place / "bin", os.environ["PATH"]),
            "DPKG_MAINTSCRIPT_PACKAGE": package,
            "SECRET": "of root's",
        }
        return subprocess.run(
            ["sh", str(self.place / "script"), *words],
            env=environment,
            capture_output=True,
            text=True,
            timeout=LONG,
            check=False,
        )

    @property
    def did(self) -> list[str]:
        file = self.place / "did"
        return file.read_text().splitlines() if file.exists() else []


SERVICES = {**dict.fromkeys(PACKAGES, "mireseason-gateway"), DESK: DESK}


@pytest.mark.parametrize("package", SERVICES)
def test_nothing_is_unpacked_where_a_start_would_fail(place: Path, package: str) -> None:
    """Whichever package comes first: the old program says so, as the service's own user, and away from this terminal."""
    scene = Scene(place, SERVICES[package])
    done = scene.run(package, "preinst", "upgrade", OLD, NEW)
    assert done.returncode == 1, done.stderr
    assert "Nothing was unpacked, and it runs on." in done.stderr
    assert "credentials.toml: line 7: ^[]0;no^G is none" in done.stderr
    assert "\033" not in done.stderr
    user = "mireseason-desk" if package == DESK else "mireseason"
    (looked,) = scene.did
    assert looked.startswith("runuser -u %s -- %s --check " % (user, scene.program))
    assert int((place / "session").read_text()) != os.getsid(0)
    assert "SECRET" not in (place / "environment").read_text()


GOES_ON: dict[str, dict[str, str]] = {
    "the files are right": {"FITS": "0"},
    "it does not run": {"PROCESS": "0"},
}


@pytest.mark.parametrize("case", GOES_ON)
@pytest.mark.parametrize("package", SERVICES)
def test_an_upgrade_goes_on(place: Path, package: str, case: str) -> None:
    scene = Scene(place, SERVICES[package], told=GOES_ON[case])
    done = scene.run(package, "preinst", "upgrade", OLD, NEW)
    assert done.returncode == 0, done.stderr


@pytest.mark.parametrize("package", SERVICES)
def test_the_way_back_is_free(place: Path, package: str) -> None:
    """Where what runs is older than what is installed, which refused to be started: that says nothing of what comes."""
    scene = Scene(place, SERVICES[package], running="/usr/bin/%s (deleted)" % SERVICES[package])
    assert scene.run(package, "preinst", "upgrade", NEW, OLD).returncode == 0
    assert scene.did == []


def test_half_an_upgrade_is_not_asked(place: Path) -> None:
    """A gateway is not asked with another version's program of the venue."""
    scene = Scene(place, "mireseason-gateway", told={"VERSIONS": "1.0\\n1.1\\n"})
    assert scene.run("mireseason-gateway", "preinst", "upgrade", OLD, NEW).returncode == 0


@pytest.mark.parametrize("service", ["mireseason-gateway", DESK])
def test_the_old_process_runs_on_where_the_new_one_would_not_start(
    place: Path, service: str
) -> None:
    """And dpkg fails, and says what to do."""
    scene = Scene(place, service)
    done = scene.run(service, "postinst", "configure", OLD)
    assert done.returncode == 1, done.stderr
    for words in ("runs on", "dpkg --configure -a", "--allow-downgrades", "line 7"):
        assert words in done.stderr, done.stderr
    assert not [line for line in scene.did if line.startswith("try-restart")]


@pytest.mark.parametrize("service", ["mireseason-gateway", DESK])
@pytest.mark.parametrize("status", ["0", "1"])
def test_an_upgrade_restarts_it_with_its_new_unit(place: Path, service: str, status: str) -> None:
    """Where that fails, dpkg fails too."""
    scene = Scene(place, service, told={"FITS": "0", "RESTARTS": status})
    done = scene.run(service, "postinst", "configure", OLD)
    assert done.returncode == int(status), done.stderr
    assert scene.did[0] == "systemctl --system daemon-reload"
    assert scene.did[-1] == "try-restart %s.service" % service
    assert ("journalctl -u %s says why" % service in done.stderr) == (status == "1")


UNTOUCHED: dict[str, tuple[list[str], dict[str, str]]] = {
    "a first configuration": (["configure", ""], {}),
    "an upgrade that was refused": (["abort-upgrade", NEW], {}),
    "one that does not run": (["configure", OLD], {"PROCESS": "0"}),
}


@pytest.mark.parametrize("service", ["mireseason-gateway", DESK])
@pytest.mark.parametrize("case", UNTOUCHED)
def test_what_restarts_nothing(place: Path, service: str, case: str) -> None:
    words, told = UNTOUCHED[case]
    scene = Scene(place, service, told={"FITS": "0", **told})
    done = scene.run(service, "postinst", *words)
    assert done.returncode == 0, done.stderr
    assert scene.did == []
