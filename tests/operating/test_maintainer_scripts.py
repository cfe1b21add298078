"""What the packages' scripts leave if they are killed, and what the next configuration makes of that."""

import os
import shutil
import subprocess
from collections.abc import Callable
from dataclasses import dataclass
from pathlib import Path

import pytest

from tests.gateway.wait import LONG
from tests.harness.options import ROOT
from tests.operating.scripts import script_of
from tests.operating.test_removal import Host

# Each command of a script, of which the one that is said is never run: the script is killed there.
COMMANDS = ("rm", "mkdir", "cp", "openssl", "mireseason-gateway", "chown", "chmod", "mv", "rmdir")
WRAPPER = """#!/bin/sh
echo >>"$PLACE/calls"
[ "$(wc -l <"$PLACE/calls")" != "$DIES_AT" ] || { kill -9 "$PPID"; exit 1; }
exec %s "$@"
"""
# No user of these packages is there: what would have an owner is noted.
CHOWN = """#!/bin/sh
shift
stat -c %i "$@" >>"$PLACE/owned"
"""
CONFIG = str(ROOT / "install" / "packages" / "config")
MANY = 24  # more than a script has commands


@dataclass(frozen=True)
class Script:
    package: str
    folder: str  # of its configuration
    keys: str  # where its keys are, below that
    secret: str  # what others may not read of the configuration
    modes: dict[str, int]


SCRIPTS = [
    Script(
        "mireseason-gateway",
        "/etc/mireseason",
        "keys",
        "credentials.toml",
        {"seal.key": 0o640, "gateway.pem": 0o640, "gateway.pub": 0o644},
    ),
    Script(
        "mireseason-keeper",
        "/etc/mireseason-keeper",
        "",
        "keeper.toml",
        {"seal.pem": 0o640, "seal.pub": 0o644},
    ),
]


@dataclass
class Configured:
    """A script whose folder and commands are a test's own."""

    script: Script
    place: Path

    def __post_init__(self) -> None:
        self.etc.mkdir()
        (self.etc / self.script.secret).touch(0o644)
        (self.place / "bin").mkdir()
        text = script_of(self.script.package, "postinst")
        text = text.replace(self.script.folder, str(self.etc))
        (self.place / "postinst").write_text(text.replace("/usr/share/mireseason/config", CONFIG))

    @property
    def etc(self) -> Path:
        return self.place / "etc"

    @property
    def folder(self) -> Path:
        return self.etc / self.script.keys

    def wrap(self, name: str, program: str) -> None:
        file = self.place / "bin" / name
        file.write_text(WRAPPER % program)
        file.chmod(0o755)

    def run(self, dies_at: int) -> int:
        """The number of commands that it began."""
        calls = self.place / "calls"
        calls.write_text("")
        environment = {
            "PATH": "%s:%s" % (self.place / "bin", os.environ["PATH"]),
            "PLACE": str(self.place),
            "DIES_AT": str(dies_at),
        }
        words = ["sh", str(self.place / "postinst"), "configure"]
        done = subprocess.run(
            words,
            env=environment,
            umask=0o077,  # an administrator's, under which dpkg may be called
            capture_output=True,
            text=True,
            timeout=LONG,
            check=False,
        )
        began = len(calls.read_text())
        assert (done.returncode == 0) == (dies_at not in range(1, began + 1)), done.stderr
        return began

    def check(self) -> None:
        """All keys are there, of their owner and mode, and nothing else is; and nobody else reads the configuration's secrets, without
        systemd-tmpfiles, which these tests do not run."""
        names = {path.name for path in self.folder.iterdir() if "~" not in path.name}
        assert names - {self.script.secret} == set(self.script.modes)
        owned = (self.place / "owned").read_text().split()
        for path, bits in ((self.etc, 0o750), (self.etc / self.script.secret, 0o640)):
            assert path.stat().st_mode & 0o777 == bits and str(path.stat().st_ino) in owned, path
        for name, mode in self.script.modes.items():
            found = (self.folder / name).stat()
            assert found.st_mode & 0o777 == mode and str(found.st_ino) in owned, name
        private, public = (self.folder / name for name in sorted(self.script.modes)[:2])
        assert public_half(private) == public.read_text()


def public_half(private: Path) -> str:
    words = ["openssl", "pkey", "-in", str(private), "-pubout"]
    return subprocess.run(words, capture_output=True, text=True, check=True, timeout=LONG).stdout


Configure = Callable[[Path], Configured]


@pytest.fixture(params=SCRIPTS, ids=[script.package for script in SCRIPTS])
def configure(request: pytest.FixtureRequest, gateway_program: Path) -> Configure:
    def made(place: Path) -> Configured:
        place.mkdir()
        configured = Configured(request.param, place)
        (place / "chown").write_text(CHOWN)
        (place / "chown").chmod(0o755)
        programs = {"mireseason-gateway": str(gateway_program), "chown": str(place / "chown")}
        for name in COMMANDS:
            configured.wrap(name, programs.get(name) or str(shutil.which(name)))
        return configured

    return made


def test_a_script_that_is_killed_is_made_good(configure: Configure, place: Path) -> None:
    """At each of its commands: the next configuration leaves all keys, of whom they should be."""
    for at in range(1, MANY):
        configured = configure(place / str(at))
        was_killed = configured.run(at) >= at
        configured.run(0)
        configured.check()
        if not was_killed:
            return
    raise AssertionError("it has more commands than that")


def test_a_gateways_own_configuration_stays(configure: Configure, place: Path) -> None:
    """A new one has what is installed; an upgrade changes nothing of it, also where nobody has edited it."""
    configured = configure(place / "there")
    configured.run(0)
    file = configured.etc / "gateway.toml"
    if configured.script.package != "mireseason-gateway":
        assert not file.exists()
        return
    assert file.read_text() == Path(CONFIG, "gateway.toml").read_text()
    assert file.stat().st_mode & 0o777 == 0o644
    file.write_text("[venue]\n")
    configured.run(0)
    assert file.read_text() == "[venue]\n"


def test_keys_that_are_there_stay(configure: Configure, place: Path) -> None:
    """A configuration makes none anew; and a public half without a secret is kept beside the new one."""
    configured = configure(place / "there")
    configured.run(0)
    before = {path.name: path.read_bytes() for path in configured.folder.iterdir()}
    configured.run(0)
    assert {path.name: path.read_bytes() for path in configured.folder.iterdir()} == before
    (secret,) = {"seal.key", "seal.pem"} & before.keys()
    (public,) = {"gateway.pub", "seal.pub"} & before.keys()
    (configured.folder / secret).unlink()
    configured.run(0)
    configured.check()
    assert (configured.folder / (public + ".~1~")).read_bytes() == before[public]


# Of each package: whose group may read its configuration, what of it nobody else may read, and what is there so that no key is made.
READERS = {
    "mireseason-gateway": ("mireseason", "etc/mireseason/credentials.toml", "keys/seal.key"),
    "mireseason-keeper": ("mireseason-keeper", "etc/mireseason-keeper/keeper.toml", "seal.pem"),
    "mireseason-desk": ("mireseason-desk", "etc/mireseason-desk/desk.toml", "desk.toml"),
}
TELLING_CHOWN = '#!/bin/sh\necho "$*" >>"%s"\n'


def host_of(place: Path, package: str) -> tuple[Host, Path]:
    """A host with a package's configuration that everybody may read, and its secret file."""
    host, (_, secret, key) = Host(place), READERS[package]
    host.has(secret, str(Path(secret).parent / key), str(Path(secret).with_name("gateway.toml")))
    (place / "chown").write_text(TELLING_CHOWN % (place / "owned"))
    (place / "chown").chmod(0o755)
    for path in (place / secret, (place / secret).parent):
        path.chmod(0o777)
    return host, place / secret


@pytest.mark.parametrize("package", READERS)
def test_a_secret_that_others_could_read(place: Path, package: str) -> None:
    """Of an older version, or made by hand: after a configuration its service alone reads it."""
    host, secret = host_of(place, package)
    owner = "root:" + READERS[package][0]
    host.run(package, "postinst", "abort-upgrade", "1.1")
    assert not (place / "owned").exists() and secret.stat().st_mode & 0o777 == 0o777
    host.run(package, "postinst", "configure")
    owned = (place / "owned").read_text().splitlines()
    assert owned == ["%s %s" % (owner, path) for path in (secret.parent, secret)]
    assert [path.stat().st_mode & 0o777 for path in (secret.parent, secret)] == [0o750, 0o640]


@pytest.mark.parametrize("package", READERS)
def test_a_link_in_the_place_of_a_secret(place: Path, package: str) -> None:
    """Whoever put it there has no file elsewhere given to the service; and one that is not there is not made."""
    host, secret = host_of(place, package)
    secret.rename(place / "elsewhere")
    secret.symlink_to(place / "elsewhere")
    host.run(package, "postinst", "configure")
    assert (place / "elsewhere").stat().st_mode & 0o777 == 0o777
    assert len((place / "owned").read_text().splitlines()) == 1
    secret.unlink()
    host.run(package, "postinst", "configure")
    assert not secret.exists()


def test_a_configuration_that_is_a_link(place: Path) -> None:
    """An operator's link to a file that is away for a moment stays."""
    host, secret = host_of(place, "mireseason-gateway")
    file = secret.with_name("gateway.toml")
    file.unlink()
    file.symlink_to(place / "away")
    host.run("mireseason-gateway", "postinst", "configure")
    assert file.is_symlink() and not file.exists()


def fits(place: Path, program: str) -> subprocess.CompletedProcess[str]:
    """What `service_fits` makes of this program, by a user who is nobody else here."""
    (place / "bin").mkdir()
    for name, text in (("runuser", '#!/bin/sh\nshift 3\nexec "$@"\n'), ("checks", program)):
        (place / "bin" / name).write_text(text)
        (place / "bin" / name).chmod(0o755)
    script = (ROOT / "debian" / "service-fits.sh").read_text() + "service_fits nobody checks\n"
    environment = {"PATH": "%s:%s" % (place / "bin", os.environ["PATH"]), "TMPDIR": str(place)}
    return subprocess.run(
        ["sh", "-c", script],
        env=environment,
        capture_output=True,
        text=True,
        timeout=LONG,
        check=False,
    )


def test_what_a_check_leaves_behind_holds_up_no_upgrade(place: Path) -> None:
    """It keeps what it was given to write to for as long as this test runs, in a session of its own: dpkg goes on, and waits for what was asked
    alone."""
    os.mkfifo(place / "ends")
    program = '#!/bin/sh\nsetsid sh -c \'read -r line <"$0"\' "%s" &\necho right\n'
    done = fits(place, program % (place / "ends"))
    assert done.returncode == 0 and not done.stderr, done
    assert {path.name for path in place.iterdir()} == {"bin", "ends"}
    with (place / "ends").open("w") as file:
        file.write("now\n")


def test_what_a_check_says_is_not_kept_whole(place: Path) -> None:
    """A line without an end is cut, and root's files are gone again."""
    done = fits(place, "#!/bin/sh\nyes | tr -d '\\n' | head -c 9000000\nexit 1\n")
    assert done.returncode == 1 and len(done.stderr) <= 502, len(done.stderr)
    assert [path.name for path in place.iterdir()] == ["bin"]
