"""How hard the gateway makes it for somebody who finds a fault in it: the binary, its unit for systemd, and the venue's
process.
"""

import json
import os
import platform
import re
import socket
import subprocess
from pathlib import Path

import pytest

from tests.gateway.stage import Stage, check
from tests.gateway.wait import LONG, until

ROOT = Path(__file__).resolve().parent.parent.parent
UNIT = ROOT / "gateway" / "mireseason-gateway.service"
THRESHOLD = "20"  # tenths: systemd's measure, of which 100 is the worst


def printed(*words: str | Path) -> str:
    return subprocess.run(
        [str(word) for word in words], capture_output=True, text=True, check=True, timeout=LONG
    ).stdout


# ------------------------------------------------------------ the binary


def test_addresses_are_not_known_beforehand(gateway_program: Path) -> None:
    """A position-independent executable."""
    assert re.search(
        r"Type:\s+DYN \(Position-Independent Executable file\)",
        printed("readelf", "-hW", gateway_program),
    )


def test_tables_are_read_only(gateway_program: Path) -> None:
    """Full RELRO: what the loader has filled in is written by nobody after the start; and no stack is run."""
    assert re.search(r"FLAGS_1.*\bNOW\b", printed("readelf", "-dW", gateway_program))
    segments = printed("readelf", "-lW", gateway_program)
    assert "GNU_RELRO" in segments
    assert re.search(r"GNU_STACK .* RW +0x", segments), segments


def is_optimized(program: Path) -> bool:
    """A compiler that optimizes leaves no call of a function that does nothing; what is packaged has no table of these names."""
    return " std::forward<" not in printed("nm", "--demangle", program)


def test_stacks_and_copies_are_checked(gateway_program: Path) -> None:
    symbols = printed("readelf", "--dyn-syms", "-W", gateway_program)
    assert "__stack_chk_fail" in symbols
    if not is_optimized(gateway_program):
        pytest.skip("this gateway is built without optimization: the C library checks no copy")
    assert re.search(r"__(mem|str|read|recv|fd|vsn|snprintf)\w*_chk", symbols), "no copy is checked"


def test_jumps_land_where_a_function_begins(gateway_program: Path) -> None:
    """The gateway's own C++ has the marks of -fcf-protection. (Debian's start files have no such note, so the linker leaves
    it out of the whole binary, and no kernel enforces it.)"""
    if os.uname().machine != "x86_64":
        pytest.skip("this processor has no such marks")
    text = printed("objdump", "-d", "--no-show-raw-insn", "--disassemble=main", gateway_program)
    assert re.search(r"<main>:\n\s*[0-9a-f]+:\s+endbr64", text), text[-300:]


# ------------------------------------------------------------ the unit


def test_exposure_of_the_unit() -> None:
    """By systemd's own measure at most 2.0, of 10."""
    words = [
        "systemd-analyze",
        "security",
        "--offline=true",
        "--no-pager",
        "--threshold=" + THRESHOLD,
        str(UNIT),
    ]
    done = subprocess.run(words, capture_output=True, text=True, check=False, timeout=LONG)
    assert done.returncode == 0, done.stdout[-2000:] + done.stderr


SETTINGS = {
    "CapabilityBoundingSet": "",
    "AmbientCapabilities": "",
    "NoNewPrivileges": "yes",
    "LimitCORE": "0",
    "RestrictNamespaces": "yes",
    "PrivateDevices": "yes",
    "ProtectSystem": "strict",
    "MemoryDenyWriteExecute": "yes",
    "RestartPreventExitStatus": "2 3",
}


def test_settings_of_the_unit() -> None:
    """No capability, no core, no namespaces, a limit of memory; and adjtimex, by which the clock is asked, is left."""
    pairs = [
        line.split("=", 1)
        for line in UNIT.read_text().splitlines()
        if "=" in line and not line.startswith("#")
    ]
    found = dict(pairs)
    assert {key: found.get(key) for key in SETTINGS} == SETTINGS
    assert re.fullmatch(r"\d+G", found["MemoryMax"])
    assert "ProtectClock" not in found
    calls = [value for key, value in pairs if key == "SystemCallFilter"]
    assert "adjtimex" in calls[0].split() and not calls[0].startswith("~")
    # The operator's socket is given to its group: chown stands among the privileged calls, which are taken away before.
    assert "@privileged" in calls[1] and {"chown", "fchownat"} <= set(calls[-1].split())


# ------------------------------------------------------------ the venue's process

CALL = """
import ctypes, os
libc = ctypes.CDLL(None, use_errno=True)
def call(function, *words):
    if function(*words) < 0:
        raise OSError(ctypes.get_errno(), os.strerror(ctypes.get_errno()))
"""

# Each tries something, and prints `done` where that went well.
TRIES = {
    "reads a key": "open({key!r}).read()",
    "reads the log": "open({log!r}, 'rb').read(1)",
    "reads a file of the system": "open('/etc/passwd').read()",
    "writes a file": "open({new!r}, 'w')",
    "connects by TCP": "import socket; socket.create_connection(('127.0.0.1', {port}), 2)",
    "has a local socket": "import socket; socket.socket(socket.AF_UNIX)",
    "signals its gateway": "import os, signal; os.kill(os.getppid(), 0)",
    "reads its gateway's memory": "import os; open('/proc/%d/mem' % os.getppid(), 'rb').read(0)",
    "lists a folder": "import os; os.listdir({folder!r})",
    "cuts the log": "import os; os.truncate({log!r}, 0)",
    "lets others read a key": "import os; os.chmod({key!r}, 0o666)",
    "gives a key away": "import os; os.chown({key!r}, os.getuid(), os.getgid())",
    "changes a file's times": "import os; os.utime({key!r}, (1, 1))",
    "marks a file": "import os; os.setxattr({key!r}, 'user.mark', b'x')",
    # What has left the gateway's group of processes is killed by nobody.
    "leaves its group": "import os; os.setpgid(0, 0)",
    "begins a session": CALL + "if not os.fork(): call(libc.setsid)\nelse: os.wait(); os._exit(0)",
    # Each leaves its parent as it is, should it go well.
    "queues a signal": CALL + "call(libc.sigqueue, os.getppid(), 0, 0)",
    "has its gateway told by a pipe": "import fcntl, os; fcntl.fcntl(os.pipe()[0], fcntl.F_SETOWN, os.getppid())",
    "limits its gateway": "import os, resource; resource.prlimit(os.getppid(), resource.RLIMIT_NOFILE)",
    "slows its gateway": "import os; os.setpriority(os.PRIO_PROCESS, os.getppid(), os.getpriority(os.PRIO_PROCESS, os.getppid()))",
    "moves its gateway": "import os; os.sched_setaffinity(os.getppid(), os.sched_getaffinity(os.getppid()))",
    "listens on a socket that it has": "import socket; socket.socket(fileno=0).listen()",
    "takes a connection of it": "import socket; own = socket.socket(fileno=0); own.setblocking(False); own.accept()",
}
# And what it has to be able to do.
NEEDS = {
    "reads its libraries": "import json, decimal",
    "reads its own file": "open({own!r}).read()",
    "raises a signal": "import os; os.kill(os.getpid(), 0)",
    "has its own limits": "import resource; resource.setrlimit(resource.RLIMIT_CORE, (0, 0))",
    "has threads": "import threading; one = threading.Thread(target=len, args=('',)); one.start(); one.join()",
    "asks about its own files": "import fcntl; fcntl.fcntl(0, fcntl.F_GETFL)",
}


def outcome(gateway_program: Path, place: Path, text: str) -> str:
    """What a confined program prints that does this, on a folder with keys and a log; its input is a socket that listens."""
    own = place / "program"
    own.mkdir(exist_ok=True)
    script = own / "tried.py"
    values = {
        "key": str(place / "seal.key"),
        "log": str(place / "day.db"),
        "new": str(own / "new"),
        "port": 1,
        "folder": str(place),
        "own": str(script),
    }
    script.write_text(text.format(**values) + "\nprint('done')\n")
    words = [gateway_program, "--confined", "/usr/bin/python3", "-B", script]
    with socket.create_server(("127.0.0.1", 0)) as listening:
        run = subprocess.run(
            [str(word) for word in words],
            stdin=listening.fileno(),
            capture_output=True,
            text=True,
            check=False,
            timeout=LONG,
        )
    return run.stdout.strip() or run.stderr.strip().splitlines()[-1]


@pytest.mark.parametrize("what", TRIES)
def test_what_a_venue_can_not_do(gateway_program: Path, place: Path, what: str) -> None:
    (place / "seal.key").write_text("secret")
    (place / "day.db").write_text("log")
    said = outcome(gateway_program, place, TRIES[what])
    assert re.match(r"(PermissionError|OSError: \[Errno 1\])", said), said


# The calls of the system by which a process has sockets, reaches others, leaves its group, changes what a file is marked with, or
# the machine: by the names that Linux gives them.
CALLS = """
    socket socketpair bind listen accept accept4 connect io_uring_setup io_uring_enter io_uring_register
    ptrace process_vm_readv process_vm_writev pidfd_open pidfd_getfd pidfd_send_signal tkill rt_sigqueueinfo rt_tgsigqueueinfo kcmp
    setpgid setsid setpriority ioprio_set sched_setparam sched_setscheduler sched_setattr sched_setaffinity migrate_pages move_pages
    keyctl add_key request_key bpf perf_event_open userfaultfd mount umount2 pivot_root chroot unshare setns
    name_to_handle_at open_by_handle_at init_module finit_module delete_module kexec_load reboot swapon swapoff
    settimeofday clock_settime adjtimex clock_adjtime sethostname acct msgget semget shmget mq_open
    truncate fchmod fchmodat fchown fchownat utimensat setxattr lsetxattr fsetxattr removexattr lremovexattr fremovexattr
    chmod chown lchown utime utimes futimesat
"""
# Prints those of some calls that are not refused as what is not permitted. No argument of any has a meaning.
CALLED = """
import ctypes
libc = ctypes.CDLL(None, use_errno=True)
for name, number in %r:
    ctypes.set_errno(0)
    if libc.syscall(number, *[ctypes.c_long(-1)] * 6) != -1 or ctypes.get_errno() != 1:
        print(name)
"""


def numbers_of_calls() -> dict[str, int]:
    header = Path("/usr/include/x86_64-linux-gnu/asm/unistd_64.h").read_text()
    return {name: int(number) for name, number in re.findall(r"#define __NR_(\w+) (\d+)", header)}


@pytest.mark.skipif(platform.machine() != "x86_64", reason="the numbers are those of x86-64")
def test_calls_that_a_venue_can_not_make(gateway_program: Path, place: Path) -> None:
    numbers = numbers_of_calls()
    tried = [(name, numbers[name]) for name in CALLS.split()]
    assert outcome(gateway_program, place, CALLED % tried) == "done"


@pytest.mark.parametrize("what", NEEDS)
def test_what_a_venue_needs(gateway_program: Path, place: Path, what: str) -> None:
    assert outcome(gateway_program, place, NEEDS[what]) == "done"


def test_the_venue_of_a_gateway_is_confined(stage: Stage) -> None:
    """It can get no privilege, its calls are filtered, it leaves no core, and the day goes as ever."""
    stage.open(*stage.firms)
    until("there is a venue", LONG, lambda: bool(stage.door.venues()))
    process = Path("/proc/%d" % stage.door.venues()[0])
    status = (process / "status").read_text()
    for line in ("NoNewPrivs:\t1", "Seccomp:\t2"):
        check(line in status, "%s is not so: %s" % (line, status))
    limits = (process / "limits").read_text()
    check(re.search(r"Max core file size +0 +0 ", limits), "it may leave a core: %s" % limits)
    stage.auction()
    stage.whole()


def sockets_of(pid: int) -> list[str]:
    """What of a process's descriptors are sockets; none of one that has ended."""
    try:
        names = [os.readlink(each) for each in Path("/proc/%d/fd" % pid).iterdir()]
    except FileNotFoundError:
        return []
    return [name for name in names if name.startswith("socket:")]


def test_a_venue_inherits_no_socket(stage: Stage) -> None:
    """Neither the gateway's listening ones nor a connection that is open when it is started again."""
    stage.open(stage.dealer)
    with socket.create_connection(("127.0.0.1", stage.door.metrics), timeout=LONG):
        stage.counters()  # so the connection before has been taken
        before = stage.door.venues()
        stage.door.kill_venue()
        until(
            "another venue is there",
            LONG,
            lambda: any(pid not in before for pid in stage.door.venues()),
        )
        stage.ping(stage.dealer)
        found = {pid: sockets_of(pid) for pid in stage.door.venues()}
    check(not any(found.values()), "a venue has sockets: %r" % found)


# ------------------------------------------------------------ what a venue knows of its gateway's environment

PASSWORD = "known to the gateway alone"
# Says whether it has the gateway's password and may read its key: as its version, and as what is wrong with a configuration.
NOSY = """#!/bin/sh
said="password=${PGPASSWORD:-none} key=$( (: <'%s') 2>/dev/null && echo read || echo refused)"
echo "$said"
echo "$said" >&2
test "$1" = --version
"""


def variables_of(pid: int) -> dict[str, str]:
    """What a process was started with."""
    pairs = Path("/proc/%d/environ" % pid).read_bytes().decode().split("\0")
    return {name: value for name, _, value in (pair.partition("=") for pair in pairs if pair)}


def test_a_venue_has_no_variable_but_path(stage: Stage) -> None:
    """What its gateway has beside, such as a password of PostgreSQL, is not for it."""
    stage.door.environment["PGPASSWORD"] = PASSWORD
    stage.open(stage.dealer)
    check("PGPASSWORD" in variables_of(stage.door.running.pid), "the gateway has no password")
    until("there is a venue", LONG, lambda: bool(stage.door.venues()))
    found = variables_of(stage.door.venues()[0])
    check(found == {"PATH": os.environ["PATH"]}, "the venue has %r" % found)


def nosy_program(stage: Stage) -> Path:
    """The program NOSY, in a folder of its own."""
    program = stage.folder / "nosy" / "program"
    program.parent.mkdir()
    program.write_text(NOSY % (stage.door.keys / "seal.key"))
    program.chmod(0o755)
    return program


def with_lines(stage: Stage, lines: dict[str, str]) -> None:
    """Puts keys into [venue] of the gateway's configuration, each in the place of the line that has it."""
    file = stage.folder / "gateway.toml"
    kept = [each for each in file.read_text().splitlines() if each.split(" = ")[0] not in lines]
    at = kept.index("[venue]") + 1
    kept[at:at] = ["%s = %s" % item for item in lines.items()]
    file.write_text("\n".join(kept) + "\n")


def checked(stage: Stage) -> subprocess.CompletedProcess[str]:
    """What --check says of the configuration, with the gateway's environment."""
    return subprocess.run(
        [str(stage.door.programs.gateway), "--check", str(stage.folder / "gateway.toml")],
        env={**os.environ, **stage.door.environment},
        capture_output=True,
        text=True,
        check=False,
        timeout=LONG,
    )


# The line of [venue], and what the program finds: by itself it is confined.
CONFINED: dict[str, tuple[dict[str, str], str]] = {
    "confined": ({}, "password=none key=refused"),
    "not confined": ({"confined": "false"}, "password=%s key=read" % PASSWORD),
}


@pytest.mark.parametrize("how", CONFINED)
def test_a_program_that_says_its_version_is_confined(stage: Stage, how: str) -> None:
    """As the venue is: and `confined = false` leaves it what the gateway has."""
    lines, expected = CONFINED[how]
    stage.door.environment["PGPASSWORD"] = PASSWORD
    stage.door.write()
    with_lines(stage, {"program": json.dumps(str(nosy_program(stage))), **lines})
    stage.door.start()
    stage.door.wait_open()
    venues = [name for name in stage.counters() if name.startswith("mireseason_venue_info{")]
    check(any(expected in name for name in venues), "it said %r" % venues)


@pytest.mark.parametrize("how", CONFINED)
def test_a_program_that_is_given_a_configuration_is_confined(stage: Stage, how: str) -> None:
    """Before a day, by --check and by a start."""
    lines, expected = CONFINED[how]
    stage.door.environment["PGPASSWORD"] = PASSWORD
    stage.door.write()
    with_lines(stage, {"command": json.dumps([str(nosy_program(stage))]), **lines})
    found = checked(stage)
    check(found.returncode == 1 and expected in found.stderr, repr(found))
    stage.door.start()
    check(stage.door.wait_end() == 1, "it does not end")
    check(expected in stage.door.last_words(), stage.door.last_words())


def test_a_fault_is_told_on_a_kernel_without_landlock(stage: Stage) -> None:
    """What a confined program begins with there is none of its own words."""
    program = stage.folder / "strict"
    lines = ("this kernel has no Landlock: it may read any file of its user", "config: Limit")
    told = "".join("echo '%s' >&2\n" % line for line in lines)
    program.write_text("#!/bin/sh\ncat >/dev/null\n%sexit 1\n" % told)
    program.chmod(0o755)
    stage.door.write()
    with_lines(stage, {"command": json.dumps([str(program)])})
    found = checked(stage)
    expected = "ended with status 1: config: Limit\n"
    check(found.returncode == 1 and found.stderr.endswith(expected), repr(found))
