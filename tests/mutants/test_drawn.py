"""What the mutator changes in each language, what it leaves out, and that the same seed draws the same changes."""

import json
import os
import subprocess
import sys
from collections.abc import Iterable
from dataclasses import dataclass
from pathlib import Path

import pytest

from tests.harness.options import ROOT
from tests.mutants.drawn.__main__ import draw, table
from tests.mutants.drawn.change import Change, Kind
from tests.mutants.drawn.cpp_bodies import bodies
from tests.mutants.drawn.cpp_changes import cpp_changes
from tests.mutants.drawn.javascript_changes import javascript_changes
from tests.mutants.drawn.javascript_passes import lines_run, recorded
from tests.mutants.drawn.left_out import FILE, read_left_out
from tests.mutants.drawn.parts import PARTS, words_for_clang
from tests.mutants.drawn.passes import Passes, prepare, python_lines
from tests.mutants.drawn.python_changes import python_changes
from tests.mutants.drawn.recorder import HERE as RECORDING
from tests.mutants.drawn.recorder import NODE
from tests.mutants.drawn.recorder import marks_name
from tests.mutants.drawn.recording.sitecustomize import CURRENT, FOLDER
from tests.mutants.drawn.remembered import (
    MOST,
    Remembered,
    functions,
    is_there,
    read_remembered,
    summed,
)
from tests.mutants.drawn.shell_changes import shell_changes
from tests.mutants.drawn.together import ANY, NAMED, together
from tests.mutants.drawn.trial import Trial, Tried, Verdict
from tests.mutants.nursery import Nursery

# A text, a kind of mistake, and each text that it makes of it.
PYTHON = [
    ("if a:\n    b()\n", Kind.NEGATED, ["if not (a):\n    b()\n"]),
    ("if a:\n    b()\n", Kind.CALL_DROPPED, ["if a:\n    pass\n"]),
    ("x = a and b\n", Kind.CONDITION_DROPPED, ["x = True and b\n", "x = a and True\n"]),
    ("x = a or b\n", Kind.CONDITION_DROPPED, ["x = False or b\n", "x = a or False\n"]),
    ("x = a < b <= c\n", Kind.BOUND, ["x = a <= b <= c\n", "x = a < b < c\n"]),
    ("x = y[2]\n", Kind.BOUND, ["x = y[3]\n"]),
    ("x = True\n", Kind.BOUND, []),
    ("x = y[0]\n", Kind.OPPOSITE, ["x = y[-1]\n"]),
    ("x = min(a)\n", Kind.OPPOSITE, ["x = max(a)\n"]),
    ("f(a, b, 1)\n", Kind.ARGUMENTS, ["f(b, a, 1)\n"]),
    ("raise A\n", Kind.STATEMENT_DROPPED, ["pass\n"]),
    ("a.b = c\n", Kind.STATEMENT_DROPPED, ["pass\n"]),
    ("a = c\n", Kind.STATEMENT_DROPPED, []),
    ("x = [a, b]\n", Kind.ENTRY, ["x = [b]\n", "x = [a]\n"]),
    ("x = [a]\n", Kind.ENTRY, []),
    ("x = (a, b, c)\n", Kind.ENTRY, ["x = (b, c)\n", "x = (a, c)\n", "x = (a, b)\n"]),
    ("def f(a: tuple[b, c, d]) -> tuple[b, c, d]:\n    pass\n", Kind.ENTRY, []),
    ("X = Callable[[a, b], c]\n", Kind.ENTRY, []),
    (
        "def f(a: b = [c, d]) -> None:\n    pass\n",
        Kind.ENTRY,
        [
            "def f(a: b = [d]) -> None:\n    pass\n",
            "def f(a: b = [c]) -> None:\n    pass\n",
        ],
    ),
    (
        "def f() -> None:\n    a()\n    if b:\n        c()\n",
        Kind.EARLY,
        ["def f() -> None:\n    a()\n    return\n    if b:\n        c()\n"],
    ),
    ("def f() -> None:\n    a()\n    return None\n", Kind.EARLY, []),
    (
        "class A:\n    b: int\n    c: int\n    d: str\n    def e(self) -> int:\n        return self.b\n",
        Kind.MEMBER,
        [
            "class A:\n    b: int\n    c: int\n    d: str\n    def e(self) -> int:\n        return self.c\n"
        ],
    ),
    ("größe = [ä, ö]\n", Kind.ENTRY, ["größe = [ö]\n", "größe = [ä]\n"]),
]
CPP_HEAD = "struct A { int b; int c; bool d; void e(int, int); bool f() const; };\n"
CPP = [
    ("void g(A& a) { if (a.f()) a.e(1, 2); }", Kind.NEGATED, ["if (!(a.f())) a.e(1, 2);"]),
    ("void g(A& a) { a.e(a.b, a.c); }", Kind.CALL_DROPPED, ["{ ; }"]),
    ("void g(A& a) { a.e(a.b, a.c); }", Kind.ARGUMENTS, ["a.e(a.c, a.b)"]),
    (
        "void g(A& a) { a.b = 0; a.c = 0; }",
        Kind.STATEMENT_DROPPED,
        ["{ ; a.c = 0; }", "{ a.b = 0; ; }"],
    ),
    ("void g(A& a) { a.b = 0; a.c = 0; }", Kind.EARLY, ["a.b = 0; return; a.c = 0;"]),
    ("bool g(A& a) { return a.b < a.c; }", Kind.BOUND, ["a.b <= a.c"]),
    (
        "bool g(A& a) { return a.d && a.f(); }",
        Kind.CONDITION_DROPPED,
        ["true && a.f()", "a.d && true"],
    ),
    ("int g(A& a) { return a.b; }", Kind.MEMBER, ["a.c"]),
    ("int g(A& a) { return a.b + 2; }", Kind.BOUND, ["a.b + 3"]),
    ("bool operator==(A, A); bool g(A a, A b) { return a == b; }", Kind.ARGUMENTS, []),
    ("A operator-(A, A); A g(A a, A b) { return a - b; }", Kind.ARGUMENTS, ["b - a"]),
]
JAVASCRIPT = [
    ("if (a) b();", Kind.NEGATED, ["if (!(a)) b();"]),
    ("if (a) b();", Kind.CALL_DROPPED, ["if (a) ;"]),
    ("x = a && b;", Kind.CONDITION_DROPPED, ["x = true && b;", "x = a && true;"]),
    ("x = a < b;", Kind.BOUND, ["x = a <= b;"]),
    ("x = f(a, b);", Kind.ARGUMENTS, ["x = f(b, a);"]),
    ("x = [a, b];", Kind.ENTRY, ["x = [b];", "x = [a];"]),
    ("x = Math.max(a);", Kind.OPPOSITE, ["x = Math.min(a);"]),
    ("'ä'; x = 7;", Kind.BOUND, ["'ä'; x = 8;"]),
    ("function f() { a(); b(); }", Kind.EARLY, ["function f() { a(); return; b(); }"]),
    ("function f() { a(); return b; }", Kind.EARLY, []),
]
SHELL = [
    ("if a; then\n    b\nfi\n", Kind.NEGATED, ["if ! a; then\n    b\nfi\n"]),
    ("if ! a; then\n    b\nfi\n", Kind.NEGATED, ["if a; then\n    b\nfi\n"]),
    ("a || b\n", Kind.NEGATED, ["a && b\n"]),
    ("f() {\n    a b\n}\n", Kind.CALL_DROPPED, ["f() {\n    :\n}\n"]),
    ("a \\\n    b c\n", Kind.CALL_DROPPED, []),
    ("[ a -lt b ]\n", Kind.BOUND, ["[ a -le b ]\n"]),
]


def made(changes: list[Change], text: bytes, kind: Kind) -> list[str]:
    return [change.applied(text).decode() for change in changes if change.kind is kind]


@pytest.mark.parametrize("text, kind, wanted", PYTHON)
def test_python(text: str, kind: Kind, wanted: list[str]) -> None:
    assert made(python_changes("x.py", text.encode()), text.encode(), kind) == wanted


@pytest.mark.parametrize("body, kind, wanted", CPP)
def test_cpp(body: str, kind: Kind, wanted: list[str], place: Path) -> None:
    """Each mutant has the text that is wanted in the body's place."""
    file = place / "x.cpp"
    text = (CPP_HEAD + body + "\n").encode()
    file.write_bytes(text)
    found = made(cpp_changes("x.cpp", str(file), ["-std=c++20"]), text, kind)
    found = [mutant for mutant in found if mutant.startswith(CPP_HEAD)]
    assert len(found) == len(wanted)
    assert all(any(words in mutant for mutant in found) for words in wanted), found


@pytest.mark.parametrize("text, kind, wanted", JAVASCRIPT)
def test_javascript(text: str, kind: Kind, wanted: list[str], place: Path) -> None:
    file = place / "x.js"
    file.write_text(text)
    assert made(javascript_changes("x.js", str(file)), text.encode(), kind) == wanted


@pytest.mark.parametrize("text, kind, wanted", SHELL)
def test_shell(text: str, kind: Kind, wanted: list[str]) -> None:
    assert made(shell_changes("x.sh", text.encode()), text.encode(), kind) == wanted


def test_what_nobody_sees_is_left_out(place: Path) -> None:
    """By the line that a change begins on; what was shown to be equal is known whatever line it moves to."""
    file = place / "left_out.toml"
    file.write_text(
        "[[line]]\nhas = 'reserve'\nwhy = 'memory'\n"
        "[[equal]]\nfile = 'x.py'\nold = 'a'\nnew = 'not (a)'\nwhy = 'it is asked again'\n"
    )
    text = b"# a line\nif a:\n    b.reserve(2)\n"
    left_out, changes = read_left_out(file), python_changes("x.py", text)
    gone = [change for change in changes if left_out.has(change, text)]
    assert {change.line for change in gone} == {3}
    assert [change.kind for change in changes if left_out.is_equal(change, text)] == [Kind.NEGATED]


def test_what_is_equal_on_one_line_alone(place: Path) -> None:
    """Where the same words stand on another line, too, an entry has a part of its own."""
    file = place / "left_out.toml"
    entry = (
        "[[equal]]\nfile = 'x.py'\nold = '[0]'\nnew = '[-1]'\nline = 'same'\nwhy = 'it has one'\n"
    )
    file.write_text(entry)
    text = b"a = same[0]\nb = other[0]\n"
    left_out, changes = read_left_out(file), python_changes("x.py", text)
    assert [change.line for change in changes if left_out.is_equal(change, text)] == [1]


def test_each_entry_has_its_reason(place: Path) -> None:
    assert read_left_out(FILE).lines
    file = place / "left_out.toml"
    file.write_text("[[line]]\nhas = 'reserve'\nwhy = ''\n")
    with pytest.raises(AssertionError):
        read_left_out(file)


SCRIPT = """export function f(a) {
  if (a) {
    return 1;
  }
  return 2;
}
export const g = () => {
  f(1);
};
"""


def test_lines_of_javascript(place: Path) -> None:
    """As node records them: a block that did not run is none of the test's."""
    (place / "x.mjs").write_text(SCRIPT)
    words = ["node", "--input-type=module", "-e", "import {f} from '%s/x.mjs'; f(0);" % place]
    subprocess.run(words, env={**os.environ, NODE: str(place / "ran")}, check=True)
    ((_, ranges),) = (one for one in recorded(place / "ran") if one[0] == "x.mjs")
    assert list(lines_run(SCRIPT, ranges)) == [1, 2, 5, 6, 7]


def test_the_seed_decides() -> None:
    """The same seed draws the same; another one others; each once."""
    parts = [part for part in PARTS if part.name in ("audit", "keeper", "scripts")]
    first, again, other = (list(draw(parts, 12, seed, None)) for seed in (1, 1, 2))
    assert first == again and first != other
    assert len({one.change for one in first}) == 12
    assert list(draw(parts, 12, 1, set())) == []


def test_every_part_has_files_and_tests() -> None:
    for part in PARTS:
        assert part.paths() and part.modules(), part.name


CPP_FUNCTIONS = """namespace a {
#define B {
struct C {
    C() : d{1}, e([] { return 2; }()) {}
    int f(int n = 1) const { return n; } // {
    int d, e;
    int j[sizeof(int)]{};
};
constexpr int g() { return 3; }
const char *const h[] = {"{", "}"};
template <typename T = int> T i(T n) {
    return n > 1'000 ? '{' : n;
}
bool operator==(const C &, const C &) { return true; }
} // namespace a
"""


def test_functions_of_cpp_are_found_by_their_brackets() -> None:
    """None within another, none that a compiler calls, and no list of values."""
    found = [(body.name, body.line, body.last) for body in bodies(CPP_FUNCTIONS.encode())]
    wanted = [("C", 4, 4), ("f", 5, 5), ("i", 11, 13), ("operator", 14, 14)]
    assert found == wanted


def test_changes_of_cpp_are_compiled_together(place: Path) -> None:
    """A program does the change that DRAWN names, or none, and marks its functions, also if it is killed."""
    text = b"int f(int n) {\n    return n + 1;\n}\nint main() {\n    return f(2);\n}\n"
    at, folder, current = text.index(b"+"), place / "recorded", place / "current"
    changes = {
        Change("x.cpp", 2, at, at + 1, new, Kind.BOUND): n for n, new in ((1, "-"), (2, "*"))
    }
    file, program = place / "x.cpp", place / "x"
    file.write_bytes(together(str(file), text, 0, changes))
    subprocess.run(["g++", "-Wall", "-Werror", "-o", program, file], check=True, timeout=120)
    folder.mkdir()
    prepare(folder, [])
    (folder / "files").write_text("0 x.cpp\n")
    (folder / "size").write_text("9")
    own = {FOLDER: str(folder), CURRENT: str(current)}
    for number, wanted in (("0", 3), ("1", 1), ("2", 2)):
        current.write_text(marks_name(number))
        words = os.environ | own | {"DRAWN": number}
        assert subprocess.run([program], env=words, timeout=60, check=False).returncode == wanted
        marks = (folder / "marks" / marks_name(number)).read_bytes()
        assert [line for line, mark in enumerate(marks) if mark] == [1, 4]


def test_a_change_that_is_no_program_is_the_compilers() -> None:
    """Its lines have its number. What is said of a line of the file itself may be any change's of that function."""
    said = "drawn-7:3:5: error: 'x'\n/tree/gateway/src/a.cpp:12:1: error: no return\n"
    assert NAMED.findall(said) == ["7"]
    assert ANY.findall(said) == [("/tree/gateway/src/a.cpp", "12")]


def test_lines_of_python_are_recorded_test_by_test(place: Path) -> None:
    """Also of a program that is killed; and what a shared fixture passes through is passed through by each test that takes it."""
    source, folder, current = place / "x.py", place / "recorded", place / "current"
    source.write_text(
        "def f(n):\n    if n > 1:\n        return (1,\n            2)\n    return 3\n"
    )
    folder.mkdir()
    prepare(folder, [str(source)])
    told = {"a::one": ["a::one"], "a::two": ["a::two"], "a::three": ["a::three", "shared"]}
    (folder / "tests-1.json").write_text(json.dumps(told))
    path = "%s:%s" % (RECORDING, place)
    for who, number in (("a::one", 1), ("a::two", 2), ("shared", 2)):
        current.write_text(marks_name(who))
        program = "import x, os; x.f(%d); os.kill(os.getpid(), 9)" % number
        own = os.environ | {"PYTHONPATH": path, FOLDER: str(folder), CURRENT: str(current)}
        done = subprocess.run([sys.executable, "-c", program], env=own, timeout=60, check=False)
        assert done.returncode == -9
    found = python_lines(folder, [str(source)])[str(source)]
    assert found[1] == found[2] == set(told)
    assert found[3] == found[4] == {"a::two", "a::three"} and found[5] == {"a::one"}


def test_what_the_tree_remembers_of_a_recording(place: Path) -> None:
    """Of each function its fastest tests, and those that pass through most of it; in a file that moved, too."""
    text = "a = 1\nclass B:\n    def c(self):\n        d()\n        e()\n"
    assert functions("x.py", text.encode()) == {4: "B.c", 5: "B.c"}
    (place / "x.py").write_text(text)
    few = {"t.py::test_%d" % number for number in range(9)}
    slow = "t.py::test_slow"
    seconds = {test: float(test[-1]) for test in few} | {slow: 60.0}
    own = summed(Passes({"x.py": {1: {slow}, 4: {*few, slow}, 5: {slow}}}, seconds), place)["x.py"]
    assert own["-"] == [slow] and len(own["B.c"]) == MOST
    assert own["B.c"][0] == "t.py::test_0" and own["B.c"][-1] == slow
    (place / "x.py").write_text("\n\n" + text)
    (place / "t.py").write_text("def test_0() -> None:\n")
    known = Remembered([("t.py::test_0[a]", 1.0), (slow, 60.0)], {"x.py": {"B.c": [0, 1]}})
    assert known.through(place, "x.py", 7) == ["t.py::test_0[a]"]
    assert known.through(place, "x.py", 1) == []


def test_what_is_remembered_is_of_files_and_tests_that_are_there() -> None:
    """It gets old: the program writes it anew with --record --remember."""
    for part in PARTS:
        known = read_remembered(part.name)
        names = {name.partition("[")[0] for name, _ in known.tests}
        there = [name for name in names if is_there(ROOT, name)]
        assert len(there) * 2 >= len(names), "%s: write it anew" % part.name
        assert known.files.keys() <= set(part.paths()), part.name


def test_what_another_compiler_needs_is_not_told_to_clang() -> None:
    words = ["-O2", "-Werror", "-include", "pch.hxx", "-Isrc", "-o", "x.o", "-c", "x.cpp"]
    assert words_for_clang(words, "x.cpp") == ["-O2", "-Isrc"]


@dataclass(frozen=True)
class Worded(Trial):
    """Each test does what its name says, `anyway` without a change too."""

    def first_failed(
        self, names: list[str], limit: float, anyway: Iterable[str] = ()
    ) -> str | None:
        is_changed = (self.tree.folder / "VERSION").read_bytes() != (ROOT / "VERSION").read_bytes()
        for name in [one for one in names if one not in anyway]:
            if is_changed or "anyway" in name:
                if "hangs" in name:
                    raise subprocess.TimeoutExpired(name, limit)
                if "fails" in name:
                    return name
        return None


VERDICTS = [
    (["passes"], Verdict.PASSED, "1 tests"),
    (["passes", "fails"], Verdict.REFUSED, "fails"),
    (["fails anyway", "passes"], Verdict.PASSED, "2 tests"),
    (["fails anyway", "fails too anyway", "fails"], Verdict.REFUSED, "fails"),
    (["hangs"], Verdict.HANGS, "hangs"),
    (["hangs anyway"], Verdict.OUT_OF_TIME, "hangs anyway"),
]


@pytest.mark.parametrize("names, verdict, by", VERDICTS, ids=[" ".join(one[0]) for one in VERDICTS])
def test_what_a_test_says_of_a_change(
    place: Path, names: list[str], verdict: Verdict, by: str
) -> None:
    """One that fails or hangs without the change refuses nothing, and the tree is as it was."""
    was = (ROOT / "VERSION").read_bytes()
    (place / "VERSION").write_bytes(was)
    seconds = {name: float(at) for at, name in enumerate(names)}
    passes, tree = Passes({"VERSION": {1: set(names)}}, seconds), Nursery(place, (), None)
    trial = Worded(PARTS[0], tree, passes, Remembered(), 900.0, None, ())
    tried = trial.tried(Change("VERSION", 1, 0, 1, "9.", Kind.BOUND))
    assert (tried.verdict, tried.by) == (verdict, by)
    assert (place / "VERSION").read_bytes() == was


def test_a_test_that_is_gone_keeps_no_other_from_running(place: Path) -> None:
    """Its parameter has another name by now; pytest would run none of them."""
    (place / "pyproject.toml").write_text("[tool.pytest.ini_options]\n")
    (place / "conftest.py").write_text(
        "def pytest_addoption(parser):\n    parser.addoption('--venue')\n"
    )
    words = (
        "import pytest\n@pytest.mark.parametrize('n', [1, 2])\ndef test_n(n):\n    assert n < 2\n"
    )
    (place / "test_x.py").write_text(words)
    trial = Trial(PARTS[0], Nursery(place, (), None), Passes(), Remembered(), 900.0, None, ())
    gone, passes, fails = ("test_x.py::test_n[%d]" % number for number in (3, 1, 2))
    assert trial.first_failed([gone, passes, fails], 60.0) == fails
    assert trial.first_failed([gone, passes], 60.0) is None
    assert trial.first_failed([gone], 60.0) is None


def test_a_hang_is_counted_apart() -> None:
    change = Change("VERSION", 1, 0, 1, "9.", Kind.BOUND)
    rows = list(table([Tried("audit", change, "", one, "", 0.0) for one in Verdict]))
    assert rows[1].split() == ["audit", "6", "1", "1", "1", "3"]
