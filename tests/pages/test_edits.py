"""The wrong bodies (tests/edits): each is read as it is written, fits its file, and takes away nothing
that a proof file cites."""

import os
from pathlib import Path

import pytest

from tests.edits import together, trial
from tests.edits.cited import ROOT, Misfit, findings, functions_of, gone_of, made_of
from tests.harness.kit import Libraries, named_in
from tests.edits.together import twins_of
from tests.edits.wrong_bodies import Change, Unreadable, WrongBody, bodies_of, put, read

CODE = """/// The sum of two lists.
fn both(one: &[u8], other: &[u8]) -> usize {
    let first = sum(one);
    let second = sum(other);
    first + second
}
"""
ANSWER = """use Rattle.sums.proofs.both.Goals as goal

-- c.other says nothing here
pub returns : goal.returns
returns c = c.sum-first.ensures ∙ c.sum-2.ensures ∙ c.args.one.now.third
"""


@pytest.fixture
def crate(tmp_path: Path) -> Path:
    (tmp_path / "src").mkdir()
    (tmp_path / "src" / "lib.rt").write_text(CODE, encoding="utf-8")
    proofs = tmp_path / "proofs" / "both"
    proofs.mkdir(parents=True)
    (proofs / "Answers.antt").write_text(ANSWER, encoding="utf-8")
    return tmp_path


def body_of(old: str, new: str) -> WrongBody:
    """A wrong body of that crate."""
    return WrongBody("sums", "both-wrong", changes=[Change("src/lib.rt", old, new)])


@pytest.mark.parametrize(
    ("old", "new", "gone"),
    [
        ("    let second = sum(other);", "    let second = sum(one);", set()),
        ("    first + second", "    second", set()),
        ("    let second = sum(other);", "    let second = one.len();", {"sum-2"}),
        ("    let first = sum(one);", "    let first = 1; // sum(one)", {"sum-first", "sum-2"}),
    ],
    ids=["argument", "variable", "second", "first"],
)
def test_what_is_taken_away(crate: Path, old: str, new: str, gone: set[str]) -> None:
    body = body_of(old, new)
    functions = functions_of(crate, body, "src/lib.rt", CODE)
    assert [function.name for function in functions] == ["both"]
    assert gone_of(crate, body, functions[0], CODE) == gone


def test_misfit(crate: Path) -> None:
    with pytest.raises(Misfit):
        made_of(crate, body_of("    let third = sum(one);", "    let third = 3;"))


def test_edits() -> None:
    looked, found = findings([])
    print("%d passed" % (looked - len(found)))
    assert not found, "\n".join(str(each) for each in found)
    assert looked > 0


def test_edits_of_tests() -> None:
    bodies = [body for body in bodies_of([]) if body.test]
    for body in bodies:
        assert made_of(ROOT / "crates" / body.crate, body)
        assert body.finds and not body.is_gate
    assert bodies


def test_gate_tries_them_together() -> None:
    bodies = [body for body in bodies_of([]) if body.is_gate]
    for body in bodies:
        assert twins_of(ROOT / "crates" / body.crate, [body]), f"{body} can't stand beside"
    assert bodies


WRITTEN = """[both-one_twice]
gate
file: src/lib.rt
old:     let second = sum(other);
new:     let second = sum(one);
file: specs/Sums.antt
old: both one other
new: both one one

[both-silent]
test: sums_are_told
finds: nothing is told
file: src/lib.rt
old:     first + second
new:
"""


def test_reading(tmp_path: Path) -> None:
    path = tmp_path / "sums.edits"
    path.write_text(WRITTEN, encoding="utf-8")
    twice, silent = read(path)
    assert (twice.name, twice.is_gate, twice.test) == ("both-one_twice", True, "")
    assert [change.file for change in twice.changes] == ["src/lib.rt", "specs/Sums.antt"]
    assert silent.changes == [Change("src/lib.rt", "    first + second", "")]
    assert (silent.is_gate, silent.test, silent.finds) == (
        False,
        "sums_are_told",
        "nothing is told",
    )


def test_files_of_the_kit(tmp_path: Path) -> None:
    path = tmp_path / "sums.edits"
    path.write_text(WRITTEN, encoding="utf-8")
    (tmp_path / "sums").mkdir()
    put(read(path), tmp_path)
    blocks = WRITTEN.split("\n\n")
    for name, block in zip(("both-one_twice", "both-silent"), blocks):
        text = (tmp_path / "sums" / "must-fail" / f"{name}.edit").read_text(encoding="utf-8")
        said = [line.rstrip() for line in text.splitlines()]
        assert said == [line for line in block.splitlines() if line[:4] in ("file", "old:", "new:")]


@pytest.mark.parametrize(
    ("old", "new", "why"),
    [
        ("[both-silent]", "[both]", "sums.edits:10: .*no wrong body has such"),
        ("[both-silent]", "[both-more]", "sums.edits:10: both-more stands behind"),
        ("[both-silent]", "[both-one_twice]", "sums.edits:10: both-one_twice stands behind"),
        ("gate\n", "gates\n", "sums.edits:2: .*no wrong body has such a line: gates"),
        ("new: both one one\n", "", "sums.edits:9: each old: has its new:"),
        ("old: both one other\n", "", "sums.edits:7: each old: has its new:"),
        (
            "finds: nothing is told\n",
            "finds:\n",
            "sums.edits:12: .*no wrong body has such a line: finds",
        ),
        ("[both-one_twice]\n", "", "sums.edits:1: a wrong body begins"),
        ("old:     first + second\nnew:\n", "", "sums.edits:14: sums/both-silent is not whole"),
    ],
)
def test_what_can_not_be_read(tmp_path: Path, old: str, new: str, why: str) -> None:
    path = tmp_path / "sums.edits"
    path.write_text(WRITTEN.replace(old, new, 1), encoding="utf-8")
    with pytest.raises(Unreadable, match=why):
        read(path)


@pytest.mark.parametrize(
    ("right", "wrong", "verdict"),
    [
        ("proved", "not proved", "refused"),
        ("proved, may wait", "not proved", "refused"),
        ("proved", "proved", "PROVED"),
        ("proved", "proved, may wait", "PROVED"),
        ("proved", "killed", "not tried: killed"),
        ("not proved", "not proved", "not tried: of the right body it says not proved"),
    ],
)
def test_what_a_check_says(crate: Path, right: str, wrong: str, verdict: str) -> None:
    body = body_of("    let second = sum(other);", "    let second = sum(one);")
    (twin,) = twins_of(crate, [body]).values()
    lines = [f"fn sums::both_w0: {right}", f"fn sums::both_w1: {wrong}"]
    assert together.verdict_of(lines, twin) == verdict


@pytest.mark.parametrize(
    ("error", "verdict"),
    [
        ("c.sum-2 has no field ensures", "no goal refuses it"),
        ("type mismatch", "refused"),
    ],
)
def test_what_no_goal_refuses(crate: Path, error: str, verdict: str) -> None:
    body = body_of("    let second = sum(other);", "    let second = sum(one);")
    (twin,) = twins_of(crate, [body]).values()
    told = f"proofs/both_w1/Answers.antt:4:1: error: {error}"
    lines = [told, "fn sums::both_w0: proved", "fn sums::both_w1: not proved"]
    assert together.verdict_of(lines, twin) == verdict


def test_right_and_wrong_stand_beside(crate: Path) -> None:
    body = body_of("    let second = sum(other);", "    let second = sum(one);")
    (twin,) = twins_of(crate, [body]).values()
    together.put_twins(crate, [twin.right(), twin])
    text = (crate / "src" / "lib.rt").read_text(encoding="utf-8")
    right = CODE.replace("fn both", "fn both_w0")
    wrong = CODE.replace("fn both", "fn both_w1").replace("sum(other)", "sum(one)")
    assert text.startswith(CODE) and right in text and wrong in text
    assert text.count("fn both") == 3
    for name in ("both_w0", "both_w1"):
        answer = (crate / "proofs" / name / "Answers.antt").read_text(encoding="utf-8")
        assert answer == ANSWER.replace("proofs.both", f"proofs.{name}")


@pytest.mark.parametrize(
    ("told", "verdict"),
    [
        ("refused, as it must be: note: src/lib.rt:4:1: it is not proved", "refused"),
        (
            "refused, as it must be (only because a proof file names what ..): x",
            "no goal refuses it",
        ),
        (
            "refused, as it must be: proofs/both/A.antt: no occurrence of the path",
            "no goal refuses it",
        ),
        (
            "NOT REFUSED: the crate is still proved with this edit",
            "NOT REFUSED: the crate is still",
        ),
        ("BAD EDIT: the old text stands twice", "BAD EDIT"),
    ],
)
def test_what_must_fail_says(told: str, verdict: str) -> None:
    lines = ["rt: trying", f"rt: must-fail sums/both-wrong.edit: {told}"]
    assert list(trial.of_each(lines)) == ["sums/both-wrong"]
    assert trial.verdict_of(trial.of_each(lines)["sums/both-wrong"]).startswith(verdict)


SUMS = """# crates, lowest first
bytes: itoa
lists: bytes
sums: lists arrayvec
sums_c staticlib: sums
"""


@pytest.fixture
def libraries(tmp_path: Path) -> Libraries:
    """Three crates that are built, and a compiler that says what it is asked."""
    for name in ("bytes", "lists", "sums"):
        (tmp_path / "crates" / name / "src").mkdir(parents=True)
        (tmp_path / "crates" / name / "src" / "lib.rt").write_text("")
        (tmp_path / "crates" / name / "out" / "rlib").mkdir(parents=True)
    rattle = tmp_path / "kit" / "bin" / "rattle"
    rattle.parent.mkdir(parents=True)
    rattle.write_text('#!/bin/sh\nprintf "%s\\n" "$@"\n')
    rattle.chmod(0o755)
    return Libraries(tmp_path, tmp_path / "kit", named_in(SUMS))


def test_a_check_takes_what_is_built(libraries: Libraries) -> None:
    asked = libraries.check("sums", libraries.place, ["--only", "both_w1"])
    of = libraries.place / "crates"
    assert f"std={libraries.kit}/rlibs/std.rlib" in asked
    assert f"arrayvec={libraries.kit}/rlibs/arrayvec.rlib" in asked
    assert f"lists={of}/lists/out/rlib/lists.rlib" in asked
    for folder in (libraries.kit / "rlibs", of / "bytes/out/rlib", of / "lists/out/rlib"):
        assert f"dependency={folder}" in asked
    assert not [word for word in asked if word.startswith(("bytes=", "itoa=", "sums="))]
    assert asked[-3:] == ["--only", "both_w1", ""]


def test_what_was_built_before_is_not_taken(libraries: Libraries) -> None:
    assert libraries.are_since("sums", 0.0) and libraries.are_since("bytes", 2e10)
    os.utime(libraries.folder("bytes"), (1000, 1000))
    assert not libraries.are_since("sums", 1001.0) and libraries.are_since("sums", 999.0)
    libraries.folder("lists").rmdir()
    assert not libraries.are_since("sums", 0.0)


class SaysProved(together.Checker):
    """A checker that says of every body that it is proved."""

    def __init__(self) -> None:
        self.place = ROOT

    def check(self, name: str, twins: list[together.Twin]) -> list[str]:
        return [f"fn {name}::{twin.asked}: proved" for twin in twins]


def test_the_gate_fails_on_what_is_proved(capsys: pytest.CaptureFixture[str]) -> None:
    bodies = [body for body in bodies_of(["quote_word"]) if body.is_gate]
    tried = trial.Trial(SaysProved())
    assert tried.together("quote_word", bodies) == bodies
    assert set(tried.said.values()) == {"PROVED"} and len(tried.said) == len(bodies)
    assert capsys.readouterr().out.count(": PROVED") == len(bodies)


def test_what_can_not_stand_beside_is_not_refused() -> None:
    walk = "specs/DutyWalk.antt"
    bodies = [body for body in bodies_of(["laws_days"]) if body.changes[0].file == walk]
    tried = trial.Trial(SaysProved())
    assert bodies and tried.together("laws_days", bodies) == bodies
    assert set(tried.said.values()) == {trial.NOT_BESIDE}


@pytest.mark.parametrize(
    ("lines", "verdict"),
    [
        (["fn sums::both: proved", "logic=proved functions=1", ""], "PROVED"),
        (["proofs/both/A.antt:1:1: error: mismatch", "logic=not-proved", ""], "refused"),
        (["note: src/lib.rt:4:1: it is not proved", "logic=not-proved"], "refused"),
        (
            ["proofs/A.antt:1:1: error: c.sum has no field x", "logic=not-proved"],
            "no goal refuses it",
        ),
        (["error[type]: no", ""], "not tried: error[type]: no"),
    ],
)
def test_what_a_whole_check_says(lines: list[str], verdict: str) -> None:
    assert together.verdict_of_whole(lines) == verdict


def test_a_body_in_its_place(libraries: Libraries) -> None:
    source = libraries.place / "crates" / "sums" / "src" / "lib.rt"
    source.write_text(CODE, encoding="utf-8")
    rattle = libraries.kit / "bin" / "rattle"
    rattle.write_text("#!/bin/sh\ncat src/lib.rt\n")
    checker = SaysProved()
    checker.place, checker.libraries, checker.since = libraries.place, libraries, 0.0
    body = body_of("    let second = sum(other);", "    let second = sum(one);")
    assert checker.is_built("sums")
    assert checker.check_with(body) == CODE.replace("sum(other)", "sum(one)").split("\n")
    assert source.read_text(encoding="utf-8") == CODE
